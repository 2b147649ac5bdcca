/* stl.c - binary STL by plain loops, with document 02 (i)'s tests in their order: what the proved writer and reader are
 * measured against. Only lent buffers, no heap.  -O3. Little-endian machines. */
#include <stdint.h>
#include <stddef.h>
#include <string.h>

enum { FARTHEST = 4128768, HEAD = 84, FACET = 50 };

typedef struct { size_t number, place, count; } stl_answer;

static stl_answer refused(size_t number, size_t place)
{
    stl_answer a = {number, place, 0};
    return a;
}

stl_answer plain_stl_write(size_t nv, size_t nt, const int32_t *restrict v, size_t vn, const uint32_t *restrict t, size_t tn,
                           uint8_t *restrict b, size_t bn)
{
    static const int order[3] = {0, 2, 1};
    if (nv > vn / 4 || nt > tn / 3 || nv > 2000000 || nt > 4000000) return refused(9, 0);
    for (size_t i = 0; i < nt; i++)
        if ((t[3 * i] >= nv) | (t[3 * i + 1] >= nv) | (t[3 * i + 2] >= nv)) return refused(15, i);
    for (size_t i = 0; i < nt; i++) {
        int bad = 0;
        for (int k = 0; k < 3; k++) {
            const int32_t *at = v + 4 * (size_t)t[3 * i + k] + 1;
            for (int axis = 0; axis < 3; axis++) bad |= (uint32_t)at[axis] > FARTHEST;
        }
        if (bad) return refused(25, i);
    }
    const size_t length = HEAD + FACET * nt;
    if (bn < length) return refused(8, 0);
    const uint32_t count = (uint32_t)nt;
    memset(b, 0, 80);
    memcpy(b + 80, &count, 4);
    uint8_t *to = b + HEAD;
    for (size_t i = 0; i < nt; i++) {
        memset(to, 0, 12);
        to += 12;
        for (int k = 0; k < 3; k++) {
            const int32_t *at = v + 4 * (size_t)t[3 * i + order[k]] + 1;
            for (int axis = 0; axis < 3; axis++, to += 4) {
                const float f = (float)at[axis] / 65536.0f;
                memcpy(to, &f, 4);
            }
        }
        memset(to, 0, 2);
        to += 2;
    }
    stl_answer a = {0, 0, length};
    return a;
}

static float units(const uint8_t *from)
{
    float f;
    memcpy(&f, from, 4);
    return f * 65536.0f;
}

/* Whether no coordinate gives a float. */
static int foreign(const uint8_t *from)
{
    const float u = units(from);
    return from[3] >> 7 || !(u <= (float)FARTHEST) || (float)(int32_t)u != u;
}

stl_answer plain_stl_read(const uint8_t *restrict b, size_t bn, int32_t *restrict c, size_t cn)
{
    static const int order[3] = {0, 2, 1};
    uint32_t count;
    if (bn < HEAD) return refused(14, 0);
    memcpy(&count, b + 80, 4);
    if (bn != HEAD + FACET * (size_t)count) return refused(14, 0);
    for (size_t i = 0; i < count; i++)
        for (int k = 0; k < 9; k++)
            if (foreign(b + HEAD + FACET * i + 12 + 4 * k)) return refused(25, i);
    if (cn < 9 * (size_t)count) return refused(7, 0);
    for (size_t i = 0; i < count; i++)
        for (int k = 0; k < 3; k++)
            for (int axis = 0; axis < 3; axis++)
                c[9 * i + 3 * k + axis] = (int32_t)units(b + HEAD + FACET * i + 12 + 12 * order[k] + 4 * axis);
    stl_answer a = {0, 0, count};
    return a;
}
