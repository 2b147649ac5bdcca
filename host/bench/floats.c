/* floats.c - voxels in f32 to samples by plain loops, with document 02 (vii)'s tests in their order: what the proved converter is
 * measured against. Only lent buffers, no heap.  -O3. */
#include <stdint.h>
#include <stddef.h>

typedef struct { size_t number, place; } floats_answer;

static floats_answer refused(size_t number, size_t place)
{
    floats_answer a = {number, place};
    return a;
}

/* Whether v is a number within 65,536 of 0. */
static int grey(float v) { return v >= -65536.0f && v <= 65536.0f; }

floats_answer plain_convert(int halfway, float air, float material, uint32_t scale, const float *restrict v, size_t vn,
                            int16_t *restrict s, size_t sn)
{
    if (scale == 0 || scale > 256 || (scale & (scale - 1))) return refused(26, 0);
    if (!grey(air) || (halfway && !grey(material))) return refused(21, 0);
    for (size_t i = 0; i < vn; i++)
        if (!grey(v[i])) return refused(21, i);
    if (halfway && !(air < material)) return refused(22, 0);
    if (vn != sn) return refused(2, 0);
    const float level = halfway ? (air + material) / 2.0f : air, times = (float)scale;
    for (size_t i = 0; i < vn; i++) {
        const float d = level - v[i];
        int32_t steps = (int32_t)(d * times);
        if (steps > 32767) steps = 32767;
        if (steps < -32767) steps = -32767;
        if (d > 0.0f && steps < 1) steps = 1;
        s[i] = (int16_t)steps;
    }
    return refused(0, 0);
}
