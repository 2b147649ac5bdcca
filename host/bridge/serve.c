/* The proved library as a process: for a machine whose processor the library's code is not for, under an emulator.
 * It needs no C library. A request on standard input is nine numbers (the function, then its plain arguments), the
 * count of slices, the length of each in bytes, and their contents; all numbers are 64 bits wide. The answer on
 * standard output is eight numbers, the last of which is 1 if no byte beside a slice was written, and the slices. */

typedef __UINT8_TYPE__ u8;
typedef __UINT16_TYPE__ u16;
typedef __INT16_TYPE__ i16;
typedef __UINT32_TYPE__ u32;
typedef __INT32_TYPE__ i32;
typedef __UINT64_TYPE__ u64;
typedef __SIZE_TYPE__ usize;

typedef struct { usize nx, ny, nz; } sizes;
typedef struct { usize x, y, z; } place;
typedef struct { usize number, vertices, triangles, cubes; } built;
typedef struct { usize number, place, bytes; } wrote;
typedef struct { usize number, place, vertices, triangles; sizes sizes; } got;
typedef struct { usize number, place; } verdict;
typedef struct { usize number, place, facets; } loaded;
typedef struct { usize number, pieces; } found;

extern built malxuqeed_build(sizes, u32, place, const i16 *, usize, i32 *, usize, u32 *, usize, u16 *, usize, u32 *, usize, u32 *, usize);
extern wrote malxuqeed_write(sizes, usize, usize, const i32 *, usize, const u32 *, usize, u8 *, usize);
extern got malxuqeed_read(const u8 *, usize, i32 *, usize, u32 *, usize);
extern verdict malxuqeed_check(sizes, u32, place, u32, const i16 *, usize, const u8 *, usize, u16 *, usize, u32 *, usize, u32 *, usize);
extern wrote malxuqeed_stl_write(usize, usize, const i32 *, usize, const u32 *, usize, u8 *, usize);
extern loaded malxuqeed_stl_read(const u8 *, usize, i32 *, usize);
extern verdict malxuqeed_convert(_Bool, float, float, u32, const float *, usize, i16 *, usize);
extern found malxuqeed_pieces(sizes, const i16 *, usize, u32 *, usize, u16 *, usize, u32 *, usize, u32 *, usize);

/* What compiled code calls of a C library. */
void *memset(void *to, int value, usize n) { for (usize i = 0; i < n; i++) ((u8 *)to)[i] = (u8)value; return to; }
void *memcpy(void *to, const void *from, usize n) { for (usize i = 0; i < n; i++) ((u8 *)to)[i] = ((const u8 *)from)[i]; return to; }
void *memmove(void *to, const void *from, usize n)
{
    if (to < from) return memcpy(to, from, n);
    while (n--) ((u8 *)to)[n] = ((const u8 *)from)[n];
    return to;
}
int memcmp(const void *a, const void *b, usize n)
{
    for (usize i = 0; i < n; i++) if (((const u8 *)a)[i] != ((const u8 *)b)[i]) return ((const u8 *)a)[i] - ((const u8 *)b)[i];
    return 0;
}

int bcmp(const void *a, const void *b, usize n) { return memcmp(a, b, n); }

static long call(long number, long a, long b, long c, long d, long e, long f)
{
    long answer;
    register long r10 __asm__("r10") = d, r8 __asm__("r8") = e, r9 __asm__("r9") = f;
    __asm__ volatile("syscall" : "=a"(answer) : "a"(number), "D"(a), "S"(b), "d"(c), "r"(r10), "r"(r8), "r"(r9) : "rcx", "r11", "memory");
    return answer;
}

static void leave(int status) { for (;;) call(231, status, 0, 0, 0, 0, 0); }

static void get(void *to, usize n)
{
    for (u8 *at = to; n;) {
        long some = call(0, 0, (long)at, (long)n, 0, 0, 0);
        if (some <= 0) leave(some < 0);
        at += some; n -= (usize)some;
    }
}

static void put(const void *from, usize n)
{
    for (const u8 *at = from; n;) {
        long some = call(1, 1, (long)at, (long)n, 0, 0, 0);
        if (some <= 0) leave(1);
        at += some; n -= (usize)some;
    }
}

#define SLICES 6
#define GUARD 64
#define FILL 0xa5

/* One mapping holds guard, slice, guard, slice, .., guard; it grows as requests do. */
static u8 *room;
static usize room_size;
static u8 *slice[SLICES];
static u64 size[SLICES];

static usize rounded(usize n) { return (n + 15) / 16 * 16; }

static void lay_out(usize count)
{
    usize need = GUARD;
    for (usize i = 0; i < count; i++) need += rounded(size[i]) + GUARD;
    if (need > room_size) {
        long at = call(9, 0, (long)need, 3, 0x22, -1, 0);
        if (at < 0 && at > -4096) leave(1);
        if (room) call(11, (long)room, (long)room_size, 0, 0, 0, 0);
        room = (u8 *)at; room_size = need;
    }
    usize at = GUARD;
    for (usize i = 0; i < count; i++) { slice[i] = room + at; at += rounded(size[i]) + GUARD; }
}

/* Fills, or compares, what stands between the slices. */
static u64 guards(usize count, int compare)
{
    u8 *at = room;
    for (usize i = 0; i <= count; i++) {
        u8 *end = i < count ? slice[i] : at + GUARD;
        for (; at < end; at++) { if (!compare) *at = FILL; else if (*at != FILL) return 0; }
        if (i < count) at = slice[i] + size[i];
    }
    return 1;
}

#define S(i, type) (type *)slice[i], size[i] / sizeof(type)

static float float_of(u64 bits)
{
    union { u32 bits; float number; } own = {(u32)bits};
    return own.number;
}

static void serve(const u64 *asked, u64 *answer)
{
    const sizes z = {asked[1], asked[2], asked[3]};
    const place start = {asked[5], asked[6], asked[7]};
    switch (asked[0]) {
    case 0: {
        built r = malxuqeed_build(z, (u32)asked[4], start, S(0, i16), S(1, i32), S(2, u32), S(3, u16), S(4, u32), S(5, u32));
        answer[0] = r.number; answer[1] = r.vertices; answer[2] = r.triangles; answer[3] = r.cubes;
        break;
    }
    case 1: {
        wrote r = malxuqeed_write(z, asked[4], asked[5], S(0, i32), S(1, u32), S(2, u8));
        answer[0] = r.number; answer[1] = r.place; answer[2] = r.bytes;
        break;
    }
    case 2: {
        got r = malxuqeed_read(S(0, u8), S(1, i32), S(2, u32));
        answer[0] = r.number; answer[1] = r.place; answer[2] = r.vertices; answer[3] = r.triangles;
        answer[4] = r.sizes.nx; answer[5] = r.sizes.ny; answer[6] = r.sizes.nz;
        break;
    }
    case 3: {
        verdict r = malxuqeed_check(z, (u32)asked[4], start, (u32)asked[8], S(0, i16), S(1, u8), S(2, u16), S(3, u32), S(4, u32));
        answer[0] = r.number; answer[1] = r.place;
        break;
    }
    case 4: {
        wrote r = malxuqeed_stl_write(asked[1], asked[2], S(0, i32), S(1, u32), S(2, u8));
        answer[0] = r.number; answer[1] = r.place; answer[2] = r.bytes;
        break;
    }
    case 5: {
        loaded r = malxuqeed_stl_read(S(0, u8), S(1, i32));
        answer[0] = r.number; answer[1] = r.place; answer[2] = r.facets;
        break;
    }
    case 6: {
        verdict r = malxuqeed_convert(asked[1] != 0, float_of(asked[2]), float_of(asked[3]), (u32)asked[4], S(0, float), S(1, i16));
        answer[0] = r.number; answer[1] = r.place;
        break;
    }
    case 7: {
        found r = malxuqeed_pieces(z, S(0, i16), S(1, u32), S(2, u16), S(3, u32), S(4, u32));
        answer[0] = r.number; answer[1] = r.pieces;
        break;
    }
    default: leave(1);
    }
}

__attribute__((used)) static void run(void)
{
    for (;;) {
        u64 asked[9], count, answer[8] = {0};
        get(asked, sizeof asked);
        get(&count, sizeof count);
        if (count > SLICES) leave(1);
        get(size, count * sizeof *size);
        lay_out(count);
        for (usize i = 0; i < count; i++) get(slice[i], size[i]);
        guards(count, 0);
        serve(asked, answer);
        answer[7] = guards(count, 1);
        put(answer, sizeof answer);
        for (usize i = 0; i < count; i++) put(slice[i], size[i]);
    }
}

__asm__(".globl _start\n_start:\n\txor %ebp, %ebp\n\tand $-16, %rsp\n\tcall run\n");
