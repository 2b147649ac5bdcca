/* malxuqeed.h: the proved mesher, writer, reader and checker of sheets, finder of pieces, writer and reader of binary STL, and
 * converter of volumes in f32, for C and C++.
 *
 * Each function is proved to be safe on every input, to end, and to give exactly the answer and the refusal that document 01
 * says, for STL document 02 (i), for pieces document 02 (v), for volumes in f32 document 02 (vii). Nothing is asked of a caller
 * but this:
 *
 *   - each pointer leads to as many elements as the length behind it says (0 elements need no place: any pointer will do);
 *   - NO SLICE OVERLAPS ANOTHER that the same call may write to (samples and bytes that are only read may be shared between
 *     calls, but not with a slice that this call writes);
 *   - all that a call is given stays as it is until the call returns. No call keeps a pointer, and calls share nothing: calls
 *     on slices of their own may run at the same time.
 *
 * Lent work room may hold anything on entry. After a success, and after 6, 7 (building), 17, 18, 19 and 20, its needed front is
 * all 0; after any other refusal it is as it was. No refusal writes to output, and nothing beyond what is written changes.
 * The library takes up to 170 KB of stack and no memory of its own. */
#ifndef MALXUQEED_H
#define MALXUQEED_H

#include <stdbool.h>
#include <stddef.h>
#include <stdint.h>

#ifdef __cplusplus
extern "C" {
#endif

/* Samples on each axis: 2 to 64, or the answer is MALXUQEED_AXIS. Sample (x, y, z) has number x + nx * (y + ny * z).
 * A sample of -32768 is the fill, which is no sample: a cube with such a corner is never visited. */
typedef struct { size_t nx, ny, nz; } malxuqeed_sizes;

/* A cube of the lattice, by its lowest corner: each coordinate is below its axis minus 1. */
typedef struct { size_t x, y, z; } malxuqeed_place;

/* Which cube a sheet starts at: 0, none is named, and it is the lowest crossed cube with none of its six faces in the lattice's
 * bounds; 1, the lowest crossed cube, which was the default before; any other number, the cube at the place beside it, which is
 * not looked at otherwise. */
#define MALXUQEED_FROM_DEFAULT 0
#define MALXUQEED_FROM_LOWEST 1
#define MALXUQEED_FROM_CUBE 2

/* How the positions of a sheet file were rounded: 0, down, as builds before document 02 (vi) rounded them; any other number, to
 * the nearest unit, as malxuqeed_build does. */
#define MALXUQEED_RULE_DOWN 0
#define MALXUQEED_RULE_NEAREST 1

/* The numbers of documents 01 and 02; malxuqeed_meaning says each in a sentence. */
typedef enum {
    MALXUQEED_OK = 0,
    MALXUQEED_AXIS = 1,
    MALXUQEED_SAMPLES = 2,
    MALXUQEED_WORK = 3,
    MALXUQEED_START = 4,
    MALXUQEED_NOT_CROSSED = 5,
    MALXUQEED_VERTEX_ROOM = 6,
    MALXUQEED_TRIANGLE_ROOM = 7,
    MALXUQEED_BYTES = 8,
    MALXUQEED_COUNT = 9,
    MALXUQEED_SHORT = 11,
    MALXUQEED_MARK = 12,
    MALXUQEED_LAYOUT = 14,
    MALXUQEED_INDEX = 15,
    MALXUQEED_SIZES = 16,
    MALXUQEED_VERTEX = 17,
    MALXUQEED_TRIANGLE = 18,
    MALXUQEED_ABSENT = 19,
    MALXUQEED_PIECES = 20,
    MALXUQEED_GREY = 21,
    MALXUQEED_ORDER = 22,
    MALXUQEED_COORDINATE = 25,
    MALXUQEED_SCALE = 26
} malxuqeed_number;

static inline const char *malxuqeed_meaning(size_t number)
{
    switch (number) {
    case MALXUQEED_OK: return "all is well";
    case MALXUQEED_AXIS: return "an axis has fewer than 2 or more than 64 samples";
    case MALXUQEED_SAMPLES: return "the volume does not hold exactly as many samples as its sizes ask for";
    case MALXUQEED_WORK: return "a lent work slice is too short";
    case MALXUQEED_START: return "the named start is not a cube of the lattice";
    case MALXUQEED_NOT_CROSSED:
        return "the surface does not pass through the named start cube, or that cube holds the fill; "
               "or no cube is named, and none is crossed, or only cubes at the bounds are";
    case MALXUQEED_VERTEX_ROOM: return "the sheet has more vertices than there is room for";
    case MALXUQEED_TRIANGLE_ROOM: return "the sheet has more triangles than there is room for";
    case MALXUQEED_BYTES: return "the lent bytes are too few for the file";
    case MALXUQEED_COUNT: return "a count is larger than what was given, or than a sheet file may hold";
    case MALXUQEED_SHORT: return "the sheet file is shorter than its 24-byte trailer";
    case MALXUQEED_MARK: return "the file does not end in the mark of a sheet file";
    case MALXUQEED_LAYOUT: return "the counts, distances and length of the sheet file do not fit together";
    case MALXUQEED_INDEX: return "a triangle of the sheet file names a vertex that is not there";
    case MALXUQEED_SIZES: return "the sheet file is of a lattice with other sizes than the volume";
    case MALXUQEED_VERTEX:
        return "a vertex of the sheet file is not on this surface, is at the wrong position, or comes twice";
    case MALXUQEED_TRIANGLE:
        return "a triangle of the sheet file is not on this surface, faces the wrong way, or comes twice";
    case MALXUQEED_ABSENT: return "a vertex or a triangle of this surface is missing from the sheet file";
    case MALXUQEED_PIECES: return "there are more pieces than the list has room for";
    case MALXUQEED_GREY: return "a grey or a voxel is not a number, or lies beyond 65,536 on either side of 0";
    case MALXUQEED_ORDER: return "the grey of air is not below that of material";
    case MALXUQEED_COORDINATE:
        return "a triangle has a coordinate outside 0 to 4,128,768, or a facet a float that no such coordinate gives";
    case MALXUQEED_SCALE: return "the scale is not a power of two from 1 to 256";
    default: return "a number that no document names";
    }
}

/* The same where an STL file is written or read. */
static inline const char *malxuqeed_stl_meaning(size_t number)
{
    switch (number) {
    case MALXUQEED_TRIANGLE_ROOM: return "the STL file has more facets than there is room for";
    case MALXUQEED_COUNT: return "a count is larger than what was given, or than a sheet may have";
    case MALXUQEED_LAYOUT: return "the length of the STL file is not what its facet count asks for";
    default: return malxuqeed_meaning(number);
    }
}

/* The same where the pieces are sought. */
static inline const char *malxuqeed_pieces_meaning(size_t number)
{
    switch (number) {
    case MALXUQEED_NOT_CROSSED: return "there is no piece: the surface passes through no cube free of the fill";
    default: return malxuqeed_meaning(number);
    }
}

/* The same where a volume in f32 is converted. */
static inline const char *malxuqeed_convert_meaning(size_t number)
{
    switch (number) {
    case MALXUQEED_SAMPLES: return "there are not as many samples as voxels, or voxels as the sizes ask for";
    default: return malxuqeed_meaning(number);
    }
}

/* Sizes of room. Sizes that the library refuses need none. */
static inline bool malxuqeed_fits(malxuqeed_sizes s)
{
    return s.nx >= 2 && s.nx <= 64 && s.ny >= 2 && s.ny <= 64 && s.nz >= 2 && s.nz <= 64;
}
static inline size_t malxuqeed_samples(malxuqeed_sizes s) { return malxuqeed_fits(s) ? s.nx * s.ny * s.nz : 0; }
static inline size_t malxuqeed_cubes(malxuqeed_sizes s) { return malxuqeed_fits(s) ? (s.nx - 1) * (s.ny - 1) * (s.nz - 1) : 0; }
/* Work room, in elements: with as much, 3 cannot come. */
static inline size_t malxuqeed_words_room(malxuqeed_sizes s) { return malxuqeed_cubes(s); }
static inline size_t malxuqeed_waiting_room(malxuqeed_sizes s) { return malxuqeed_cubes(s); }
static inline size_t malxuqeed_slots_room(malxuqeed_sizes s) { return 7 * malxuqeed_samples(s); }
/* Output of the largest sheet that the sizes can have, in numbers: with as much, 6 and 7 cannot come. */
static inline size_t malxuqeed_vertices_room(malxuqeed_sizes s) { return 4 * 7 * malxuqeed_samples(s); }
static inline size_t malxuqeed_triangles_room(malxuqeed_sizes s) { return 3 * 12 * malxuqeed_cubes(s); }
/* The length of a sheet file. */
static inline size_t malxuqeed_file_bytes(size_t vertices, size_t triangles) { return 16 * vertices + 12 * triangles + 24; }
/* The length of a binary STL file: with as much, 8 cannot come. */
static inline size_t malxuqeed_stl_bytes(size_t triangles) { return 50 * triangles + 84; }
/* Numbers for the corners of an STL file of so many bytes: with as much, 7 cannot come. */
static inline size_t malxuqeed_corners_room(size_t bytes) { return bytes < 84 ? 0 : (bytes - 84) / 50 * 9; }

/* Answers. A number of 0 is success. */
typedef struct { size_t number, vertices, triangles, cubes; } malxuqeed_built;
typedef struct { size_t number, place, bytes; } malxuqeed_wrote;
typedef struct { size_t number, place, vertices, triangles; malxuqeed_sizes sizes; } malxuqeed_got;
typedef struct { size_t number, place; } malxuqeed_verdict;
typedef struct { size_t number, place, facets; } malxuqeed_loaded;
typedef struct { size_t number, pieces; } malxuqeed_found;

/* Builds the sheet through a start cube, which from and start tell (MALXUQEED_FROM_DEFAULT and so on). Vertices are records of
 * four numbers (edge, x, y, z; coordinates in 1/65536 of a sample step, rounded to the nearest), triangles three vertex numbers.
 * Tests 1 to 7. The counts are true at 0, 6 and 7, else 0. */
malxuqeed_built malxuqeed_build(malxuqeed_sizes sizes, uint32_t from, malxuqeed_place start, const int16_t *samples,
    size_t samples_len, int32_t *vertices, size_t vertices_len, uint32_t *triangles, size_t triangles_len, uint16_t *words,
    size_t words_len, uint32_t *waiting, size_t waiting_len, uint32_t *slots, size_t slots_len);

/* Writes a sheet file of so many vertices and triangles to the front of bytes. Tests 1, 9, 15, 8. Answers how many bytes. */
malxuqeed_wrote malxuqeed_write(malxuqeed_sizes sizes, size_t nv, size_t nt, const int32_t *vertices, size_t vertices_len,
    const uint32_t *triangles, size_t triangles_len, uint8_t *bytes, size_t bytes_len);

/* Reads a sheet file. Tests 11, 12, 1, 14, 15, 6, 7. */
malxuqeed_got malxuqeed_read(const uint8_t *bytes, size_t bytes_len, int32_t *vertices, size_t vertices_len,
    uint32_t *triangles, size_t triangles_len);

/* Checks a sheet file against its samples: 0 exactly when it holds the sheet from that start, rounded by that rule
 * (MALXUQEED_RULE_DOWN, MALXUQEED_RULE_NEAREST), in any order. Tests 1 to 5, then
 * 11, 12, 1, 14, 15, then 16 to 19. The place is that of the first wrong record or triangle at 15, 17 and 18, else 0. */
malxuqeed_verdict malxuqeed_check(malxuqeed_sizes sizes, uint32_t from, malxuqeed_place start, uint32_t rule,
    const int16_t *samples, size_t samples_len, const uint8_t *bytes, size_t bytes_len, uint16_t *words, size_t words_len, uint32_t *waiting,
    size_t waiting_len, uint32_t *slots, size_t slots_len);

/* Finds every piece: all that is reached from a crossed cube by steps through mixed faces, into cubes free of the fill. The list
 * gets the number of each piece's lowest cube, by rising number; cube (x, y, z) has number x + (nx-1) * (y + (ny-1) * z), and
 * is a start of that piece for malxuqeed_build. Tests 1, 2, 3, 5 where there is no piece, 20 where there are more than list_len
 * (the list is then as it was). The count is that of all pieces at 0 and 20, else 0. With list_len 0 and some piece the answer
 * is 20 with the count. No lattice has more pieces than cubes. */
malxuqeed_found malxuqeed_pieces(malxuqeed_sizes sizes, const int16_t *samples, size_t samples_len, uint32_t *list,
    size_t list_len, uint16_t *words, size_t words_len, uint32_t *waiting, size_t waiting_len, uint32_t *slots,
    size_t slots_len);

/* Writes the triangles of a sheet as a binary STL file to the front of bytes: 80 bytes of 0, the count (u32), then 50 bytes a
 * facet: a normal of 0, three corners of three f32, two bytes of 0. Floats are in sample steps, each exactly its coordinate
 * divided by 65,536. STL's axes are right-handed, so the second and third corner trade places; facets then face the air.
 * Tests 9, 15, 25, 8; the place is that of the first wrong triangle at 15 and 25, else 0. Answers how many bytes. A vertex that
 * no triangle names may lie anywhere. */
malxuqeed_wrote malxuqeed_stl_write(size_t nv, size_t nt, const int32_t *vertices, size_t vertices_len,
    const uint32_t *triangles, size_t triangles_len, uint8_t *bytes, size_t bytes_len);

/* Reads a binary STL file whose floats are those of coordinates 0 to 4,128,768: nine integers a facet, x, y, z of each corner
 * in 1/65536 of a sample step, in the sheet's corner order. Header, normals and attributes are not looked at. Tests 14, 25, 7;
 * the place is that of the first wrong facet at 25, else 0. Answers how many facets, 0 where it refuses. */
malxuqeed_loaded malxuqeed_stl_read(const uint8_t *bytes, size_t bytes_len, int32_t *corners, size_t corners_len);

/* Converts voxels in f32 to samples, one for each. The level is grey; where halfway is true it is halfway between grey, which is
 * then that of air, and material (their sum divided by two); else material is not looked at. A sample is level - voxel, rounded
 * as f32 does, times scale (1, 2, 4 .. 256), cut towards zero and held to -32767 .. 32767; where level - voxel is above 0 it is at
 * least 1. So a sample is above 0 exactly where its voxel is below the level. Tests 26, 21 for a grey, 21 for a voxel, 22, 2; the
 * place is that of the first wrong voxel at its 21, else 0. Floats are IEEE 754's; the rounding mode is to nearest, as it is by
 * default, and subnormal numbers are not flushed to 0. */
malxuqeed_verdict malxuqeed_convert(bool halfway, float grey, float material, uint32_t scale, const float *voxels,
    size_t voxels_len, int16_t *samples, size_t samples_len);

#ifdef __cplusplus
}
#endif

#endif
