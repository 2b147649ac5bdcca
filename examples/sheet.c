/* sheet VOLUME SHEET: builds the sheet of a volume file through its lowest crossed cube, writes it, and checks what it wrote.
 *
 *   cc sheet.c $(pkg-config --cflags --libs malxuqeed) -o sheet */
#include <malxuqeed.h>
#include <stdio.h>
#include <stdlib.h>

/* A whole file, and its length. */
static uint8_t *load(const char *name, size_t *length)
{
    FILE *file = fopen(name, "rb");
    uint8_t *bytes = malloc(1 << 20);
    if (!file || !bytes) { perror(name); exit(2); }
    *length = fread(bytes, 1, 1 << 20, file);
    fclose(file);
    return bytes;
}

static int refused(const char *what, size_t number)
{
    fprintf(stderr, "%s refused, %zu: %s\n", what, number, malxuqeed_meaning(number));
    return 1;
}

int main(int count, char **words)
{
    if (count != 3) { fprintf(stderr, "sheet VOLUME SHEET\n"); return 2; }
    size_t length;
    uint8_t *volume = load(words[1], &length);
    if (length < 6) return refused("building", MALXUQEED_AXIS);
    malxuqeed_sizes sizes = {volume[0] | volume[1] << 8, volume[2] | volume[3] << 8, volume[4] | volume[5] << 8};

    /* the samples, and room for the largest sheet that the sizes can have */
    size_t n = (length - 6) / 2, nw = malxuqeed_words_room(sizes), nl = malxuqeed_waiting_room(sizes);
    size_t ns = malxuqeed_slots_room(sizes), nv = malxuqeed_vertices_room(sizes), nt = malxuqeed_triangles_room(sizes);
    int16_t *samples = malloc(2 * n + 2);
    uint16_t *cube_words = malloc(2 * nw + 2);
    uint32_t *waiting = malloc(4 * nl + 4), *slots = malloc(4 * ns + 4), *triangles = malloc(4 * nt + 4);
    int32_t *vertices = malloc(4 * nv + 4);
    if (!samples || !cube_words || !waiting || !slots || !triangles || !vertices) return 2;
    for (size_t i = 0; i < n; i++) samples[i] = (int16_t)(volume[6 + 2 * i] | volume[7 + 2 * i] << 8);

    malxuqeed_place nowhere = {0, 0, 0};
    malxuqeed_built built = malxuqeed_build(
        sizes, MALXUQEED_FROM_LOWEST, nowhere, samples, n, vertices, nv, triangles, nt, cube_words, nw, waiting, nl, slots, ns);
    if (built.number != MALXUQEED_OK) return refused("building", built.number);

    size_t bytes_len = malxuqeed_file_bytes(built.vertices, built.triangles);
    uint8_t *bytes = malloc(bytes_len);
    if (!bytes) return 2;
    malxuqeed_wrote wrote =
        malxuqeed_write(sizes, built.vertices, built.triangles, vertices, nv, triangles, nt, bytes, bytes_len);
    if (wrote.number != MALXUQEED_OK) return refused("writing", wrote.number);
    FILE *file = fopen(words[2], "wb");
    if (!file || fwrite(bytes, 1, wrote.bytes, file) != wrote.bytes || fclose(file)) { perror(words[2]); return 2; }

    malxuqeed_verdict verdict =
        malxuqeed_check(sizes, MALXUQEED_FROM_LOWEST, nowhere, MALXUQEED_RULE_NEAREST, samples, n, bytes, wrote.bytes, cube_words,
            nw, waiting, nl, slots, ns);
    if (verdict.number != MALXUQEED_OK) return refused("checking", verdict.number);
    printf("%zu %zu %zu, %zu bytes, accepted\n", built.vertices, built.triangles, built.cubes, wrote.bytes);
    return 0;
}
