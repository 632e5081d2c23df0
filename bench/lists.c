/* A tile's list without rows beside the two passes: what bench/lists counts. A recording on standard input is listed at one tile, and bucketed and painted in
 * the tile's row, each once. The entries have to be as many as the row's pieces over the tile. */
#include "coarse_bucketer.h"
#include <stdio.h>

enum { MOST_WORDS = 1 << 18 };

static uint32_t file[MOST_WORDS], list[2 * COARSE_MOST_ATTRS * COARSE_PIECE];

static void must(uint32_t answer) {
    if (answer != COARSE_DONE) {
        fprintf(stderr, "lists: %s\n", coarse_answer_text(answer));
        exit(1);
    }
}

__attribute__((noinline)) size_t list_tile(size_t words, uint32_t row, uint32_t tile) {
    size_t entries = 0;
    must(coarse_list_tile(1, file, words, COARSE_EXACT, 128, row, tile, list, sizeof list / sizeof *list, &entries));
    return entries;
}

__attribute__((noinline)) void bucket(coarse_bucketer *b, size_t words) { must(coarse_bucketer_bucket_commands(b, 1, file, words)); }

__attribute__((noinline)) const coarse_piece *paint_row(coarse_bucketer *b, uint32_t row, size_t *count) {
    const coarse_piece *pieces;
    must(coarse_bucketer_begin_painting(b));
    must(coarse_bucketer_paint_row(b, row, &pieces, count));
    return pieces;
}

int main(int count, char **words) {
    size_t length = fread(file, sizeof *file, MOST_WORDS, stdin), entries, painted, over = 0, i;
    uint32_t row = count > 1 ? (uint32_t)strtoul(words[1], NULL, 10) : 0, tile = count > 2 ? (uint32_t)strtoul(words[2], NULL, 10) : 0;
    const coarse_rect blank = {0, 0, 4, 4};
    const coarse_setup setup = {1024, 1024, COARSE_EXACT, 128};
    coarse_bucketer b;
    const coarse_piece *pieces;
    must(coarse_bucketer_new(&b, blank, setup));
    bucket(&b, length);
    pieces = paint_row(&b, row, &painted);
    entries = list_tile(length, row, tile);
    for (i = 0; i < painted; i++)
        over += pieces[i].first <= tile && tile < pieces[i].end;
    if (entries != over)
        return 1;
    printf("%zu %zu %zu\n", length, entries, painted);
    coarse_bucketer_free(&b);
    return 0;
}
