/* A recording counted, beside bucketing it alone: what bench/figures counts. A recording on standard input is bucketed, and counted as a list of one and of two,
 * each once, in the same tables. */
#include "coarse_bucketer.h"
#include <stdio.h>

enum { MOST_WORDS = 1 << 18 };

static uint32_t file[2 * MOST_WORDS];
static uint64_t table[COARSE_FIGURES * 3];

static void must(uint32_t answer) {
    if (answer != COARSE_DONE) {
        fprintf(stderr, "figures: %s\n", coarse_answer_text(answer));
        exit(1);
    }
}

__attribute__((noinline)) void bucket(coarse_bucketer *b, size_t words) {
    must(coarse_bucket_recording(&b->state, COARSE_EDITION_ONE, file, words, b->setup, &b->tables));
}

static void count(coarse_bucketer *b, const size_t *ends, size_t n) {
    must(coarse_figures(&b->state, COARSE_EDITION_ONE, file, ends[n - 1], ends, n, b->setup, &b->tables, table, COARSE_FIGURES * (n + 1)));
}

__attribute__((noinline)) void count_one(coarse_bucketer *b, const size_t *ends) { count(b, ends, 1); }

__attribute__((noinline)) void count_two(coarse_bucketer *b, const size_t *ends) { count(b, ends, 2); }

int main(void) {
    size_t length = fread(file, sizeof *file, MOST_WORDS, stdin), ends[] = {length, 2 * length}, i;
    const coarse_rect blank = {0, 0, 4, 4};
    const coarse_setup setup = {64, 64, COARSE_EXACT, COARSE_128};
    coarse_bucketer b;
    must(coarse_bucketer_new(&b, blank, setup));
    must(coarse_bucketer_bucket_commands(&b, COARSE_EDITION_ONE, file, length));
    memcpy(file + length, file, length * sizeof *file);
    bucket(&b, length);
    count_two(&b, ends);
    count_one(&b, ends);
    if (table[5] != 0 || table[0] != table[1] + table[2])
        return 1;
    printf("%zu", length);
    for (i = 0; i < COARSE_FIGURES - 1; i++)
        printf(" %u", (unsigned)table[i]);
    puts("");
    coarse_bucketer_free(&b);
    return 0;
}
