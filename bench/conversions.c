/* Carries a recording between the editions, each call once: what bench/conversions counts. The file has as many records as are asked for in each of its five
 * sections that are not fixed. A call that is lent no room judges the file and is refused by 14, which comes last; what it executes is the judging. */
#include "coarse.h"
#include <stdio.h>
#include <stdlib.h>

enum { VIEWPORT = 5, MORE = 2 };

static uint32_t *end;

static void put(uint32_t word) { *end++ = word; }

/* A file of edition one: paints, segments one below the other, a draw of each, layers without a clip, a node of each draw with its layer. */
static void write_file(uint32_t records) {
    const uint32_t viewport[VIEWPORT] = {1, 0, 0, 1024, 768};
    uint32_t i, k;
    for (i = 0; i < VIEWPORT; i++)
        put(viewport[i]);
    for (put(records), i = 0; i < records; i++)
        put(1), put(i), put(0), put(0);
    for (put(records), i = 0; i < records; i++)
        put(0), put(i), put(0), put(64), put(0);
    for (put(records), i = 0; i < records; i++)
        put(0), put(i), put(i + 1), put(i), put(0), put(3), put(0);
    for (put(records), i = 0; i < records; i++) {
        put(0), put(0), put(0), put(0), put(3), put(0x3f800000);
        for (k = 6; k < 22; k++)
            put(0);
    }
    for (put(records), i = 0; i < records; i++)
        put(i), put(i + 1), put(i + 1);
    put(1), put(0), put(records);
}

__attribute__((noinline)) uint32_t to_two(const uint32_t *file, size_t words, uint32_t *out, size_t room, size_t *length) {
    return coarse_to_edition_two(file, words, COARSE_EXACT, out, room, length);
}

__attribute__((noinline)) uint32_t to_two_judged(const uint32_t *file, size_t words, uint32_t *out, size_t *length) {
    return coarse_to_edition_two(file, words, COARSE_EXACT, out, 0, length);
}

__attribute__((noinline)) uint32_t to_one(const uint32_t *file, size_t words, uint32_t *out, size_t room, size_t *length) {
    return coarse_to_edition_one(file, words, COARSE_EXACT, out, room, length);
}

__attribute__((noinline)) uint32_t to_one_judged(const uint32_t *file, size_t words, uint32_t *out, size_t *length) {
    return coarse_to_edition_one(file, words, COARSE_EXACT, out, 0, length);
}

static void must(uint32_t want, uint32_t answer) {
    if (answer != want) {
        fprintf(stderr, "conversions: %s\n", coarse_answer_text(answer));
        exit(1);
    }
}

int main(int count, char **words) {
    uint32_t records = count > 1 ? (uint32_t)strtoul(words[1], NULL, 10) : 4096;
    size_t room = 64 + (size_t)records * 43, length, back, i;
    uint32_t *one = calloc(room, sizeof *one), *two = calloc(room, sizeof *two), *again = calloc(room, sizeof *again);
    if (!one || !two || !again)
        return 1;
    end = one;
    write_file(records);
    must(COARSE_NO_ROOM, to_two_judged(one, (size_t)(end - one), two, &length));
    must(COARSE_DONE, to_two(one, (size_t)(end - one), two, room, &length));
    must(COARSE_NO_ROOM, to_one_judged(two, length, again, &back));
    must(COARSE_DONE, to_one(two, length, again, room, &back));
    for (i = 0; i < back; i++)
        if (back != (size_t)(end - one) || again[i] != one[i])
            return 1;
    printf("%zu\n", length);
    return 0;
}
