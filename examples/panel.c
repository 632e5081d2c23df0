/* A panel over a banner, drawn by two program modules: whose each piece of a row is, and what its tiles receive. */
#include "coarse_recorder.h"
#include <stdio.h>

static const char *const names[] = {"banner", "panel"};

/* The panel numbers of the two modules. */
enum { STATUS = 3, DIALOGS = 7 };

static void must(uint32_t answer) {
    if (answer != COARSE_DONE) {
        fprintf(stderr, "%s\n", coarse_answer_text(answer));
        exit(1);
    }
}

static const char *name_of(const coarse_bucketer *screen, const coarse_piece *piece) {
    return names[coarse_bucketer_paint_attrs(screen, piece->attribute).paint];
}

/* The names of what a tile receives, in the order of painting. */
static void tile(const coarse_bucketer *screen, const coarse_piece *pieces, size_t count, uint32_t number) {
    const char *between = "";
    printf("tile %u: ", number);
    for (size_t i = 0; i < count; i++)
        if (pieces[i].first <= number && number < pieces[i].end) {
            printf("%s%s", between, name_of(screen, &pieces[i]));
            between = ", then ";
        }
    printf("\n");
}

/* Whether a tile's list, which is had of the recording alone, is what the row painted there. All pieces are solid. */
static int is_painted(coarse_recorder *scene, const coarse_piece *pieces, size_t count, uint32_t number) {
    const uint32_t *file;
    size_t words, entries, same = 0;
    coarse_piece list[2];
    must(coarse_recorder_words(scene, COARSE_EDITION_TWO, &file, &words));
    must(coarse_list_tile(COARSE_EDITION_TWO, file, words, COARSE_EXACT, COARSE_128, 0, number, (uint32_t *)list, 2 * COARSE_PIECE, &entries));
    for (size_t i = 0; i < count; i++)
        if (pieces[i].first <= number && number < pieces[i].end) {
            const coarse_piece own = {pieces[i].tag, pieces[i].attribute, number, number + 1, 0, pieces[i].nesting, pieces[i].panel};
            if (same == entries || memcmp(&list[same++], &own, sizeof own) != 0)
                return 0;
        }
    return same == entries;
}

int main(void) {
    /* A screen of 512 x 4 pixels: one row of 128 tiles, in 4 depth buckets of 32. */
    coarse_bucketer screen;
    const coarse_rect viewport = {0, 0, 512, 4};
    must(coarse_bucketer_new(&screen, viewport, (coarse_setup){64, 64, COARSE_EXACT, COARSE_128}));

    /* Both are opaque. The banner has the whole row, the panel tiles 20 to 70: all of bucket 1, and a part of 0 and of 2. */
    const coarse_paint paints[] = {{1, 1, 0, 0}, {1, 2, 0, 0}};
    const coarse_segment segments[] = {{0, 0, 0, 128, 0}, {0, 0, 20, 70, 0}};
    const coarse_draw fills[] = {
        {.start = 0, .end = 1, .paint = 0, .blend = COARSE_DEFAULT_BLEND, .panel = STATUS},
        {.start = 1, .end = 2, .paint = 1, .blend = COARSE_DEFAULT_BLEND, .panel = DIALOGS},
    };
    size_t done;
    must(coarse_bucketer_generate_fills(&screen, paints, 2, segments, 2, fills, 2, &done));

    /* All rows are painted to their end by one call: here it is one. A piece says which module drew it. */
    const coarse_piece *pieces;
    size_t count;
    must(coarse_bucketer_begin_painting(&screen));
    must(coarse_bucketer_paint_rows(&screen, 0, 1, &count, &pieces));
    for (size_t i = 0; i < count; i++)
        printf("%s on tiles %u to %u, by module %u\n", name_of(&screen, &pieces[i]), pieces[i].first, pieces[i].end, pieces[i].panel);

    tile(&screen, pieces, count, 40);
    tile(&screen, pieces, count, 25);
    tile(&screen, pieces, count, 10);

    /* Of the banner nothing shows in bucket 1, which the panel has whole. */
    for (uint32_t bucket = 0; bucket < 4; bucket++) {
        int hidden;
        must(coarse_bucketer_is_hidden(&screen, 0, bucket, bucket + 1, coarse_bucketer_paint_attrs(&screen, 0).draw_id, &hidden));
        printf("bucket %u: the banner is %s\n", bucket, hidden ? "hidden" : "seen");
    }

    /* The same two draws, recorded: what a tile receives can be listed without a screen. */
    coarse_recorder scene;
    uint32_t place;
    coarse_recorder_new(&scene, viewport);
    must(coarse_recorder_segments(&scene, segments, 2, &place));
    for (size_t i = 0; i < 2; i++) {
        must(coarse_recorder_paint(&scene, &paints[i], &place));
        must(coarse_recorder_draw(&scene, &fills[i]));
    }
    for (uint32_t number = 10; number <= 40; number += 15)
        printf("the list of tile %u is %swhat was painted\n", number, is_painted(&scene, pieces, count, number) ? "" : "not ");
    coarse_recorder_free(&scene);
    coarse_bucketer_free(&screen);
    return 0;
}
