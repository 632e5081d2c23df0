/* Two scenes whose pieces are the same in every row, and whose pictures are not: what a buffer held when it ended is seen nowhere, unless a layer's fill composited
 * it. Each is painted into a small picture of tiles, a letter a tile, by steps: where the nesting rises a buffer is cleared, a piece of a paint goes into
 * the innermost buffer, and a piece of a layer composites that buffer into the one below it. */
#include "coarse_bucketer.h"
#include <stdio.h>

enum { TILES = 24, ROWS = 2, MOST_PIECES = 16 };

static const char *const names[] = {"red", "blue"};
static const coarse_paint paints[] = {{1, 1, 0, 0}, {1, 2, 0, 0}};

/* A clip's segment in row 0 alone, then red and blue in row 1. */
static const coarse_segment segments[] = {{0, 0, 0, TILES, 0}, {0, 1, 2, 8, 0}, {0, 1, 12, 18, 0}};
enum { CLIP, RED, BLUE, SEGMENTS };

static void must(uint32_t answer) {
    if (answer != COARSE_DONE) {
        fprintf(stderr, "%s\n", coarse_answer_text(answer));
        exit(1);
    }
}

static void fill(coarse_bucketer *screen, size_t segment, uint32_t paint) {
    const coarse_draw draw = {.start = segment, .end = segment + 1, .paint = paint, .blend = COARSE_DEFAULT_BLEND};
    must(coarse_bucketer_generate_fill(screen, paints, 2, segments, SEGMENTS, &draw));
}

/* Opens a layer, with a clip whose box is so many rows high, or with none where that is 0. */
static void push(coarse_bucketer *screen, uint32_t rows) {
    const coarse_clip clip = {{0, 0, 4 * TILES, 4 * rows}, CLIP, CLIP + 1, 0};
    const coarse_layer_props layer = {.blend = COARSE_DEFAULT_BLEND, .opacity = 0.5f, .clip = rows ? &clip : NULL};
    must(coarse_bucketer_push_layer(screen, &layer));
}

static void pop(coarse_bucketer *screen) { must(coarse_bucketer_pop_layer(screen, segments, SEGMENTS)); }

/* A layer whose clip takes red away, since its segments leave out row 1; then a layer that holds blue. */
static void one_after_the_other(coarse_bucketer *screen) {
    push(screen, ROWS), fill(screen, RED, 0), pop(screen);
    push(screen, 0), fill(screen, BLUE, 1), pop(screen);
}

/* One layer that holds red and blue, and between the two an empty layer in row 0. */
static void one_in_the_other(coarse_bucketer *screen) {
    push(screen, 0), fill(screen, RED, 0);
    push(screen, 1), pop(screen);
    fill(screen, BLUE, 1), pop(screen);
}

/* The commands of a row, as they are stored. */
static void commands(const coarse_bucketer *screen, size_t row) {
    coarse_row_counts stored;
    coarse_command cmd;
    size_t i;
    must(coarse_bucketer_row_lengths(screen, row, &stored));
    printf("  row %u is", (unsigned)row);
    for (i = 0; i < stored.render_cmds; i++) {
        must(coarse_bucketer_render_cmd(screen, row, i, &cmd));
        printf("%s %s", i ? "," : "", coarse_tag_text(cmd.tag));
        if (cmd.first < cmd.end)
            printf(" %u to %u", cmd.first, cmd.end);
    }
    printf("%s\n", stored.render_cmds ? "" : " empty");
}

/* A row painted into a row of letters; its pieces too, and how many. */
static size_t paint(coarse_bucketer *screen, size_t row, char *picture, coarse_piece *all) {
    char buffers[COARSE_MOST_LAYERS + 1][TILES];
    coarse_row_progress before, after;
    const coarse_piece *pieces;
    size_t count, i, found = 0;
    uint32_t tile;
    int finished = 0;
    memset(buffers[0], '.', TILES);
    while (!finished) {
        must(coarse_bucketer_progress(screen, row, &before));
        must(coarse_bucketer_paint_step(screen, row, &finished, &pieces, &count));
        must(coarse_bucketer_progress(screen, row, &after));
        if (after.nesting > before.nesting)
            memset(buffers[after.nesting], ' ', TILES);
        for (i = 0; i < count && found < MOST_PIECES; i++) {
            const coarse_piece *piece = &pieces[i];
            char *into = buffers[after.nesting];
            all[found++] = *piece;
            for (tile = piece->first; tile < piece->end; tile++)
                if (piece->tag == COARSE_PAINT_FILL || piece->tag == COARSE_PAINT_FILL_ALPHA)
                    into[tile] = names[coarse_bucketer_paint_attrs(screen, piece->attribute).paint][0];
                else if (into[tile] != ' ')
                    buffers[after.nesting - 1][tile] = into[tile];
        }
    }
    memcpy(picture, buffers[0], TILES);
    return found;
}

/* What a scene comes to. */
typedef struct {
    char picture[ROWS][TILES];
    coarse_piece pieces[ROWS][MOST_PIECES];
    size_t counts[ROWS];
} painted;

static void show(const char *what, void (*draw)(coarse_bucketer *), painted *into) {
    coarse_bucketer screen;
    size_t row;
    must(coarse_bucketer_new(&screen, (coarse_rect){0, 0, 4 * TILES, 4 * ROWS}, (coarse_setup){16, 16, COARSE_EXACT, COARSE_128}));
    draw(&screen);
    must(coarse_bucketer_begin_painting(&screen));
    printf("%s\n", what);
    memset(into, 0, sizeof *into);
    for (row = 0; row < ROWS; row++) {
        commands(&screen, row);
        into->counts[row] = paint(&screen, row, into->picture[row], into->pieces[row]);
    }
    for (row = 0; row < ROWS; row++)
        printf("  %.*s\n", TILES, into->picture[row]);
    coarse_bucketer_free(&screen);
}

int main(void) {
    painted first, second;
    show("a layer that holds red, clipped away in row 1, and then one that holds blue:", one_after_the_other, &first);
    show("one layer that holds red and blue, and an empty layer of row 0 between:", one_in_the_other, &second);
    printf("their pieces are %s, their pictures are %s\n",
           memcmp(first.counts, second.counts, sizeof first.counts) == 0 && memcmp(first.pieces, second.pieces, sizeof first.pieces) == 0 ? "the same" : "not the same",
           memcmp(first.picture, second.picture, sizeof first.picture) == 0 ? "the same" : "not the same");
    return 0;
}
