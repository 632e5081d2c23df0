/* Both scenes of buffers.c in colours: what a host composites of a row, in each of the two ways that there are, and plain draw order beside it.
 *   by steps      each painting step's pieces go into the innermost buffer; where the nesting rose after the step a buffer opens, where it fell one ends
 *   by commands   the row's depth fills and then its stored commands, each on the tiles where the depth words of the painted row let it be seen
 *   in order      what was drawn, call after call, on whole pictures: no stored commands, no depth, nothing hidden
 * All three have to give the same picture, whatever the colours are, as long as the two laws below hold of them. */
#include "coarse_bucketer.h"
#include <stdio.h>

enum { TILES = 24, ROWS = 2 };

/* A page over everything; a clip's segment in row 0 alone; then red and blue in row 1, blue with soft edges: its alphas begin at index 0. */
static const coarse_segment segments[] = {{0, 0, 0, TILES, 0}, {0, 1, 0, TILES, 0}, {0, 0, 0, TILES, 0}, {0, 1, 2, 8, 0}, {1, 1, 12, 18, 0}};
enum { PAGE, CLIP = 2, RED, BLUE, SEGMENTS };

/* Colours: a tile is one colour here, where a host has 16 pixels. */

/* Each from 0 to FULL, the first three multiplied by the alpha. */
typedef struct { uint32_t red, green, blue, alpha; } colour;
enum { FULL = 255 };

static const colour blank = {0, 0, 0, 0};
static const colour colours[] = {{FULL, FULL, FULL, FULL}, {FULL, 0, 0, FULL}, {0, 0, FULL, FULL}};
static const coarse_paint paints[] = {{1, 0, 0, 0}, {1, 1, 0, 0}, {1, 2, 0, 0}};
enum { WHITE_PAINT, RED_PAINT, BLUE_PAINT, PAINTS };

static uint32_t part(uint32_t n, uint32_t of_full) { return (n * of_full + FULL / 2) / FULL; }

static colour faded(colour c, uint32_t to) {
    const colour less = {part(c.red, to), part(c.green, to), part(c.blue, to), part(c.alpha, to)};
    return less;
}

static colour over(colour top, colour below) {
    const colour rest = faded(below, FULL - top.alpha);
    const colour sum = {top.red + rest.red, top.green + rest.green, top.blue + rest.blue, top.alpha + rest.alpha};
    return sum;
}

/* The first law: an opaque paint that covers the whole tile leaves the same, whatever was there. */
static colour filled(uint32_t paint, uint32_t cover, colour tile) { return over(faded(colours[paint], cover), tile); }

/* The second law: a blank buffer leaves the one below it as it was, where the layer's blend is not destructive. */
static colour closed(float opacity, uint32_t cover, colour top, colour below) {
    return over(faded(top, part((uint32_t)(FULL * opacity), cover)), below);
}

/* How much of a tile its 16 alphas cover; all of it where it has none. */
static uint32_t coverage(int has_alphas, uint32_t alpha) {
    static const uint32_t covered[] = {80, 160, FULL, FULL, 160, 80};
    return has_alphas ? covered[alpha / 16] : FULL;
}

/* Buffers as wide as a row, one over the other. The lowest is the row of the picture. */
typedef struct {
    uint32_t open;
    colour tiles[COARSE_MOST_LAYERS + 1][TILES];
} buffers;

static void open_buffer(buffers *b) {
    uint32_t tile;
    b->open++;
    for (tile = 0; tile < TILES; tile++)
        b->tiles[b->open][tile] = blank;
}

static void end_buffer(buffers *b) { b->open--; }

static void paint_tile(buffers *b, uint32_t tile, uint32_t paint, uint32_t cover) {
    b->tiles[b->open][tile] = filled(paint, cover, b->tiles[b->open][tile]);
}

static void composite_tile(buffers *b, uint32_t tile, float opacity, uint32_t cover) {
    colour *below = b->tiles[b->open - 1];
    below[tile] = closed(opacity, cover, b->tiles[b->open][tile], below[tile]);
}

static void must(uint32_t answer) {
    if (answer != COARSE_DONE) {
        fprintf(stderr, "%s\n", coarse_answer_text(answer));
        exit(1);
    }
}

/* What a host does */

static int is_layer(uint32_t tag) { return tag == COARSE_LAYER_FILL || tag == COARSE_LAYER_FILL_ALPHA; }
static int has_alphas(uint32_t tag) { return tag == COARSE_PAINT_FILL_ALPHA || tag == COARSE_LAYER_FILL_ALPHA; }

/* A fill on the tiles first to end, which are all of its own or some of them: the alphas of a tile are 16 after those of the tile before it. */
static void fill_tiles(const coarse_bucketer *screen, buffers *b, const coarse_command *fill, uint32_t first, uint32_t end) {
    uint32_t tile, cover;
    for (tile = first; tile < end; tile++) {
        cover = coverage(has_alphas(fill->tag), fill->alpha_idx + 16 * (tile - fill->first));
        if (is_layer(fill->tag))
            composite_tile(b, tile, coarse_bucketer_layer_attrs(screen, fill->attrs_idx).opacity, cover);
        else
            paint_tile(b, tile, coarse_bucketer_paint_attrs(screen, fill->attrs_idx).paint, cover);
    }
}

static void by_steps(coarse_bucketer *screen, size_t row, buffers *b) {
    coarse_row_progress now;
    const coarse_piece *pieces;
    size_t count, i;
    int finished = 0;
    while (!finished) {
        must(coarse_bucketer_paint_step(screen, row, &finished, &pieces, &count));
        for (i = 0; i < count; i++) {
            const coarse_command fill = {pieces[i].tag, pieces[i].first, pieces[i].end, pieces[i].alpha, pieces[i].attribute};
            fill_tiles(screen, b, &fill, fill.first, fill.end);
        }
        must(coarse_bucketer_progress(screen, row, &now));
        if (now.nesting > b->open)
            open_buffer(b);
        else if (now.nesting < b->open)
            end_buffer(b);
    }
}

/* A fill where no newer depth fill hides it: where the depth words are at most the id of its draw. */
static void fill_visible(coarse_bucketer *screen, size_t row, buffers *b, const coarse_command *fill) {
    const coarse_run *runs;
    size_t count, i;
    uint32_t id = is_layer(fill->tag) ? coarse_bucketer_layer_attrs(screen, fill->attrs_idx).draw_id
                                      : coarse_bucketer_paint_attrs(screen, fill->attrs_idx).draw_id;
    must(coarse_bucketer_visible_runs(screen, row, fill->first, fill->end, id, &runs, &count));
    for (i = 0; i < count; i++)
        fill_tiles(screen, b, fill, runs[i].first, runs[i].end);
}

/* Painting the row writes its depth words. Its pieces are left aside. Of a buffer no more than its PushBuf's span has to be cleared. */
static void by_commands(coarse_bucketer *screen, size_t row, buffers *b) {
    const uint32_t bucket = coarse_bucketer_bucket_width(screen) / 4;
    const coarse_piece *pieces;
    coarse_row_counts stored;
    size_t count, i;
    must(coarse_bucketer_paint_row(screen, row, &pieces, &count));
    must(coarse_bucketer_row_lengths(screen, row, &stored));
    for (i = 0; i < stored.depth_cmds; i++) {
        coarse_depth_fill depth;
        must(coarse_bucketer_depth_cmd(screen, row, i, &depth));
        const coarse_command fill = {COARSE_PAINT_FILL, bucket * depth.first, bucket * depth.end, 0, depth.attrs_idx};
        fill_visible(screen, row, b, &fill);
    }
    for (i = 0; i < stored.render_cmds; i++) {
        coarse_command cmd;
        must(coarse_bucketer_render_cmd(screen, row, i, &cmd));
        if (cmd.tag == COARSE_PUSH_BUF || cmd.tag == COARSE_PUSH_BUF_SPAN)
            open_buffer(b);
        else if (cmd.tag == COARSE_POP_BUF)
            end_buffer(b);
        else
            fill_visible(screen, row, b, &cmd);
    }
}

/* Two scenes, as the calls that draw them */

/* A fill of a segment with a paint; a layer opened, with a clip whose box is so many rows high or without one where that is 0; the innermost layer closed. */
typedef struct { enum { FILL, PUSH, POP } call; uint32_t segment, paint, rows; } step;

/* Blue under the page, where it is hidden. A layer whose clip takes red away, since its segments leave out row 1; then a layer that holds blue. */
static const step one_after_the_other[] = {
    {FILL, BLUE, BLUE_PAINT, 0}, {FILL, PAGE, WHITE_PAINT, 0}, {FILL, PAGE + 1, WHITE_PAINT, 0},
    {PUSH, 0, 0, ROWS}, {FILL, RED, RED_PAINT, 0}, {POP, 0, 0, 0},
    {PUSH, 0, 0, 0}, {FILL, BLUE, BLUE_PAINT, 0}, {POP, 0, 0, 0},
};

/* The same page. One layer that holds red and blue, and between the two an empty layer in row 0. */
static const step one_in_the_other[] = {
    {FILL, BLUE, BLUE_PAINT, 0}, {FILL, PAGE, WHITE_PAINT, 0}, {FILL, PAGE + 1, WHITE_PAINT, 0},
    {PUSH, 0, 0, 0}, {FILL, RED, RED_PAINT, 0},
    {PUSH, 0, 0, 1}, {POP, 0, 0, 0},
    {FILL, BLUE, BLUE_PAINT, 0}, {POP, 0, 0, 0},
};

enum { STEPS = sizeof one_in_the_other / sizeof *one_in_the_other };
static const float opacity = 0.5f;

static void draw(coarse_bucketer *screen, const step *steps) {
    size_t i;
    for (i = 0; i < STEPS; i++) {
        const step *now = &steps[i];
        const coarse_draw fill = {.start = now->segment, .end = now->segment + 1, .paint = now->paint, .blend = COARSE_DEFAULT_BLEND};
        const coarse_clip clip = {{0, 0, 4 * TILES, 4 * now->rows}, CLIP, CLIP + 1, 0};
        const coarse_layer_props layer = {.blend = COARSE_DEFAULT_BLEND, .opacity = opacity, .clip = now->rows ? &clip : NULL};
        if (now->call == FILL)
            must(coarse_bucketer_generate_fill(screen, paints, PAINTS, segments, SEGMENTS, &fill));
        else if (now->call == PUSH)
            must(coarse_bucketer_push_layer(screen, &layer));
        else
            must(coarse_bucketer_pop_layer(screen, segments, SEGMENTS));
    }
}

/* A row in plain draw order. What is drawn is cut to the innermost layer's box; all boxes here begin at the top and are as wide as the screen. A layer composites
 * over its clip's segments, or its box where it has no clip, and in the rows of its own box alone. */
static void in_order(const step *steps, uint32_t row, buffers *b) {
    uint32_t rows[COARSE_MOST_LAYERS + 1] = {ROWS}, has_clip[COARSE_MOST_LAYERS + 1] = {0}, tile;
    size_t i;
    for (i = 0; i < STEPS; i++) {
        const coarse_segment *s = &segments[steps[i].call == FILL ? steps[i].segment : CLIP];
        if (steps[i].call == FILL) {
            for (tile = s->first; tile < s->end && s->row == row && row < rows[b->open]; tile++)
                paint_tile(b, tile, steps[i].paint, coverage(s->kind == 1, s->alpha + 16 * (tile - s->first)));
        } else if (steps[i].call == PUSH) {
            const uint32_t around = rows[b->open];
            open_buffer(b);
            has_clip[b->open] = steps[i].rows > 0;
            rows[b->open] = has_clip[b->open] && steps[i].rows < around ? steps[i].rows : around;
        } else {
            for (tile = 0; tile < TILES && row < rows[b->open]; tile++)
                if (!has_clip[b->open] || (s->row == row && s->first <= tile && tile < s->end))
                    composite_tile(b, tile, opacity, FULL);
            end_buffer(b);
        }
    }
}

typedef struct { colour rows[ROWS][TILES]; } picture;

/* A row's colours, tile after tile, as runs. */
static void print_row(uint32_t row, const colour *tiles) {
    uint32_t tile, from = 0;
    printf("  row %u:", row);
    for (tile = 0; tile < TILES; tile++)
        if (tile + 1 == TILES || memcmp(&tiles[tile], &tiles[tile + 1], sizeof *tiles) != 0) {
            const colour c = tiles[tile];
            printf("%s %u to %u #%02x%02x%02x%02x", from ? "," : "", from, tile + 1, c.red, c.green, c.blue, c.alpha);
            from = tile + 1;
        }
    printf("\n");
}

/* The picture of a scene. Where the three ways differ the program ends. */
static picture composited(const char *what, const step *steps) {
    coarse_bucketer screen;
    picture seen;
    uint32_t row;
    must(coarse_bucketer_new(&screen, (coarse_rect){0, 0, 4 * TILES, 4 * ROWS}, (coarse_setup){16, 16, COARSE_EXACT, COARSE_64}));
    draw(&screen, steps);
    printf("%s\n", what);
    for (row = 0; row < ROWS; row++) {
        buffers ways[3] = {{0, {{{0, 0, 0, 0}}}}};
        in_order(steps, row, &ways[0]);
        must(coarse_bucketer_begin_painting(&screen));
        by_steps(&screen, row, &ways[1]);
        must(coarse_bucketer_begin_painting(&screen));
        by_commands(&screen, row, &ways[2]);
        memcpy(seen.rows[row], ways[0].tiles[0], sizeof seen.rows[row]);
        if (memcmp(seen.rows[row], ways[1].tiles[0], sizeof seen.rows[row]) != 0 || memcmp(seen.rows[row], ways[2].tiles[0], sizeof seen.rows[row]) != 0) {
            fprintf(stderr, "row %u: in order, by steps and by commands are not the same\n", row);
            exit(1);
        }
        print_row(row, seen.rows[row]);
    }
    coarse_bucketer_free(&screen);
    return seen;
}

int main(void) {
    picture first = composited("a layer that holds red, clipped away in row 1, and then one that holds blue:", one_after_the_other);
    picture second = composited("one layer that holds red and blue, and an empty layer of row 0 between:", one_in_the_other);
    if (memcmp(&first, &second, sizeof first) == 0) {
        fprintf(stderr, "the two pictures are the same\n");
        return 1;
    }
    printf("each scene's picture is the same by steps, by commands and in order; the two pictures are not\n");
    return 0;
}
