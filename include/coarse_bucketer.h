/* A screen that owns its tables, over the calls of coarse.h: one allocation holds them all, so that no two overlap and every length
 * is right. Calls have the original's names. Each returns an answer of coarse.h, or COARSE_NO_MEMORY where memory ran out, and then
 * nothing has changed. A call that is not done leaves what its pointers are to receive. One thread at a time may use a bucketer,
 * but for calls whose bucketer is const: several may read it at once, and paint it, each on a canvas of its own.
 *
 * As coarse.h says it, what is drawn is of the scene: boxes in pixels, segments in tiles, counted from the scene's corner. What is
 * painted or asked about is of the screen: rows, tiles and depth buckets, counted from the viewport's corner. No box, range or run has
 * its end in it. */
#ifndef COARSE_BUCKETER_H
#define COARSE_BUCKETER_H

#include "coarse.h"
#include <stdlib.h>
#include <string.h>

/* opaque: 1 or 0. The handle is the host's own. */
typedef struct coarse_paint { uint32_t opaque, handle; int32_t shift_x, shift_y; } coarse_paint;

/* Neighbouring tiles of a row of the scene. kind 0: solid, alpha 0; kind 1: alpha is the index of the first tile, which has 16. */
typedef struct coarse_segment { uint32_t kind, row, first, end, alpha; } coarse_segment;

/* A clip's segments are start to end of the list that is lent to the pop. */
typedef struct coarse_clip { coarse_rect box; uint32_t start, end, thread; } coarse_clip;

/* A layer's properties. clip: null for none. panel: whose layer it is; left out, 0. */
typedef struct coarse_layer_props { coarse_blend blend; float opacity; uint32_t mask; const coarse_clip *clip; uint32_t panel; } coarse_layer_props;

/* Where a filter layer's picture is drawn, and from where in it, in its pixels. */
typedef struct coarse_placement { coarse_rect dest; uint32_t source_x, source_y; } coarse_placement;

/* tag: COARSE_PAINT_FILL to COARSE_LAYER_FILL_ALPHA. first, end: tiles of the screen. alpha: the index of the first tile's alphas, or 0.
 * nesting: how many buffers are open there. panel: its attribute's. */
typedef struct coarse_piece { uint32_t tag, attribute, first, end, alpha, nesting, panel; } coarse_piece;

/* Tiles of the screen, or buckets from coarse_bucketer_unset_runs_and_write. */
typedef coarse_span coarse_run;

/* origin_x, origin_y: the viewport's x0 and y0, in pixels of the scene. */
typedef struct coarse_paint_attrs { uint32_t paint; coarse_blend blend; uint32_t mask, draw_id, thread, origin_x, origin_y, panel; } coarse_paint_attrs;
typedef struct coarse_layer_attrs { coarse_blend blend; float opacity; uint32_t mask, draw_id, thread, panel; } coarse_layer_attrs;

/* The paint of a filter fill: the picture's handle, and its shift, in pixels: source_x less the box's x0, source_y less its y0. It stands
 * after the paint list: with paint_count n, filter paint i is the one that a paint attribute names by n + i. */
typedef struct coarse_filter_paint { uint32_t pixmap; int32_t shift_x, shift_y; } coarse_filter_paint;

/* An open layer. box: its own, in pixels from the viewport's corner: its clip's, met with the box around it. clip: as it was pushed, in
 * pixels of the scene, if has_clip is 1, else zeros. */
typedef struct coarse_open_layer {
    coarse_blend blend;
    float opacity;
    uint32_t mask, has_clip;
    coarse_clip clip;
    coarse_rect box;
    uint32_t panel;
} coarse_open_layer;

/* A screen. The tables point into `block`, and so do what is stored and the canvas; everything here is the calls' own. */
typedef struct coarse_bucketer {
    coarse_setup setup;
    coarse_state state;
    coarse_lengths sizes;
    void *block;
    coarse_tables tables;
    coarse_stored stored;
    coarse_canvas canvas;
    coarse_piece *pieces;
    size_t piece_room;
    coarse_run *runs;
    size_t run_room;
} coarse_bucketer;

/* Tables of these lengths in one new block. The other parts of `b` stay. */
static inline uint32_t coarse_bucketer_tables(coarse_bucketer *b, const coarse_lengths *n) {
    coarse_tables *t = &b->tables;
    uint32_t *at = (uint32_t *)calloc(n->render_cmds + n->depth_cmds + n->depth + n->minima + n->rows + n->painting + n->layers +
                                          n->opacities + n->paint_attrs + n->layer_attrs + n->filter_paints,
                                      sizeof *at);
    if (!at)
        return COARSE_NO_MEMORY;
    b->block = at;
    b->sizes = *n;
    t->render_cmds = at, t->render_cmds_len = n->render_cmds, at += n->render_cmds;
    t->depth_cmds = at, t->depth_cmds_len = n->depth_cmds, at += n->depth_cmds;
    t->depth = at, t->depth_len = n->depth, at += n->depth;
    t->minima = at, t->minima_len = n->minima, at += n->minima;
    t->rows = at, t->rows_len = n->rows, at += n->rows;
    t->painting = at, t->painting_len = n->painting, at += n->painting;
    t->layers = at, t->layers_len = n->layers, at += n->layers;
    t->opacities = (float *)at, t->opacities_len = n->opacities, at += n->opacities;
    t->paint_attrs = at, t->paint_attrs_len = n->paint_attrs, at += n->paint_attrs;
    t->layer_attrs = at, t->layer_attrs_len = n->layer_attrs, at += n->layer_attrs;
    t->filter_paints = (int32_t *)at, t->filter_paints_len = n->filter_paints;
    b->stored.rows = t->rows, b->stored.rows_len = n->rows;
    b->stored.render_cmds = t->render_cmds, b->stored.render_cmds_len = n->render_cmds;
    b->stored.depth_cmds = t->depth_cmds, b->stored.depth_cmds_len = n->depth_cmds;
    b->stored.paint_attrs = t->paint_attrs, b->stored.paint_attrs_len = n->paint_attrs;
    b->stored.layer_attrs = t->layer_attrs, b->stored.layer_attrs_len = n->layer_attrs;
    b->canvas.depth = t->depth, b->canvas.depth_len = n->depth;
    b->canvas.minima = t->minima, b->canvas.minima_len = n->minima;
    b->canvas.painting = t->painting, b->canvas.painting_len = n->painting;
    return COARSE_DONE;
}

/* Rule 1: a fresh screen of another viewport, in pixels of the scene, in the same setup. */
static inline uint32_t coarse_bucketer_reset(coarse_bucketer *b, coarse_rect v) {
    coarse_lengths sizes;
    void *old = b->block;
    uint32_t answer = coarse_sizes(v, b->setup, &sizes);
    if (answer != COARSE_DONE)
        return answer;
    if (!old || memcmp(&sizes, &b->sizes, sizeof sizes) != 0) {
        answer = coarse_bucketer_tables(b, &sizes);
        if (answer != COARSE_DONE)
            return answer;
        free(old);
    }
    return coarse_reset(&b->state, v, b->setup, &b->tables);
}

/* Rule 1, for the next picture of the same viewport: as coarse_bucketer_reset, by clearing only what was drawn and painted. */
static inline uint32_t coarse_bucketer_reset_used(coarse_bucketer *b) {
    return coarse_reset_used(&b->state, &b->tables);
}

/* A screen of a viewport, in pixels of the scene, in a setup, as (coarse_setup){64, 64, COARSE_EXACT, COARSE_128}: its mode reads
 * every viewport, of a reset and of a recording, and its width is that of every screen. Refused, there is nothing to free. */
static inline uint32_t coarse_bucketer_new(coarse_bucketer *b, coarse_rect viewport, coarse_setup setup) {
    memset(b, 0, sizeof *b);
    b->setup = setup;
    return coarse_bucketer_reset(b, viewport);
}

static inline void coarse_bucketer_free(coarse_bucketer *b) {
    free(b->block);
    free(b->pieces);
    free(b->runs);
    memset(b, 0, sizeof *b);
}

/* The bucketer for a recording: with tables of its own where the file's viewport asks for other lengths than `b` has. */
static inline uint32_t coarse_bucketer_for(const coarse_bucketer *b, uint32_t edition, const uint32_t *file, size_t words, coarse_bucketer *next) {
    coarse_lengths sizes;
    size_t at = edition == COARSE_EDITION_TWO ? 3 : 1; /* after the viewport's count, and in edition two two words more */
    *next = *b;
    if (words > at + 3) {
        coarse_rect v = {file[at], file[at + 1], file[at + 2], file[at + 3]};
        if (coarse_sizes(v, b->setup, &sizes) == COARSE_DONE && memcmp(&sizes, &b->sizes, sizeof sizes) != 0)
            return coarse_bucketer_tables(next, &sizes);
    }
    return COARSE_DONE;
}

/* What a recording's answer leaves. Refused with 1 to 3 the screen stays as it was, with its own tables. */
static inline uint32_t coarse_bucketer_keep(coarse_bucketer *b, const coarse_bucketer *next, uint32_t answer) {
    int moved = next->block != b->block;
    if (answer == COARSE_BAD_ARENA || answer == COARSE_BAD_VIEWPORT || answer == COARSE_BAD_FORM) {
        if (moved)
            free(next->block);
        return answer;
    }
    if (moved)
        free(b->block);
    *b = *next;
    return answer;
}

/* Rule 2: the words of a recording file, of a coarse_edition, on a fresh screen of its own viewport. Its viewport and boxes are in pixels,
 * its segments in tiles, all of the scene. */
static inline uint32_t coarse_bucketer_bucket_commands(coarse_bucketer *b, uint32_t edition, const uint32_t *file, size_t words) {
    coarse_bucketer next;
    uint32_t answer = coarse_bucketer_for(b, edition, file, words, &next);
    if (answer != COARSE_DONE)
        return answer;
    answer = coarse_bucket_recording(&next.state, edition, file, words, next.setup, &next.tables);
    return coarse_bucketer_keep(b, &next, answer);
}

/* Buckets a recording's words, of a coarse_edition, and says why an attribute (a layer's where `layer` is not 0, else a draw's) is shown at a row and
 * tile of its screen or not. The screen is left as coarse_bucketer_bucket_commands leaves it, with 12 too. */
static inline uint32_t coarse_bucketer_why(coarse_bucketer *b, uint32_t edition, const uint32_t *file, size_t words, uint32_t row,
                                           uint32_t tile, int layer, uint32_t attribute, coarse_reason *reason) {
    coarse_bucketer next;
    coarse_question question = {row, tile, layer != 0, attribute};
    uint32_t answer = coarse_bucketer_for(b, edition, file, words, &next);
    if (answer != COARSE_DONE)
        return answer;
    answer = coarse_why(&next.state, edition, file, words, next.setup, &question, &next.tables, reason);
    return coarse_bucketer_keep(b, &next, answer);
}

/* Rules 3 to 7. The segments are in tiles of the scene. */
static inline uint32_t coarse_bucketer_generate_fill(coarse_bucketer *b, const coarse_paint *paints, size_t paint_count,
                                                     const coarse_segment *segments, size_t segment_count, const coarse_draw *draw) {
    return coarse_fill(&b->state, &b->tables, (const uint32_t *)paints, paint_count * COARSE_PAINT,
                       (const uint32_t *)segments, segment_count * COARSE_SEGMENT, draw);
}

/* So many draws are handed over at once. */
#define COARSE_DRAWS_AT_ONCE 64

/* A place of a list as a word; one that no word holds is past the end of any list, and so is the largest word. */
static inline uint32_t coarse_place(size_t place) {
    return place < UINT32_MAX ? (uint32_t)place : UINT32_MAX;
}

static inline void coarse_put_draw(uint32_t *words, const coarse_draw *draw) {
    words[0] = draw->thread;
    words[1] = coarse_place(draw->start);
    words[2] = coarse_place(draw->end);
    words[3] = draw->paint;
    words[4] = draw->blend.mix;
    words[5] = draw->blend.compose;
    words[6] = draw->mask;
    words[7] = draw->panel;
}

/* Rules 3 to 7 for each of an array of draws, in order, up to the first that is refused. done: how many fills are done, written on every answer;
 * the screen is what these leave, also where the next is refused. */
static inline uint32_t coarse_bucketer_generate_fills(coarse_bucketer *b, const coarse_paint *paints, size_t paint_count,
                                                      const coarse_segment *segments, size_t segment_count, const coarse_draw *draws,
                                                      size_t draw_count, size_t *done) {
    uint32_t words[COARSE_DRAWS_AT_ONCE * COARSE_DRAW];
    *done = 0;
    while (*done < draw_count) {
        size_t more = draw_count - *done, some = 0, i;
        size_t count = more < COARSE_DRAWS_AT_ONCE ? more : COARSE_DRAWS_AT_ONCE;
        coarse_draws list = {words, count * COARSE_DRAW, 0, count};
        uint32_t answer;
        for (i = 0; i < count; i++)
            coarse_put_draw(words + i * COARSE_DRAW, draws + *done + i);
        answer = coarse_fill_list(&b->state, &b->tables, (const uint32_t *)paints, paint_count * COARSE_PAINT,
                                  (const uint32_t *)segments, segment_count * COARSE_SEGMENT, &list, &some);
        *done += some;
        if (answer != COARSE_DONE)
            return answer;
    }
    return COARSE_DONE;
}

/* Rule 8. The clip's box is in pixels of the scene. The opacity is kept bit for bit. */
static inline uint32_t coarse_bucketer_push_layer(coarse_bucketer *b, const coarse_layer_props *props) {
    static const coarse_clip none = {{0, 0, 0, 0}, 0, 0, 0};
    const coarse_clip *clip = props->clip ? props->clip : &none;
    coarse_props given = {props->blend, 0, props->mask, props->clip != NULL, clip->box, clip->start, clip->end, clip->thread, props->panel};
    memcpy(&given.opacity, &props->opacity, sizeof given.opacity);
    return coarse_push_layer(&b->state, &b->tables, &given);
}

/* Rules 9 and 10. The list has the segments of the layer's clip, in tiles of the scene; without a clip it may be null and 0. */
static inline uint32_t coarse_bucketer_pop_layer(coarse_bucketer *b, const coarse_segment *segments, size_t segment_count) {
    return coarse_pop_layer(&b->state, &b->tables, (const uint32_t *)segments, segment_count * COARSE_SEGMENT);
}

/* Rule 11. The box is in pixels of the scene. pixmap: the picture's handle, or null for none. paint_count: how many paints the paint
 * list has. panel: the layer's. */
static inline uint32_t coarse_bucketer_generate_filter_layer_fill(coarse_bucketer *b, const uint32_t *pixmap,
                                                                  const coarse_placement *placement, uint32_t paint_count,
                                                                  uint32_t panel) {
    coarse_filter given = {placement->dest, placement->source_x, placement->source_y, pixmap != NULL, pixmap ? *pixmap : 0, paint_count, panel};
    return coarse_filter_fill(&b->state, &b->tables, &given);
}

/* Takes out of a row of the screen the render commands that nothing will ever show: hidden fills, and buffers in which nothing is left. It has room for
 * others then, and paints the same pieces. Painting ends. */
static inline uint32_t coarse_bucketer_compact_row(coarse_bucketer *b, size_t row) { return coarse_compact_row(&b->state, &b->tables, row); }

/* Clears the depth words, makes their minima afresh, and sets every row to its first step. */
static inline uint32_t coarse_bucketer_begin_painting(coarse_bucketer *b) {
    return coarse_begin_painting(&b->state, &b->canvas);
}

/* The viewport that the screen holds, in pixels of the scene, as the mode has read it. */
static inline coarse_rect coarse_bucketer_viewport(const coarse_bucketer *b) {
    return b->state.viewport;
}

/* How many rows of tiles the screen has. */
static inline size_t coarse_bucketer_rows(const coarse_bucketer *b) { return (b->state.viewport.y1 - b->state.viewport.y0) / 4; }

/* The clip box of the innermost open layer, or the whole screen's, in pixels from the viewport's corner. */
static inline coarse_rect coarse_bucketer_clip_box(const coarse_bucketer *b) { return b->state.clip; }

/* The id that the next draw, closing layer or filter fill takes. */
static inline uint32_t coarse_bucketer_next_draw_id(const coarse_bucketer *b) { return b->state.next_draw_id; }

/* How many layers are open. */
static inline size_t coarse_bucketer_open_layers(const coarse_bucketer *b) { return b->state.layers; }

/* Whether painting has begun, and nothing has ended it. */
static inline int coarse_bucketer_is_painting(const coarse_bucketer *b) { return b->state.painting == 1; }

/* How many pixels wide a bucket of the screen is. */
static inline uint32_t coarse_bucketer_bucket_width(const coarse_bucketer *b) {
    return b->state.width == 1 ? COARSE_64 : b->state.width == 2 ? COARSE_256 : COARSE_128;
}

/* How many depth buckets a row has. */
static inline size_t coarse_bucketer_buckets(const coarse_bucketer *b) {
    uint32_t width = coarse_bucketer_bucket_width(b);
    return (b->state.viewport.x1 - b->state.viewport.x0 + (width - 1)) / width;
}

/* Room for n pieces. */
static inline uint32_t coarse_bucketer_piece_room(coarse_bucketer *b, size_t n) {
    coarse_piece *more;
    if (n <= b->piece_room)
        return COARSE_DONE;
    more = (coarse_piece *)realloc(b->pieces, 2 * n * sizeof *more);
    if (!more)
        return COARSE_NO_MEMORY;
    b->pieces = more;
    b->piece_room = 2 * n;
    return COARSE_DONE;
}

/* The next stored command of a row of the screen: whether none was left, and its pieces, in tiles of that row, which stand until the
 * next painting call, done or not. */
static inline uint32_t coarse_bucketer_paint_step(coarse_bucketer *b, size_t row, int *finished, const coarse_piece **pieces,
                                                  size_t *count) {
    coarse_painted result = {0, 0};
    uint32_t answer = coarse_bucketer_piece_room(b, coarse_bucketer_buckets(b) + 1);
    if (answer == COARSE_DONE)
        answer = coarse_paint_step(&b->state, &b->stored, &b->canvas, row, (uint32_t *)b->pieces,
                                   b->piece_room * COARSE_PIECE, &result);
    if (answer != COARSE_DONE)
        return answer;
    *finished = result.finished == 1;
    *pieces = b->pieces;
    *count = result.pieces;
    return COARSE_DONE;
}

/* All pieces of a row of the screen, in tiles of that row, from where it stands to its end; they stand until the next painting call,
 * done or not. The row is painted in passes, and the list grows between them. Where a pass has no memory or is refused, the row is
 * put back to where it stood. */
static inline uint32_t coarse_bucketer_paint_row(coarse_bucketer *b, size_t row, const coarse_piece **pieces, size_t *count) {
    size_t rows = b->sizes.painting / COARSE_PAINTING, buckets = rows ? b->sizes.depth / rows : 0, least = rows ? b->sizes.minima / rows : 0;
    size_t done = 0;
    coarse_painted result = {0, 0};
    uint32_t depth[COARSE_MOST_BUCKETS] = {0}, minima[COARSE_MOST_MINIMA] = {0}, painting[COARSE_PAINTING] = {0}, answer = COARSE_DONE;
    if (row < rows) {
        memcpy(depth, b->tables.depth + row * buckets, buckets * sizeof depth[0]);
        memcpy(minima, b->tables.minima + row * least, least * sizeof minima[0]);
        memcpy(painting, b->tables.painting + row * COARSE_PAINTING, sizeof painting);
    }
    while (answer == COARSE_DONE && result.finished == 0) {
        done += result.pieces;
        answer = coarse_bucketer_piece_room(b, done + buckets + 1);
        if (answer == COARSE_DONE)
            answer = coarse_paint_row(&b->state, &b->stored, &b->canvas, row, (uint32_t *)(b->pieces + done),
                                      (b->piece_room - done) * COARSE_PIECE, &result);
    }
    if (answer == COARSE_DONE) {
        *pieces = b->pieces;
        *count = done + result.pieces;
    } else if (row < rows) {
        memcpy(b->tables.depth + row * buckets, depth, buckets * sizeof depth[0]);
        memcpy(b->tables.minima + row * least, minima, least * sizeof minima[0]);
        memcpy(b->tables.painting + row * COARSE_PAINTING, painting, sizeof painting);
    }
    return answer;
}

/* All pieces of the rows first to end of the screen, row after row, each from where it stands to its end; ends, lent for as many
 * rows: how many pieces there are after each. They stand until the next painting call, done or not. The rows are painted in passes,
 * and the list grows between them. Where a row is refused, those before it are painted, and the pieces are lost. */
static inline uint32_t coarse_bucketer_paint_rows(coarse_bucketer *b, size_t first, size_t end, size_t *ends,
                                                  const coarse_piece **pieces) {
    size_t asked = first < end ? end - first : 0, done = 0, count = 0, i;
    uint32_t answer = coarse_bucketer_piece_room(b, coarse_bucketer_buckets(b) + 1);
    while (answer == COARSE_DONE) {
        coarse_painted_rows result = {0, 0};
        answer = coarse_paint_rows(&b->state, &b->stored, &b->canvas, first + done, end, (uint32_t *)(b->pieces + count),
                                   (b->piece_room - count) * COARSE_PIECE, ends + done, asked - done, &result);
        for (i = done; i < done + result.rows; i++)
            ends[i] += count;
        done += result.rows;
        count += result.pieces;
        if (answer == COARSE_DONE)
            break;
        if (answer == COARSE_NO_ROOM && b->piece_room < count + coarse_bucketer_buckets(b) + 1)
            answer = coarse_bucketer_piece_room(b, count + coarse_bucketer_buckets(b) + 1);
    }
    *pieces = b->pieces;
    return answer;
}

/* How many render commands and depth fills are stored of a row of the screen. */
static inline uint32_t coarse_bucketer_row_lengths(const coarse_bucketer *b, size_t row, coarse_row_counts *lengths) {
    return coarse_row_lengths(&b->state, &b->stored, row, lengths);
}

/* A row's render command of a number, in the order in which they are drawn and painted. */
static inline uint32_t coarse_bucketer_render_cmd(const coarse_bucketer *b, size_t row, size_t number, coarse_command *cmd) {
    return coarse_render_cmd(&b->state, &b->stored, row, number, cmd);
}

/* A row's depth fill of a number, in the order in which they are drawn; painting begins with the last. */
static inline uint32_t coarse_bucketer_depth_cmd(const coarse_bucketer *b, size_t row, size_t number, coarse_depth_fill *fill) {
    return coarse_depth_cmd(&b->state, &b->stored, row, number, fill);
}

/* How far a row of the screen is painted: steps done, and how many buffers are open after them. */
static inline uint32_t coarse_bucketer_progress(const coarse_bucketer *b, size_t row, coarse_row_progress *told) {
    return coarse_progress(&b->state, &b->canvas, row, told);
}

/* What the calls of coarse.h read of the screen: a thread that paints it on a canvas of its own hands these to coarse_paint_step,
 * coarse_paint_row, coarse_progress and the calls for runs. They stand until the screen has other tables. */
static inline const coarse_state *coarse_bucketer_state(const coarse_bucketer *b) { return &b->state; }
static inline const coarse_stored *coarse_bucketer_stored(const coarse_bucketer *b) { return &b->stored; }

/* The words of one row of the screen alone, of what is stored and of a canvas of it: what coarse_paint_own_row is lent. The words of
 * two rows lie apart. COARSE_BAD_RUN for no such row, or a canvas of another screen. */
static inline uint32_t coarse_bucketer_own_row(const coarse_bucketer *b, const coarse_canvas *canvas, size_t row,
                                               coarse_stored *own, coarse_canvas *words) {
    size_t rows = coarse_bucketer_rows(b);
    if (rows <= row || canvas->depth_len != b->sizes.depth || canvas->minima_len != b->sizes.minima || canvas->painting_len != b->sizes.painting)
        return COARSE_BAD_RUN;
    *own = b->stored;
    own->rows_len /= rows, own->rows += row * own->rows_len;
    own->render_cmds_len /= rows, own->render_cmds += row * own->render_cmds_len;
    own->depth_cmds_len /= rows, own->depth_cmds += row * own->depth_cmds_len;
    words->depth_len = canvas->depth_len / rows, words->depth = canvas->depth + row * words->depth_len;
    words->minima_len = canvas->minima_len / rows, words->minima = canvas->minima + row * words->minima_len;
    words->painting_len = COARSE_PAINTING, words->painting = canvas->painting + row * COARSE_PAINTING;
    return COARSE_DONE;
}

/* A canvas beside the screen's own, at the first step of every row. COARSE_OPEN where painting has not begun: then, and without memory,
 * there is nothing to free. Several threads may paint one screen so, each with a canvas, while none changes the screen. */
static inline uint32_t coarse_bucketer_canvas(const coarse_bucketer *b, coarse_canvas *canvas) {
    coarse_state state = b->state;
    coarse_canvas begun;
    uint32_t *words, answer;
    if (!coarse_bucketer_is_painting(b))
        return COARSE_OPEN;
    words = (uint32_t *)calloc(b->sizes.depth + b->sizes.minima + b->sizes.painting + 1, sizeof *words);
    if (!words)
        return COARSE_NO_MEMORY;
    begun.depth = words, begun.depth_len = b->sizes.depth;
    begun.minima = words + b->sizes.depth, begun.minima_len = b->sizes.minima;
    begun.painting = begun.minima + b->sizes.minima, begun.painting_len = b->sizes.painting;
    answer = coarse_begin_painting(&state, &begun);
    if (answer == COARSE_DONE)
        *canvas = begun;
    else
        free(words);
    return answer;
}

static inline void coarse_bucketer_canvas_free(coarse_canvas *canvas) {
    free(canvas->depth);
    memset(canvas, 0, sizeof *canvas);
}

/* The depth words of a row of the screen, one for each bucket: the id of the newest depth fill that is painted there, or 0. They stand
 * until the screen has other tables. COARSE_BAD_RUN for no such row. */
static inline uint32_t coarse_bucketer_depth_words(const coarse_bucketer *b, size_t row, const uint32_t **words, size_t *count) {
    size_t buckets = coarse_bucketer_buckets(b);
    if (row >= coarse_bucketer_rows(b))
        return COARSE_BAD_RUN;
    *words = b->canvas.depth + row * buckets;
    *count = buckets;
    return COARSE_DONE;
}

/* Room for the runs of a row. */
static inline uint32_t coarse_bucketer_run_room(coarse_bucketer *b) {
    size_t n = coarse_bucketer_buckets(b) + 1;
    coarse_run *more;
    if (n <= b->run_room)
        return COARSE_DONE;
    more = (coarse_run *)realloc(b->runs, n * sizeof *more);
    if (!more)
        return COARSE_NO_MEMORY;
    b->runs = more;
    b->run_room = n;
    return COARSE_DONE;
}

/* The tiles first to end of a row of the screen whose buckets hold 0, as runs of tiles, which stand until the next call for runs. */
static inline uint32_t coarse_bucketer_unset_runs(coarse_bucketer *b, size_t row, uint32_t first, uint32_t end,
                                                  const coarse_run **runs, size_t *count) {
    coarse_span span = {first, end};
    uint32_t answer = coarse_bucketer_run_room(b);
    if (answer == COARSE_DONE)
        answer = coarse_unset_runs(&b->state, &b->canvas, row, span, (uint32_t *)b->runs,
                                   b->run_room * COARSE_RUN, count);
    if (answer == COARSE_DONE)
        *runs = b->runs;
    return answer;
}

/* The tiles first to end of a row of the screen whose buckets hold at most the id, as runs of tiles. */
static inline uint32_t coarse_bucketer_visible_runs(coarse_bucketer *b, size_t row, uint32_t first, uint32_t end, uint32_t id,
                                                    const coarse_run **runs, size_t *count) {
    coarse_span span = {first, end};
    uint32_t answer = coarse_bucketer_run_room(b);
    if (answer == COARSE_DONE)
        answer = coarse_visible_runs(&b->state, &b->canvas, row, span, id, (uint32_t *)b->runs,
                                     b->run_room * COARSE_RUN, count);
    if (answer == COARSE_DONE)
        *runs = b->runs;
    return answer;
}

/* The same runs of tiles at the start of a list of the caller's own, which has room for so many; the others stay. */
static inline uint32_t coarse_bucketer_visible_spans(const coarse_bucketer *b, size_t row, uint32_t first, uint32_t end, uint32_t id,
                                                     coarse_span *list, size_t room, size_t *count) {
    coarse_span span = {first, end};
    return coarse_visible_spans(&b->state, &b->canvas, row, span, id, list, room, count);
}

/* The runs of coarse_bucketer_unset_runs in such a list: those of the tiles that are visible for id 0. */
static inline uint32_t coarse_bucketer_unset_spans(const coarse_bucketer *b, size_t row, uint32_t first, uint32_t end, coarse_span *list,
                                                   size_t room, size_t *count) {
    return coarse_bucketer_visible_spans(b, row, first, end, 0, list, room, count);
}

/* The unset runs of the buckets first to end of a row of the screen, as runs of buckets; the id is stored there, and painting ends. */
static inline uint32_t coarse_bucketer_unset_runs_and_write(coarse_bucketer *b, size_t row, uint32_t first, uint32_t end, uint32_t id,
                                                            const coarse_run **runs, size_t *count) {
    coarse_span span = {first, end};
    uint32_t answer = coarse_bucketer_run_room(b);
    if (answer == COARSE_DONE)
        answer = coarse_unset_runs_and_write(&b->state, &b->canvas, row, span, id, (uint32_t *)b->runs,
                                             b->run_room * COARSE_RUN, count);
    if (answer == COARSE_DONE)
        *runs = b->runs;
    return answer;
}

/* Whether every bucket from first to end of a row of the screen is hidden from the id: each holds a greater one. */
static inline uint32_t coarse_bucketer_is_hidden(const coarse_bucketer *b, size_t row, uint32_t first, uint32_t end, uint32_t id,
                                                 int *yes) {
    coarse_span span = {first, end};
    uint32_t word = 0, answer = coarse_is_hidden(&b->state, b->canvas.minima, b->canvas.minima_len, row, span, id, &word);
    if (answer == COARSE_DONE)
        *yes = word == 1;
    return answer;
}

/* Whether a draw over the tiles first to end of a row of the screen need not look at the row's depth words. */
static inline uint32_t coarse_bucketer_can_skip(const coarse_bucketer *b, size_t row, uint32_t first, uint32_t end, uint32_t id,
                                                int *yes) {
    coarse_span span = {first, end};
    uint32_t word = 0, answer = coarse_can_skip(&b->state, &b->stored, row, span, id, &word);
    if (answer == COARSE_DONE)
        *yes = word == 1;
    return answer;
}

/* How many attributes of draws and filter fills, attributes of closed layers, and paints of filter fills there are. */
static inline size_t coarse_bucketer_paint_attr_count(const coarse_bucketer *b) { return b->state.paint_attrs; }
static inline size_t coarse_bucketer_layer_attr_count(const coarse_bucketer *b) { return b->state.layer_attrs; }
static inline size_t coarse_bucketer_filter_paint_count(const coarse_bucketer *b) { return b->state.filter_paints; }

/* One of them, by its index: all zeros where there is none. */
static inline coarse_paint_attrs coarse_bucketer_paint_attrs(const coarse_bucketer *b, size_t i) {
    coarse_paint_attrs a = {0, {0, 0}, 0, 0, 0, 0, 0, 0};
    if (i < coarse_bucketer_paint_attr_count(b)) {
        const uint32_t *w = b->stored.paint_attrs + COARSE_PAINT_ATTR * i;
        a.paint = w[0], a.blend.mix = w[1], a.blend.compose = w[2], a.mask = w[3];
        a.draw_id = w[4], a.thread = w[5], a.origin_x = w[6], a.origin_y = w[7], a.panel = w[8];
    }
    return a;
}

/* The opacity of a pattern that is a NaN's, or the one that stands apart where the pattern is 0. */
static inline float coarse_bucketer_opacity(const coarse_bucketer *b, uint32_t nan, size_t at) {
    float opacity = b->tables.opacities[at];
    if (nan)
        memcpy(&opacity, &nan, sizeof opacity);
    return opacity;
}

/* A NaN opacity has the pattern that was pushed. */
static inline coarse_layer_attrs coarse_bucketer_layer_attrs(const coarse_bucketer *b, size_t i) {
    coarse_layer_attrs a = {{0, 0}, 0, 0, 0, 0, 0};
    if (i < coarse_bucketer_layer_attr_count(b)) {
        const uint32_t *w = b->stored.layer_attrs + COARSE_LAYER_ATTR * i;
        a.blend.mix = w[0], a.blend.compose = w[1], a.mask = w[2], a.draw_id = w[3], a.thread = w[4], a.panel = w[6];
        a.opacity = coarse_bucketer_opacity(b, w[5], COARSE_MOST_LAYERS + i);
    }
    return a;
}

static inline coarse_filter_paint coarse_bucketer_filter_paint(const coarse_bucketer *b, size_t i) {
    coarse_filter_paint p = {0, 0, 0};
    if (i < coarse_bucketer_filter_paint_count(b)) {
        const int32_t *w = b->tables.filter_paints + COARSE_FILTER_PAINT * i;
        p.pixmap = (uint32_t)w[1], p.shift_x = w[2], p.shift_y = w[3];
    }
    return p;
}

/* All of them, at the start of a list of the caller's own, and how many. COARSE_NO_ROOM where the list is shorter, and then it stays. */
static inline uint32_t coarse_bucketer_all_paint_attrs(const coarse_bucketer *b, coarse_paint_attrs *list, size_t room, size_t *count) {
    size_t n = coarse_bucketer_paint_attr_count(b), i;
    if (room < n)
        return COARSE_NO_ROOM;
    for (i = 0; i < n; i++)
        list[i] = coarse_bucketer_paint_attrs(b, i);
    *count = n;
    return COARSE_DONE;
}

static inline uint32_t coarse_bucketer_all_layer_attrs(const coarse_bucketer *b, coarse_layer_attrs *list, size_t room, size_t *count) {
    size_t n = coarse_bucketer_layer_attr_count(b), i;
    if (room < n)
        return COARSE_NO_ROOM;
    for (i = 0; i < n; i++)
        list[i] = coarse_bucketer_layer_attrs(b, i);
    *count = n;
    return COARSE_DONE;
}

static inline uint32_t coarse_bucketer_all_filter_paints(const coarse_bucketer *b, coarse_filter_paint *list, size_t room, size_t *count) {
    size_t n = coarse_bucketer_filter_paint_count(b), i;
    if (room < n)
        return COARSE_NO_ROOM;
    for (i = 0; i < n; i++)
        list[i] = coarse_bucketer_filter_paint(b, i);
    *count = n;
    return COARSE_DONE;
}

/* An open layer, from 0 for the outermost on: all zeros where there is none. */
static inline coarse_open_layer coarse_bucketer_open_layer(const coarse_bucketer *b, size_t i) {
    coarse_open_layer l = {{0, 0}, 0, 0, 0, {{0, 0, 0, 0}, 0, 0, 0}, {0, 0, 0, 0}, 0};
    if (i < coarse_bucketer_open_layers(b)) {
        const uint32_t *w = b->tables.layers + COARSE_OPEN_LAYER * i;
        l.blend.mix = w[0], l.blend.compose = w[1], l.mask = w[2], l.has_clip = w[3];
        l.clip.box.x0 = w[4], l.clip.box.y0 = w[5], l.clip.box.x1 = w[6], l.clip.box.y1 = w[7];
        l.clip.start = w[8], l.clip.end = w[9], l.clip.thread = w[10];
        l.box.x0 = w[11], l.box.y0 = w[12], l.box.x1 = w[13], l.box.y1 = w[14];
        l.opacity = coarse_bucketer_opacity(b, w[15], i);
        l.panel = w[16];
    }
    return l;
}

#endif
