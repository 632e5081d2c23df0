/* The border as C meets it: null pointers with length 0, the order of answers, and the bucketer that owns its tables.
 * Prints each thing that does not hold; the status is how many. */
#include <stdint.h>
#include <stdio.h>
#include <stdlib.h>

/* Memory that can run out: so many more blocks are to be had, in place of the C library's for the bucketer alone. */
static size_t blocks = SIZE_MAX;

static void *scarce_calloc(size_t count, size_t size) {
    return blocks == 0 ? NULL : (blocks--, calloc(count, size));
}

static void *scarce_realloc(void *block, size_t size) {
    return blocks == 0 ? NULL : (blocks--, realloc(block, size));
}

#define calloc scarce_calloc
#define realloc scarce_realloc
#include "../include/coarse_bucketer.h"
#undef calloc
#undef realloc

static int wrong;

static void expect(const char *what, uint32_t want, uint32_t got) {
    if (want != got) {
        printf("%s: expected %u, got %u\n", what, want, got);
        wrong++;
    }
}

static const coarse_setup small = {8, 8, COARSE_EXACT, COARSE_128}, snapping = {8, 8, COARSE_SNAPPING, COARSE_128};
static const coarse_paint paints[] = {{1, 1, 5, -5}, {0, 2, 0, 0}};
static const coarse_segment segments[] = {{0, 0, 0, 64, 0}, {1, 0, 64, 70, 32}};
static const coarse_draw both = {.start = 0, .end = 2, .paint = 0, .blend = COARSE_DEFAULT_BLEND_INIT};

/* A viewport of height 0 has no rows: every arena is empty. A parameter with length 0 may be null; a pointer in a struct is never. */
static void null_pointers(void) {
    coarse_state state = {{0, 0, 0, 0}, {0, 0, 0, 0}, 0, 0, 0, 0, 0, 0, 0, 0, 0};
    uint32_t none[1] = {0};
    uint32_t *layers = calloc(COARSE_LAYERS, 4), *paint_attrs = calloc(COARSE_PAINT_ATTRS, 4);
    uint32_t *layer_attrs = calloc(COARSE_LAYER_ATTRS, 4);
    float *opacities = calloc(COARSE_OPACITIES, 4);
    int32_t *filter_paints = calloc(COARSE_FILTER_PAINTS, 4);
    coarse_tables tables = {none, 0, none, 0, none, 0, none, 0, none, 0, none, 0, layers, COARSE_LAYERS, opacities, COARSE_OPACITIES,
                            paint_attrs, COARSE_PAINT_ATTRS, layer_attrs, COARSE_LAYER_ATTRS, filter_paints, COARSE_FILTER_PAINTS};
    coarse_canvas canvas = {none, 0, none, 0, none, 0};
    coarse_draw draw = {0, 0, 0, 0, {0, 3}, 0, 0};
    size_t count = 7;
    uint32_t hidden = 7;
    coarse_setup one = {1, 1, COARSE_EXACT, COARSE_128};
    expect("reset to no rows", COARSE_DONE, coarse_reset(&state, (coarse_rect){0, 0, 128, 0}, one, &tables));
    expect("the structs hold what they held", 1, tables.layers == layers && tables.layers_len == COARSE_LAYERS && tables.render_cmds == none);
    expect("a pop with none open", COARSE_NO_LAYER, coarse_pop_layer(&state, &tables, NULL, 0));
    expect("a fill without a paint", COARSE_BAD_RECORD, coarse_fill(&state, &tables, NULL, 0, NULL, 0, &draw));
    expect("painting no rows", COARSE_DONE, coarse_begin_painting(&state, &canvas));
    expect("a run of no row", COARSE_BAD_RUN, coarse_unset_runs(&state, &canvas, 0, (coarse_span){0, 4}, NULL, 0, &count));
    expect("its count stays", 7, (uint32_t)count);
    expect("spans of no row", COARSE_BAD_RUN, coarse_visible_spans(&state, &canvas, 0, (coarse_span){0, 4}, 1, NULL, 0, &count));
    expect("their count stays", 7, (uint32_t)count);
    expect("hidden in no row", COARSE_BAD_RUN, coarse_is_hidden(&state, NULL, 0, 0, (coarse_span){0, 0}, 1, &hidden));
    expect("its answer stays", 7, hidden);
    expect("a recording of no words", COARSE_BAD_FORM, coarse_bucket_recording(&state, COARSE_EDITION_ONE, NULL, 0, one, &tables));
    expect("compacting no row", COARSE_BAD_RUN, coarse_compact_row(&state, &tables, 0));
    expect("painting goes on", 1, state.painting);
    free(layers), free(paint_attrs), free(layer_attrs), free(opacities), free(filter_paints);
}

/* Runs of a row as spans in a list of the host's own: those of coarse_visible_runs, and its answers. */
static void lent_spans(void) {
    coarse_bucketer b;
    coarse_rect viewport = {0, 0, 4096, 4};
    coarse_canvas short_row;
    coarse_span list[20];
    const coarse_run *runs;
    size_t count = 0, n = 0, i;
    expect("a row of 32 buckets", COARSE_DONE, coarse_bucketer_new(&b, viewport, small));
    for (i = 1; i < 32; i += 2)
        expect("every second is set", COARSE_DONE,
               coarse_bucketer_unset_runs_and_write(&b, 0, (uint32_t)i, (uint32_t)i + 1, 7, &runs, &count));
    for (i = 0; i < 20; i++)
        list[i].first = 500, list[i].end = 600;
    count = 9;
    expect("15 spans for 16 runs", COARSE_NO_ROOM, coarse_bucketer_visible_spans(&b, 0, 10, 1024, 6, list, 15, &count));
    expect("out of order", COARSE_BAD_RUN, coarse_bucketer_visible_spans(&b, 0, 11, 10, 6, list, 20, &count));
    expect("no row 1", COARSE_BAD_RUN, coarse_bucketer_visible_spans(&b, 1, 10, 1024, 6, list, 20, &count));
    short_row = b.canvas;
    short_row.depth_len = 31;
    expect("a short arena before a bad range", COARSE_BAD_ARENA,
           coarse_visible_spans(&b.state, &short_row, 0, (coarse_span){11, 10}, 6, list, 20, &count));
    expect("refused, the count stays", 9, (uint32_t)count);
    for (i = 0; i < 20; i++)
        expect("refused, the list stays", 500, list[i].first);
    expect("16 spans for 16 runs", COARSE_DONE, coarse_bucketer_visible_spans(&b, 0, 10, 1024, 6, list, 16, &count));
    expect("all of them", 16, (uint32_t)count);
    expect("as runs", COARSE_DONE, coarse_bucketer_visible_runs(&b, 0, 10, 1024, 6, &runs, &n));
    expect("as many", 16, (uint32_t)n);
    for (i = 0; i < 16; i++) {
        expect("the same first tile", runs[i].first, list[i].first);
        expect("the same end", runs[i].end, list[i].end);
    }
    expect("the first is cut", 10, list[0].first);
    expect("the last", 960, list[15].first);
    expect("the spans after them stay", 500, list[16].first);
    expect("unset, 16 for 16", COARSE_DONE, coarse_bucketer_unset_spans(&b, 0, 10, 1024, list, 16, &count));
    expect("unset runs", COARSE_DONE, coarse_bucketer_unset_runs(&b, 0, 10, 1024, &runs, &n));
    expect("as many again", (uint32_t)n, (uint32_t)count);
    expect("the same last one", runs[15].first, list[15].first);
    expect("no tiles, no list", COARSE_DONE, coarse_bucketer_visible_spans(&b, 0, 5, 5, 7, NULL, 0, &count));
    expect("no runs", 0, (uint32_t)count);
    coarse_bucketer_free(&b);
}

/* A filter fill of 8 by 3 pixels with any flag and handle, of any panel. */
static uint32_t filter_fill(coarse_bucketer *b, uint32_t has_pixmap, uint32_t pixmap, uint32_t panel) {
    coarse_filter given = {{0, 0, 8, 3}, 4, 0, has_pixmap, pixmap, 2, panel};
    return coarse_filter_fill(&b->state, &b->tables, &given);
}

/* The first tile, in any setup, with any word for draw or layer. */
static uint32_t why(coarse_bucketer *b, const uint32_t *file, size_t words, coarse_setup setup, uint32_t layer) {
    coarse_question question = {0, 0, layer, 0};
    coarse_reason result;
    return coarse_why(&b->state, COARSE_EDITION_ONE, file, words, setup, &question, &b->tables, &result);
}

/* A reset of the screen that it is, in any setup. */
static uint32_t reset(coarse_bucketer *b, coarse_rect v, coarse_setup setup) {
    return coarse_reset(&b->state, v, setup, &b->tables);
}

/* A recording into its tables, in any setup. */
static uint32_t record(coarse_bucketer *b, const uint32_t *file, size_t words, coarse_setup setup) {
    return coarse_bucket_recording(&b->state, COARSE_EDITION_ONE, file, words, setup, &b->tables);
}

/* All words of a bucketer, as one number that a change of any changes. */
static uint32_t sum(const coarse_bucketer *b) {
    const uint32_t *words = (const uint32_t *)b->block;
    const coarse_lengths *lens = &b->sizes;
    size_t i, n = lens->render_cmds + lens->depth_cmds + lens->depth + lens->rows + lens->painting + lens->layers + lens->opacities +
                  lens->paint_attrs + lens->layer_attrs + lens->filter_paints + lens->minima;
    uint32_t mixed = 2166136261u;
    for (i = 0; i < n; i++)
        mixed = (mixed ^ words[i]) * 16777619u;
    for (i = 0; i < sizeof b->state / sizeof(uint32_t); i++)
        mixed = (mixed ^ ((const uint32_t *)&b->state)[i]) * 16777619u;
    return mixed;
}

/* What is asked of the range of buckets, and whether it is hidden. */
static void asked(const coarse_bucketer *b, size_t row, uint32_t first, uint32_t end, uint32_t id, int want) {
    int yes = 7;
    expect("it is told", COARSE_DONE, coarse_bucketer_is_hidden(b, row, first, end, id, &yes));
    expect(want ? "hidden" : "not hidden", (uint32_t)want, (uint32_t)yes);
}

/* What the minima tell, as the depth words do: of every range of every row, at the ids there and those beside. */
static void asked_all(const coarse_bucketer *b) {
    const uint32_t ids[] = {0, 1, 2, 3, 4, 5, 6, 7, 8, 0xfffffffeu, 0xffffffffu}, *words;
    size_t row, count, i;
    uint32_t first, end, k;
    for (row = 0; row < coarse_bucketer_rows(b); row++) {
        expect("a row's depth words", COARSE_DONE, coarse_bucketer_depth_words(b, row, &words, &count));
        for (first = 0; first <= count; first++)
            for (end = first; end <= count; end++)
                for (i = 0; i < sizeof ids / sizeof ids[0]; i++) {
                    int want = 1;
                    for (k = first; k < end; k++)
                        want = want && words[k] > ids[i];
                    asked(b, row, first, end, ids[i], want);
                }
    }
}

/* Whether buckets are hidden, after a reset, a begin, steps, and runs that are written, or refused; what is refused leaves the answer. */
static void hidden(void) {
    const uint32_t across[] = {128, 256, 260, 640, 1024};
    coarse_bucketer b;
    coarse_canvas other;
    coarse_state state;
    const coarse_piece *pieces;
    const coarse_run *runs;
    uint32_t yes = 7;
    coarse_painted painted = {0, 0};
    size_t i, count = 0;
    int finished = 0, told = 7;
    for (i = 0; i < sizeof across / sizeof across[0]; i++) {
        uint32_t buckets = (across[i] + 127) / 128, half = (buckets + 1) / 2;
        expect("a screen", COARSE_DONE, coarse_bucketer_new(&b, (coarse_rect){0, 0, across[i], 8}, small));
        asked_all(&b);
        expect("a fill", COARSE_DONE, coarse_bucketer_generate_fill(&b, paints, 2, segments, 2, &both));
        expect("painting", COARSE_DONE, coarse_bucketer_begin_painting(&b));
        asked_all(&b);
        expect("a step", COARSE_DONE, coarse_bucketer_paint_step(&b, 0, &finished, &pieces, &count));
        asked_all(&b);
        expect("a run", COARSE_DONE, coarse_bucketer_unset_runs_and_write(&b, 1, 0, half, 7, &runs, &count));
        asked_all(&b);
        expect("one past the row", COARSE_BAD_RUN, coarse_bucketer_unset_runs_and_write(&b, 1, 0, buckets + 1, 3, &runs, &count));
        expect("none is left there", COARSE_DONE, coarse_bucketer_unset_runs_and_write(&b, 1, 0, half, 3, &runs, &count));
        asked_all(&b);
        expect("the rest", COARSE_DONE, coarse_bucketer_unset_runs_and_write(&b, 1, 0, buckets, 0xffffffffu, &runs, &count));
        asked_all(&b);
        expect("a begin", COARSE_DONE, coarse_bucketer_begin_painting(&b));
        asked_all(&b);
        coarse_bucketer_free(&b);
    }
    expect("a screen of 5 buckets", COARSE_DONE, coarse_bucketer_new(&b, (coarse_rect){0, 0, 640, 8}, small));
    expect("15 minima in each of two rows", 30, (uint32_t)b.sizes.minima);
    expect("an end past the row", COARSE_BAD_RUN, coarse_bucketer_is_hidden(&b, 0, 0, 6, 1, &told));
    expect("backwards", COARSE_BAD_RUN, coarse_bucketer_is_hidden(&b, 0, 1, 0, 1, &told));
    expect("an empty range past the end", COARSE_BAD_RUN, coarse_bucketer_is_hidden(&b, 0, 6, 6, 1, &told));
    expect("no row 2", COARSE_BAD_RUN, coarse_bucketer_is_hidden(&b, 2, 0, 0, 1, &told));
    expect("refused, it stays", 7, (uint32_t)told);
    expect("a word short, before no row", COARSE_BAD_ARENA, coarse_is_hidden(&b.state, b.canvas.minima, 29, 2, (coarse_span){0, 0}, 1, &yes));
    state = b.state, state.painting = 2;
    expect("a state that is none, before no row", COARSE_BAD_RECORD, coarse_is_hidden(&state, b.canvas.minima, 30, 2, (coarse_span){0, 0}, 1, &yes));
    expect("a word short before that", COARSE_BAD_ARENA, coarse_is_hidden(&state, b.canvas.minima, 31, 0, (coarse_span){0, 0}, 1, &yes));
    state.viewport.x1 = 642;
    expect("a bad viewport before that", COARSE_BAD_VIEWPORT, coarse_is_hidden(&state, b.canvas.minima, 31, 0, (coarse_span){0, 0}, 1, &yes));
    expect("refused, the word stays", 7, yes);
    /* A begin, a run and a step judge them with the depth words. */
    other = b.canvas, other.minima_len = 29, state = b.state;
    expect("a begin on short minima", COARSE_BAD_ARENA, coarse_begin_painting(&state, &other));
    expect("a run on short minima", COARSE_BAD_ARENA, coarse_unset_runs_and_write(&state, &other, 0, (coarse_span){0, 1}, 1, NULL, 0, &count));
    expect("a step on short minima", COARSE_BAD_ARENA, coarse_paint_step(&state, &b.stored, &other, 0, NULL, 0, &painted));
    expect("a run that writes nothing reads none", COARSE_DONE, coarse_unset_runs(&state, &other, 0, (coarse_span){0, 0}, NULL, 0, &count));
    b.tables.minima_len--;
    expect("a reset on short minima", COARSE_BAD_ARENA, reset(&b, (coarse_rect){0, 0, 640, 8}, small));
    b.tables.minima_len++;
    /* A canvas of its own has minima of its own. */
    expect("painting", COARSE_DONE, coarse_bucketer_begin_painting(&b));
    expect("a canvas", COARSE_DONE, coarse_bucketer_canvas(&b, &other));
    expect("the same minima", 0, memcmp(other.minima, b.canvas.minima, 30 * sizeof(uint32_t)) != 0);
    coarse_bucketer_canvas_free(&other);
    coarse_bucketer_free(&b);
}

/* The snapping mode: a screen of 1,366 x 768 pixels has 342 tiles in a row. */
static void snapped_screen(void) {
    coarse_bucketer b;
    coarse_rect odd = {0, 0, 1366, 768}, turned = {7, 7, 5, 5}, past = {0, 0, 4097, 4}, end = {32765, 0, 32768, 4}, far_off = {0, 0, 4, 0xffffffffu};
    coarse_rect held;
    const coarse_segment last[] = {{0, 191, 0, 342, 0}};
    const coarse_draw draw = {.start = 0, .end = 1, .paint = 0, .blend = COARSE_DEFAULT_BLEND};
    const coarse_piece *pieces;
    coarse_lengths sizes = {0, 0, 0, 0, 0, 0, 0, 0, 0, 0, 0};
    size_t count = 0;
    expect("exact, it is refused", COARSE_BAD_VIEWPORT, coarse_bucketer_new(&b, odd, small));
    expect("exact, it has no sizes", COARSE_BAD_VIEWPORT, coarse_sizes(odd, small, &sizes));
    expect("snapping, it has", COARSE_DONE, coarse_sizes(odd, snapping, &sizes));
    expect("192 rows of 8 commands", 192 * 32, (uint32_t)sizes.render_cmds);
    expect("192 rows of 11 buckets", 192 * 11, (uint32_t)sizes.depth);
    expect("with 31 minima", 192 * 31, (uint32_t)sizes.minima);
    expect("snapping, it is a screen", COARSE_DONE, coarse_bucketer_new(&b, odd, snapping));
    held = coarse_bucketer_viewport(&b);
    expect("to the next tile edge", 1368, held.x1);
    expect("its rows", 192, (uint32_t)coarse_bucketer_rows(&b));
    expect("its buckets", 11, (uint32_t)coarse_bucketer_buckets(&b));
    expect("a fill to the last tile", COARSE_DONE, coarse_bucketer_generate_fill(&b, paints, 2, last, 1, &draw));
    expect("painting", COARSE_DONE, coarse_bucketer_begin_painting(&b));
    expect("the last row", COARSE_DONE, coarse_bucketer_paint_row(&b, 191, &pieces, &count));
    expect("in two pieces", 2, (uint32_t)count);
    expect("to the end of the buckets", 320, count == 2 ? pieces[0].end : 0);
    expect("and to the last tile", 342, count == 2 ? pieces[1].end : 0);

    /* Ends before starts are judged once they are snapped, and so are the limits. */
    expect("7 to 5", COARSE_DONE, coarse_bucketer_reset(&b, turned));
    held = coarse_bucketer_viewport(&b);
    expect("is 4", 4, held.x0);
    expect("to 8", 8, held.x1);
    expect("down too, 4", 4, held.y0);
    expect("to 8, down", 8, held.y1);
    expect("exact, 7 to 5 is refused", COARSE_BAD_VIEWPORT, reset(&b, turned, small));
    expect("4,097 is 4,100", COARSE_BAD_VIEWPORT, coarse_bucketer_reset(&b, past));
    expect("an end past every limit", COARSE_BAD_VIEWPORT, coarse_bucketer_reset(&b, far_off));
    expect("the last tile of all", COARSE_DONE, coarse_bucketer_reset(&b, end));
    held = coarse_bucketer_viewport(&b);
    expect("starts at 32,764", 32764, held.x0);

    /* A recording's viewport is read in the bucketer's mode: 510 x 3 pixels are 128 tiles of one row. */
    const uint32_t file[] = {1, 0, 0, 510, 3, 1, 1, 1, 0, 0, 1, 0, 0, 0, 128, 0, 1, 0, 0, 1, 0, 0, 3, 0, 0, 1, 0, 1, 0, 1, 0, 1};
    coarse_reason reason = {7, 7, 7, 7};
    expect("a recording", COARSE_DONE, coarse_bucketer_bucket_commands(&b, COARSE_EDITION_ONE, file, 32));
    expect("on a screen of 4 buckets", 4, (uint32_t)coarse_bucketer_buckets(&b));
    expect("its last tile", COARSE_DONE, coarse_bucketer_why(&b, COARSE_EDITION_ONE, file, 32, 0, 127, 0, 0, &reason));
    expect("shows the draw", COARSE_SHOWN, reason.reason);
    expect("a tile past it", COARSE_BAD_RUN, coarse_bucketer_why(&b, COARSE_EDITION_ONE, file, 32, 0, 128, 0, 0, &reason));
    expect("exact, it is refused", COARSE_BAD_VIEWPORT, record(&b, file, 32, small));
    expect("and so is the question", COARSE_BAD_VIEWPORT, why(&b, file, 32, small, 0));
    coarse_bucketer_free(&b);
}

/* One draw over tiles 0 to 64 of a screen of 256 x 8. */
static const uint32_t one_draw[] = {1, 0, 0, 256, 8, 1, 1, 1, 0, 0, 1, 0, 0, 0, 64, 0, 1, 0, 0, 1, 0, 0, 3, 0, 0, 1, 0, 1, 0, 1, 0, 1};

/* What a refused call for sizes is to leave. */
static const coarse_lengths sevens = {7, 7, 7, 7, 7, 7, 7, 7, 7, 7, 7};

/* Words that ask for no setup: every call that takes them gives this answer, a recording and a question after their 3. */
static void unasked(uint32_t answer, coarse_bucketer *b, coarse_rect viewport, coarse_setup setup, coarse_lengths *sizes) {
    coarse_bucketer other;
    expect("no screen of it", answer, coarse_bucketer_new(&other, viewport, setup));
    expect("no sizes", answer, coarse_sizes(viewport, setup, sizes));
    expect("no reset", answer, reset(b, viewport, setup));
    expect("no recording", answer, record(b, one_draw, 32, setup));
    expect("a cut recording's form first", COARSE_BAD_FORM, record(b, one_draw, 31, setup));
    expect("no reason", answer, why(b, one_draw, 32, setup, 0));
    expect("a cut recording's form first, asked why", COARSE_BAD_FORM, why(b, one_draw, 31, setup, 0));
}

/* A mode above 1 is refused by 4 with nothing changed, whatever the viewport and C; of a recording after its 3. */
static void no_mode(void) {
    coarse_bucketer b;
    coarse_rect narrow = {0, 0, 256, 8}, bad = {0, 0, 2, 4};
    coarse_lengths sizes = sevens;
    uint32_t modes[] = {2, 3, 0xffffffffu}, before;
    size_t i;
    expect("a screen", COARSE_DONE, coarse_bucketer_new(&b, narrow, small));
    expect("with a fill", COARSE_DONE, coarse_bucketer_generate_fill(&b, paints, 2, segments, 2, &both));
    before = sum(&b);
    for (i = 0; i < 3; i++) {
        coarse_setup setup = {8, 8, modes[i], COARSE_128}, empty = {0, 8, modes[i], COARSE_128};
        unasked(COARSE_BAD_RECORD, &b, narrow, setup, &sizes);
        expect("no sizes of a bad viewport", COARSE_BAD_RECORD, coarse_sizes(bad, empty, &sizes));
        expect("no reset to a bad viewport", COARSE_BAD_RECORD, reset(&b, bad, empty));
    }
    expect("nothing has changed", before, sum(&b));
    expect("the sizes stay", 0, memcmp(&sizes, &sevens, sizeof sizes) != 0);
    /* With a mode, the viewport and the arenas come before a word that is no flag. */
    b.state.painting = 2;
    expect("a bad viewport before a bad state", COARSE_BAD_VIEWPORT, reset(&b, bad, small));
    expect("a bad state", COARSE_BAD_RECORD, reset(&b, narrow, small));
    expect("a bad state, snapping", COARSE_BAD_RECORD, reset(&b, narrow, snapping));
    expect("no mode and a bad state", COARSE_BAD_RECORD, reset(&b, bad, (coarse_setup){8, 8, 2, COARSE_128}));
    expect("a cut recording before both", COARSE_BAD_FORM, record(&b, one_draw, 31, (coarse_setup){8, 8, 2, COARSE_128}));
    coarse_bucketer_free(&b);
}

/* One solid fill over tiles 16 to 80 of a row of 128: whole buckets of it are depth fills, at each width. */
static void widths(void) {
    static const struct { uint32_t width, buckets, fills, first, end; size_t pieces; } each[] = {
        {COARSE_64, 8, 1, 16, 80, 1}, {COARSE_128, 4, 1, 32, 64, 3}, {COARSE_256, 2, 0, 16, 80, 1}};
    static const coarse_segment over[] = {{0, 0, 16, 80, 0}};
    static const coarse_draw draw = {.start = 0, .end = 1, .paint = 0, .blend = COARSE_DEFAULT_BLEND_INIT};
    const coarse_piece *pieces = NULL;
    size_t i, count = 0;
    coarse_parts parts;
    for (i = 0; i < 3; i++) {
        coarse_bucketer b;
        coarse_setup setup = {8, 8, COARSE_EXACT, each[i].width};
        expect("a screen", COARSE_DONE, coarse_bucketer_new(&b, (coarse_rect){0, 0, 512, 4}, setup));
        expect("of that width", each[i].width, coarse_bucketer_bucket_width(&b));
        expect("its buckets", each[i].buckets, (uint32_t)coarse_bucketer_buckets(&b));
        expect("and its depth words", each[i].buckets, (uint32_t)b.sizes.depth);
        expect("a fill", COARSE_DONE, coarse_bucketer_generate_fill(&b, paints, 2, over, 1, &draw));
        expect("its depth fills", each[i].fills, b.tables.rows[1]);
        expect("painting", COARSE_DONE, coarse_bucketer_begin_painting(&b));
        expect("the row", COARSE_DONE, coarse_bucketer_paint_row(&b, 0, &pieces, &count));
        expect("its pieces", (uint32_t)each[i].pieces, (uint32_t)count);
        expect("the first", each[i].first, count ? pieces[0].first : 0);
        expect("to its end", each[i].end, count ? pieces[0].end : 0);
        expect("the same split", COARSE_DONE, coarse_split_opaque_span((coarse_span){16, 80}, each[i].width, &parts));
        expect("in as many parts", (uint32_t)each[i].pieces, parts.right.kind ? 3u : parts.middle.kind ? 2u : 1u);
        coarse_bucketer_free(&b);
    }
}

/* A width that is none is refused by 2 with nothing changed, before 1 and 4; of a recording after its 3. */
static void no_width(void) {
    coarse_bucketer b;
    coarse_rect narrow = {0, 0, 256, 8};
    coarse_lengths sizes = sevens;
    uint32_t none[] = {0, 1, 16, 32, 63, 65, 96, 127, 129, 255, 257, 512, 0xffffffffu}, before;
    const coarse_parts seven = {{7, 7, 7}, {7, 7, 7}, {7, 7, 7}};
    coarse_parts parts = seven;
    size_t i;
    expect("a screen", COARSE_DONE, coarse_bucketer_new(&b, narrow, (coarse_setup){8, 8, COARSE_EXACT, COARSE_64}));
    expect("with a fill", COARSE_DONE, coarse_bucketer_generate_fill(&b, paints, 2, segments, 2, &both));
    before = sum(&b);
    for (i = 0; i < sizeof none / sizeof none[0]; i++) {
        coarse_setup setup = {8, 8, COARSE_EXACT, none[i]}, empty = {0, 8, 2, none[i]};
        unasked(COARSE_BAD_VIEWPORT, &b, narrow, setup, &sizes);
        unasked(COARSE_BAD_VIEWPORT, &b, narrow, empty, &sizes);
        expect("no split", COARSE_BAD_VIEWPORT, coarse_split_opaque_span((coarse_span){0, 64}, none[i], &parts));
        expect("nor of a bad range", COARSE_BAD_VIEWPORT, coarse_split_opaque_span((coarse_span){64, 0}, none[i], &parts));
    }
    expect("nothing has changed", before, sum(&b));
    expect("the parts stay", 0, memcmp(&parts, &seven, sizeof parts) != 0);
    expect("the sizes stay", 0, memcmp(&sizes, &sevens, sizeof sizes) != 0);
    /* The screen's own word: 2 and 1 come before its 4. */
    b.state.width = 3;
    expect("a bad viewport before a bad word", COARSE_BAD_VIEWPORT, reset(&b, (coarse_rect){0, 0, 2, 4}, small));
    expect("a bad word", COARSE_BAD_RECORD, coarse_bucketer_pop_layer(&b, NULL, 0));
    expect("its depth arena first, read as 128", COARSE_BAD_ARENA, coarse_bucketer_begin_painting(&b));
    coarse_bucketer_free(&b);
}

static void owned_tables(void) {
    coarse_bucketer b;
    coarse_rect narrow = {0, 0, 256, 8}, wide = {0, 0, 4096, 2048}, bad = {0, 0, 2, 4};
    coarse_setup none = {0, 8, COARSE_EXACT, COARSE_128};
    const coarse_piece *pieces;
    const coarse_run *runs;
    size_t count = 0;
    int finished = 0, yes = 0;
    expect("a bad viewport", COARSE_BAD_VIEWPORT, coarse_bucketer_new(&b, bad, small));
    expect("no room at all", COARSE_BAD_ARENA, coarse_bucketer_new(&b, narrow, none));
    expect("a screen", COARSE_DONE, coarse_bucketer_new(&b, narrow, small));
    expect("its rows", 2, (uint32_t)coarse_bucketer_rows(&b));
    expect("its buckets", 2, (uint32_t)coarse_bucketer_buckets(&b));
    expect("a larger one", COARSE_DONE, coarse_bucketer_reset(&b, wide));
    expect("refused, it stays", COARSE_BAD_VIEWPORT, coarse_bucketer_reset(&b, bad));
    expect("its rows stay", 512, (uint32_t)coarse_bucketer_rows(&b));
    expect("and back", COARSE_DONE, coarse_bucketer_reset(&b, narrow));

    coarse_clip clip = {{0, 0, 64, 4}, 0, 1, 3};
    coarse_layer_props layer = {.blend = COARSE_DEFAULT_BLEND, .opacity = 0.5f, .clip = &clip};
    coarse_layer_props plain = {.blend = COARSE_DEFAULT_BLEND, .opacity = 1.0f};
    coarse_placement placement = {{0, 0, 8, 3}, 4, 0};
    expect("a fill", COARSE_DONE, coarse_bucketer_generate_fill(&b, paints, 2, segments, 2, &both));
    expect("a clipped layer", COARSE_DONE, coarse_bucketer_push_layer(&b, &layer));
    expect("painting with it open", COARSE_OPEN, coarse_bucketer_begin_painting(&b));
    expect("a fill in it", COARSE_DONE, coarse_bucketer_generate_fill(&b, paints, 2, segments, 2, &both));
    expect("closed", COARSE_DONE, coarse_bucketer_pop_layer(&b, segments, 2));
    expect("a plain layer", COARSE_DONE, coarse_bucketer_push_layer(&b, &plain));
    expect("closed without a list", COARSE_DONE, coarse_bucketer_pop_layer(&b, NULL, 0));
    uint32_t first = 0, too_large = 2147483648u;
    expect("no picture", COARSE_DONE, coarse_bucketer_generate_filter_layer_fill(&b, NULL, &placement, 2, 0));
    expect("is not drawn", 2, (uint32_t)coarse_bucketer_paint_attr_count(&b));
    expect("a handle of 2^31", COARSE_BAD_RECORD, coarse_bucketer_generate_filter_layer_fill(&b, &too_large, &placement, 2, 0));
    expect("a flag of 2", COARSE_BAD_RECORD, filter_fill(&b, 2, 9, 0));
    expect("no picture, any handle", COARSE_DONE, filter_fill(&b, 0, too_large, 0));
    expect("the first picture", COARSE_DONE, coarse_bucketer_generate_filter_layer_fill(&b, &first, &placement, 2, 0));
    expect("is number 0", 0, (uint32_t)b.tables.filter_paints[1]);
    expect("a step too early", COARSE_OPEN, coarse_bucketer_paint_step(&b, 0, &finished, &pieces, &count));
    expect("painting", COARSE_DONE, coarse_bucketer_begin_painting(&b));
    expect("a step", COARSE_DONE, coarse_bucketer_paint_step(&b, 0, &finished, &pieces, &count));
    expect("its piece", 1, (uint32_t)count);
    expect("is the first fill's depth fill", 64, pieces[0].end);
    expect("the rest", COARSE_DONE, coarse_bucketer_paint_row(&b, 0, &pieces, &count));
    expect("no such row", COARSE_BAD_RUN, coarse_bucketer_paint_row(&b, 2, &pieces, &count));
    expect("skips", COARSE_DONE, coarse_bucketer_can_skip(&b, 0, 0, 64, 1, &yes));
    expect("yes for the newest id", 1, (uint32_t)yes);
    expect("unset", COARSE_DONE, coarse_bucketer_unset_runs(&b, 1, 0, 64, &runs, &count));
    expect("one run", 1, (uint32_t)count);
    expect("visible", COARSE_DONE, coarse_bucketer_visible_runs(&b, 0, 0, 64, 0, &runs, &count));
    expect("none below the depth fill", 0, (uint32_t)count);
    expect("written", COARSE_DONE, coarse_bucketer_unset_runs_and_write(&b, 1, 0, 2, 5, &runs, &count));
    expect("painting has ended", COARSE_OPEN, coarse_bucketer_paint_step(&b, 1, &finished, &pieces, &count));
    expect("paint attributes", 3, (uint32_t)coarse_bucketer_paint_attr_count(&b));
    expect("a filter fill's paint follows the list", 2, coarse_bucketer_paint_attrs(&b, 2).paint);
    expect("layer attributes", 2, (uint32_t)coarse_bucketer_layer_attr_count(&b));
    expect("a clip's thread", 3, coarse_bucketer_layer_attrs(&b, 0).thread);
    expect("half opacity", 1, coarse_bucketer_layer_attrs(&b, 0).opacity == 0.5f);
    expect("a panel left out of a fill", 0, coarse_bucketer_paint_attrs(&b, 0).panel);
    expect("and of a layer", 0, coarse_bucketer_layer_attrs(&b, 0).panel);

    /* A recording on a viewport of its own: one refused by 3 leaves the screen, one that is done brings its tables. */
    const uint32_t file[] = {1, 0, 0, 512, 4, 1, 1, 1, 0, 0, 1, 0, 0, 0, 128, 0, 1, 0, 0, 1, 0, 0, 3, 0, 0, 1, 0, 1, 0, 1, 0, 1};
    expect("a cut recording", COARSE_BAD_FORM, coarse_bucketer_bucket_commands(&b, COARSE_EDITION_ONE, file, 31));
    expect("the screen stays", 2, (uint32_t)coarse_bucketer_buckets(&b));
    expect("its fills stay", 3, (uint32_t)coarse_bucketer_paint_attr_count(&b));
    expect("a recording", COARSE_DONE, coarse_bucketer_bucket_commands(&b, COARSE_EDITION_ONE, file, 32));
    expect("brings its screen", 4, (uint32_t)coarse_bucketer_buckets(&b));
    expect("and its fill", 1, (uint32_t)coarse_bucketer_paint_attr_count(&b));
    expect("painted", COARSE_DONE, coarse_bucketer_begin_painting(&b));
    expect("to its end", COARSE_DONE, coarse_bucketer_paint_row(&b, 0, &pieces, &count));
    expect("in one piece", 1, (uint32_t)count);

    /* Why a tile of it shows what it shows: tiles 0 to 128 of one row, filled by one draw. */
    coarse_reason reason = {7, 7, 7, 7};
    expect("a tile past the end", COARSE_BAD_RUN, coarse_bucketer_why(&b, COARSE_EDITION_ONE, file, 32, 0, 128, 0, 0, &reason));
    expect("a row past the end", COARSE_BAD_RUN, coarse_bucketer_why(&b, COARSE_EDITION_ONE, file, 32, 1, 0, 0, 0, &reason));
    expect("a cut recording's tile", COARSE_BAD_FORM, coarse_bucketer_why(&b, COARSE_EDITION_ONE, file, 31, 1, 0, 0, 0, &reason));
    expect("refused, no reason", 7, reason.reason);
    expect("nor a panel", 7, reason.panel);
    expect("the screen is the recording's", 4, (uint32_t)coarse_bucketer_buckets(&b));
    expect("its last tile", COARSE_DONE, coarse_bucketer_why(&b, COARSE_EDITION_ONE, file, 32, 0, 127, 0, 0, &reason));
    expect("shows the draw", COARSE_SHOWN, reason.reason);
    expect("in its first place", 0, reason.number);
    expect("of panel 0, as all of edition one", 0, reason.panel);
    expect("hidden by none", 0, reason.hider_panel);
    expect("a layer's attribute", COARSE_DONE, coarse_bucketer_why(&b, COARSE_EDITION_ONE, file, 32, 0, 127, 1, 0, &reason));
    expect("is not there", COARSE_UNKNOWN_ATTRIBUTE, reason.reason);
    expect("and has no panel", 0, reason.panel);
    expect("neither draw nor layer", COARSE_BAD_RECORD, why(&b, file, 32, small, 2));
    expect("of a cut recording", COARSE_BAD_FORM, why(&b, file, 31, small, 2));
    expect("as many as there are", COARSE_DONE, why(&b, file, 32, small, 0));

    /* Two such draws: the second hides the first. */
    const uint32_t two[] = {1, 0, 0, 512, 4, 1, 1, 1, 0, 0, 1, 0, 0, 0, 128, 0, 2, 0, 0, 1, 0, 0, 3, 0, 0, 0, 1, 0, 0, 3, 0, 0, 1, 0, 2, 0, 1, 0, 1};
    reason = (coarse_reason){7, 7, 7, 7};
    expect("the first of two", COARSE_DONE, coarse_bucketer_why(&b, COARSE_EDITION_ONE, two, 39, 0, 5, 0, 0, &reason));
    expect("is hidden", COARSE_HIDDEN, reason.reason);
    expect("by the second", 1, reason.number);
    expect("its panel", 0, reason.panel);
    expect("and the second's", 0, reason.hider_panel);
    coarse_bucketer_free(&b);
}

/* Recordings of either edition, told apart by the number alone. In edition two a draw has its panel, and so has what is painted of it. */
static void editions(void) {
    /* Two draws over one another on 128 tiles of one row; in edition two of the panels 5 and 255. */
    const uint32_t one[] = {1, 0, 0, 512, 4, 1, 1, 1, 0, 0, 1, 0, 0, 0, 128, 0, 2, 0, 0, 1, 0, 0, 3, 0, 0, 0, 1, 0, 0, 3, 0, 0, 1, 0, 2, 0, 1, 0, 1};
    uint32_t two[] = {1, 2, 1, 0, 0, 512, 4, 1, 1, 1, 0, 0, 1, 0, 0, 0, 128, 0, 2, 0, 0, 1, 0, 0, 3, 0, 5, 0, 0, 1, 0, 0, 3, 0, 255, 0, 1, 0, 2, 0, 1, 0, 1};
    /* A layer of panel 7 with a draw of panel 9 in it, and a filter layer of panel 8 with a picture. */
    const uint32_t layers[] = {1, 2, 1, 0, 0, 512, 4, 1, 1, 1, 0, 0, 1, 0, 0, 0, 128, 0, 1, 0, 0, 1, 0, 0, 3, 0, 9,
                               2, 0, 0, 1, 0, 3, 0x3f800000, 0, 0, 0, 0, 0, 0, 0, 0, 0, 0, 0, 0, 0, 0, 0, 0, 7,
                               1, 0, 0, 0, 3, 0x3f800000, 0, 0, 0, 0, 0, 0, 0, 0, 0, 1, 0, 0, 8, 3, 4, 0, 8, 3, 0, 1, 0, 0, 0, 1, 0, 0, 2, 1, 1, 3};
    /* Words that have the form of both editions: with no draws and layers, or with four draws. */
    const uint32_t both[] = {1, 2, 1, 254, 7, 0, 0, 4, 0, 0, 0, 0, 0, 0, 0, 0, 0, 0, 0, 0, 0, 0, 0, 0, 2, 0, 0, 0, 0, 0, 0, 0, 0, 0, 0, 0, 0, 0, 1, 0, 0};
    const coarse_piece *pieces;
    coarse_bucketer b;
    coarse_reason reason = {7, 7, 7, 7};
    coarse_setup no_width = {8, 8, COARSE_EXACT, 7}, no_mode = {8, 8, 2, COARSE_128};
    size_t count = 0;
    uint32_t held, number;
    expect("a screen", COARSE_DONE, coarse_bucketer_new(&b, (coarse_rect){0, 0, 256, 8}, small));
    expect("edition one", COARSE_DONE, coarse_bucketer_bucket_commands(&b, COARSE_EDITION_ONE, one, 39));
    expect("edition two", COARSE_DONE, coarse_bucketer_bucket_commands(&b, COARSE_EDITION_TWO, two, 43));
    expect("brings its screen", 4, (uint32_t)coarse_bucketer_buckets(&b));
    expect("the first draw's panel", 5, coarse_bucketer_paint_attrs(&b, 0).panel);
    expect("the second's", 255, coarse_bucketer_paint_attrs(&b, 1).panel);
    expect("painting", COARSE_DONE, coarse_bucketer_begin_painting(&b));
    expect("its row", COARSE_DONE, coarse_bucketer_paint_row(&b, 0, &pieces, &count));
    expect("the second alone", 1, (uint32_t)count);
    expect("whose it is", 255, count ? pieces[0].panel : 0);
    expect("why the first is hidden", COARSE_DONE, coarse_bucketer_why(&b, COARSE_EDITION_TWO, two, 43, 0, 5, 0, 0, &reason));
    expect("it is hidden", COARSE_HIDDEN, reason.reason);
    expect("it is of panel 5", 5, reason.panel);
    expect("below panel 255", 255, reason.hider_panel);

    /* The number is believed, and judged before all else. */
    held = sum(&b);
    expect("one is not two", COARSE_BAD_FORM, coarse_bucketer_bucket_commands(&b, COARSE_EDITION_TWO, one, 39));
    expect("two is not one", COARSE_BAD_FORM, coarse_bucketer_bucket_commands(&b, COARSE_EDITION_ONE, two, 43));
    for (number = 0; number < 5; number++) {
        if (number == COARSE_EDITION_ONE || number == COARSE_EDITION_TWO)
            continue;
        expect("no edition", COARSE_BAD_FORM, coarse_bucketer_bucket_commands(&b, number, one, 39));
        expect("no edition of two either", COARSE_BAD_FORM, coarse_bucketer_bucket_commands(&b, number, two, 43));
        expect("nor a reason of it", COARSE_BAD_FORM, coarse_bucketer_why(&b, number, two, 43, 0, 5, 0, 0, &reason));
        expect("before a width that is none", COARSE_BAD_FORM, coarse_bucket_recording(&b.state, number, one, 39, no_width, &b.tables));
        expect("before a mode that is none", COARSE_BAD_FORM, coarse_bucket_recording(&b.state, number, one, 39, no_mode, &b.tables));
    }
    expect("a width that is none", COARSE_BAD_VIEWPORT, coarse_bucket_recording(&b.state, COARSE_EDITION_TWO, two, 43, no_width, &b.tables));
    expect("of one it is none", COARSE_BAD_FORM, coarse_bucket_recording(&b.state, COARSE_EDITION_TWO, one, 39, no_width, &b.tables));
    expect("nothing changes", held, sum(&b));
    two[34] = 256;
    expect("a panel of 256", COARSE_BAD_RECORD, coarse_bucketer_bucket_commands(&b, COARSE_EDITION_TWO, two, 43));

    /* A layer's panel goes to its attribute, and a filter layer's to what its picture is drawn with. */
    expect("layers", COARSE_DONE, coarse_bucketer_bucket_commands(&b, COARSE_EDITION_TWO, layers, 87));
    expect("the draw's", 9, coarse_bucketer_paint_attrs(&b, 0).panel);
    expect("the picture's", 8, coarse_bucketer_paint_attrs(&b, 1).panel);
    expect("the layer's", 7, coarse_bucketer_layer_attrs(&b, 0).panel);

    /* Words of both editions are those of the edition that is told: 2 to 254 pixels with bad draws, or 254 to 0. */
    coarse_bucketer_free(&b);
    expect("a screen that snaps", COARSE_DONE, coarse_bucketer_new(&b, (coarse_rect){0, 0, 256, 8}, snapping));
    expect("both, as one", COARSE_BAD_RECORD, coarse_bucketer_bucket_commands(&b, COARSE_EDITION_ONE, both, 41));
    expect("both, as two", COARSE_BAD_VIEWPORT, coarse_bucketer_bucket_commands(&b, COARSE_EDITION_TWO, both, 41));
    coarse_bucketer_free(&b);
}

/* A recording in the other edition. Done, its words stand first, and no word after them changes; refused, none changes. */
static void conversions(void) {
    const uint32_t one[] = {1, 0, 0, 510, 3, 1, 1, 1, 0, 7, 1, 0, 0, 0, 128, 0, 1, 0, 0, 1, 0, 0, 3, 0, 0, 1, 0, 1, 0, 1, 0, 1};
    uint32_t two[] = {1, 2, 1, 0, 0, 510, 3, 1, 1, 1, 0, 7, 1, 0, 0, 0, 128, 0, 1, 0, 0, 1, 0, 0, 3, 0, 0, 0, 1, 0, 1, 0, 1, 0, 1};
    uint32_t out[40], i;
    size_t words = 77;
    for (i = 0; i < 40; i++)
        out[i] = 1000 + i;
    expect("exact, it is refused", COARSE_BAD_VIEWPORT, coarse_to_edition_two(one, 32, COARSE_EXACT, out, 40, &words));
    expect("no such mode", COARSE_BAD_RECORD, coarse_to_edition_two(one, 32, 2, out, 40, &words));
    expect("the form before it", COARSE_BAD_FORM, coarse_to_edition_two(one, 31, 2, out, 40, &words));
    expect("no words", COARSE_BAD_FORM, coarse_to_edition_two(NULL, 0, COARSE_EXACT, out, 40, &words));
    expect("two is not one", COARSE_BAD_FORM, coarse_to_edition_two(two, 35, COARSE_SNAPPING, out, 40, &words));
    expect("one is not two", COARSE_BAD_FORM, coarse_to_edition_one(one, 32, COARSE_SNAPPING, out, 40, &words));
    expect("one is not two in no mode", COARSE_BAD_FORM, coarse_to_edition_one(one, 32, 2, out, 40, &words));
    expect("a word too few", COARSE_NO_ROOM, coarse_to_edition_two(one, 32, COARSE_SNAPPING, out, 34, &words));
    expect("no list", COARSE_NO_ROOM, coarse_to_edition_two(one, 32, COARSE_SNAPPING, NULL, 0, &words));
    two[26] = 9;
    expect("a panel", COARSE_HAS_PANELS, coarse_to_edition_one(two, 35, COARSE_SNAPPING, out, 40, &words));
    expect("before the room", COARSE_HAS_PANELS, coarse_to_edition_one(two, 35, COARSE_SNAPPING, NULL, 0, &words));
    two[26] = 256;
    expect("a panel that is none", COARSE_BAD_RECORD, coarse_to_edition_one(two, 35, COARSE_SNAPPING, out, 40, &words));
    two[26] = 0;
    expect("how many", 77, (uint32_t)words);
    for (i = 0; i < 40; i++)
        expect("a word", 1000 + i, out[i]);
    expect("to edition two", COARSE_DONE, coarse_to_edition_two(one, 32, COARSE_SNAPPING, out, 35, &words));
    expect("three words more", 35, (uint32_t)words);
    for (i = 0; i < 40; i++)
        expect("each", i < 35 ? two[i] : 1000 + i, out[i]);
    expect("and back", COARSE_DONE, coarse_to_edition_one(two, 35, COARSE_SNAPPING, out, 40, &words));
    expect("to as many", 32, (uint32_t)words);
    for (i = 0; i < 40; i++)
        expect("each", i < 32 ? one[i] : i < 35 ? two[i] : 1000 + i, out[i]);
}

/* A tile's list, of the recording alone. Done, its entries' words stand first, and no word after them changes; refused, none changes. */
static void tile_lists(void) {
    const uint32_t one[] = {1, 0, 0, 510, 3, 1, 1, 1, 0, 7, 1, 0, 0, 0, 128, 0, 1, 0, 0, 1, 0, 0, 3, 0, 0, 1, 0, 1, 0, 1, 0, 1};
    uint32_t two[] = {1, 2, 1, 0, 0, 510, 3, 1, 1, 1, 0, 7, 1, 0, 0, 0, 128, 0, 1, 0, 0, 1, 0, 0, 3, 0, 9, 0, 1, 0, 1, 0, 1, 0, 1};
    uint32_t entry[] = {COARSE_PAINT_FILL, 0, 127, 128, 0, 0, 0}, out[20], i;
    size_t entries = 77;
    for (i = 0; i < 20; i++)
        out[i] = 1000 + i;
    expect("no edition", COARSE_BAD_FORM, coarse_list_tile(3, one, 32, COARSE_SNAPPING, COARSE_128, 0, 127, out, 20, &entries));
    expect("no words", COARSE_BAD_FORM, coarse_list_tile(COARSE_EDITION_ONE, NULL, 0, COARSE_SNAPPING, COARSE_128, 0, 127, out, 20, &entries));
    expect("the form before the width", COARSE_BAD_FORM, coarse_list_tile(COARSE_EDITION_ONE, one, 31, 2, 100, 0, 127, out, 20, &entries));
    expect("the width before the mode", COARSE_BAD_VIEWPORT, coarse_list_tile(COARSE_EDITION_ONE, one, 32, 2, 100, 0, 127, out, 20, &entries));
    expect("the mode before the viewport", COARSE_BAD_RECORD, coarse_list_tile(COARSE_EDITION_ONE, one, 32, 2, COARSE_128, 0, 127, out, 20, &entries));
    expect("exact, it is refused", COARSE_BAD_VIEWPORT, coarse_list_tile(COARSE_EDITION_ONE, one, 32, COARSE_EXACT, COARSE_128, 0, 127, out, 20, &entries));
    two[26] = 256;
    expect("a panel that is none", COARSE_BAD_RECORD, coarse_list_tile(COARSE_EDITION_TWO, two, 35, COARSE_SNAPPING, COARSE_128, 9, 9, out, 20, &entries));
    two[26] = 9;
    expect("a row off the screen", COARSE_BAD_RUN, coarse_list_tile(COARSE_EDITION_ONE, one, 32, COARSE_SNAPPING, COARSE_128, 1, 127, NULL, 0, &entries));
    expect("a tile off the screen", COARSE_BAD_RUN, coarse_list_tile(COARSE_EDITION_ONE, one, 32, COARSE_SNAPPING, COARSE_128, 0, 128, NULL, 0, &entries));
    expect("no list", COARSE_NO_ROOM, coarse_list_tile(COARSE_EDITION_ONE, one, 32, COARSE_SNAPPING, COARSE_128, 0, 127, NULL, 0, &entries));
    expect("a word too few", COARSE_NO_ROOM, coarse_list_tile(COARSE_EDITION_ONE, one, 32, COARSE_SNAPPING, COARSE_128, 0, 127, out, 6, &entries));
    expect("how many", 77, (uint32_t)entries);
    for (i = 0; i < 20; i++)
        expect("a word", 1000 + i, out[i]);
    expect("one entry", COARSE_DONE, coarse_list_tile(COARSE_EDITION_ONE, one, 32, COARSE_SNAPPING, COARSE_128, 0, 127, out, 7, &entries));
    expect("it is told", 1, (uint32_t)entries);
    for (i = 0; i < 20; i++)
        expect("each", i < 7 ? entry[i] : 1000 + i, out[i]);
    entry[6] = 9;
    expect("its panel", COARSE_DONE, coarse_list_tile(COARSE_EDITION_TWO, two, 35, COARSE_SNAPPING, COARSE_256, 0, 127, out, 20, &entries));
    for (i = 0; i < 20; i++)
        expect("each", i < 7 ? entry[i] : 1000 + i, out[i]);
}

/* The words of samples/worked.rec, then those of two opaque draws over one row of 4 buckets, then a viewport of 3 numbers. */
static const uint32_t recorded[] = {
    1, 0, 0, 256, 8, 1, 1, 1, 0, 0, 2, 0, 0, 10, 64, 0, 0, 1, 0, 8, 0, 2, 0, 0, 1, 0, 0, 3, 0, 0, 1, 2, 0, 0, 3, 0, 1, 0, 1, 2, 0, 3, 1056964608,
    0, 0, 0, 0, 0, 0, 0, 0, 0, 0, 0, 0, 0, 0, 0, 0, 2, 0, 1, 1, 1, 2, 0, 1, 0, 1,
    1, 0, 0, 512, 4, 1, 1, 1, 0, 0, 1, 0, 0, 0, 128, 0, 2, 0, 0, 1, 0, 0, 3, 0, 0, 0, 1, 0, 0, 3, 0, 0, 1, 0, 2, 0, 1, 0, 1,
    1, 0, 0, 256};
enum { WORKED = 69, HIDDEN = WORKED + 39, CUT = HIDDEN + 4, NUMBERS = 6 * 4 + 3 };
static const coarse_setup roomy = {64, 64, COARSE_EXACT, COARSE_128};

/* The numbers of a list, and after the totals what stood there. */
static void expect_numbers(const char *what, const uint64_t *want, size_t count, const uint64_t *table) {
    size_t i;
    for (i = 0; i < NUMBERS; i++)
        expect(what, i < count ? (uint32_t)want[i] : 1000 + (uint32_t)i, (uint32_t)table[i]);
}

static void clear_numbers(uint64_t *table) {
    size_t i;
    for (i = 0; i < NUMBERS; i++)
        table[i] = 1000 + i;
}

/* Recordings counted: six numbers each, then those of all. */
static void figures(void) {
    static const uint64_t three[] = {126, 126, 0, 5, 1, 0, 256, 128, 128, 0, 2, 0, 0, 0, 0, 0, 0, 1, 382, 254, 128, 5, 3, 1};
    static const uint64_t short_of_one[] = {126, 126, 0, 5, 1, 0, 0, 0, 0, 0, 0, 1, 126, 126, 0, 5, 1, 1};
    static const uint64_t short_of_both[] = {0, 0, 0, 0, 0, 1, 0, 0, 0, 0, 0, 1, 0, 0, 0, 0, 0, 2};
    static const uint64_t none[6] = {0, 0, 0, 0, 0, 0};
    const size_t ends[] = {WORKED, HIDDEN, CUT};
    coarse_bucketer b;
    coarse_state state;
    coarse_tables short_tables;
    uint32_t wide[HIDDEN];
    uint64_t table[NUMBERS];
    expect("a screen that has the words for either", COARSE_DONE, coarse_bucketer_new(&b, (coarse_rect){0, 0, 512, 8}, roomy));
    expect("a fill, so that its words are not all 0", COARSE_DONE, coarse_bucketer_generate_fill(&b, paints, 2, segments, 1, &(coarse_draw){.end = 1, .blend = {0, 3}}));
    state = b.state;
    clear_numbers(table);
    expect("none, with no room to point to", COARSE_DONE, coarse_figures(&state, COARSE_EDITION_ONE, NULL, 0, NULL, 0, roomy, &b.tables, table, NUMBERS));
    expect_numbers("of none", none, 6, table);
    expect("of none the state stays", 0, (uint32_t)memcmp(&state, &b.state, sizeof state) != 0);
    clear_numbers(table);
    expect("three recordings", COARSE_DONE, coarse_figures(&state, COARSE_EDITION_ONE, recorded, CUT, ends, 3, roomy, &b.tables, table, NUMBERS));
    expect_numbers("of three", three, 24, table);
    expect("the last that had a screen left it", 512, state.viewport.x1);
    expect("of its own height", 4, state.viewport.y1);
    clear_numbers(table);
    expect("exactly room for one", COARSE_DONE, coarse_figures(&state, COARSE_EDITION_ONE, recorded, WORKED, ends, 1, roomy, &b.tables, table, 12));
    expect("twice the same six", 126, (uint32_t)table[6]);
    expect("no more than that", 1012, (uint32_t)table[12]);
    expect("it left its screen", 256, state.viewport.x1);
    short_tables = b.tables;
    short_tables.minima_len = 6;
    clear_numbers(table);
    expect("6 minima, and the second recording has 7", COARSE_DONE,
           coarse_figures(&state, COARSE_EDITION_ONE, recorded, HIDDEN, ends, 2, roomy, &short_tables, table, NUMBERS));
    expect_numbers("the second is refused", short_of_one, 18, table);
    expect("the first left its screen", 256, state.viewport.x1);
    short_tables.layers_len = COARSE_LAYERS - 1;
    clear_numbers(table);
    expect("a word too few for open layers", COARSE_DONE,
           coarse_figures(&state, COARSE_EDITION_ONE, recorded, HIDDEN, ends, 2, roomy, &short_tables, table, NUMBERS));
    expect_numbers("each is refused", short_of_both, 18, table);
    coarse_bucketer_free(&b);
    memcpy(wide, recorded, HIDDEN * sizeof *wide);
    wide[WORKED + 4] = 12;
    expect("a screen that has the words for the first alone", COARSE_DONE, coarse_bucketer_new(&b, (coarse_rect){0, 0, 256, 8}, roomy));
    clear_numbers(table);
    expect("the second has more rows and more buckets", COARSE_DONE,
           coarse_figures(&b.state, COARSE_EDITION_ONE, wide, HIDDEN, ends, 2, roomy, &b.tables, table, NUMBERS));
    expect_numbers("the first's rows, which stand, are not counted for it", short_of_one, 18, table);
    coarse_bucketer_free(&b);
}

/* A list that is refused: nothing of what it is lent changes, and which number comes first. */
static void refused_figures(void) {
    const size_t ends[] = {WORKED, HIDDEN, CUT}, falling[] = {HIDDEN, WORKED, CUT}, past[] = {WORKED, HIDDEN, CUT + 1}, far[] = {SIZE_MAX};
    const coarse_setup no_mode = {64, 64, 2, COARSE_128}, neither = {64, 64, 2, 100};
    size_t *many = calloc(COARSE_MOST_RECORDINGS + 1, sizeof *many);
    uint64_t *long_table = calloc(COARSE_FIGURES * (COARSE_MOST_RECORDINGS + 2), sizeof *long_table), table[NUMBERS];
    uint32_t *words;
    coarse_bucketer b;
    coarse_state state;
    size_t i, n;
    expect("a screen", COARSE_DONE, coarse_bucketer_new(&b, (coarse_rect){0, 0, 512, 8}, roomy));
    n = (size_t)(b.tables.filter_paints - (int32_t *)b.block) + b.tables.filter_paints_len;
    words = calloc(n, sizeof *words);
    if (!many || !long_table || !words)
        exit(1);
    for (i = 0; i < n; i++)
        ((uint32_t *)b.block)[i] = (uint32_t)i;
    memcpy(words, b.block, n * sizeof *words);
    clear_numbers(table);
#define FIGURES(edition, words_len, ends, n, setup, room) coarse_figures(&b.state, edition, recorded, words_len, ends, n, setup, &b.tables, table, room)
    state = b.state;
    expect("no edition before no width", COARSE_BAD_FORM, FIGURES(3, CUT, falling, 3, neither, 0));
    expect("no width before no mode", COARSE_BAD_VIEWPORT, FIGURES(COARSE_EDITION_ONE, CUT, falling, 3, neither, 0));
    expect("no mode before no room", COARSE_BAD_RECORD, FIGURES(COARSE_EDITION_ONE, CUT, ends, 3, no_mode, 0));
    expect("an end that falls", COARSE_BAD_RECORD, FIGURES(COARSE_EDITION_ONE, CUT, falling, 3, roomy, NUMBERS));
    expect("an end that falls before no room", COARSE_BAD_RECORD, FIGURES(COARSE_EDITION_ONE, CUT, falling, 3, roomy, 0));
    expect("an end past the words", COARSE_BAD_RECORD, FIGURES(COARSE_EDITION_ONE, CUT, past, 3, roomy, NUMBERS));
    expect("the last of all numbers", COARSE_BAD_RECORD, FIGURES(COARSE_EDITION_ONE, CUT, far, 1, roomy, NUMBERS));
    expect("a number too few", COARSE_NO_ROOM, FIGURES(COARSE_EDITION_ONE, CUT, ends, 3, roomy, 23));
    expect("no room for the totals of none", COARSE_NO_ROOM, FIGURES(COARSE_EDITION_ONE, CUT, ends, 0, roomy, 5));
    expect("too many", COARSE_BAD_RECORD,
           coarse_figures(&b.state, COARSE_EDITION_ONE, NULL, 0, many, COARSE_MOST_RECORDINGS + 1, roomy, &b.tables, long_table, COARSE_FIGURES * (COARSE_MOST_RECORDINGS + 2)));
    expect("the state stays", 0, (uint32_t)memcmp(&state, &b.state, sizeof state) != 0);
    b.state.painting = state.painting = 2;
    expect("a state that is none before no room", COARSE_BAD_RECORD, FIGURES(COARSE_EDITION_ONE, CUT, ends, 3, roomy, 0));
    expect("that state stays too", 0, (uint32_t)memcmp(&state, &b.state, sizeof state) != 0);
    expect("every word stays", 0, (uint32_t)memcmp(words, b.block, n * sizeof *words) != 0);
    expect_numbers("every number stays", NULL, 0, table);
    for (i = 0; i < COARSE_FIGURES * (COARSE_MOST_RECORDINGS + 2); i++)
        expect("the long table stays", 0, (uint32_t)long_table[i]);
    b.state.painting = 0;
    expect("as many as there may be", COARSE_DONE,
           coarse_figures(&b.state, COARSE_EDITION_ONE, NULL, 0, many, COARSE_MOST_RECORDINGS, roomy, &b.tables, long_table, COARSE_FIGURES * (COARSE_MOST_RECORDINGS + 2)));
    expect("each is refused", COARSE_MOST_RECORDINGS, (uint32_t)long_table[COARSE_FIGURES * COARSE_MOST_RECORDINGS + 5]);
    coarse_bucketer_free(&b);
    free(many), free(long_table), free(words);
}

/* A row of 20 pieces on 2 buckets, which are more than a list holds at first: a depth fill over bucket 0, the fill below it, which shows in bucket 1
 * alone, and 18 fills above it. So many of its steps are painted already. */
static void row_of_20(coarse_bucketer *b, int steps) {
    static const coarse_segment list[] = {{0, 0, 0, 32, 0}, {1, 0, 0, 64, 0}};
    coarse_draw over = {.start = 0, .end = 1, .paint = 0, .blend = COARSE_DEFAULT_BLEND};
    coarse_draw plain = {.start = 1, .end = 2, .paint = 1, .blend = COARSE_DEFAULT_BLEND};
    const coarse_piece *pieces;
    size_t count;
    int i, finished;
    expect("a screen", COARSE_DONE, coarse_bucketer_new(b, (coarse_rect){0, 0, 256, 4}, (coarse_setup){32, 8, COARSE_EXACT, COARSE_128}));
    for (i = 0; i < 20; i++)
        expect("a fill", COARSE_DONE, coarse_bucketer_generate_fill(b, paints, 2, list, 2, i == 1 ? &over : &plain));
    expect("painting", COARSE_DONE, coarse_bucketer_begin_painting(b));
    for (i = 0; i < steps; i++)
        expect("a step", COARSE_DONE, coarse_bucketer_paint_step(b, 0, &finished, &pieces, &count));
}

/* The rest of that row, once so many of its steps are painted. */
static void rest_of_20(coarse_bucketer *b, size_t steps) {
    const coarse_piece *pieces = NULL;
    size_t i, count = 0;
    expect("the row", COARSE_DONE, coarse_bucketer_paint_row(b, 0, &pieces, &count));
    expect("all of it", 20 - (uint32_t)steps, (uint32_t)count);
    for (i = steps; i < 20 && i - steps < count; i++) {
        const coarse_piece *piece = pieces + (i - steps);
        expect("the depth fill first, then the others", i == 0 ? 1 : i == 1 ? 0 : (uint32_t)i, piece->attribute);
        expect("from where nothing hides it", i == 1 ? 32 : 0, piece->first);
        expect("to its end", i == 0 ? 32 : 64, piece->end);
    }
}

/* Memory that runs out at any block, and a step that is refused after others: the row is as it was, and what is asked for stays too. */
static void kept_rows(void) {
    coarse_bucketer b;
    const coarse_piece none = {0, 0, 0, 0, 0, 0, 0}, *pieces = &none;
    size_t count = 99;
    uint32_t before, *panel;
    int steps, had = 0;
    for (steps = 0; steps < 3; steps++) {
        uint32_t answer = COARSE_NO_MEMORY;
        for (had = 0; answer != COARSE_DONE && had < 9; had++) {
            row_of_20(&b, steps);
            before = sum(&b);
            pieces = &none, count = 99;
            blocks = (size_t)had;
            answer = coarse_bucketer_paint_row(&b, 0, &pieces, &count);
            blocks = SIZE_MAX;
            if (answer != COARSE_DONE) {
                expect("no memory for the row", COARSE_NO_MEMORY, answer);
                expect("it is as it was", before, sum(&b));
                expect("no pieces", 1, pieces == &none && count == 99);
                rest_of_20(&b, (size_t)steps);
            }
            coarse_bucketer_free(&b);
        }
        expect("memory ran out on the way", 1, answer == COARSE_DONE && had > 1);

        row_of_20(&b, steps);
        panel = b.tables.paint_attrs + 19 * COARSE_PAINT_ATTR + 8;
        *panel = 256;
        before = sum(&b);
        pieces = &none, count = 99;
        expect("the last step is refused", COARSE_BAD_RECORD, coarse_bucketer_paint_row(&b, 0, &pieces, &count));
        expect("the row is as it was", before, sum(&b));
        expect("no piece of it", 1, pieces == &none && count == 99);
        *panel = 0;
        rest_of_20(&b, (size_t)steps);
        coarse_bucketer_free(&b);
    }

    row_of_20(&b, 0);
    before = sum(&b);
    expect("no row 1", COARSE_BAD_RUN, coarse_bucketer_paint_row(&b, 1, &pieces, &count));
    expect("nor the last of all numbers", COARSE_BAD_RUN, coarse_bucketer_paint_row(&b, SIZE_MAX, &pieces, &count));
    expect("nothing has changed", before, sum(&b));
    blocks = 0;
    expect("no memory for other tables", COARSE_NO_MEMORY, coarse_bucketer_reset(&b, (coarse_rect){0, 0, 256, 8}));
    expect("nor for a recording's", COARSE_NO_MEMORY, coarse_bucketer_bucket_commands(&b, COARSE_EDITION_ONE, one_draw, 32));
    expect("the screen is as it was", before, sum(&b));
    blocks = SIZE_MAX;
    rest_of_20(&b, 0);
    coarse_bucketer_free(&b);
}

/* A call for runs that is refused, or has no memory for them, leaves what it was to give. */
static void kept_runs(void) {
    coarse_bucketer b;
    const coarse_run none = {0, 0}, *runs = &none;
    size_t i, count = 99;
    for (i = 0; i < 2; i++) {
        uint32_t want = i == 0 ? COARSE_NO_MEMORY : COARSE_BAD_RUN;
        expect("a screen", COARSE_DONE, coarse_bucketer_new(&b, (coarse_rect){0, 0, 256, 4}, small));
        blocks = i == 0 ? 0 : SIZE_MAX;
        expect("no unset runs", want, coarse_bucketer_unset_runs(&b, 0, 5, 4, &runs, &count));
        expect("no visible runs", want, coarse_bucketer_visible_runs(&b, 0, 5, 4, 1, &runs, &count));
        expect("none to write", want, coarse_bucketer_unset_runs_and_write(&b, 0, 0, 2, 0, &runs, &count));
        blocks = SIZE_MAX;
        expect("the runs stay", 1, runs == &none);
        expect("and their count", 99, (uint32_t)count);
        coarse_bucketer_free(&b);
    }
}

/* A viewport from tile 5 of row 2 on: what is handed in counts from the scene's corner, what comes out from the viewport's. */
static void coordinates(void) {
    static const coarse_segment list[] = {{0, 3, 7, 15, 0}, {1, 2, 0, 20, 0}, {1, 3, 8, 60, 160}};
    static const struct { uint32_t row, tag, first, end, alpha; } want[] = {
        {0, 2, 0, 15, 80}, {0, 1, 1, 3, 0}, {1, 2, 3, 55, 160}, {1, 2, 3, 10, 160}, {1, 3, 2, 10, 0}};
    coarse_bucketer b;
    coarse_clip clip = {{28, 12, 60, 16}, 0, 1, 0};
    coarse_layer_props layer = {.blend = COARSE_DEFAULT_BLEND, .opacity = 1.0f, .clip = &clip};
    coarse_draw draw = {.start = 1, .end = 3, .paint = 1, .blend = COARSE_DEFAULT_BLEND};
    coarse_placement placement = {{24, 9, 32, 11}, 4, 1};
    const coarse_piece *pieces;
    const coarse_run *runs;
    size_t count = 0, row, i, at = 0;
    uint32_t picture = 3;
    coarse_reason reason = {7, 7, 7, 7};
    expect("a screen", COARSE_DONE, coarse_bucketer_new(&b, (coarse_rect){20, 8, 276, 16}, small));
    expect("of 2 rows", 2, (uint32_t)coarse_bucketer_rows(&b));
    expect("a fill", COARSE_DONE, coarse_bucketer_generate_fill(&b, paints, 2, list, 3, &draw));
    expect("a clip", COARSE_DONE, coarse_bucketer_push_layer(&b, &layer));
    draw.start = 2;
    expect("the same fill in it", COARSE_DONE, coarse_bucketer_generate_fill(&b, paints, 2, list, 3, &draw));
    expect("closed", COARSE_DONE, coarse_bucketer_pop_layer(&b, list, 3));
    expect("a picture", COARSE_DONE, coarse_bucketer_generate_filter_layer_fill(&b, &picture, &placement, 2, 0));
    expect("its shift", (uint32_t)-20, (uint32_t)b.tables.filter_paints[2]);
    expect("down too", (uint32_t)-8, (uint32_t)b.tables.filter_paints[3]);
    expect("a fill's origin", 20, coarse_bucketer_paint_attrs(&b, 0).origin_x);
    expect("and down", 8, coarse_bucketer_paint_attrs(&b, 0).origin_y);
    expect("painting", COARSE_DONE, coarse_bucketer_begin_painting(&b));
    for (row = 0; row < 2; row++) {
        expect("a row", COARSE_DONE, coarse_bucketer_paint_row(&b, row, &pieces, &count));
        for (i = 0; i < count && at < sizeof want / sizeof want[0]; i++, at++) {
            expect("the piece's row", want[at].row, (uint32_t)row);
            expect("its tag", want[at].tag, pieces[i].tag);
            expect("its first tile", want[at].first, pieces[i].first);
            expect("its end", want[at].end, pieces[i].end);
            expect("its alphas", want[at].alpha, pieces[i].alpha);
        }
    }
    expect("every piece", sizeof want / sizeof want[0], (uint32_t)at);
    expect("no row 2", COARSE_BAD_RUN, coarse_bucketer_paint_row(&b, 2, &pieces, &count));
    expect("bucket 1", COARSE_DONE, coarse_bucketer_unset_runs_and_write(&b, 1, 1, 2, 5, &runs, &count));
    expect("is a run of buckets", 1, count == 1 ? runs[0].first : 0);
    expect("what is unset", COARSE_DONE, coarse_bucketer_unset_runs(&b, 1, 3, 55, &runs, &count));
    expect("are tiles from 3", 3, count == 1 ? runs[0].first : 0);
    expect("to the bucket's first", 32, count == 1 ? runs[0].end : 0);

    /* One draw over the tiles 8 to 60 of row 3, in a recording of that viewport. */
    const uint32_t file[] = {1, 20, 8, 276, 16, 1, 1, 1, 0, 0, 1, 0, 3, 8, 60, 0, 1, 0, 0, 1, 0, 0, 3, 0, 0, 1, 0, 1, 0, 1, 0, 1};
    expect("row 1, tile 3", COARSE_DONE, coarse_bucketer_why(&b, COARSE_EDITION_ONE, file, 32, 1, 3, 0, 0, &reason));
    expect("is its first", COARSE_SHOWN, reason.reason);
    expect("row 1, tile 55", COARSE_DONE, coarse_bucketer_why(&b, COARSE_EDITION_ONE, file, 32, 1, 55, 0, 0, &reason));
    expect("is past its end", COARSE_NO_SEGMENT, reason.reason);
    expect("row 3", COARSE_BAD_RUN, coarse_bucketer_why(&b, COARSE_EDITION_ONE, file, 32, 3, 8, 0, 0, &reason));
    coarse_bucketer_free(&b);
}

/* The tables have the lengths that the header names. */
static void named_sizes(void) {
    coarse_lengths sizes = {0, 0, 0, 0, 0, 0, 0, 0, 0, 0, 0};
    expect("sizes", COARSE_DONE, coarse_sizes((coarse_rect){0, 0, 256, 8}, small, &sizes));
    expect("open layers", COARSE_LAYERS, (uint32_t)sizes.layers);
    expect("opacities", COARSE_OPACITIES, (uint32_t)sizes.opacities);
    expect("paint attributes", COARSE_PAINT_ATTRS, (uint32_t)sizes.paint_attrs);
    expect("layer attributes", COARSE_LAYER_ATTRS, (uint32_t)sizes.layer_attrs);
    expect("filter paints", COARSE_FILTER_PAINTS, (uint32_t)sizes.filter_paints);
    expect("a piece is its words", COARSE_PIECE, (uint32_t)(sizeof(coarse_piece) / sizeof(uint32_t)));
}

static const coarse_segment eight[] = {{1, 0, 0, 8, 0}};

static uint32_t fill_of(coarse_bucketer *b, uint32_t panel) {
    coarse_draw draw = {.start = 0, .end = 1, .paint = 1, .blend = COARSE_DEFAULT_BLEND, .panel = panel};
    return coarse_bucketer_generate_fill(b, paints, 2, eight, 1, &draw);
}

static uint32_t push_of(coarse_bucketer *b, uint32_t panel) {
    coarse_layer_props layer = {.blend = COARSE_DEFAULT_BLEND, .opacity = 1.0f, .panel = panel};
    return coarse_bucketer_push_layer(b, &layer);
}

/* The row's steps until one is refused or none is left: its answer. */
static uint32_t steps(coarse_bucketer *b) {
    const coarse_piece *pieces;
    size_t count;
    int finished = 0;
    uint32_t answer = coarse_bucketer_begin_painting(b);
    while (answer == COARSE_DONE && !finished)
        answer = coarse_bucketer_paint_step(b, 0, &finished, &pieces, &count);
    return answer;
}

/* A panel goes with a fill, a layer or a filter fill to its attribute and its pieces. Above 255 it is refused by 4 with nothing changed. */
static void panels(void) {
    static const struct { uint32_t tag, attribute, panel; } want[] = {{2, 0, 255}, {2, 1, 0}, {3, 0, 255}, {3, 1, 7}, {1, 2, 9}};
    static const uint32_t none[] = {256, 257, 65536, 0xffffffffu};
    coarse_bucketer b;
    const coarse_piece *pieces = NULL;
    size_t i, count = 0;
    uint32_t before, *inner, *fill, *layer;
    expect("a screen", COARSE_DONE, coarse_bucketer_new(&b, (coarse_rect){0, 0, 256, 8}, (coarse_setup){16, 16, COARSE_EXACT, COARSE_128}));
    expect("a fill of the last panel", COARSE_DONE, fill_of(&b, COARSE_LAST_PANEL));
    expect("a layer of another", COARSE_DONE, push_of(&b, 7));
    expect("in it one of the last", COARSE_DONE, push_of(&b, COARSE_LAST_PANEL));
    expect("in that a fill of the first", COARSE_DONE, fill_of(&b, 0));
    before = sum(&b);
    for (i = 0; i < sizeof none / sizeof none[0]; i++) {
        expect("no fill", COARSE_BAD_RECORD, fill_of(&b, none[i]));
        expect("no layer", COARSE_BAD_RECORD, push_of(&b, none[i]));
        expect("no filter fill", COARSE_BAD_RECORD, filter_fill(&b, 1, 0, none[i]));
        expect("nor one without a picture", COARSE_BAD_RECORD, filter_fill(&b, 0, 0, none[i]));
    }
    expect("nothing has changed", before, sum(&b));

    inner = b.tables.layers + COARSE_OPEN_LAYER + 16;
    expect("the open layer's panel", 255, *inner);
    *inner = 256;
    expect("none, it is not closed", COARSE_BAD_RECORD, coarse_bucketer_pop_layer(&b, NULL, 0));
    *inner = 255;
    expect("nothing has changed there", before, sum(&b));
    expect("the inner one closed", COARSE_DONE, coarse_bucketer_pop_layer(&b, NULL, 0));
    expect("and the outer", COARSE_DONE, coarse_bucketer_pop_layer(&b, NULL, 0));
    expect("a filter fill", COARSE_DONE, filter_fill(&b, 1, 0, 9));
    expect("the first fill's", 255, coarse_bucketer_paint_attrs(&b, 0).panel);
    expect("the second fill's", 0, coarse_bucketer_paint_attrs(&b, 1).panel);
    expect("the filter fill's", 9, coarse_bucketer_paint_attrs(&b, 2).panel);
    expect("the inner layer's own", 255, coarse_bucketer_layer_attrs(&b, 0).panel);
    expect("the outer layer's own", 7, coarse_bucketer_layer_attrs(&b, 1).panel);

    /* Words of an attribute with such a panel are refused where a step reads them. */
    fill = b.tables.paint_attrs + 8;
    layer = b.tables.layer_attrs + 6;
    *fill = 256;
    expect("none, a fill's", COARSE_BAD_RECORD, steps(&b));
    *fill = 255;
    *layer = 256;
    expect("none, a layer's", COARSE_BAD_RECORD, steps(&b));
    *layer = 255;
    expect("all of them", COARSE_DONE, steps(&b));
    expect("afresh", COARSE_DONE, coarse_bucketer_begin_painting(&b));
    expect("the row", COARSE_DONE, coarse_bucketer_paint_row(&b, 0, &pieces, &count));
    expect("its pieces", sizeof want / sizeof want[0], (uint32_t)count);
    for (i = 0; i < count && i < sizeof want / sizeof want[0]; i++) {
        expect("paint or layer", want[i].tag, pieces[i].tag);
        expect("its attribute", want[i].attribute, pieces[i].attribute);
        expect("whose it is", want[i].panel, pieces[i].panel);
    }
    coarse_bucketer_free(&b);
}

/* What a call that reads a row answers, whatever it would read: all four at once, and that a refused one leaves its result. */
enum { LENGTHS = 1, COMMAND = 2, FILL = 4, PROGRESS = 8, STORED = LENGTHS | COMMAND | FILL, READS = STORED | PROGRESS };

static void expect_reads(const char *what, uint32_t want, int which, const coarse_state *state, const coarse_stored *stored, const coarse_canvas *canvas,
                         size_t row, size_t number) {
    static const coarse_row_counts seven_counts = {7, 7};
    static const coarse_command seven_command = {7, 7, 7, 7, 7};
    static const coarse_depth_fill seven_fill = {7, 7, 7};
    static const coarse_row_progress seven_progress = {7, 7};
    coarse_row_counts lengths = seven_counts;
    coarse_command cmd = seven_command;
    coarse_depth_fill fill = seven_fill;
    coarse_row_progress told = seven_progress;
    int stay = 1;
    if (which & LENGTHS) {
        expect(what, want, coarse_row_lengths(state, stored, row, &lengths));
        stay = stay && memcmp(&lengths, &seven_counts, sizeof lengths) == 0;
    }
    if (which & COMMAND) {
        expect(what, want, coarse_render_cmd(state, stored, row, number, &cmd));
        stay = stay && memcmp(&cmd, &seven_command, sizeof cmd) == 0;
    }
    if (which & FILL) {
        expect(what, want, coarse_depth_cmd(state, stored, row, number, &fill));
        stay = stay && memcmp(&fill, &seven_fill, sizeof fill) == 0;
    }
    if (which & PROGRESS) {
        expect(what, want, coarse_progress(state, canvas, row, &told));
        stay = stay && memcmp(&told, &seven_progress, sizeof told) == 0;
    }
    expect("the results stay", want != COARSE_DONE, (uint32_t)stay);
}

/* What is stored of a row, by its number: every tag; and how many buffers are open after each step. */
static void stored_commands(void) {
    static const coarse_segment list[] = {{0, 0, 0, 64, 0}, {1, 0, 64, 70, 32}, {1, 0, 4, 12, 96}};
    static const coarse_command want[] = {
        {COARSE_PAINT_FILL_ALPHA, 64, 70, 32, 0}, {COARSE_PUSH_BUF_SPAN, 0, 96, 0, 0}, {COARSE_PAINT_FILL, 0, 64, 0, 1}, {COARSE_PAINT_FILL_ALPHA, 64, 70, 32, 1},
        {COARSE_PUSH_BUF_SPAN, 0, 70, 0, 0}, {COARSE_PAINT_FILL, 0, 64, 0, 2}, {COARSE_PAINT_FILL_ALPHA, 64, 70, 32, 2}, {COARSE_LAYER_FILL_ALPHA, 4, 12, 96, 0},
        {COARSE_POP_BUF, 0, 0, 0, 0}, {COARSE_LAYER_FILL, 0, 96, 0, 1}, {COARSE_POP_BUF, 0, 0, 0, 0}};
    static const uint32_t nesting[] = {0, 0, 0, 1, 1, 1, 2, 2, 2, 2, 1, 1, 0};
    enum { WANT = sizeof want / sizeof want[0], STEPS = sizeof nesting / sizeof nesting[0] };
    coarse_bucketer b;
    coarse_clip clip = {{0, 0, 384, 4}, 2, 3, 9};
    coarse_layer_props plain = {.blend = COARSE_DEFAULT_BLEND, .opacity = 0.25f, .panel = 5}, clipped = {.blend = {1, 3}, .opacity = 0.5f, .mask = 6, .clip = &clip};
    coarse_draw draw = {.start = 0, .end = 2, .paint = 0, .blend = COARSE_DEFAULT_BLEND};
    coarse_row_counts lengths;
    coarse_command cmd;
    coarse_depth_fill fill;
    coarse_row_progress told;
    coarse_canvas other = {NULL, 0, NULL, 0, NULL, 0};
    coarse_painted painted = {0, 0};
    uint32_t list_words[700] = {0};
    const coarse_piece *pieces;
    const uint32_t *words = NULL;
    size_t i, count = 0;
    int finished = 0;
    uint32_t before;
    expect("a screen", COARSE_DONE, coarse_bucketer_new(&b, (coarse_rect){0, 0, 384, 8}, (coarse_setup){16, 4, COARSE_EXACT, COARSE_128}));
    expect("the first id", 1, coarse_bucketer_next_draw_id(&b));
    expect("a fill", COARSE_DONE, coarse_bucketer_generate_fill(&b, paints, 2, list, 3, &draw));
    expect("a layer", COARSE_DONE, coarse_bucketer_push_layer(&b, &plain));
    expect("one is open", 1, (uint32_t)coarse_bucketer_open_layers(&b));
    expect("a fill in it", COARSE_DONE, coarse_bucketer_generate_fill(&b, paints, 2, list, 3, &draw));
    expect("its buffer", COARSE_DONE, coarse_bucketer_render_cmd(&b, 0, 1, &cmd));
    expect("has no span so far", COARSE_PUSH_BUF, cmd.tag);
    expect("from 0", 0, cmd.first);
    expect("to 0", 0, cmd.end);
    expect("a clipped layer in it", COARSE_DONE, coarse_bucketer_push_layer(&b, &clipped));
    expect("its box is the clip box", 384, coarse_bucketer_clip_box(&b).x1);
    expect("one row high", 4, coarse_bucketer_clip_box(&b).y1);
    expect("and its own", 4, coarse_bucketer_open_layer(&b, 1).box.y1);
    expect("with a clip", 1, coarse_bucketer_open_layer(&b, 1).has_clip);
    expect("whose segments it names", 2, coarse_bucketer_open_layer(&b, 1).clip.start);
    expect("in a thread", 9, coarse_bucketer_open_layer(&b, 1).clip.thread);
    expect("its mask", 6, coarse_bucketer_open_layer(&b, 1).mask);
    expect("its blend", 1, coarse_bucketer_open_layer(&b, 1).blend.mix);
    expect("half opacity", 1, coarse_bucketer_open_layer(&b, 1).opacity == 0.5f);
    expect("the outer one has none", 0, coarse_bucketer_open_layer(&b, 0).has_clip);
    expect("the whole screen for its box", 8, coarse_bucketer_open_layer(&b, 0).box.y1);
    expect("its panel", 5, coarse_bucketer_open_layer(&b, 0).panel);
    expect("no third", 0, coarse_bucketer_open_layer(&b, 2).box.x1);
    expect("a fill in both", COARSE_DONE, coarse_bucketer_generate_fill(&b, paints, 2, list, 3, &draw));
    expect("the inner one closed", COARSE_DONE, coarse_bucketer_pop_layer(&b, list, 3));
    expect("the outer one closed", COARSE_DONE, coarse_bucketer_pop_layer(&b, NULL, 0));
    expect("five ids are taken", 6, coarse_bucketer_next_draw_id(&b));
    before = sum(&b);

    expect("what is stored", COARSE_DONE, coarse_bucketer_row_lengths(&b, 0, &lengths));
    expect("of commands", WANT, lengths.render_cmds);
    expect("of depth fills", 1, lengths.depth_cmds);
    for (i = 0; i < WANT; i++) {
        expect("a command", COARSE_DONE, coarse_bucketer_render_cmd(&b, 0, i, &cmd));
        expect("its tag", want[i].tag, cmd.tag);
        expect("its first tile", want[i].first, cmd.first);
        expect("its end", want[i].end, cmd.end);
        expect("its alphas", want[i].alpha_idx, cmd.alpha_idx);
        expect("its attribute", want[i].attrs_idx, cmd.attrs_idx);
    }
    expect("a depth fill", COARSE_DONE, coarse_bucketer_depth_cmd(&b, 0, 0, &fill));
    expect("from bucket 0", 0, fill.first);
    expect("to bucket 2", 2, fill.end);
    expect("of the first fill", 0, fill.attrs_idx);
    expect("an empty row", COARSE_DONE, coarse_bucketer_row_lengths(&b, 1, &lengths));
    expect("has no commands", 0, lengths.render_cmds + lengths.depth_cmds);
    expect("and no first one", COARSE_BAD_RUN, coarse_bucketer_render_cmd(&b, 1, 0, &cmd));
    expect("nor a depth fill", COARSE_BAD_RUN, coarse_bucketer_depth_cmd(&b, 1, 0, &fill));

    expect("not painted yet", COARSE_DONE, coarse_bucketer_progress(&b, 0, &told));
    expect("no steps", 0, told.steps + told.nesting);
    expect("no painting", 0, (uint32_t)coarse_bucketer_is_painting(&b));
    expect("no other canvas", COARSE_OPEN, coarse_bucketer_canvas(&b, &other));
    expect("it is none", 1, other.depth == NULL && other.painting_len == 0);
    expect("reading changes nothing", before, sum(&b));
    expect("painting", COARSE_DONE, coarse_bucketer_begin_painting(&b));
    expect("has begun", 1, (uint32_t)coarse_bucketer_is_painting(&b));
    for (i = 0; i < STEPS; i++) {
        expect("so far", COARSE_DONE, coarse_bucketer_progress(&b, 0, &told));
        expect("steps", (uint32_t)i, told.steps);
        expect("nesting", nesting[i], told.nesting);
        expect("a step", COARSE_DONE, coarse_bucketer_paint_step(&b, 0, &finished, &pieces, &count));
        expect("none is left", i + 1 == STEPS, (uint32_t)finished);
    }
    blocks = 0;
    expect("no memory for a canvas", COARSE_NO_MEMORY, coarse_bucketer_canvas(&b, &other));
    blocks = SIZE_MAX;
    expect("a canvas", COARSE_DONE, coarse_bucketer_canvas(&b, &other));
    expect("on which no step is done", COARSE_DONE, coarse_progress(coarse_bucketer_state(&b), &other, 0, &told));
    expect("not one", 0, told.steps + told.nesting);
    expect("a row on it", COARSE_DONE, coarse_paint_row(coarse_bucketer_state(&b), coarse_bucketer_stored(&b), &other, 0, list_words, 700, &painted));
    expect("to its end", 1, painted.finished);
    expect("steps there", COARSE_DONE, coarse_progress(coarse_bucketer_state(&b), &other, 0, &told));
    expect("are as many", STEPS - 1, told.steps);
    coarse_bucketer_canvas_free(&other);
    expect("depth words", COARSE_DONE, coarse_bucketer_depth_words(&b, 0, &words, &count));
    expect("of 3 buckets", 3, (uint32_t)count);
    expect("hold the fill's id", 1, count == 3 ? words[0] : 0);
    expect("to bucket 2", 0, count == 3 ? words[2] : 1);
    expect("no row 2", COARSE_BAD_RUN, coarse_bucketer_depth_words(&b, 2, &words, &count));

    /* Each refusal, in order: 2, 1, 4, 12. */
    {
        coarse_state state = b.state;
        coarse_stored stored = b.stored;
        coarse_canvas canvas = b.canvas;
        size_t far_off[] = {2, SIZE_MAX};
        expect_reads("all of them", COARSE_DONE, READS, &state, &stored, &canvas, 0, 0);
        for (i = 0; i < 2; i++) {
            expect_reads("no such row", COARSE_BAD_RUN, READS, &state, &stored, &canvas, far_off[i], 0);
            expect_reads("no such command", COARSE_BAD_RUN, COMMAND | FILL, &state, &stored, &canvas, 0, i == 0 ? (size_t)WANT : SIZE_MAX);
        }
        expect_reads("no second depth fill", COARSE_BAD_RUN, FILL, &state, &stored, &canvas, 0, 1);
        stored.rows_len--;
        expect_reads("short rows before no row", COARSE_BAD_RECORD, STORED, &state, &stored, &canvas, 2, 0);
        expect_reads("which progress does not read", COARSE_DONE, PROGRESS, &state, &stored, &canvas, 0, 0);
        stored.render_cmds_len--;
        expect_reads("short commands before short rows", COARSE_BAD_ARENA, STORED, &state, &stored, &canvas, 2, 0);
        stored.render_cmds_len++, stored.depth_cmds_len++;
        expect_reads("long depth fills before short rows", COARSE_BAD_ARENA, STORED, &state, &stored, &canvas, 2, 0);
        stored = b.stored;
        canvas.painting_len--;
        expect_reads("short painting words before no row", COARSE_BAD_RECORD, PROGRESS, &state, &stored, &canvas, 2, 0);
        expect_reads("which the others do not read", COARSE_DONE, STORED, &state, &stored, &canvas, 0, 0);
        canvas = b.canvas;
        canvas.depth_len = 1, stored.paint_attrs_len = 1, stored.layer_attrs_len = 1;
        expect_reads("what none of them reads", COARSE_DONE, READS, &state, &stored, &canvas, 0, 0);
        stored = b.stored, canvas = b.canvas;
        state.painting = 2;
        expect_reads("a state that is none before no row", COARSE_BAD_RECORD, READS, &state, &stored, &canvas, 2, 0);
        state.d = 0;
        expect_reads("no depth fills in a row before that", COARSE_BAD_ARENA, READS, &state, &stored, &canvas, 2, 0);
        state.viewport.x1 = 2;
        expect_reads("a bad viewport before that", COARSE_BAD_VIEWPORT, READS, &state, &stored, &canvas, 2, 0);
        state = b.state;
        state.layers = 17;
        expect_reads("more layers than there may be", COARSE_BAD_RECORD, READS, &state, &stored, &canvas, 0, 0);
        state = b.state;
        state.painting = 0;
        expect_reads("painting need not have begun", COARSE_DONE, READS, &state, &stored, &canvas, 0, 0);
        state = b.state;

        /* Words that no call leaves. */
        b.tables.rows[0] = 17;
        expect_reads("more commands than C", COARSE_BAD_RECORD, STORED, &state, &stored, &canvas, 0, 0);
        b.tables.rows[0] = WANT, b.tables.rows[1] = 5;
        expect_reads("more depth fills than D", COARSE_BAD_RECORD, STORED, &state, &stored, &canvas, 0, 0);
        b.tables.rows[1] = 1, b.tables.render_cmds[0] = 8;
        expect_reads("no tag", COARSE_BAD_RECORD, COMMAND, &state, &stored, &canvas, 0, 0);
        expect_reads("the next one is", COARSE_DONE, COMMAND, &state, &stored, &canvas, 0, 1);
        b.tables.render_cmds[0] = COARSE_PAINT_FILL_ALPHA, b.tables.depth_cmds[0] = 4;
        expect_reads("a depth fill past the row's end", COARSE_BAD_RECORD, FILL, &state, &stored, &canvas, 0, 0);
        b.tables.depth_cmds[0] = 2;
        expect_reads("all of them again", COARSE_DONE, READS, &state, &stored, &canvas, 0, 0);
    }
    coarse_bucketer_free(&b);
}

/* The tags of a row's commands, in order. */
static void expect_tags(const char *what, const coarse_bucketer *b, size_t row, const uint32_t *want, size_t count) {
    coarse_row_counts lengths = {0, 0};
    coarse_command cmd = {0, 0, 0, 0, 0};
    size_t i;
    expect(what, COARSE_DONE, coarse_bucketer_row_lengths(b, row, &lengths));
    expect(what, (uint32_t)count, lengths.render_cmds);
    for (i = 0; i < count; i++) {
        expect(what, COARSE_DONE, coarse_bucketer_render_cmd(b, row, i, &cmd));
        expect(what, want[i], cmd.tag);
    }
    for (i = 4 * count; i < 4 * (size_t)b->setup.c; i++)
        expect("nothing stands behind them", 0, b->tables.render_cmds[4 * b->setup.c * row + i]);
}

/* A layer over the whole screen in which its fill is drawn; without a clip it closes over all, with one of no segments over nothing. */
static void layer_of(coarse_bucketer *b, int has_clip, size_t segment) {
    coarse_clip none = {{0, 0, 256, 8}, 0, 0, 0};
    coarse_layer_props props = {.blend = COARSE_DEFAULT_BLEND, .opacity = 1.0f, .clip = has_clip ? &none : NULL};
    coarse_draw draw = {.start = segment, .end = segment + 1, .paint = 1, .blend = COARSE_DEFAULT_BLEND};
    static const coarse_segment list[] = {{0, 0, 0, 64, 0}, {0, 0, 4, 8, 0}};
    expect("a layer", COARSE_DONE, coarse_bucketer_push_layer(b, &props));
    expect("a fill in it", COARSE_DONE, coarse_bucketer_generate_fill(b, paints, 2, list, 2, &draw));
    expect("closed", COARSE_DONE, coarse_bucketer_pop_layer(b, NULL, 0));
}

/* Fills in row 0 alone, of two buckets, in a row with room for 8 commands: over both buckets or the first, hiding or not. */
static uint32_t fill_row(coarse_bucketer *b, size_t segment, uint32_t paint) {
    static const coarse_segment list[] = {{0, 0, 0, 64, 0}, {0, 0, 0, 32, 0}, {1, 0, 20, 40, 160}};
    coarse_draw draw = {.start = segment, .end = segment + 1, .paint = paint, .blend = COARSE_DEFAULT_BLEND};
    return coarse_bucketer_generate_fill(b, paints, 2, list, 3, &draw);
}

/* Row 0 compacted: the commands that are left, and the pieces, which are those that it gave before. */
static void expect_compacted(const char *what, coarse_bucketer *b, const uint32_t *want, size_t count) {
    coarse_piece before[16];
    const coarse_piece *pieces = NULL;
    size_t n = 0, m = 0;
    uint32_t left;
    expect(what, COARSE_DONE, coarse_bucketer_begin_painting(b));
    expect(what, COARSE_DONE, coarse_bucketer_paint_row(b, 0, &pieces, &n));
    expect(what, 1, n <= 16);
    memcpy(before, pieces, n * sizeof *pieces);
    expect(what, COARSE_DONE, coarse_bucketer_compact_row(b, 0));
    expect("it ends painting", COARSE_OPEN, coarse_bucketer_paint_row(b, 0, &pieces, &m));
    expect_tags(what, b, 0, want, count);
    left = sum(b);
    expect("twice", COARSE_DONE, coarse_bucketer_compact_row(b, 0));
    expect("is once", left, sum(b));
    expect(what, COARSE_DONE, coarse_bucketer_begin_painting(b));
    expect(what, COARSE_DONE, coarse_bucketer_paint_row(b, 0, &pieces, &m));
    expect("as many pieces", (uint32_t)n, (uint32_t)m);
    expect("the same pieces", 0, n == m && memcmp(before, pieces, n * sizeof *pieces) != 0);
}

/* What nothing will ever show is taken out of a row, which has room again, and paints as before. */
static void compacted_rows(void) {
    static const uint32_t closed[] = {COARSE_PUSH_BUF_SPAN, COARSE_PAINT_FILL, COARSE_LAYER_FILL, COARSE_POP_BUF};
    static const uint32_t dropped[] = {COARSE_PUSH_BUF_SPAN, COARSE_PAINT_FILL, COARSE_POP_BUF};
    static const uint32_t half[] = {COARSE_PAINT_FILL_ALPHA, COARSE_PUSH_BUF_SPAN, COARSE_LAYER_FILL, COARSE_POP_BUF};
    static const uint32_t eight[] = {2, 2, 2, 2, 2, 2, 2, 2};
    const coarse_rect view = {0, 0, 256, 8};
    coarse_bucketer b;
    coarse_command cmd = {0, 0, 0, 0, 0};
    uint32_t before, i;
    expect("a screen", COARSE_DONE, coarse_bucketer_new(&b, view, small));

    expect_compacted("an empty row", &b, NULL, 0);
    layer_of(&b, 1, 0);
    expect_tags("a dropped buffer", &b, 0, dropped, 3);
    expect_compacted("which nothing hides", &b, dropped, 3);
    expect("a fill that hides it", COARSE_DONE, fill_row(&b, 0, 0));
    expect_compacted("goes whole", &b, NULL, 0);
    layer_of(&b, 0, 0);
    expect_tags("a buffer", &b, 0, closed, 4);
    expect_compacted("newer than what hides", &b, closed, 4);
    expect("a fill that hides it too", COARSE_DONE, fill_row(&b, 0, 0));
    expect_compacted("goes with its closing", &b, NULL, 0);

    /* A fill that shows in one bucket stays, and so does the buffer of a closing that shows there. */
    expect("reset", COARSE_DONE, coarse_bucketer_reset(&b, view));
    expect("a fill across two buckets", COARSE_DONE, fill_row(&b, 2, 1));
    expect("one of the first", COARSE_DONE, fill_row(&b, 1, 1));
    layer_of(&b, 0, 1);
    expect("what hides the first", COARSE_DONE, fill_row(&b, 1, 0));
    expect("the buffer", COARSE_DONE, coarse_bucketer_render_cmd(&b, 0, 2, &cmd));
    expect("has a span", 1, cmd.tag == COARSE_PUSH_BUF_SPAN && cmd.first < cmd.end);
    before = cmd.end;
    expect_compacted("half of it", &b, half, 4);
    expect("the buffer that is left", COARSE_DONE, coarse_bucketer_render_cmd(&b, 0, 1, &cmd));
    expect("keeps its span", before, cmd.end);

    /* A full row: all of it is hidden, and it takes as many again. */
    expect("reset", COARSE_DONE, coarse_bucketer_reset(&b, view));
    for (i = 0; i < 8; i++)
        expect("a fill", COARSE_DONE, fill_row(&b, 2, 1));
    expect("the row is full", COARSE_FULL_ROW, fill_row(&b, 2, 1));
    expect_compacted("nothing is hidden", &b, eight, 8);
    expect("it is full still", COARSE_FULL_ROW, fill_row(&b, 2, 1));
    expect("a fill that hides all", COARSE_DONE, fill_row(&b, 0, 0));
    expect("has no command there, and makes no room", COARSE_FULL_ROW, fill_row(&b, 2, 1));
    expect_compacted("now there is", &b, NULL, 0);
    for (i = 0; i < 8; i++)
        expect("a fill more", COARSE_DONE, fill_row(&b, 2, 1));
    expect("and full again", COARSE_FULL_ROW, fill_row(&b, 2, 1));

    /* Each refusal, in order: 2, 1, 4, 12, 13, and 4 for the row's words. Nothing changes, and painting goes on. */
    expect("painting", COARSE_DONE, coarse_bucketer_begin_painting(&b));
    before = sum(&b);
    expect("no row 2", COARSE_BAD_RUN, coarse_bucketer_compact_row(&b, 2));
    expect("nor the last of all numbers", COARSE_BAD_RUN, coarse_bucketer_compact_row(&b, SIZE_MAX));
    b.tables.depth_len--, b.tables.minima_len--, b.tables.painting_len--, b.tables.layers_len--, b.tables.opacities_len--, b.tables.filter_paints_len--;
    expect("what it does not read may be short", COARSE_BAD_RUN, coarse_bucketer_compact_row(&b, 2));
    b.tables.rows_len--;
    expect("short rows before no row", COARSE_BAD_RECORD, coarse_bucketer_compact_row(&b, 2));
    b.tables.rows_len++, b.tables.paint_attrs_len--;
    expect("short paint attributes too", COARSE_BAD_RECORD, coarse_bucketer_compact_row(&b, 2));
    b.tables.paint_attrs_len++, b.tables.layer_attrs_len--;
    expect("short layer attributes too", COARSE_BAD_RECORD, coarse_bucketer_compact_row(&b, 2));
    b.tables.render_cmds_len--;
    expect("short commands before that", COARSE_BAD_ARENA, coarse_bucketer_compact_row(&b, 2));
    b.tables.render_cmds_len++, b.tables.depth_cmds_len++;
    expect("long depth fills before that", COARSE_BAD_ARENA, coarse_bucketer_compact_row(&b, 2));
    b.state.viewport.x1 = 2;
    expect("a bad viewport before that", COARSE_BAD_VIEWPORT, coarse_bucketer_compact_row(&b, 2));
    b.state.viewport.x1 = 256, b.tables.depth_cmds_len--, b.tables.layer_attrs_len++;
    b.state.painting = 2;
    expect("a state that is none before no row", COARSE_BAD_RECORD, coarse_bucketer_compact_row(&b, 2));
    b.state.painting = 1, b.state.layers = 1;
    expect("no row before an open layer", COARSE_BAD_RUN, coarse_bucketer_compact_row(&b, 2));
    b.tables.rows[0] = 9;
    expect("an open layer before a bad count", COARSE_OPEN, coarse_bucketer_compact_row(&b, 0));
    b.state.layers = 0;
    expect("more commands than C", COARSE_BAD_RECORD, coarse_bucketer_compact_row(&b, 0));
    b.tables.rows[0] = 8, b.tables.rows[1] = 9;
    expect("more depth fills than D", COARSE_BAD_RECORD, coarse_bucketer_compact_row(&b, 0));
    b.tables.rows[1] = 1, b.tables.depth_cmds[0] = 3;
    expect("a depth fill past the row's end", COARSE_BAD_RECORD, coarse_bucketer_compact_row(&b, 0));
    b.tables.depth_cmds[0] = 2, b.tables.render_cmds[28] = 8;
    expect("no tag, in the last command", COARSE_BAD_RECORD, coarse_bucketer_compact_row(&b, 0));
    b.tables.render_cmds[28] = COARSE_PAINT_FILL_ALPHA;
    for (i = 8; i <= 16; i += 8) {
        b.tables.paint_attrs[i * COARSE_PAINT_ATTR + 8] = 256;
        expect(i == 8 ? "no panel, of the depth fill" : "no panel, of the last command", COARSE_BAD_RECORD, coarse_bucketer_compact_row(&b, 0));
        b.tables.paint_attrs[i * COARSE_PAINT_ATTR + 8] = 0;
    }
    expect("nothing has changed", before, sum(&b));
    expect("the other row", COARSE_DONE, coarse_bucketer_compact_row(&b, 1));
    b.state.painting = 1;
    expect("has nothing taken out", before, sum(&b));
    coarse_bucketer_free(&b);
}

/* All attributes and filter paints, typed: in a list that is long enough. */
static void all_attributes(void) {
    static const coarse_segment list[] = {{1, 0, 0, 8, 0}};
    coarse_draw draw = {.thread = 3, .start = 0, .end = 1, .paint = 1, .blend = {2, 4}, .mask = 8, .panel = 6};
    coarse_layer_props layer = {.blend = {3, 5}, .opacity = 0.75f, .mask = 9, .panel = 7};
    coarse_placement placement = {{8, 3, 16, 7}, 5, 1};
    coarse_bucketer b;
    coarse_paint_attrs paint[3];
    coarse_layer_attrs closed[2];
    coarse_filter_paint filter[2];
    uint32_t picture = 40, i;
    size_t count = 99;
    expect("a screen", COARSE_DONE, coarse_bucketer_new(&b, (coarse_rect){8, 4, 264, 12}, small));
    for (i = 0; i < 2; i++) {
        draw.panel = 6 + i, layer.panel = 8 + i;
        expect("a layer", COARSE_DONE, coarse_bucketer_push_layer(&b, &layer));
        if (i == 0)
            expect("a fill", COARSE_DONE, coarse_bucketer_generate_fill(&b, paints, 2, list, 1, &draw));
        else
            expect("a picture", COARSE_DONE, coarse_bucketer_generate_filter_layer_fill(&b, &picture, &placement, 2, 11));
        expect("closed", COARSE_DONE, coarse_bucketer_pop_layer(&b, NULL, 0));
    }
    memset(paint, 7, sizeof paint), memset(closed, 7, sizeof closed), memset(filter, 7, sizeof filter);
    expect("a list for one attribute", COARSE_NO_ROOM, coarse_bucketer_all_paint_attrs(&b, paint, 1, &count));
    expect("for one layer's", COARSE_NO_ROOM, coarse_bucketer_all_layer_attrs(&b, closed, 1, &count));
    expect("for no filter paint", COARSE_NO_ROOM, coarse_bucketer_all_filter_paints(&b, filter, 0, &count));
    expect("the count stays", 99, (uint32_t)count);
    expect("the lists stay", 0x07070707, paint[0].paint == 0x07070707 && closed[0].mask == 0x07070707 ? filter[0].pixmap : 0);
    expect("all paint attributes", COARSE_DONE, coarse_bucketer_all_paint_attrs(&b, paint, 3, &count));
    expect("are two", 2, (uint32_t)count);
    expect("the fill's paint", 1, paint[0].paint);
    expect("its blend", 24, paint[0].blend.mix * 10 + paint[0].blend.compose);
    expect("its mask", 8, paint[0].mask);
    expect("its thread", 3, paint[0].thread);
    expect("its panel", 6, paint[0].panel);
    expect("the picture's paint follows the list", 2, paint[1].paint);
    expect("its panel", 11, paint[1].panel);
    expect("its origin", 84, paint[1].origin_x * 10 + paint[1].origin_y);
    expect("the third stays", 0x07070707, paint[2].paint);
    expect("all layer attributes", COARSE_DONE, coarse_bucketer_all_layer_attrs(&b, closed, 2, &count));
    expect("are two", 2, (uint32_t)count);
    expect("their blends", 35, closed[1].blend.mix * 10 + closed[1].blend.compose);
    expect("their opacity", 1, closed[0].opacity == 0.75f && closed[1].opacity == 0.75f);
    expect("their masks", 9, closed[1].mask);
    expect("their ids", 2, closed[0].draw_id);
    expect("and the next", 4, closed[1].draw_id);
    expect("their panels", 9, closed[1].panel);
    expect("all filter paints", COARSE_DONE, coarse_bucketer_all_filter_paints(&b, filter, 2, &count));
    expect("are one", 1, (uint32_t)count);
    expect("the picture", 40, filter[0].pixmap);
    expect("its shift", (uint32_t)-3, (uint32_t)filter[0].shift_x);
    expect("and down", (uint32_t)-2, (uint32_t)filter[0].shift_y);
    expect("by itself", 40, coarse_bucketer_filter_paint(&b, 0).pixmap);
    expect("no other", 0, coarse_bucketer_filter_paint(&b, 1).pixmap);
    expect("none of a third fill", 0, coarse_bucketer_paint_attrs(&b, 2).paint);
    coarse_bucketer_free(&b);
}

/* Each number has its words, and no two the same; numbers that are none share theirs. */
static void words_of_numbers(void) {
    uint32_t i, k;
    for (i = 0; i <= COARSE_HAS_PANELS + 1; i++)
        for (k = 0; k < i; k++)
            expect("two answers", 0, strcmp(coarse_answer_text(i), coarse_answer_text(k)) == 0);
    expect("memory that runs out", 0, strcmp(coarse_answer_text(COARSE_NO_MEMORY), coarse_answer_text(COARSE_HAS_PANELS + 1)) == 0);
    expect("no answer", 1, strcmp(coarse_answer_text(COARSE_NO_MEMORY + 1), coarse_answer_text(COARSE_HAS_PANELS + 1)) == 0);
    for (i = 0; i <= COARSE_POP_BUF; i++)
        for (k = 0; k < i; k++)
            expect("two tags", 0, strcmp(coarse_tag_text(i), coarse_tag_text(k)) == 0);
    expect("no tag", 1, strcmp(coarse_tag_text(COARSE_POP_BUF + 1), coarse_tag_text(0)) == 0);
    for (i = 0; i <= COARSE_SHOWN + 1; i++)
        for (k = 0; k < i; k++)
            expect("two reasons", 0, strcmp(coarse_reason_text(i), coarse_reason_text(k)) == 0);
    expect("the library's version is the headers'", COARSE_VERSION_NUMBER, coarse_version());
}

/* The default blend initializes, is assigned, and stands in an expression. */
static void default_blend(void) {
    static const coarse_blend fixed = COARSE_DEFAULT_BLEND_INIT;
    coarse_draw draw = {0, 0, 0, 1, COARSE_DEFAULT_BLEND, 5, 6};
    coarse_blend blend = COARSE_DEFAULT_BLEND;
    expect("as a part", 3, draw.blend.compose);
    expect("what follows it", 56, draw.mask * 10 + draw.panel);
    expect("by itself", 3, blend.compose);
    blend.compose = 9, draw.blend.mix = 9;
    blend = COARSE_DEFAULT_BLEND, draw.blend = COARSE_DEFAULT_BLEND;
    expect("assigned", 3, blend.compose);
    expect("to a part", 0, draw.blend.mix);
    expect("in an expression", 3, COARSE_DEFAULT_BLEND.compose);
    expect("fixed", 3, fixed.compose);
}

/* The same screen by single fills and by a list of them; how many of `count` are done. */
static size_t listed(coarse_bucketer *single, coarse_bucketer *list, const coarse_draw *draws, size_t count, uint32_t want) {
    const coarse_segment segments[] = {{0, 0, 0, 64, 0}, {1, 1, 8, 56, 160}, {0, 0, 0, 64, 0}};
    uint32_t answer = COARSE_DONE;
    size_t i, done = 99, row;
    expect("reset", COARSE_DONE, coarse_bucketer_reset(single, (coarse_rect){0, 0, 256, 8}));
    expect("reset too", COARSE_DONE, coarse_bucketer_reset(list, (coarse_rect){0, 0, 256, 8}));
    for (i = 0; i < count && answer == COARSE_DONE; i++)
        answer = coarse_bucketer_generate_fill(single, paints, 2, segments, 3, &draws[i]);
    expect("one by one", want, answer);
    expect("as a list", want, coarse_bucketer_generate_fills(list, paints, 2, segments, 3, draws, count, &done));
    expect("the same state", 0, (uint32_t)(memcmp(&single->state, &list->state, sizeof single->state) != 0));
    expect("the same attributes", 0,
           (uint32_t)(memcmp(single->tables.paint_attrs, list->tables.paint_attrs, 4 * single->tables.paint_attrs_len) != 0));
    expect("painting", COARSE_DONE, coarse_bucketer_begin_painting(single));
    expect("painting it", COARSE_DONE, coarse_bucketer_begin_painting(list));
    for (row = 0; row < 2; row++) {
        const coarse_piece *a, *b;
        size_t n, m;
        expect("a row", COARSE_DONE, coarse_bucketer_paint_row(single, row, &a, &n));
        expect("the other's", COARSE_DONE, coarse_bucketer_paint_row(list, row, &b, &m));
        expect("as many pieces", (uint32_t)n, (uint32_t)m);
        expect("the same", 0, (uint32_t)(n == m && memcmp(a, b, n * sizeof *a) != 0));
    }
    return done;
}

/* Lists of fills are single fills up to the first that is refused; more than are handed over at once, too. */
static void lists(void) {
    const coarse_draw good = {.start = 0, .end = 2, .paint = 0, .blend = COARSE_DEFAULT_BLEND, .panel = 3};
    coarse_draw draws[3 * COARSE_DRAWS_AT_ONCE];
    uint32_t words[2 * COARSE_DRAW] = {0}, paint[COARSE_PAINT] = {1, 7, 0, 0}, segment[COARSE_SEGMENT] = {0, 0, 0, 64, 0};
    coarse_bucketer single, list;
    coarse_draws some = {words, 2 * COARSE_DRAW, 0, 2};
    const size_t most = sizeof draws / sizeof *draws;
    size_t i, done = 99;
    const coarse_piece *pieces;
    size_t count;
    expect("a screen", COARSE_DONE, coarse_bucketer_new(&single, (coarse_rect){0, 0, 256, 8}, (coarse_setup){200, 200, COARSE_EXACT, COARSE_128}));
    expect("another", COARSE_DONE, coarse_bucketer_new(&list, (coarse_rect){0, 0, 256, 8}, (coarse_setup){200, 200, COARSE_EXACT, COARSE_128}));
    for (i = 0; i < most; i++)
        draws[i] = good;
    expect("none", 0, (uint32_t)listed(&single, &list, draws, 0, COARSE_DONE));
    expect("all", (uint32_t)most, (uint32_t)listed(&single, &list, draws, most, COARSE_DONE));
    for (i = 0; i < most; i += most / 3 - 1) {
        draws[i].panel = 256;
        expect("up to one of no panel", (uint32_t)i, (uint32_t)listed(&single, &list, draws, most, COARSE_BAD_RECORD));
        draws[i] = good;
    }
    draws[2].end = SIZE_MAX;
    expect("up to one that ends nowhere", 2, (uint32_t)listed(&single, &list, draws, most, COARSE_BAD_RECORD));
    draws[2] = good;
    draws[1].start = 1, draws[1].end = 3;
    expect("up to one out of order", 1, (uint32_t)listed(&single, &list, draws, most, COARSE_BAD_ORDER));

    /* The call beneath: its words, its range; an empty one while painting goes on. */
    coarse_put_draw(words, &good), coarse_put_draw(words + COARSE_DRAW, &good);
    words[2] = 1, words[COARSE_DRAW + 2] = 1;
    expect("a whole list", COARSE_DONE, coarse_fill_list(&list.state, &list.tables, paint, COARSE_PAINT, segment, COARSE_SEGMENT, &some, &done));
    expect("of two", 2, (uint32_t)done);
    some.words_len--;
    expect("a word short", COARSE_BAD_RECORD, coarse_fill_list(&list.state, &list.tables, paint, COARSE_PAINT, segment, COARSE_SEGMENT, &some, &done));
    expect("none done", 0, (uint32_t)done);
    some.words_len++, some.start = 2, some.end = 1, done = 99;
    expect("backwards", COARSE_BAD_RECORD, coarse_fill_list(&list.state, &list.tables, paint, COARSE_PAINT, segment, COARSE_SEGMENT, &some, &done));
    expect("none then", 0, (uint32_t)done);
    some.start = 0, some.end = 3, done = 99;
    expect("past its end", COARSE_BAD_RECORD, coarse_fill_list(&list.state, &list.tables, paint, COARSE_PAINT, segment, COARSE_SEGMENT, &some, &done));
    expect("none there", 0, (uint32_t)done);
    expect("painting", COARSE_DONE, coarse_bucketer_begin_painting(&list));
    some.start = 2, some.end = 2, done = 99;
    expect("an empty range", COARSE_DONE, coarse_fill_list(&list.state, &list.tables, paint, COARSE_PAINT, segment, COARSE_SEGMENT, &some, &done));
    expect("is none", 0, (uint32_t)done);
    expect("and painting goes on", COARSE_DONE, coarse_bucketer_paint_row(&list, 0, &pieces, &count));
    some.start = 1;
    expect("one fill", COARSE_DONE, coarse_fill_list(&list.state, &list.tables, paint, COARSE_PAINT, segment, COARSE_SEGMENT, &some, &done));
    expect("ends it", COARSE_OPEN, coarse_bucketer_paint_row(&list, 0, &pieces, &count));
    coarse_bucketer_free(&single);
    coarse_bucketer_free(&list);
}

/* A screen of 8 rows with fills, a layer and depth fills in each, whose painting has begun. */
static void eight_rows(coarse_bucketer *b) {
    const coarse_paint paints[] = {{1, 1, 0, 0}, {0, 2, 0, 0}};
    coarse_segment segments[16];
    coarse_layer_props props;
    uint32_t row, i;
    memset(&props, 0, sizeof props);
    props.blend.compose = 3, props.opacity = 1;
    for (row = 0; row < 8; row++) {
        coarse_segment solid = {0, row, 7 * row, 120 - row, 0}, wide = {0, row, 10, 90 + row, 0};
        segments[row] = solid, segments[8 + row] = wide;
    }
    expect("a screen of 8 rows", COARSE_DONE, coarse_bucketer_new(b, (coarse_rect){0, 0, 512, 32}, (coarse_setup){64, 64, COARSE_EXACT, COARSE_128}));
    for (i = 0; i < 6; i++) {
        coarse_draw draw;
        memset(&draw, 0, sizeof draw);
        draw.start = i % 3 == 2 ? 8 : 0, draw.end = i % 3 == 1 ? 6 : draw.start + 8, draw.paint = i % 2, draw.blend.compose = 3, draw.panel = i;
        if (i == 2)
            expect("a layer", COARSE_DONE, coarse_bucketer_push_layer(b, &props));
        expect("a fill of 8 rows", COARSE_DONE, coarse_bucketer_generate_fill(b, paints, 2, segments, 16, &draw));
        if (i == 3)
            expect("its end", COARSE_DONE, coarse_bucketer_pop_layer(b, NULL, 0));
    }
    expect("painting of 8 rows", COARSE_DONE, coarse_bucketer_begin_painting(b));
}

/* The call for rows into a list of so many words at a time: it goes on where it was stopped, and gives what calls for each row give. */
static void rows_in_lists_of(size_t words) {
    static uint32_t one_by_one[1 << 14], together[1 << 14];
    size_t n = 0, m = 0, row = 0, ends[8], end_of[8], i;
    coarse_bucketer single, all;
    eight_rows(&single), eight_rows(&all);
    for (i = 0; i < 8; i++) {
        const coarse_piece *pieces;
        size_t count;
        expect("a row by itself", COARSE_DONE, coarse_bucketer_paint_row(&single, i, &pieces, &count));
        memcpy(one_by_one + COARSE_PIECE * n, pieces, count * sizeof *pieces);
        end_of[i] = n += count;
    }
    for (i = 0; row < 8 && i < 400; i++) {
        coarse_painted_rows painted = {99, 99};
        size_t k;
        uint32_t answer = coarse_paint_rows(&all.state, &all.stored, &all.canvas, row, 8, together + COARSE_PIECE * m, words, ends, 8 - row, &painted);
        expect("done, or out of room", 1, answer == COARSE_NO_ROOM || (answer == COARSE_DONE && painted.rows == 8 - row));
        expect("some of it", 1, answer == COARSE_DONE || painted.pieces > 0 || painted.rows > 0 || words < 7);
        for (k = 0; k < painted.rows; k++)
            expect("the row's end", (uint32_t)end_of[row + k], (uint32_t)(m + ends[k]));
        m += painted.pieces, row += painted.rows;
    }
    expect("as many pieces", (uint32_t)n, (uint32_t)m);
    expect("the same pieces", 0, (uint32_t)memcmp(one_by_one, together, n * sizeof(coarse_piece)));
    expect("the same depth words", 0, (uint32_t)memcmp(single.tables.depth, all.tables.depth, single.sizes.depth * sizeof(uint32_t)));
    expect("the same minima", 0, (uint32_t)memcmp(single.tables.minima, all.tables.minima, single.sizes.minima * sizeof(uint32_t)));
    expect("as far", 0, (uint32_t)memcmp(single.tables.painting, all.tables.painting, single.sizes.painting * sizeof(uint32_t)));
    coarse_bucketer_free(&single), coarse_bucketer_free(&all);
}

/* Rows by one call: lists that are long and short, ranges, ends, and a row that is refused half way. */
static void rows_by_one_call(void) {
    static uint32_t list[1 << 14];
    coarse_bucketer b;
    coarse_painted_rows painted = {99, 99};
    size_t ends[9] = {77, 77, 77, 77, 77, 77, 77, 77, 77}, words, end_before;
    uint32_t before, *panel;
    const coarse_piece *pieces;
    rows_in_lists_of(1 << 13);
    for (words = 28; words < 120; words += 13)
        rows_in_lists_of(words);
    eight_rows(&b);
    before = sum(&b);
    expect("past the end", COARSE_BAD_RUN, coarse_paint_rows(&b.state, &b.stored, &b.canvas, 0, 9, list, 1 << 14, ends, 9, &painted));
    expect("no row, no piece", 0, (uint32_t)(painted.rows + painted.pieces));
    expect("backwards", COARSE_BAD_RUN, coarse_paint_rows(&b.state, &b.stored, &b.canvas, 3, 2, list, 1 << 14, ends, 9, &painted));
    expect("far away", COARSE_BAD_RUN, coarse_paint_rows(&b.state, &b.stored, &b.canvas, SIZE_MAX, SIZE_MAX, list, 1 << 14, ends, 9, &painted));
    expect("few ends", COARSE_NO_ROOM, coarse_paint_rows(&b.state, &b.stored, &b.canvas, 0, 8, list, 1 << 14, ends, 7, &painted));
    expect("no list", COARSE_NO_ROOM, coarse_paint_rows(&b.state, &b.stored, &b.canvas, 0, 8, list, 6, ends, 8, &painted));
    expect("no rows", COARSE_DONE, coarse_paint_rows(&b.state, &b.stored, &b.canvas, 8, 8, list, 0, ends, 0, &painted));
    expect("none then", 0, (uint32_t)(painted.rows + painted.pieces));
    expect("nothing has changed", before, sum(&b));
    expect("no end", 77, (uint32_t)ends[0]);
    /* The last fill has 8 rows: a panel that is none stops the first row that has it, and later calls go on behind those before. */
    panel = b.tables.paint_attrs + 1 * COARSE_PAINT_ATTR + 8;
    *panel = 256;
    expect("rows 6 and 7 have it not", COARSE_DONE, coarse_paint_rows(&b.state, &b.stored, &b.canvas, 6, 8, list, 1 << 14, ends, 2, &painted));
    expect("both", 2, (uint32_t)painted.rows);
    end_before = ends[1];
    expect("each is at its end", COARSE_DONE, coarse_paint_rows(&b.state, &b.stored, &b.canvas, 6, 8, list, 1 << 14, ends, 2, &painted));
    expect("no piece is left", 1, painted.pieces == 0 && end_before > 0 && ends[1] == 0);
    expect("row 0 has it", COARSE_BAD_RECORD, coarse_paint_rows(&b.state, &b.stored, &b.canvas, 0, 8, list, 1 << 14, ends, 8, &painted));
    expect("no row is at its end", 0, (uint32_t)painted.rows);
    *panel = 1;
    expect("then it goes on", COARSE_DONE, coarse_bucketer_paint_rows(&b, 0, 8, ends, &pieces));
    coarse_bucketer_free(&b);
}

/* Rows by their own words: each length short and long, the numbers of refusals, a short list, and what the row's call gives. */
static void rows_by_own_words(void) {
    static uint32_t list[1 << 14], single_list[1 << 14];
    coarse_bucketer b, single;
    size_t row, k;
    eight_rows(&b), eight_rows(&single);
    for (row = 8; row-- > 0;) {
        coarse_stored own, bad_own;
        coarse_canvas words, bad;
        coarse_painted painted = {99, 99}, alone = {0, 0};
        coarse_state state = b.state;
        uint32_t before = sum(&b);
        expect("a row of the screen", COARSE_DONE, coarse_bucketer_own_row(&b, &b.canvas, row, &own, &words));
        for (k = 0; k < 16; k++) {
            const size_t by = k % 2 ? 1 : (size_t)-1;
            bad_own = own, bad = words;
            *(size_t *[]){&bad_own.render_cmds_len, &bad_own.depth_cmds_len, &bad.depth_len, &bad.minima_len, &bad_own.rows_len, &bad.painting_len,
                          &bad_own.paint_attrs_len, &bad_own.layer_attrs_len}[k / 2] += by;
            expect("a length", k / 2 < 4 ? COARSE_BAD_ARENA : COARSE_BAD_RECORD, coarse_paint_own_row(&state, &bad_own, &bad, list, 1 << 14, &painted));
        }
        state.layers = 1;
        expect("an open layer", COARSE_OPEN, coarse_paint_own_row(&state, &own, &words, list, 1 << 14, &painted));
        state = b.state, state.painting = 0;
        expect("not begun", COARSE_OPEN, coarse_paint_own_row(&state, &own, &words, list, 1 << 14, &painted));
        state = b.state, state.width = 3;
        expect("no width", COARSE_BAD_RECORD, coarse_paint_own_row(&state, &own, &words, list, 1 << 14, &painted));
        state = b.state, state.viewport.x1 += 1;
        expect("no viewport", COARSE_BAD_VIEWPORT, coarse_paint_own_row(&state, &own, &words, list, 1 << 14, &painted));
        expect("nothing has changed", 1, before == sum(&b) && painted.finished == 99 && painted.pieces == 99);
        expect("the row", COARSE_DONE, coarse_paint_own_row(&b.state, &own, &words, list, 1 << 14, &painted));
        expect("by its number", COARSE_DONE, coarse_paint_row(&single.state, &single.stored, &single.canvas, row, single_list, 1 << 14, &alone));
        expect("as many pieces", (uint32_t)alone.pieces, (uint32_t)painted.pieces);
        expect("to the end", 1, painted.finished == 1 && alone.finished == 1);
        expect("the same pieces", 0, (uint32_t)memcmp(list, single_list, alone.pieces * sizeof(coarse_piece)));
    }
    expect("the same depth words", 0, (uint32_t)memcmp(single.tables.depth, b.tables.depth, b.sizes.depth * sizeof(uint32_t)));
    expect("the same minima", 0, (uint32_t)memcmp(single.tables.minima, b.tables.minima, b.sizes.minima * sizeof(uint32_t)));
    expect("as far", 0, (uint32_t)memcmp(single.tables.painting, b.tables.painting, b.sizes.painting * sizeof(uint32_t)));
    {
        coarse_stored own;
        coarse_canvas words;
        expect("no such row", COARSE_BAD_RUN, coarse_bucketer_own_row(&b, &b.canvas, 8, &own, &words));
    }
    coarse_bucketer_free(&single), coarse_bucketer_free(&b);
}

/* A reset of what is used leaves what a reset leaves, whatever was drawn, painted and compacted; refused, 2, 1 or 4, it changes nothing. */
static void used_again(void) {
    coarse_rect view = {0, 0, 512, 8};
    coarse_bucketer b;
    const coarse_piece *pieces = NULL;
    size_t n = 0;
    uint32_t i, fresh, before;
    expect("a screen", COARSE_DONE, coarse_bucketer_new(&b, view, (coarse_setup){8, 8, COARSE_EXACT, COARSE_128}));
    fresh = sum(&b);
    expect("used by nothing", COARSE_DONE, coarse_bucketer_reset_used(&b));
    expect("it is fresh", fresh, sum(&b));
    for (i = 0; i < 3; i++) {
        expect("a fill", COARSE_DONE, fill_row(&b, 2, 1));
        layer_of(&b, 0, 1);
        expect("a fill that hides it", COARSE_DONE, fill_row(&b, 0, 0));
        expect("painting", COARSE_DONE, coarse_bucketer_begin_painting(&b));
        expect("a row", COARSE_DONE, coarse_bucketer_paint_row(&b, 0, &pieces, &n));
        if (i == 1)
            expect("compacted", COARSE_DONE, coarse_bucketer_compact_row(&b, 0));
        expect("used", COARSE_DONE, coarse_bucketer_reset_used(&b));
        expect("it is fresh again", fresh, sum(&b));
    }
    expect("a fill", COARSE_DONE, fill_row(&b, 2, 1));
    before = sum(&b);
    b.tables.rows_len--;
    expect("a record short", COARSE_BAD_RECORD, coarse_bucketer_reset_used(&b));
    b.tables.minima_len--;
    expect("1 before 4", COARSE_BAD_ARENA, coarse_bucketer_reset_used(&b));
    b.state.viewport.x1++;
    expect("2 before 1", COARSE_BAD_VIEWPORT, coarse_bucketer_reset_used(&b));
    b.state.viewport.x1--, b.tables.minima_len++, b.tables.rows_len++;
    b.state.painting = 2;
    expect("no screen", COARSE_BAD_RECORD, coarse_bucketer_reset_used(&b));
    b.state.painting = 0, b.state.next_draw_id = 0;
    expect("no id", COARSE_BAD_RECORD, coarse_bucketer_reset_used(&b));
    b.state.next_draw_id = 2;
    expect("nothing has changed", before, sum(&b));
    coarse_bucketer_free(&b);
}

int main(void) {
    rows_by_own_words();
    rows_by_one_call();
    null_pointers();
    owned_tables();
    lent_spans();
    hidden();
    snapped_screen();
    no_mode();
    widths();
    no_width();
    kept_rows();
    kept_runs();
    coordinates();
    named_sizes();
    panels();
    lists();
    editions();
    conversions();
    tile_lists();
    figures();
    refused_figures();
    stored_commands();
    compacted_rows();
    used_again();
    all_attributes();
    words_of_numbers();
    default_blend();
    return wrong;
}
