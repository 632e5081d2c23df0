/* Memory that runs out: each allocation of a long scene, and of a recording of one, fails in turn. The call that met it answers COARSE_NO_MEMORY, has changed nothing and left what its
 * pointers are to receive; the same call again, with memory, is done, and at the end all that was painted is what a run without a failure painted.
 * Prints each thing that does not hold; the status is 1 if anything does not. Wants coarse_recorder.h on the include path. */
#include <stdint.h>
#include <stdio.h>
#include <stdlib.h>

/* How many blocks are asked for, and the number of the one that cannot be had: 0 for none. */
static unsigned long asked, failing;

static int is_refused(void) { return ++asked == failing; }
static void *counted_calloc(size_t count, size_t size) { return is_refused() ? NULL : calloc(count, size); }
static void *counted_realloc(void *block, size_t size) { return is_refused() ? NULL : realloc(block, size); }

#define calloc counted_calloc
#define realloc counted_realloc
#include "coarse_recorder.h"
#undef calloc
#undef realloc

enum { TILES = 64, ROWS = 8, MOST = 4096 };

static unsigned long wrong, refused;

static void fail(const char *what, const char *how) {
    printf("block %lu, %s: %s\n", failing, what, how);
    wrong++;
}

/* All that a screen holds but its lists of pieces and runs, whose room may have grown. */
static uint64_t sum_of(uint64_t sum, const void *at, size_t size) {
    const unsigned char *bytes = (const unsigned char *)at;
    size_t i;
    for (i = 0; i < size; i++)
        sum = (sum ^ bytes[i]) * 1099511628211u;
    return sum;
}

static uint64_t everything(const coarse_bucketer *b) {
    const coarse_lengths *n = &b->sizes;
    size_t words = n->render_cmds + n->depth_cmds + n->depth + n->rows + n->painting + n->layers + n->opacities + n->paint_attrs + n->layer_attrs + n->filter_paints + n->minima;
    uint64_t sum = 14695981039346656037u;
    sum = sum_of(sum, &b->setup, sizeof b->setup);
    sum = sum_of(sum, &b->state, sizeof b->state);
    sum = sum_of(sum, &b->sizes, sizeof b->sizes);
    sum = sum_of(sum, &b->block, sizeof b->block);
    sum = sum_of(sum, &b->tables, sizeof b->tables);
    sum = sum_of(sum, &b->stored, sizeof b->stored);
    sum = sum_of(sum, &b->canvas, sizeof b->canvas);
    return b->block ? sum_of(sum, b->block, words * sizeof(uint32_t)) : sum;
}

/* What one run paints, and what its calls are to receive. */
typedef struct {
    coarse_bucketer screen;
    const coarse_piece *pieces;
    const coarse_run *runs;
    size_t count;
    int finished;
    coarse_reason reason;
    uint64_t painted;
} scene;

static const coarse_paint paints[] = {{1, 1, 0, 0}, {0, 2, 3, -3}};

/* A recording of one draw over 128 tiles of a screen of 512 x 4 pixels. */
static const uint32_t file[] = {1, 0, 0, 512, 4, 1, 1, 1, 0, 0, 1, 0, 0, 0, 128, 0, 1, 0, 0, 1, 0, 0, 3, 0, 0, 1, 0, 1, 0, 1, 0, 1};
enum { WORDS = sizeof file / sizeof file[0] };

/* A list of segments of a draw or a clip: a run of tiles in each row. */
static void fill_rows(coarse_segment *list, uint32_t first, uint32_t end) {
    uint32_t row;
    for (row = 0; row < ROWS; row++) {
        list[row].kind = 0, list[row].row = row, list[row].first = first, list[row].end = end, list[row].alpha = 0;
    }
}

/* The calls of a scene, each by a number; those that allocate nothing are done in passing. */
enum { NEW, BEGIN, STEP, ROW, UNSET, VISIBLE, RECORDING, WHY, RESET, LARGER };

static uint32_t call(scene *s, int which, size_t row) {
    const coarse_setup setup = {64, 64, COARSE_EXACT, COARSE_64};
    const coarse_rect small = {0, 0, 4 * TILES, 4 * ROWS}, large = {0, 0, 8 * TILES, 8 * ROWS};
    switch (which) {
    case NEW: return coarse_bucketer_new(&s->screen, small, setup);
    case BEGIN: return coarse_bucketer_begin_painting(&s->screen);
    case STEP: return coarse_bucketer_paint_step(&s->screen, row, &s->finished, &s->pieces, &s->count);
    case ROW: return coarse_bucketer_paint_row(&s->screen, row, &s->pieces, &s->count);
    case UNSET: return coarse_bucketer_unset_runs(&s->screen, row, 0, TILES, &s->runs, &s->count);
    case VISIBLE: return coarse_bucketer_visible_runs(&s->screen, row, 0, TILES, 3, &s->runs, &s->count);
    case RECORDING: return coarse_bucketer_bucket_commands(&s->screen, COARSE_EDITION_ONE, file, WORDS);
    case WHY: return coarse_bucketer_why(&s->screen, COARSE_EDITION_ONE, file, WORDS, 0, 5, 0, 0, &s->reason);
    case RESET: return coarse_bucketer_reset(&s->screen, small);
    default: return coarse_bucketer_reset(&s->screen, large);
    }
}

/* A call, and once more where memory ran out. */
static void once(scene *s, const char *what, int which, size_t row) {
    scene before = *s;
    uint64_t held = which == NEW ? 0 : everything(&s->screen);
    uint32_t answer = call(s, which, row);
    if (answer == COARSE_NO_MEMORY) {
        refused++;
        if (which != NEW && everything(&s->screen) != held)
            fail(what, "something has changed");
        if (s->pieces != before.pieces || s->runs != before.runs || s->count != before.count || s->finished != before.finished ||
            memcmp(&s->reason, &before.reason, sizeof s->reason) != 0)
            fail(what, "what a pointer is to receive has changed");
        answer = call(s, which, row);
    }
    if (answer != COARSE_DONE)
        fail(what, coarse_answer_text(answer));
    if (which == STEP || which == ROW) {
        s->painted = sum_of(s->painted, &s->count, sizeof s->count);
        s->painted = sum_of(s->painted, s->pieces, s->count * sizeof *s->pieces);
    }
    if (which == UNSET || which == VISIBLE)
        s->painted = sum_of(s->painted, s->runs, s->count * sizeof *s->runs);
    s->painted = sum_of(s->painted, &s->reason, sizeof s->reason);
}

static void must(const char *what, uint32_t answer) {
    if (answer != COARSE_DONE)
        fail(what, coarse_answer_text(answer));
}

/* A desk over the whole, then 40 draws of which every third is opaque, the later half in a clipped layer: a row has more pieces than its list has room for at
 * first, so that the list grows while the row is painted. */
static void draw_all(scene *s) {
    coarse_segment list[ROWS], clip_rows[ROWS];
    coarse_clip clip;
    coarse_layer_props layer;
    coarse_draw draw;
    uint32_t k;
    memset(&draw, 0, sizeof draw);
    memset(&clip, 0, sizeof clip);
    memset(&layer, 0, sizeof layer);
    draw.end = ROWS;
    draw.blend.compose = layer.blend.compose = 3;
    layer.opacity = 0.5f;
    layer.clip = &clip;
    clip.box.x1 = 4 * TILES, clip.box.y1 = 4 * ROWS;
    clip.end = ROWS;
    fill_rows(clip_rows, 2, TILES - 2);
    fill_rows(list, 0, TILES);
    must("a desk", coarse_bucketer_generate_fill(&s->screen, paints, 2, list, ROWS, &draw));
    for (k = 0; k < 40; k++) {
        if (k == 20)
            must("a layer", coarse_bucketer_push_layer(&s->screen, &layer));
        draw.paint = k % 3 == 0 ? 0 : 1;
        fill_rows(list, k % 7, TILES - k % 11);
        must("a draw", coarse_bucketer_generate_fill(&s->screen, paints, 2, list, ROWS, &draw));
    }
    must("its end", coarse_bucketer_pop_layer(&s->screen, clip_rows, ROWS));
}

static void paint_all(scene *s) {
    size_t row;
    once(s, "painting", BEGIN, 0);
    once(s, "a step", STEP, 0);
    for (row = 0; row < coarse_bucketer_rows(&s->screen); row++)
        once(s, "a row", ROW, row);
    once(s, "unset runs", UNSET, coarse_bucketer_rows(&s->screen) - 1);
    once(s, "visible runs", VISIBLE, coarse_bucketer_rows(&s->screen) - 1);
}

/* All of it, with one block that cannot be had. */
static uint64_t run(unsigned long which) {
    scene s;
    memset(&s, 0, sizeof s);
    s.count = 7, s.finished = 7;
    asked = 0, failing = which;
    once(&s, "a screen", NEW, 0);
    draw_all(&s);
    paint_all(&s);
    once(&s, "a larger screen", LARGER, 0);
    draw_all(&s);
    paint_all(&s);
    once(&s, "a recording", RECORDING, 0);
    paint_all(&s);
    once(&s, "a smaller screen", RESET, 0);
    once(&s, "a reason", WHY, 0);
    paint_all(&s);
    coarse_bucketer_free(&s.screen);
    return s.painted;
}

/* All that a recorder holds, but for room that has grown. */
static uint64_t recorded(const coarse_recorder *r) {
    const coarse_records *sections[6];
    static const size_t sizes[] = {COARSE_PAINT, COARSE_SEGMENT, COARSE_DRAW, COARSE_LAYER_RECORD, COARSE_NODE_RECORD, COARSE_NODE_RECORD};
    uint64_t sum = sum_of(14695981039346656037u, &r->viewport, sizeof r->viewport);
    size_t i;
    sections[0] = &r->paints, sections[1] = &r->segments, sections[2] = &r->draws, sections[3] = &r->layers, sections[4] = &r->nodes, sections[5] = &r->pending;
    sum = sum_of(sum, &r->open, sizeof r->open);
    for (i = 0; i < 6; i++) {
        sum = sum_of(sum, &sections[i]->count, sizeof sections[i]->count);
        sum = sum_of(sum, sections[i]->words, sections[i]->count * sizes[i] * sizeof(uint32_t));
    }
    return sum;
}

/* The calls of a recorder. */
enum { PAINT, SEGMENTS, DRAW, PUSH, POP, FILTER, RECORDED };

static uint32_t record(coarse_recorder *r, int which, uint32_t *place, const uint32_t **words, size_t *count) {
    static const coarse_segment list[] = {{0, 0, 0, 9, 0}, {0, 1, 0, 9, 0}};
    coarse_draw draw;
    coarse_clip clip;
    coarse_layer_props layer;
    coarse_placement placement;
    uint32_t picture = 3;
    memset(&draw, 0, sizeof draw);
    memset(&clip, 0, sizeof clip);
    memset(&layer, 0, sizeof layer);
    memset(&placement, 0, sizeof placement);
    draw.end = clip.end = 2;
    draw.panel = 5, layer.panel = 6;
    draw.blend.compose = layer.blend.compose = 3;
    layer.clip = &clip;
    clip.box.x1 = clip.box.y1 = placement.dest.x1 = placement.dest.y1 = 8;
    switch (which) {
    case PAINT: return coarse_recorder_paint(r, paints, place);
    case SEGMENTS: return coarse_recorder_segments(r, list, 2, place);
    case DRAW: return coarse_recorder_draw(r, &draw);
    case PUSH: return coarse_recorder_push_layer(r, &layer);
    case POP: return coarse_recorder_pop_layer(r);
    case FILTER: return coarse_recorder_filter_layer(r, &layer, &picture, &placement);
    default: return coarse_recorder_words(r, COARSE_EDITION_TWO, words, count);
    }
}

/* A recording of nested layers, with one block that cannot be had: the words that it comes to. */
static uint64_t run_recorder(unsigned long which) {
    static const int calls[] = {PAINT, SEGMENTS, DRAW, DRAW, PUSH, DRAW, PUSH, DRAW, FILTER, DRAW, POP, PUSH, POP, PAINT, SEGMENTS, DRAW, POP, RECORDED, FILTER, DRAW, RECORDED};
    const coarse_rect viewport = {0, 0, 64, 8};
    coarse_recorder r;
    const uint32_t *words = NULL;
    uint64_t sum = 1;
    size_t i, count = 7;
    asked = 0, failing = which;
    coarse_recorder_new(&r, viewport);
    for (i = 0; i < sizeof calls / sizeof calls[0]; i++) {
        uint32_t place = 9, answer;
        uint64_t held = recorded(&r);
        const uint32_t *before = words;
        size_t counted = count;
        unsigned long blocks = asked;
        if (calls[i] == RECORDED && (coarse_recorder_words(&r, COARSE_EDITION_ONE, &words, &count) != COARSE_HAS_PANELS || asked != blocks))
            fail("edition one", "it is not refused before memory is asked for");
        answer = record(&r, calls[i], &place, &words, &count);
        if (answer == COARSE_NO_MEMORY) {
            refused++;
            if (recorded(&r) != held)
                fail("a recorder", "something has changed");
            if (place != 9 || words != before || count != counted)
                fail("a recorder", "what a pointer is to receive has changed");
            answer = record(&r, calls[i], &place, &words, &count);
        }
        if (answer != COARSE_DONE)
            fail("a recorder", coarse_answer_text(answer));
        if (calls[i] == RECORDED && answer == COARSE_DONE)
            sum = sum_of(sum, words, count * sizeof *words);
    }
    coarse_recorder_free(&r);
    return sum;
}

/* Each block of a run in turn: how many there are. */
static unsigned long each_block(uint64_t (*what)(unsigned long)) {
    uint64_t whole = what(0);
    unsigned long blocks = asked, k;
    for (k = 1; k <= blocks; k++) {
        unsigned long before = refused;
        if (what(k) != whole)
            fail("the whole", "another one than with memory");
        if (refused != before + 1)
            fail("the whole", "it was not told once that memory ran out");
    }
    return blocks;
}

int main(void) {
    unsigned long drawn = each_block(run), noted = each_block(run_recorder);
    printf("%lu blocks of a screen and %lu of a recorder, each refused in turn; %lu things do not hold\n", drawn, noted, wrong);
    return wrong != 0 || drawn < 6 || noted < 6;
}
