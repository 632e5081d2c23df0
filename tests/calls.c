/* Random and forged calls of coarse.h: mostly good ones, on screens that earlier calls made, and among them words that no call would leave, lengths that are too
 * short, numbers that are anything. After each call:
 *   - its answer is one of the header's;
 *   - refused, it has changed no word (a recording and a question, refused for the records or later, may have changed the screen alone; a list of fills,
 *     what the fills before the refused one change, and it has told how many they are);
 *   - done, it has changed only what it is there to write, and nothing past the length that its list was lent with;
 *   - no word between the tables has changed, and no pointer or length in a struct that lends them.
 * At the end each call has been done, and been refused.
 *     calls [COUNT [SEED [RECORDING ..]]]        300,000 calls, seed 1; recordings are files as samples/ has them, without which none is bucketed
 * Prints what does not hold; the status is 1 if anything does not. Wants coarse.h on the include path. */
#include "coarse.h"
#include <stdio.h>
#include <stdlib.h>
#include <string.h>

/* The eleven tables in the order of coarse_lengths, then what else a call may write. */
enum { RENDER_CMDS, DEPTH_CMDS, DEPTH, ROWS, PAINTING, LAYERS, OPACITIES, PAINT_ATTRS, LAYER_ATTRS, FILTER_PAINTS, MINIMA, TABLES, STATE = TABLES, LIST, PARTS };
enum { SCREEN = (1 << (STATE + 1)) - 1, RESULTS = 1 << PARTS, LISTED = 1 << LIST | RESULTS };
enum { LIST_WORDS = 512, ROOM = 1 << 17, BETWEEN = 3, MOST_SEGMENTS = 24, MOST_DRAWS = 6, MOST_ENDS = 8,
       MOST_FILES = 4, FILES = 32, FILE_WORDS = 4096, STATE_WORDS = sizeof(coarse_state) / sizeof(uint32_t) };
#define GUARD 0x5eed5eedu

/* Everything that is lent stands in one block, guard words before and after each part; the structs that lend it, and results, beside it. */
static uint32_t block[ROOM], held[ROOM], sound[ROOM];
static size_t used;
static uint32_t *part[PARTS];
static size_t size[PARTS], length[PARTS];
static struct lent { coarse_tables tables; coarse_stored stored; coarse_canvas canvas; } lent, held_lent;
static struct results {
    coarse_lengths sizes;
    coarse_painted painted;
    coarse_painted_rows rows;
    size_t ends[MOST_ENDS];
    coarse_reason reason;
    coarse_parts parts;
    coarse_row_counts lengths;
    coarse_command cmd;
    coarse_depth_fill fill;
    coarse_row_progress told;
    size_t count;
    uint32_t yes;
    uint64_t figures[COARSE_FIGURES * (MOST_FILES + 1)];
} results, held_results;

static uint32_t segments[MOST_SEGMENTS * COARSE_SEGMENT];
static uint32_t paints[4 * COARSE_PAINT], draws[MOST_DRAWS * COARSE_DRAW];
static uint32_t files[FILES][FILE_WORDS], file[2 * FILE_WORDS], edition;
static size_t file_words[FILES], words, file_count;
static coarse_rect viewport;
static coarse_setup setup;

/* Numbers */

static uint64_t seed;

static uint32_t any(void) {
    seed ^= seed << 13, seed ^= seed >> 7, seed ^= seed << 17;
    return (uint32_t)((seed * 2685821657736338717u) >> 32);
}

static uint32_t below(uint32_t n) { return any() % n; }

/* 1 once in so many times, else 0. */
static uint32_t once_in(uint32_t n) { return below(n) == 0 ? 1 : 0; }

/* Whether a call's numbers are all to be in range. */
static int is_tame;

/* From 0 to n; in a call that is not tame at times just past it, at times anything. */
static uint32_t about(uint32_t n) {
    uint32_t which = is_tame ? 3 : below(16);
    return which == 0 ? any() : which == 1 ? n + 1 : which == 2 ? 0u - below(3) : below(n + 1);
}

/* What happens once in so many calls, and in no tame one. */
static uint32_t odd(uint32_t n) { return is_tame ? 0 : once_in(n); }

/* What is lent */

/* The parts of the block, of these sizes, all zero: false if there is no room. */
static int place(const size_t *sizes) {
    size_t at = BETWEEN, i;
    for (i = 0; i < TABLES; i++)
        at += (sizes[i] < (size_t)ROOM ? sizes[i] : (size_t)ROOM) + BETWEEN;
    if (at + STATE_WORDS + LIST_WORDS + 2 * BETWEEN > ROOM)
        return 0;
    for (at = 0; at < ROOM; at++)
        block[at] = GUARD;
    for (i = 0, at = BETWEEN; i < PARTS; i++) {
        size[i] = i < TABLES ? sizes[i] : (size_t)(i == STATE ? STATE_WORDS : LIST_WORDS);
        part[i] = block + at;
        memset(part[i], 0, size[i] * sizeof(uint32_t));
        at += size[i] + BETWEEN;
    }
    used = at;
    return 1;
}

#define LENT(i) part[i], length[i]
#define SCREEN_STATE ((coarse_state *)(void *)part[STATE])

/* How much of each part the next call is lent: now and then less than there is. */
static void lend(void) {
    size_t i;
    for (i = 0; i < PARTS; i++)
        length[i] = odd(100) ? (size_t)below((uint32_t)size[i] + 1) : size[i];
    length[LIST] = once_in(3) ? (size_t)below(LIST_WORDS + 1) : (size_t)LIST_WORDS;
    length[STATE] = STATE_WORDS;
    {
        coarse_tables tables = {LENT(RENDER_CMDS), LENT(DEPTH_CMDS), LENT(DEPTH), LENT(MINIMA), LENT(ROWS), LENT(PAINTING), LENT(LAYERS),
                                (float *)part[OPACITIES], length[OPACITIES], LENT(PAINT_ATTRS), LENT(LAYER_ATTRS), (int32_t *)part[FILTER_PAINTS],
                                length[FILTER_PAINTS]};
        coarse_stored stored = {LENT(ROWS), LENT(RENDER_CMDS), LENT(DEPTH_CMDS), LENT(PAINT_ATTRS), LENT(LAYER_ATTRS)};
        coarse_canvas canvas = {LENT(DEPTH), LENT(MINIMA), LENT(PAINTING)};
        lent.tables = tables, lent.stored = stored, lent.canvas = canvas;
    }
}

/* Words that no call would leave. */
static void forge(void) {
    uint32_t k, n = 1 + below(3);
    for (k = 0; k < n; k++) {
        size_t which = once_in(2) ? (size_t)STATE : (size_t)below(TABLES);
        if (size[which])
            part[which][below((uint32_t)size[which])] = once_in(2) ? any() : below(70);
    }
}

static int guards_hold(void) {
    size_t i, k;
    for (i = 0; i < PARTS; i++)
        for (k = 0; k < BETWEEN; k++)
            if (part[i][size[i] + k] != GUARD)
                return 0;
    return 1;
}

/* Arguments */

static void some_setup(void) {
    static const uint32_t wide[] = {64, 128, 256};
    setup.c = 1 + below(9), setup.d = 1 + below(9);
    if (odd(20))
        setup.c = about(1024);
    setup.mode = about(1);
    setup.width = odd(20) ? any() : wide[below(3)];
}

static void some_viewport(void) {
    viewport.x0 = 4 * below(10), viewport.y0 = 4 * below(10);
    viewport.x1 = viewport.x0 + 4 * below(140), viewport.y1 = viewport.y0 + 4 * below(10);
    if (odd(4) || setup.mode == COARSE_SNAPPING)
        viewport.x1 += about(3), viewport.y0 += about(3);
}

/* A list of segments, in order for the most part, about the rows and tiles of the screen. */
static size_t some_segments(void) {
    uint32_t n = below(MOST_SEGMENTS + 1), k, row = below(12), tile = 0;
    for (k = 0; k < n; k++) {
        uint32_t *s = segments + k * COARSE_SEGMENT;
        if (once_in(3))
            row += below(3), tile = 0;
        tile += below(20);
        s[0] = below(2), s[1] = row, s[2] = tile;
        tile += 1 + below(60);
        s[3] = tile, s[4] = s[0] == 1 ? 16 * below(100) : 0;
        if (odd(60))
            s[below(COARSE_SEGMENT)] = about(200);
    }
    return n;
}

static size_t some_paints(void) {
    uint32_t k;
    for (k = 0; k < 4; k++)
        paints[4 * k] = odd(60) ? any() : below(2), paints[4 * k + 1] = about(99), paints[4 * k + 2] = any(), paints[4 * k + 3] = any();
    return 1 + below(4);
}

/* A file of edition one as one of edition two, at times with panels. */
static void widen(const uint32_t *from, size_t n) {
    uint32_t last = once_in(2) ? COARSE_LAST_PANEL : 0;
    static const size_t each[] = {4, 4, 5, 7, 22, 3, 2};
    size_t section, at = 0;
    file[0] = 1, file[1] = 2, words = 2;
    for (section = 0; section < sizeof each / sizeof each[0] && at < n; section++) {
        uint32_t count = from[at++], k;
        file[words++] = count;
        for (k = 0; k < count && at + each[section] <= n; k++) {
            memcpy(file + words, from + at, each[section] * sizeof(uint32_t));
            at += each[section], words += each[section];
            if (section == 3 || section == 4)
                file[words++] = about(last);
        }
    }
}

/* A recording: one of the files, in either edition, now and then told to be of another, with a word of another number, or cut. */
static void some_file(void) {
    size_t which = below((uint32_t)file_count);
    uint32_t k, n = is_tame ? 0 : below(3);
    edition = 1 + below(2);
    words = file_words[which];
    if (edition == COARSE_EDITION_TWO)
        widen(files[which], words);
    else
        memcpy(file, files[which], words * sizeof(uint32_t));
    if (odd(20))
        edition = about(3);
    for (k = 0; k < n; k++)
        file[below((uint32_t)words)] = about(300);
    if (odd(6))
        words = below((uint32_t)words + 1);
}

/* Tables for a viewport in the setup, on a state of zeros, or as they stand. */
static int screen_for(coarse_rect v) {
    coarse_lengths sizes;
    size_t each[TABLES];
    if (coarse_sizes(v, setup, &sizes) != COARSE_DONE)
        return 0;
    memcpy(each, &sizes, sizeof each);
    return place(each);
}

/* The calls: each with arguments of its own, on what is lent */

static uint32_t call_sizes(void) {
    some_setup(), some_viewport();
    return coarse_sizes(viewport, setup, &results.sizes);
}

static uint32_t call_reset(void) { return coarse_reset(SCREEN_STATE, viewport, setup, &lent.tables); }

static uint32_t call_reset_used(void) { return coarse_reset_used(SCREEN_STATE, &lent.tables); }

static uint32_t call_recording(void) { return coarse_bucket_recording(SCREEN_STATE, edition, file, words, setup, &lent.tables); }

static uint32_t call_why(void) {
    coarse_question question = {0, 0, 0, 0};
    question.row = about(6), question.tile = about(200), question.layer = about(1), question.attribute = about(4);
    return coarse_why(SCREEN_STATE, edition, file, words, setup, &question, &lent.tables, &results.reason);
}

/* The recording between recordings of no words; at times one ends anywhere. */
static uint32_t call_figures(void) {
    size_t ends[MOST_FILES], n = below(MOST_FILES + 1), before = below((uint32_t)n + 1), k;
    for (k = 0; k < n; k++)
        ends[k] = k < before ? 0 : words;
    if (n > 0 && odd(10))
        ends[below((uint32_t)n)] = about((uint32_t)words);
    return coarse_figures(SCREEN_STATE, edition, file, words, ends, n, setup, &lent.tables, results.figures, COARSE_FIGURES * (n + 1) - odd(10));
}

static uint32_t call_tile_list(void) {
    return coarse_list_tile(edition, file, words, setup.mode, setup.width, about(6), about(200), LENT(LIST), &results.count);
}

/* To the other edition, or at times to its own. */
static uint32_t call_to_two(void) {
    return coarse_to_edition_two(file, words, setup.mode, LENT(LIST), &results.count);
}

static uint32_t call_to_one(void) {
    return coarse_to_edition_one(file, words, setup.mode, LENT(LIST), &results.count);
}

/* A draw of so many segments, with one of so many paints. */
static coarse_draw some_draw(size_t n, size_t count) {
    coarse_draw draw;
    draw.start = below((uint32_t)n + 1), draw.end = draw.start + below((uint32_t)(n - draw.start) + 1);
    if (once_in(3))
        draw.start = 0, draw.end = n;
    if (odd(20))
        draw.end = about(MOST_SEGMENTS);
    draw.thread = about(3), draw.paint = about((uint32_t)count - 1), draw.blend.mix = about(15), draw.blend.compose = once_in(3) ? about(13) : 3;
    draw.mask = about(5), draw.panel = about(COARSE_LAST_PANEL);
    return draw;
}

static uint32_t call_fill(void) {
    size_t n = some_segments(), count = some_paints();
    coarse_draw draw = some_draw(n, count);
    return coarse_fill(SCREEN_STATE, &lent.tables, paints, count * COARSE_PAINT - odd(60), segments, n * COARSE_SEGMENT, &draw);
}

static uint32_t call_fill_list(void) {
    size_t n = some_segments(), count = some_paints();
    uint32_t most = below(MOST_DRAWS + 1), k;
    coarse_draws list;
    for (k = 0; k < most; k++) {
        coarse_draw draw = some_draw(n, count);
        uint32_t *d = draws + k * COARSE_DRAW;
        d[0] = draw.thread, d[1] = (uint32_t)draw.start, d[2] = (uint32_t)draw.end, d[3] = draw.paint;
        d[4] = draw.blend.mix, d[5] = draw.blend.compose, d[6] = draw.mask, d[7] = draw.panel;
    }
    list.words = draws, list.words_len = most * COARSE_DRAW - (most > 0 ? odd(60) : 0);
    list.start = once_in(3) ? below(most + 1) : 0, list.end = odd(20) ? about(MOST_DRAWS) : most;
    return coarse_fill_list(SCREEN_STATE, &lent.tables, paints, count * COARSE_PAINT, segments, n * COARSE_SEGMENT, &list, &results.count);
}

static uint32_t call_push(void) {
    coarse_props props;
    props.blend.mix = about(15), props.blend.compose = once_in(3) ? about(13) : 3, props.opacity = any(), props.mask = about(5), props.flag = about(1);
    props.bounds.x0 = 4 * below(60), props.bounds.y0 = 4 * below(10);
    props.bounds.x1 = props.bounds.x0 + about(300), props.bounds.y1 = props.bounds.y0 + about(30);
    props.start = 0, props.end = about(MOST_SEGMENTS), props.thread = about(3), props.panel = about(COARSE_LAST_PANEL);
    return coarse_push_layer(SCREEN_STATE, &lent.tables, &props);
}

static uint32_t call_pop(void) {
    size_t n = once_in(4) ? some_segments() : (size_t)MOST_SEGMENTS;
    return coarse_pop_layer(SCREEN_STATE, &lent.tables, segments, n * COARSE_SEGMENT);
}

static uint32_t call_filter(void) {
    coarse_filter filter;
    filter.dest.x0 = below(200), filter.dest.y0 = below(40);
    filter.dest.x1 = filter.dest.x0 + about(200), filter.dest.y1 = filter.dest.y0 + about(20);
    filter.source_x = about(9), filter.source_y = about(9), filter.has_pixmap = about(1), filter.pixmap = about(99);
    filter.paint_count = about(4), filter.panel = about(COARSE_LAST_PANEL);
    return coarse_filter_fill(SCREEN_STATE, &lent.tables, &filter);
}

static uint32_t call_compact(void) { return coarse_compact_row(SCREEN_STATE, &lent.tables, about(8)); }

static uint32_t call_begin(void) { return coarse_begin_painting(SCREEN_STATE, &lent.canvas); }

static uint32_t call_step(void) { return coarse_paint_step(SCREEN_STATE, &lent.stored, &lent.canvas, about(8), LENT(LIST), &results.painted); }

static uint32_t call_row(void) { return coarse_paint_row(SCREEN_STATE, &lent.stored, &lent.canvas, about(8), LENT(LIST), &results.painted); }

/* A row on its own words, now and then on those of another screen's row. */
static uint32_t call_own_row(void) {
    coarse_stored own = lent.stored;
    coarse_canvas words = lent.canvas;
    size_t rows = words.painting_len / 2 + (odd(20) ? 1 : 0), row = rows ? below((uint32_t)rows) : 0;
    if (rows) {
        own.rows_len /= rows, own.rows += row * own.rows_len;
        own.render_cmds_len /= rows, own.render_cmds += row * own.render_cmds_len;
        own.depth_cmds_len /= rows, own.depth_cmds += row * own.depth_cmds_len;
        words.depth_len /= rows, words.depth += row * words.depth_len;
        words.minima_len /= rows, words.minima += row * words.minima_len;
        words.painting_len /= rows, words.painting += row * words.painting_len;
    }
    return coarse_paint_own_row(SCREEN_STATE, &own, &words, LENT(LIST), &results.painted);
}

/* Rows of the screen, or none; now and then more ends than rows, or fewer. */
static uint32_t call_rows(void) {
    size_t first = about(8), end = odd(10) ? about(8) : first + about(3), n = first < end && end - first < MOST_ENDS ? end - first : 0;
    return coarse_paint_rows(SCREEN_STATE, &lent.stored, &lent.canvas, first, end, LENT(LIST), results.ends, odd(10) ? below(MOST_ENDS + 1) : n,
                             &results.rows);
}

/* Tiles of a row, or buckets. */
static coarse_span some_span(uint32_t first, uint32_t more) {
    coarse_span span = {0, 0};
    span.first = first, span.end = more;
    return span;
}

static uint32_t call_unset(void) {
    return coarse_unset_runs(SCREEN_STATE, &lent.canvas, about(8), some_span(below(60), about(8192)), LENT(LIST), &results.count);
}

static uint32_t call_visible(void) {
    return coarse_visible_runs(SCREEN_STATE, &lent.canvas, about(8), some_span(below(60), about(8192)), about(40), LENT(LIST), &results.count);
}

static uint32_t call_spans(void) {
    return coarse_visible_spans(SCREEN_STATE, &lent.canvas, about(8), some_span(below(60), about(8192)), about(40), (coarse_span *)(void *)part[LIST],
                                length[LIST] / COARSE_RUN, &results.count);
}

static uint32_t call_write(void) {
    uint32_t first = below(4);
    return coarse_unset_runs_and_write(SCREEN_STATE, &lent.canvas, about(8), some_span(first, first + about(6)), about(40), LENT(LIST), &results.count);
}

static uint32_t call_hidden(void) {
    uint32_t first = below(4);
    return coarse_is_hidden(SCREEN_STATE, LENT(MINIMA), about(8), some_span(first, first + about(6)), about(40), &results.yes);
}

static uint32_t call_skip(void) { return coarse_can_skip(SCREEN_STATE, &lent.stored, about(8), some_span(below(60), about(8192)), about(40), &results.yes); }

static uint32_t call_split(void) {
    uint32_t first = about(300);
    return coarse_split_opaque_span(some_span(first, first + about(300)), 64u << below(3), &results.parts);
}

static uint32_t call_lengths(void) { return coarse_row_lengths(SCREEN_STATE, &lent.stored, about(8), &results.lengths); }

static uint32_t call_cmd(void) { return coarse_render_cmd(SCREEN_STATE, &lent.stored, about(8), about(8), &results.cmd); }

static uint32_t call_depth(void) { return coarse_depth_cmd(SCREEN_STATE, &lent.stored, about(8), about(3), &results.fill); }

static uint32_t call_progress(void) { return coarse_progress(SCREEN_STATE, &lent.canvas, about(8), &results.told); }

/* What is made ready before a call: a screen of another viewport, a recording and its screen. */
static void ready_none(void) {}

static void ready_reset(void) {
    some_setup(), some_viewport();
    if (!screen_for(viewport) && once_in(2))
        memset(part[STATE], 0, sizeof(coarse_state));
}

static void ready_file(void) {
    some_setup(), some_file();
    setup.c += 40, setup.d += 40;
    if (words > 6) {
        memcpy(&viewport, file + (edition == COARSE_EDITION_TWO ? 3 : 1), sizeof viewport);
        if (!screen_for(viewport))
            memset(part[STATE], 0, sizeof(coarse_state));
    }
}

/* Words alone: the screen stays. */
static void ready_words(void) { some_setup(), some_file(); }

#define ROWS_TOO (1 << STATE | 1 << ROWS | 1 << RENDER_CMDS | 1 << DEPTH_CMDS)

static struct {
    const char *name;
    void (*ready)(void);
    uint32_t (*make)(void);
    int writes, often;
    unsigned long done, refused;
} calls[] = {
    {"coarse_sizes", ready_none, call_sizes, RESULTS, 3, 0, 0},
    {"coarse_reset", ready_reset, call_reset, SCREEN, 6, 0, 0},
    {"coarse_reset_used", ready_none, call_reset_used, SCREEN, 1, 0, 0},
    {"coarse_bucket_recording", ready_file, call_recording, SCREEN, 3, 0, 0},
    {"coarse_why", ready_file, call_why, SCREEN | RESULTS, 3, 0, 0},
    {"coarse_figures", ready_file, call_figures, SCREEN | RESULTS, 3, 0, 0},
    {"coarse_list_tile", ready_words, call_tile_list, LISTED, 6, 0, 0},
    {"coarse_to_edition_two", ready_words, call_to_two, LISTED, 3, 0, 0},
    {"coarse_to_edition_one", ready_words, call_to_one, LISTED, 3, 0, 0},
    {"coarse_fill", ready_none, call_fill, ROWS_TOO | 1 << PAINT_ATTRS, 40, 0, 0},
    {"coarse_fill_list", ready_none, call_fill_list, ROWS_TOO | 1 << PAINT_ATTRS | RESULTS, 12, 0, 0},
    {"coarse_push_layer", ready_none, call_push, ROWS_TOO | 1 << LAYERS | 1 << OPACITIES, 14, 0, 0},
    {"coarse_pop_layer", ready_none, call_pop, ROWS_TOO | 1 << LAYERS | 1 << OPACITIES | 1 << LAYER_ATTRS, 20, 0, 0},
    {"coarse_filter_fill", ready_none, call_filter, ROWS_TOO | 1 << PAINT_ATTRS | 1 << FILTER_PAINTS, 8, 0, 0},
    {"coarse_compact_row", ready_none, call_compact, 1 << STATE | 1 << ROWS | 1 << RENDER_CMDS, 12, 0, 0},
    {"coarse_begin_painting", ready_none, call_begin, 1 << STATE | 1 << DEPTH | 1 << MINIMA | 1 << PAINTING, 20, 0, 0},
    {"coarse_paint_step", ready_none, call_step, 1 << DEPTH | 1 << MINIMA | 1 << PAINTING | LISTED, 40, 0, 0},
    {"coarse_paint_row", ready_none, call_row, 1 << DEPTH | 1 << MINIMA | 1 << PAINTING | LISTED, 20, 0, 0},
    {"coarse_paint_own_row", ready_none, call_own_row, 1 << DEPTH | 1 << MINIMA | 1 << PAINTING | LISTED, 20, 0, 0},
    {"coarse_paint_rows", ready_none, call_rows, 1 << DEPTH | 1 << MINIMA | 1 << PAINTING | LISTED, 20, 0, 0},
    {"coarse_unset_runs", ready_none, call_unset, LISTED, 6, 0, 0},
    {"coarse_visible_runs", ready_none, call_visible, LISTED, 6, 0, 0},
    {"coarse_visible_spans", ready_none, call_spans, LISTED, 6, 0, 0},
    {"coarse_unset_runs_and_write", ready_none, call_write, 1 << STATE | 1 << DEPTH | 1 << MINIMA | LISTED, 4, 0, 0},
    {"coarse_is_hidden", ready_none, call_hidden, RESULTS, 6, 0, 0},
    {"coarse_can_skip", ready_none, call_skip, RESULTS, 6, 0, 0},
    {"coarse_split_opaque_span", ready_none, call_split, RESULTS, 3, 0, 0},
    {"coarse_row_lengths", ready_none, call_lengths, RESULTS, 6, 0, 0},
    {"coarse_render_cmd", ready_none, call_cmd, RESULTS, 12, 0, 0},
    {"coarse_depth_cmd", ready_none, call_depth, RESULTS, 8, 0, 0},
    {"coarse_progress", ready_none, call_progress, RESULTS, 8, 0, 0},
};
enum { CALLS = sizeof calls / sizeof calls[0] };

static unsigned long wrong;

static void hold(int holds, unsigned long number, const char *call, uint32_t answer, const char *what) {
    if (!holds && wrong++ < 20)
        printf("call %lu, %s, answer %u: %s\n", number, call, answer, what);
}

static void one(unsigned long number, size_t which) {
    const char *name = calls[which].name;
    uint32_t answer;
    size_t i;
    uint32_t is_forged;
    int writes;
    is_tame = !once_in(3);
    calls[which].ready();
    lend();
    is_forged = odd(8);
    if (is_forged) {
        memcpy(sound, block, used * sizeof(uint32_t));
        forge();
    }
    memcpy(held, block, used * sizeof(uint32_t));
    memcpy(&held_results, &results, sizeof results);
    memcpy(&held_lent, &lent, sizeof lent);
    answer = calls[which].make();
    hold(answer <= COARSE_HAS_PANELS, number, name, answer, "no answer of the header");
    hold(guards_hold(), number, name, answer, "a word between the tables has changed");
    hold(memcmp(&lent, &held_lent, sizeof lent) == 0, number, name, answer, "it has changed a pointer or a length");
    writes = answer == COARSE_DONE ? calls[which].writes : answer > COARSE_BAD_FORM ? calls[which].writes & SCREEN : 0;
    if (answer != COARSE_DONE && calls[which].make != call_recording && calls[which].make != call_why)
        writes = 0;
    /* What the fills before the refused one write, if there are any; how many they are is told on every answer. */
    if (calls[which].make == call_fill_list)
        writes = results.count > 0 ? calls[which].writes : RESULTS;
    /* A row that stops keeps what it did, and so do those before it; how far they came is told on every answer. */
    if (calls[which].make == call_rows)
        writes = answer == COARSE_DONE || answer == COARSE_BAD_RECORD || answer == COARSE_NO_ROOM ? calls[which].writes : RESULTS;
    for (i = 0; i < PARTS; i++) {
        size_t from = writes >> i & 1 ? length[i] : 0;
        const uint32_t *was = held + (part[i] - block);
        hold(memcmp(part[i] + from, was + from, (size[i] - from) * sizeof(uint32_t)) == 0, number, name, answer, "it has changed what it may not");
    }
    hold(writes & RESULTS || memcmp(&results, &held_results, sizeof results) == 0, number, name, answer, "it has changed a result");
    if (answer == COARSE_DONE)
        calls[which].done++;
    else
        calls[which].refused++;
    /* Mostly the next calls find what the forged words stood in place of. */
    if (is_forged && (answer != COARSE_DONE || !once_in(4)))
        memcpy(block, sound, used * sizeof(uint32_t));
}

/* One of the calls, the frequent ones more often. */
static size_t pick(void) {
    uint32_t all = 0, at;
    size_t i;
    for (i = 0; i < CALLS; i++)
        all += (uint32_t)calls[i].often;
    at = below(all);
    for (i = 0; at >= (uint32_t)calls[i].often; i++)
        at -= (uint32_t)calls[i].often;
    return (calls[i].ready == ready_file || calls[i].ready == ready_words) && file_count == 0 ? 1 : i;
}

static void read_file(const char *name) {
    FILE *from = fopen(name, "rb");
    unsigned char bytes[4];
    size_t n = 0;
    if (!from) {
        printf("%s cannot be read\n", name);
        wrong++;
        return;
    }
    while (n < FILE_WORDS && fread(bytes, 1, 4, from) == 4)
        files[file_count][n++] = bytes[0] | (uint32_t)bytes[1] << 8 | (uint32_t)bytes[2] << 16 | (uint32_t)bytes[3] << 24;
    fclose(from);
    if (n > 0)
        file_words[file_count++] = n;
}

int main(int argc, char **argv) {
    unsigned long count = argc > 1 ? strtoul(argv[1], NULL, 10) : 300000, k, done = 0;
    size_t none[TABLES] = {0}, i;
    seed = 0x9e3779b97f4a7c15u ^ (argc > 2 ? strtoul(argv[2], NULL, 10) : 1);
    for (k = 3; k < (unsigned long)argc && file_count < FILES; k++)
        read_file(argv[k]);
    place(none);
    for (k = 0; k < count; k++)
        one(k, pick());
    for (i = 0; i < CALLS; i++) {
        int is_tried = (calls[i].ready != ready_file && calls[i].ready != ready_words) || file_count > 0;
        printf("%-28s %8lu done %8lu refused\n", calls[i].name, calls[i].done, calls[i].refused);
        done += calls[i].done;
        hold(!is_tried || (calls[i].done > 0 && calls[i].refused > 0), k, calls[i].name, 0, "it was never done, or never refused");
    }
    hold(coarse_version() == COARSE_VERSION_NUMBER, k, "coarse_version", coarse_version(), "it is not the headers' version");
    printf("%lu calls, %lu of them done; %lu things do not hold\n", count, done, wrong);
    return wrong != 0;
}
