/* Random drawings composited three ways, every tile of every row: by painting steps and the nesting after each, by the stored commands of painted rows, and in plain
 * draw order, written from the rules in words (docs/RULES.md): each call done to whole pictures, one over the other, with no stored commands, no depth and
 * nothing left out. The colours are numbers made of all that was done to a tile, but for what lies under a fill that hides, and for blank buffers that leave no
 * trace: wherever any colours differ that keep the two laws (docs/THEOREMS.md), these do. Rows are compacted in between, which is nothing in plain draw order.
 *     colours [DRAWINGS [SEED]]        20,000 drawings, seed 1
 * Prints the first drawing of which a tile differs; the status is 1 then. Wants coarse_bucketer.h on the include path. */
#include "coarse_bucketer.h"
#include <stdio.h>

enum { MOST_ROWS = 3, MOST_TILES = 80, MOST_STEPS = 60, MOST_SEGMENTS = 6, LEVELS = COARSE_MOST_LAYERS + 1, PAINTS = 3 };

static coarse_bucketer screen;
static coarse_rect view;
static uint32_t rows, tiles;

/* Opaque, opaque, not. */
static const coarse_paint paints[PAINTS] = {{1, 11, 0, 0}, {1, 12, 0, 0}, {0, 13, 0, 0}};

/* Numbers */

static uint64_t seed;

static uint32_t any(void) {
    seed ^= seed << 13, seed ^= seed >> 7, seed ^= seed << 17;
    return (uint32_t)((seed * 2685821657736338717u) >> 32);
}

static uint32_t below(uint32_t n) { return any() % n; }
static int once_in(uint32_t n) { return below(n) == 0; }

/* Colours: 0 is blank */

typedef uint64_t colour;

static colour with(colour c, uint64_t word) {
    c = (c ^ word ^ 0x9e3779b97f4a7c15u) * 0xff51afd7ed558ccdu;
    return c ^ c >> 32;
}

/* What an attribute says, all in one number, and its place. law: of a paint, whether it is opaque; of a layer, whether its blend is destructive. */
typedef struct { uint64_t key; uint32_t place; int law; } said;

/* The paint attributes that hide at a tile, a bit for each place: opaque ones, drawn with no layer open, one solid segment of which covers the tile's whole
 * bucket. Only the colours ask for it. */
static uint64_t hides[MOST_ROWS][MOST_TILES];

static colour filled(said by, int has_alphas, uint32_t alpha, uint64_t hidden, colour tile) {
    colour before = hidden >> by.place & 1 ? 0 : tile;
    return with(with(with(before, by.key), has_alphas ? 1 : 0), alpha);
}

static colour closed(said by, int has_alphas, uint32_t alpha, colour top, colour tile) {
    if (top == 0 && !by.law)
        return tile;
    return with(with(with(with(tile, by.key), has_alphas ? 3 : 2), alpha), top);
}

static int is_default(coarse_blend blend) { return blend.mix == 0 && blend.compose == 3; }
static int is_destructive(coarse_blend blend) { return blend.compose <= 1 || (5 <= blend.compose && blend.compose <= 7) || blend.compose == 10; }

/* what, x, y: the handle of a paint, or of a picture with its shifts. */
static said paint_said(const coarse_paint_attrs *a, uint32_t place, uint32_t is_opaque, uint32_t what, int32_t x, int32_t y) {
    said by;
    by.key = with(with(with(with(place, what), (uint32_t)x), (uint32_t)y), a->blend.mix);
    by.key = with(with(with(with(by.key, a->blend.compose), a->mask), a->thread), a->panel);
    by.place = place, by.law = is_opaque && is_default(a->blend) && a->mask == 0;
    return by;
}

static said layer_said(const coarse_layer_attrs *a, uint32_t place) {
    said by;
    uint32_t opacity;
    memcpy(&opacity, &a->opacity, sizeof opacity);
    by.key = with(with(with(with(place, a->blend.mix), a->blend.compose), opacity), a->mask);
    by.key = with(with(by.key, a->thread), a->panel);
    by.place = place, by.law = is_destructive(a->blend);
    return by;
}

/* Pictures one over the other: rows of tiles, the lowest of which is the picture itself */

typedef struct { colour at[LEVELS][MOST_ROWS][MOST_TILES]; uint32_t open[MOST_ROWS]; } pictures;

static void push_row(pictures *p, uint32_t row) {
    p->open[row] += p->open[row] < COARSE_MOST_LAYERS;
    memset(p->at[p->open[row]][row], 0, sizeof p->at[0][row]);
}

/* The same, cleared on some tiles alone. What the others hold is nothing that was drawn. */
static void push_span(pictures *p, uint32_t row, uint32_t first, uint32_t end) {
    uint32_t tile;
    push_row(p, row);
    for (tile = 0; tile < MOST_TILES; tile++)
        if (tile < first || end <= tile)
            p->at[p->open[row]][row][tile] = ~(colour)0;
}

static void pop_row(pictures *p, uint32_t row) { p->open[row] -= p->open[row] > 0; }

static void fill_tile(pictures *p, uint32_t row, uint32_t tile, said by, int has_alphas, uint32_t alpha) {
    colour *top = &p->at[p->open[row]][row][tile];
    *top = filled(by, has_alphas, alpha, hides[row][tile], *top);
}

/* With no buffer open it leaves a picture that no drawing has. */
static void close_tile(pictures *p, uint32_t row, uint32_t tile, said by, int has_alphas, uint32_t alpha) {
    uint32_t top = p->open[row];
    colour *under = &p->at[top > 0 ? top - 1 : 0][row][tile];
    *under = top > 0 ? closed(by, has_alphas, alpha, p->at[top][row][tile], *under) : ~*under;
}

static pictures plain, by_steps, by_commands;

/* A drawing: calls on the screen, each of which is done to the plain pictures if it is done */

enum call { FILL, PUSH, POP, FILTER, COMPACT };

typedef struct {
    enum call call;
    coarse_draw draw;
    coarse_layer_props props;
    coarse_clip clip;
    coarse_placement placement;
    uint32_t pixmap, has_pixmap, panel, row, answer;
    size_t count;
    coarse_segment segments[MOST_SEGMENTS];
} step;

static step steps[MOST_STEPS + LEVELS + 1 + MOST_ROWS];
static size_t step_count;

/* Tiles of the screen. */
typedef struct { uint32_t x0, y0, x1, y1; } box;

/* How many layers are open; the step that pushed each, and its own box, after the screen's; how many attributes there are. */
static const step *layers[LEVELS];
static box boxes[LEVELS];
static uint32_t level, paint_attrs, layer_attrs;

static unsigned long drawings, done, refused, hiding, blank, outside, deep, taken_out;

static uint32_t least(uint32_t a, uint32_t b) { return a < b ? a : b; }
static uint32_t most(uint32_t a, uint32_t b) { return a < b ? b : a; }

/* Pixels of the scene as tiles of the screen, parts of tiles in it; met with the innermost box. */
static box met(coarse_rect of) {
    box own, around = boxes[level];
    uint32_t x0 = screen.state.viewport.x0, y0 = screen.state.viewport.y0;
    own.x0 = most((most(of.x0, x0) - x0) / 4, around.x0), own.x1 = least((most(of.x1, x0) - x0 + 3) / 4, around.x1);
    own.y0 = most((most(of.y0, y0) - y0) / 4, around.y0), own.y1 = least((most(of.y1, y0) - y0 + 3) / 4, around.y1);
    if (of.x0 >= of.x1 || of.y0 >= of.y1 || own.x0 >= own.x1 || own.y0 >= own.y1)
        own.x1 = own.x0, own.y1 = own.y0;
    return own;
}

static int has(box b, uint32_t row, uint32_t tile) { return b.x0 <= tile && tile < b.x1 && b.y0 <= row && row < b.y1; }

/* Whether a segment of an opaque paint hides at a tile. */
static int is_hiding(const step *of, const coarse_segment *s, said by, uint32_t tile) {
    uint32_t width = screen.setup.width / 4, left = screen.state.viewport.x0 / 4, first = most(s->first, left) - left, end = least(s->end - left, tiles);
    return of->call == FILL && level == 0 && by.law && s->kind == 0 && first <= tile / width * width && tile / width * width + width <= end;
}

/* The tiles of segments in a box: filled with a paint, or a layer closed over them in the rows of its own box alone. */
static void plain_segments(const step *of, box in, said by, box own) {
    uint32_t left = screen.state.viewport.x0 / 4, top = screen.state.viewport.y0 / 4, tile;
    size_t i;
    for (i = 0; i < of->count; i++) {
        const coarse_segment *s = &of->segments[i];
        for (tile = most(s->first, left); tile < s->end; tile++) {
            uint32_t row = s->row - top, at = tile - left, alpha = s->kind == 1 ? s->alpha + 16 * (tile - s->first) : 0;
            if (s->row < top || !has(in, row, at))
                continue;
            if (is_hiding(of, s, by, at))
                hides[row][at] |= (uint64_t)1 << by.place, hiding++;
            if (of->call == FILL)
                fill_tile(&plain, row, at, by, s->kind == 1, alpha);
            else if (own.y0 <= row && row < own.y1)
                close_tile(&plain, row, at, by, s->kind == 1, alpha);
            else
                outside += (unsigned long)by.law;
        }
    }
}

static void plain_fill(const step *of) {
    coarse_paint_attrs attrs = {0, {0, 0}, 0, 0, 0, 0, 0, 0};
    if (of->count == 0)
        return;
    attrs.blend = of->draw.blend, attrs.mask = of->draw.mask, attrs.thread = of->draw.thread, attrs.panel = of->draw.panel;
    plain_segments(of, boxes[level], paint_said(&attrs, paint_attrs++, paints[of->draw.paint].opaque, paints[of->draw.paint].handle, 0, 0), boxes[level]);
}

/* A filter fill draws nothing without a picture, or where nothing of its box is left. */
static void plain_filter(const step *of) {
    const coarse_rect dest = of->placement.dest;
    coarse_paint_attrs attrs = {0, {0, 3}, 0, 0, 0, 0, 0, 0};
    box in = met(dest);
    uint32_t row, tile;
    said by;
    if (!of->has_pixmap || in.x0 == in.x1)
        return;
    attrs.panel = of->panel;
    by = paint_said(&attrs, paint_attrs++, 0, of->pixmap, (int32_t)(of->placement.source_x - dest.x0), (int32_t)(of->placement.source_y - dest.y0));
    for (row = in.y0; row < in.y1; row++)
        for (tile = in.x0; tile < in.x1; tile++)
            fill_tile(&plain, row, tile, by, 0, 0);
}

static void plain_push(const step *of) {
    box own = of->props.clip ? met(of->clip.box) : boxes[level];
    uint32_t row;
    level++;
    deep = most((uint32_t)deep, level);
    layers[level] = of, boxes[level] = own;
    for (row = 0; row < rows; row++)
        push_row(&plain, row);
}

/* Over the clip's segments, cut to the box around the layer, or over its own box; in the rows of its own box alone. */
static void plain_pop(void) {
    const step *of = layers[level];
    box own = boxes[level];
    coarse_layer_attrs attrs = {{0, 0}, 0, 0, 0, 0, 0};
    uint32_t row, tile;
    said by;
    attrs.blend = of->props.blend, attrs.opacity = of->props.opacity, attrs.mask = of->props.mask, attrs.panel = of->props.panel;
    attrs.thread = of->props.clip ? of->clip.thread : 0;
    by = layer_said(&attrs, layer_attrs++);
    for (row = own.y0; row < own.y1; row++)
        for (tile = own.x0; tile < own.x1; tile++)
            blank += plain.at[level][row][tile] == 0;
    if (of->props.clip)
        plain_segments(of, boxes[level - 1], by, own);
    else
        for (row = own.y0; row < own.y1; row++)
            for (tile = own.x0; tile < own.x1; tile++)
                close_tile(&plain, row, tile, by, 0, 0);
    for (row = 0; row < rows; row++)
        pop_row(&plain, row);
    level--;
}

/* How many commands a row has. */
static uint32_t row_commands(size_t row) {
    coarse_row_counts stored = {0, 0};
    return coarse_bucketer_row_lengths(&screen, row, &stored) == COARSE_DONE ? stored.render_cmds : 0;
}

static uint32_t compacted(uint32_t row) {
    uint32_t before = row_commands(row), answer = coarse_bucketer_compact_row(&screen, row);
    taken_out += before - row_commands(row);
    return answer;
}

static uint32_t called(const step *now) {
    switch (now->call) {
    case FILL:
        return coarse_bucketer_generate_fill(&screen, paints, PAINTS, now->segments, now->count, &now->draw);
    case PUSH:
        return coarse_bucketer_push_layer(&screen, &now->props);
    case POP:
        return coarse_bucketer_pop_layer(&screen, layers[level]->segments, layers[level]->count);
    case COMPACT:
        return compacted(now->row);
    default:
        return coarse_bucketer_generate_filter_layer_fill(&screen, now->has_pixmap ? &now->pixmap : NULL, &now->placement, PAINTS, now->panel);
    }
}

static uint32_t take(step *now) {
    now->answer = called(now);
    if (now->answer != COARSE_DONE)
        refused++;
    else if (now->call == FILL)
        plain_fill(now);
    else if (now->call == PUSH)
        plain_push(now);
    else if (now->call == POP)
        plain_pop();
    else if (now->call == FILTER)
        plain_filter(now);
    return now->answer;
}

/* What is drawn */

/* A tile on or beside the screen, often at the edge of a bucket of some width. */
static uint32_t some_tile(void) {
    uint32_t left = view.x0 / 4, at = once_in(3) ? left + below(tiles + 4) : left + (16u << below(3)) * below(6) + below(3);
    return once_in(6) ? left : once_in(6) ? left + tiles : at > 0 ? at - 1 : 0;
}

static void some_segments(step *now) {
    uint32_t top = view.y0 / 4, row = top > 0 ? top - below(2) : 0, from = 0;
    now->count = 0;
    while (now->count < MOST_SEGMENTS && !once_in(4)) {
        coarse_segment *s = &now->segments[now->count];
        s->kind = once_in(3) ? 1 : 0, s->row = row;
        s->first = most(from, some_tile()), s->end = s->first + 1 + (once_in(2) ? below(20) : below(100));
        s->alpha = s->kind == 1 ? 16 * below(900) : 0;
        from = s->end;
        now->count++;
        if (!once_in(3))
            row += once_in(5) ? 2 : 1, from = 0;
    }
}

static coarse_blend some_blend(uint32_t default_of_4) {
    coarse_blend blend = COARSE_DEFAULT_BLEND;
    if (below(4) >= default_of_4)
        blend.mix = once_in(4) ? below(16) : 0, blend.compose = below(14);
    return blend;
}

/* An opaque fill over a whole row, and now and then over the next. */
static void some_cover(step *now) {
    uint32_t row = view.y0 / 4 + below(rows);
    now->call = FILL;
    do {
        coarse_segment *s = &now->segments[now->count++];
        s->kind = 0, s->row = row++, s->first = view.x0 / 4, s->end = s->first + tiles, s->alpha = 0;
    } while (once_in(3) && now->count < MOST_SEGMENTS);
    now->draw.end = now->count, now->draw.paint = below(2), now->draw.blend = COARSE_DEFAULT_BLEND, now->draw.panel = below(256);
}

/* On and around the viewport, in pixels; at times empty. */
static coarse_rect some_box(uint32_t step_down) {
    coarse_rect of;
    of.x0 = once_in(3) ? view.x0 / 4 * 4 : 4 * some_tile(), of.x1 = of.x0 + (once_in(8) ? 0 : 4 * below(tiles + 8));
    of.y0 = view.y0 / 4 * 4 + (once_in(2) ? 0 : step_down * below(4 * rows / step_down + 1));
    of.y1 = of.y0 + (once_in(8) ? 0 : step_down * below(4 * rows / step_down + 3));
    return of;
}

static void some_step(step *now, uint32_t pushes) {
    static const float opacities[] = {1, 0.5f, 0, -1};
    uint32_t which = below(100);
    memset(now, 0, sizeof *now);
    if (which < pushes) {
        now->call = PUSH;
        now->props.blend = some_blend(2), now->props.opacity = opacities[below(4)];
        now->props.mask = once_in(8) ? 1 + below(99) : 0, now->props.panel = below(256);
        if (once_in(2)) {
            some_segments(now);
            now->clip.box = some_box(4), now->clip.end = (uint32_t)now->count, now->clip.thread = below(256);
            now->props.clip = &now->clip;
        }
    } else if (which < 50 && level > 0 && !once_in(3))
        now->call = POP;
    else if (which < 60) {
        now->call = FILTER;
        now->placement.dest = some_box(1), now->placement.source_x = below(50), now->placement.source_y = below(50);
        now->has_pixmap = !once_in(4), now->pixmap = below(9), now->panel = below(256);
    } else if (which < 70 && (level == 0 || once_in(9)))
        now->call = COMPACT, now->row = below(once_in(9) ? rows + 1 : rows);
    else if (which < 85 && level == 0)
        some_cover(now);
    else {
        now->call = FILL;
        some_segments(now);
        now->draw.start = 0, now->draw.end = now->count, now->draw.paint = below(PAINTS), now->draw.blend = some_blend(3);
        now->draw.mask = once_in(10) ? 1 + below(99) : 0, now->draw.thread = below(256), now->draw.panel = below(256);
    }
}

static void print_drawing(void) {
    size_t i, k;
    printf("viewport %u %u %u %u, %u pixels, mode %u, C %u\n", view.x0, view.y0, view.x1, view.y1, screen.setup.width, screen.setup.mode, screen.setup.c);
    for (i = 0; i < step_count; i++) {
        const step *s = &steps[i];
        static const char *const names[] = {"fill", "push", "pop", "filter", "compact"};
        const coarse_rect b = s->call == FILTER ? s->placement.dest : s->clip.box;
        printf("%s", names[s->call]);
        if (s->call == FILL)
            printf(" paint %u blend %u %u mask %u", s->draw.paint, s->draw.blend.mix, s->draw.blend.compose, s->draw.mask);
        if (s->call == COMPACT)
            printf(" row %u", s->row);
        if (s->call == PUSH)
            printf(" blend %u %u mask %u", s->props.blend.mix, s->props.blend.compose, s->props.mask);
        if (s->call == FILTER || s->props.clip)
            printf(" box %u %u %u %u", b.x0, b.y0, b.x1, b.y1);
        for (k = 0; k < s->count; k++)
            printf(", %s row %u tiles %u %u", s->segments[k].kind ? "alpha" : "solid", s->segments[k].row, s->segments[k].first, s->segments[k].end);
        printf("%s\n", s->answer == COARSE_DONE ? "" : " (refused)");
    }
}

/* What the screen gives */

static said said_of(uint32_t tag, uint32_t place) {
    if (tag == COARSE_LAYER_FILL || tag == COARSE_LAYER_FILL_ALPHA) {
        coarse_layer_attrs a = coarse_bucketer_layer_attrs(&screen, place);
        return layer_said(&a, place);
    } else {
        coarse_paint_attrs a = coarse_bucketer_paint_attrs(&screen, place);
        coarse_filter_paint f = coarse_bucketer_filter_paint(&screen, a.paint - PAINTS);
        return a.paint < PAINTS ? paint_said(&a, place, paints[a.paint].opaque, paints[a.paint].handle, 0, 0)
                                : paint_said(&a, place, 0, f.pixmap, f.shift_x, f.shift_y);
    }
}

static void fill_run(pictures *p, uint32_t row, const coarse_command *fill, uint32_t first, uint32_t end) {
    said by = said_of(fill->tag, fill->attrs_idx);
    int has_alphas = fill->tag == COARSE_PAINT_FILL_ALPHA || fill->tag == COARSE_LAYER_FILL_ALPHA;
    uint32_t tile;
    for (tile = first; tile < end; tile++) {
        uint32_t alpha = has_alphas ? fill->alpha_idx + 16 * (tile - fill->first) : 0;
        if (fill->tag == COARSE_LAYER_FILL || fill->tag == COARSE_LAYER_FILL_ALPHA)
            close_tile(p, row, tile, by, has_alphas, alpha);
        else
            fill_tile(p, row, tile, by, has_alphas, alpha);
    }
}

static uint32_t a_step(uint32_t row, int *finished) {
    const coarse_piece *pieces;
    coarse_row_progress now;
    size_t count, i;
    uint32_t answer = coarse_bucketer_paint_step(&screen, row, finished, &pieces, &count);
    if (answer != COARSE_DONE)
        return answer;
    for (i = 0; i < count; i++) {
        coarse_command fill;
        fill.tag = pieces[i].tag, fill.first = pieces[i].first, fill.end = pieces[i].end;
        fill.alpha_idx = pieces[i].alpha, fill.attrs_idx = pieces[i].attribute;
        fill_run(&by_steps, row, &fill, fill.first, fill.end);
    }
    answer = coarse_bucketer_progress(&screen, row, &now);
    if (answer == COARSE_DONE && now.nesting > by_steps.open[row])
        push_row(&by_steps, row);
    else if (answer == COARSE_DONE && now.nesting < by_steps.open[row])
        pop_row(&by_steps, row);
    return answer;
}

/* Steps of any rows, until all have finished. */
static uint32_t painted_by_steps(void) {
    int finished[MOST_ROWS] = {0}, left = (int)rows;
    uint32_t answer = coarse_bucketer_begin_painting(&screen);
    while (answer == COARSE_DONE && left > 0) {
        uint32_t row = below(rows);
        if (!finished[row]) {
            answer = a_step(row, &finished[row]);
            left -= finished[row];
        }
    }
    return answer;
}

static uint32_t visible(uint32_t row, const coarse_command *fill) {
    int is_layer = fill->tag == COARSE_LAYER_FILL || fill->tag == COARSE_LAYER_FILL_ALPHA;
    uint32_t id = is_layer ? coarse_bucketer_layer_attrs(&screen, fill->attrs_idx).draw_id : coarse_bucketer_paint_attrs(&screen, fill->attrs_idx).draw_id;
    const coarse_run *runs;
    size_t count, i;
    uint32_t answer = coarse_bucketer_visible_runs(&screen, row, fill->first, fill->end, id, &runs, &count);
    for (i = 0; answer == COARSE_DONE && i < count; i++)
        fill_run(&by_commands, row, fill, runs[i].first, runs[i].end);
    return answer;
}

/* A row that is painted by a call, at times after a few steps; then what is stored of it. A buffer is cleared over its span alone. */
static uint32_t painted_by_commands(uint32_t row) {
    uint32_t bucket = coarse_bucketer_bucket_width(&screen) / 4, k = below(4), answer = COARSE_DONE;
    const coarse_piece *pieces;
    coarse_row_counts stored = {0, 0};
    coarse_depth_fill depth;
    coarse_command cmd;
    size_t count, i;
    int finished;
    for (; answer == COARSE_DONE && k > 0; k--)
        answer = coarse_bucketer_paint_step(&screen, row, &finished, &pieces, &count);
    if (answer == COARSE_DONE)
        answer = coarse_bucketer_paint_row(&screen, row, &pieces, &count);
    if (answer == COARSE_DONE)
        answer = coarse_bucketer_row_lengths(&screen, row, &stored);
    for (i = 0; answer == COARSE_DONE && i < stored.depth_cmds; i++) {
        answer = coarse_bucketer_depth_cmd(&screen, row, i, &depth);
        cmd.tag = COARSE_PAINT_FILL, cmd.first = bucket * depth.first, cmd.end = bucket * depth.end, cmd.alpha_idx = 0, cmd.attrs_idx = depth.attrs_idx;
        if (answer == COARSE_DONE)
            answer = visible(row, &cmd);
    }
    for (i = 0; answer == COARSE_DONE && i < stored.render_cmds; i++) {
        answer = coarse_bucketer_render_cmd(&screen, row, i, &cmd);
        if (answer != COARSE_DONE)
            break;
        if (cmd.tag == COARSE_PUSH_BUF || cmd.tag == COARSE_PUSH_BUF_SPAN)
            push_span(&by_commands, row, cmd.first, cmd.end);
        else if (cmd.tag == COARSE_POP_BUF)
            pop_row(&by_commands, row);
        else
            answer = visible(row, &cmd);
    }
    return answer;
}

/* Whether all three are the same. */
static int is_same(void) {
    uint32_t row, tile, answer = painted_by_steps();
    if (answer == COARSE_DONE)
        answer = coarse_bucketer_begin_painting(&screen);
    for (row = 0; answer == COARSE_DONE && row < rows; row++)
        answer = painted_by_commands(row);
    if (answer != COARSE_DONE) {
        printf("drawing %lu: painting answers %u\n", drawings, answer);
        return 0;
    }
    for (row = 0; row < rows; row++)
        for (tile = 0; tile < tiles; tile++) {
            colour now = plain.at[0][row][tile];
            if (now != by_steps.at[0][row][tile] || now != by_commands.at[0][row][tile]) {
                printf("drawing %lu, row %u, tile %u: in plain order %llx, by steps %llx, by commands %llx\n", drawings, row, tile, (unsigned long long)now,
                       (unsigned long long)by_steps.at[0][row][tile], (unsigned long long)by_commands.at[0][row][tile]);
                return 0;
            }
        }
    return 1;
}

/* Draws one. All layers are closed at the end; where that is refused, for a row that is full, nothing is painted. Then rows may be covered and compacted. */
static int draw(void) {
    static const uint32_t widths[] = {3, 16, 17, 20, 32, 33, 48, 64, 65, 80}, corners[] = {0, 0, 80, 120};
    coarse_setup setup = {0, 48, COARSE_EXACT, COARSE_64};
    size_t count = 1 + below(MOST_STEPS - 1);
    uint32_t pushes = once_in(4) ? 45 : 20, x = corners[below(4)], y = 4 * below(4), row;
    memset(&plain, 0, sizeof plain), memset(&by_steps, 0, sizeof by_steps), memset(&by_commands, 0, sizeof by_commands);
    memset(hides, 0, sizeof hides);
    rows = 1 + below(MOST_ROWS), tiles = widths[below(10)];
    level = paint_attrs = layer_attrs = 0;
    boxes[0].x0 = boxes[0].y0 = 0, boxes[0].x1 = tiles, boxes[0].y1 = rows;
    view.x0 = x, view.y0 = y, view.x1 = x + 4 * tiles, view.y1 = y + 4 * rows;
    setup.c = once_in(8) ? 24 : 160, setup.width = 64u << below(3);
    if (once_in(3)) {
        setup.mode = COARSE_SNAPPING;
        view.x0 += below(4), view.y0 += below(4), view.x1 -= below(4), view.y1 -= below(4);
    }
    coarse_bucketer_free(&screen);
    if (coarse_bucketer_new(&screen, view, setup) != COARSE_DONE)
        return 0;
    for (step_count = 0; step_count < count; step_count++) {
        some_step(&steps[step_count], pushes);
        take(&steps[step_count]);
    }
    while (level > 0) {
        memset(&steps[step_count], 0, sizeof steps[step_count]);
        steps[step_count].call = POP;
        if (take(&steps[step_count++]) != COARSE_DONE)
            return 1;
    }
    if (once_in(4)) {
        memset(&steps[step_count], 0, sizeof steps[step_count]);
        some_cover(&steps[step_count]);
        take(&steps[step_count++]);
    }
    for (row = 0; row < rows; row++)
        if (once_in(3)) {
            memset(&steps[step_count], 0, sizeof steps[step_count]);
            steps[step_count].call = COMPACT, steps[step_count].row = row;
            take(&steps[step_count++]);
        }
    done++;
    if (is_same())
        return 1;
    print_drawing();
    return 0;
}

int main(int argc, char **argv) {
    unsigned long count = argc > 1 ? strtoul(argv[1], NULL, 10) : 20000;
    int holds = 1;
    seed = 0x9e3779b97f4a7c15u ^ (argc > 2 ? strtoul(argv[2], NULL, 10) : 1);
    for (drawings = 0; holds && drawings < count; drawings++)
        holds = draw();
    if (holds && (done < count / 2 || refused < count / 10 || hiding < count || blank < count || outside < count / 10 || deep < COARSE_MOST_LAYERS ||
                  taken_out < count / 2)) {
        printf("too little was met\n");
        holds = 0;
    }
    printf("%lu drawings, %lu of them painted; %lu calls refused; %lu fills that hide, %lu blank tiles under a closing layer, %lu tiles of a clip outside the rows of"
           " its layer's box, %lu commands taken out\n", drawings, done, refused, hiding, blank, outside, taken_out);
    coarse_bucketer_free(&screen);
    return !holds;
}
