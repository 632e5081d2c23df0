/* The recorder: scenes that are drawn by direct calls and recorded, whose recordings leave the same screen word for word, panels too, of either edition that has
 * words for them, and are what the conversions make of each other; records with any numbers in them, which the recorder refuses exactly where and as the file's
 * judge refuses the file that has them; what is refused changes nothing. And of these screens: a buffer is cleared over all that its own level fills and
 * composites; a tile's list, which is had of the recording alone, is what its row paints there.
 *     recorder [SCENES [SEED]]        400 scenes, seed 1
 * Prints each thing that does not hold; the status is 1 if anything does not. Wants coarse_recorder.h on the include path. */
#include "coarse_recorder.h"
#include <stdio.h>

static unsigned long wrong, scenes, steps, judged, refused, buffered, listed, kept, lost;

static void hold(int holds, const char *what, uint32_t number) {
    if (!holds && wrong++ < 20)
        printf("scene %lu, %s: %u\n", scenes, what, number);
}

static void expect(const char *what, uint32_t want, uint32_t got) { hold(want == got, what, got); }

/* Numbers */

static uint64_t seed;

static uint32_t any(void) {
    seed ^= seed << 13, seed ^= seed >> 7, seed ^= seed << 17;
    return (uint32_t)((seed * 2685821657736338717u) >> 32);
}

static uint32_t below(uint32_t n) { return any() % n; }
static int once_in(uint32_t n) { return below(n) == 0; }

/* A number from 0 to n, one just past it, or anything. */
static uint32_t about(uint32_t n) {
    uint32_t which = below(24);
    return which == 0 ? any() : which == 1 ? n + 1 : which == 2 ? n : below(n + 1);
}

/* Scenes: each step is made by the direct call and recorded */

enum { TILES = 100, ROWS = 6, LISTED = 40, MOST_WORDS = 4096 };

static const coarse_setup setup = {256, 64, COARSE_EXACT, COARSE_64};
static const coarse_rect view = {8, 4, 8 + 4 * TILES, 4 + 4 * ROWS};

static coarse_bucketer direct, recorded;
static coarse_recorder recorder;
static coarse_paint paints[LISTED];
static coarse_segment segments[LISTED];
static size_t paint_count, segment_count;

/* How many of the scene's draws and layers are of panel 0: all, most, or few; and whether one that is not was recorded. */
enum { ALL, MOST, FEW };
static uint32_t of_panel_0;
static int has_panels;

static uint32_t some_panel(void) { return of_panel_0 == FEW || (of_panel_0 == MOST && once_in(9)) ? below(256) : 0; }

static coarse_blend some_blend(void) {
    coarse_blend blend = COARSE_DEFAULT_BLEND;
    if (once_in(3))
        blend.mix = below(16), blend.compose = below(14);
    return blend;
}

static float some_opacity(void) {
    float opacity = 1;
    uint32_t bits = any();
    if (once_in(2))
        memcpy(&opacity, &bits, sizeof opacity);
    return opacity;
}

/* Places of the list that stand in order. */
static void some_range(size_t *start, size_t *end) {
    *start = below((uint32_t)segment_count + 1);
    for (*end = *start; *end < segment_count && !once_in(6); (*end)++)
        if (*end > *start && coarse_recorder_order(&recorder, *end - 1, *end + 1) != COARSE_DONE)
            break;
}

static coarse_layer_props some_props(coarse_clip *clip) {
    coarse_layer_props props = {{0, 0}, 0, 0, NULL, 0};
    size_t start, end;
    props.blend = some_blend(), props.opacity = some_opacity(), props.mask = once_in(3) ? below(90) : 0, props.panel = some_panel();
    if (once_in(2)) {
        some_range(&start, &end);
        clip->box.x0 = 4 * below(60), clip->box.y0 = 4 * below(5);
        clip->box.x1 = clip->box.x0 + 4 * below(80), clip->box.y1 = clip->box.y0 + 4 * below(8);
        clip->start = (uint32_t)start, clip->end = (uint32_t)end, clip->thread = below(256);
        props.clip = clip;
    }
    return props;
}

static int is_default(const coarse_layer_props *props) {
    return props->blend.mix == 0 && props->blend.compose == 3 && props->opacity == 1.0f && props->mask == 0 && !props->clip;
}

/* Both lists, recorded too: most segments of a list stand in order. */
static void some_lists(void) {
    uint32_t row = 0, tile = 0, place = 0;
    size_t i;
    paint_count = 1 + below(LISTED), segment_count = below(LISTED + 1);
    for (i = 0; i < paint_count; i++) {
        coarse_paint paint = {0, 0, 0, 0};
        paint.opaque = below(2), paint.handle = any() >> 1, paint.shift_x = (int32_t)below(9) - 4, paint.shift_y = (int32_t)below(9) - 4;
        paints[i] = paint;
        expect("a paint", COARSE_DONE, coarse_recorder_paint(&recorder, &paint, &place));
        expect("its place", (uint32_t)i, place);
    }
    for (i = 0; i < segment_count; i++) {
        coarse_segment *s = &segments[i];
        if (once_in(3))
            row = below(ROWS + 3), tile = 0;
        s->kind = below(2), s->row = row, s->first = tile + below(9);
        s->end = s->first + 1 + below(60), s->alpha = s->kind ? 16 * below(50) : 0;
        tile = s->end;
    }
    expect("the segments", COARSE_DONE, coarse_recorder_segments(&recorder, segments, segment_count, &place));
    expect("the first one's place", 0, place);
}

static void draw_step(void) {
    coarse_draw draw = {0, 0, 0, 0, {0, 0}, 0, 0};
    draw.thread = below(256), draw.paint = below((uint32_t)paint_count), draw.blend = some_blend(), draw.mask = once_in(4) ? below(90) : 0;
    draw.panel = some_panel();
    some_range(&draw.start, &draw.end);
    has_panels |= draw.panel != 0;
    expect("a draw", COARSE_DONE, coarse_bucketer_generate_fill(&direct, paints, paint_count, segments, segment_count, &draw));
    expect("it is recorded", COARSE_DONE, coarse_recorder_draw(&recorder, &draw));
}

static void push_step(void) {
    coarse_clip clip = {{0, 0, 0, 0}, 0, 0, 0};
    coarse_layer_props props = some_props(&clip);
    uint32_t answer = coarse_bucketer_push_layer(&direct, &props);
    expect("a layer, or 16 are open", coarse_bucketer_open_layers(&direct) == 16 && answer ? COARSE_DEEP : COARSE_DONE, answer);
    expect("it is recorded, or refused too", answer, coarse_recorder_push_layer(&recorder, &props));
    has_panels |= answer == COARSE_DONE && props.panel != 0;
}

static void pop_step(void) {
    uint32_t answer = coarse_bucketer_pop_layer(&direct, segments, segment_count);
    expect("its end, as it is recorded", answer, coarse_recorder_pop_layer(&recorder));
}

static void filter_step(void) {
    coarse_clip clip = {{0, 0, 0, 0}, 0, 0, 0};
    coarse_layer_props props = some_props(&clip);
    coarse_placement placement = {{0, 0, 0, 0}, 0, 0};
    uint32_t handle = any() >> 1, own = !is_default(&props), *pixmap = once_in(5) ? NULL : &handle;
    if (coarse_bucketer_open_layers(&direct) == 16)
        return;
    placement.dest.x0 = 4 * below(60), placement.dest.y0 = below(20);
    placement.dest.x1 = placement.dest.x0 + 4 * below(60), placement.dest.y1 = placement.dest.y0 + below(20);
    placement.source_x = below(70), placement.source_y = below(70);
    if (own)
        expect("a filter's layer", COARSE_DONE, coarse_bucketer_push_layer(&direct, &props));
    expect("a filter", COARSE_DONE, coarse_bucketer_generate_filter_layer_fill(&direct, pixmap, &placement, (uint32_t)paint_count, props.panel));
    if (own)
        expect("its layer's end", COARSE_DONE, coarse_bucketer_pop_layer(&direct, segments, segment_count));
    expect("it is recorded", COARSE_DONE, coarse_recorder_filter_layer(&recorder, &props, pixmap, &placement));
    has_panels |= props.panel != 0;
}

static size_t words_of(const coarse_bucketer *b) {
    const coarse_lengths *n = &b->sizes;
    return n->render_cmds + n->depth_cmds + n->depth + n->rows + n->painting + n->layers + n->opacities + n->paint_attrs + n->layer_attrs + n->filter_paints + n->minima;
}

/* The two screens hold the same words. */
static void same_screens(const char *what) {
    hold(memcmp(&direct.state, &recorded.state, sizeof direct.state) == 0, what, direct.state.next_draw_id);
    hold(words_of(&direct) == words_of(&recorded) && memcmp(direct.block, recorded.block, 4 * words_of(&direct)) == 0, what, recorded.state.next_draw_id);
}

/* Each row's buffers: what is filled or composited at a buffer's own level lies in the span that it is cleared over, and without a span there is nothing; each
 * that opens ends. */
static void buffers_hold(const coarse_bucketer *b) {
    coarse_command open[COARSE_MOST_LAYERS + 1];
    coarse_row_counts stored = {0, 0};
    coarse_command cmd = {0, 0, 0, 0, 0};
    size_t row, i, nesting;
    for (row = 0; row < coarse_bucketer_rows(b); row++) {
        expect("a row's commands", COARSE_DONE, coarse_bucketer_row_lengths(b, row, &stored));
        for (i = 0, nesting = 0; i < stored.render_cmds; i++) {
            expect("a command", COARSE_DONE, coarse_bucketer_render_cmd(b, row, i, &cmd));
            if (cmd.tag == COARSE_PUSH_BUF || cmd.tag == COARSE_PUSH_BUF_SPAN) {
                hold(nesting < COARSE_MOST_LAYERS, "more buffers than layers", cmd.tag);
                open[nesting < COARSE_MOST_LAYERS ? ++nesting : nesting] = cmd;
            } else if (cmd.tag == COARSE_POP_BUF) {
                hold(nesting > 0, "an end of no buffer", cmd.tag);
                nesting -= nesting > 0;
            } else {
                int is_layer = cmd.tag == COARSE_LAYER_FILL || cmd.tag == COARSE_LAYER_FILL_ALPHA;
                hold(!is_layer || nesting > 0, "a layer's fill without a buffer", cmd.tag);
                hold(nesting == 0 || (open[nesting].tag == COARSE_PUSH_BUF_SPAN && open[nesting].first <= cmd.first && cmd.end <= open[nesting].end), "a fill past its buffer's span", cmd.tag);
                buffered += nesting > 0;
            }
        }
        hold(nesting == 0, "a buffer that does not end", (uint32_t)nesting);
    }
}

/* Some tiles' lists, of the recording alone: what the rows paint there. The recorded screen begins to paint. */
static void lists_hold(void) {
    static coarse_piece list[2 * COARSE_MOST_ATTRS];
    const coarse_piece *pieces = NULL;
    const uint32_t *file = NULL;
    size_t words = 0, count = 0, entries, row, i;
    uint32_t k, tile;
    expect("the words", COARSE_DONE, coarse_recorder_words(&recorder, COARSE_EDITION_TWO, &file, &words));
    expect("painting", COARSE_DONE, coarse_bucketer_begin_painting(&recorded));
    for (row = 0; row < coarse_bucketer_rows(&recorded); row++) {
        expect("a row", COARSE_DONE, coarse_bucketer_paint_row(&recorded, row, &pieces, &count));
        for (k = 0; k < 4; k++) {
            size_t same = 0;
            tile = below(TILES), entries = 0;
            expect("a list", COARSE_DONE, coarse_list_tile(COARSE_EDITION_TWO, file, words, setup.mode, setup.width, (uint32_t)row, tile,
                                                           (uint32_t *)list, 2 * COARSE_MOST_ATTRS * COARSE_PIECE, &entries));
            for (i = 0; i < count; i++)
                if (pieces[i].first <= tile && tile < pieces[i].end) {
                    coarse_piece own = pieces[i];
                    if (own.tag == COARSE_PAINT_FILL_ALPHA || own.tag == COARSE_LAYER_FILL_ALPHA)
                        own.alpha += 16 * (tile - own.first);
                    own.first = tile, own.end = tile + 1;
                    hold(same < entries && memcmp(&list[same], &own, sizeof own) == 0, "an entry that was not painted", tile);
                    same++;
                }
            hold(same == entries, "as many entries as were painted", (uint32_t)entries);
            listed += entries;
        }
    }
}

/* Both editions of the recording. Where no panel would be lost there are words of edition one: they leave the same screen, and either edition's words are what
 * the conversion of the other's gives. Else edition one is refused, as the conversion to it is. */
static void both_editions(void) {
    static uint32_t two[MOST_WORDS], converted[MOST_WORDS];
    const uint32_t *file = NULL;
    size_t words = 0, two_words = 0, count = 0;
    expect("the words of edition two", COARSE_DONE, coarse_recorder_words(&recorder, COARSE_EDITION_TWO, &file, &two_words));
    hold(two_words <= MOST_WORDS, "more words than a scene has", (uint32_t)two_words);
    if (two_words > MOST_WORDS)
        return;
    memcpy(two, file, two_words * sizeof *two);
    file = NULL;
    if (has_panels) {
        expect("edition one", COARSE_HAS_PANELS, coarse_recorder_words(&recorder, COARSE_EDITION_ONE, &file, &words));
        hold(!file && words == 0, "what a refused call gives", (uint32_t)words);
        expect("as the conversion says", COARSE_HAS_PANELS, coarse_to_edition_one(two, two_words, setup.mode, converted, MOST_WORDS, &count));
        lost++;
        return;
    }
    expect("edition one", COARSE_DONE, coarse_recorder_words(&recorder, COARSE_EDITION_ONE, &file, &words));
    expect("to edition two", COARSE_DONE, coarse_to_edition_two(file, words, setup.mode, converted, MOST_WORDS, &count));
    hold(count == two_words && memcmp(converted, two, count * sizeof *two) == 0, "edition two is not the conversion", (uint32_t)count);
    expect("to edition one", COARSE_DONE, coarse_to_edition_one(two, two_words, setup.mode, converted, MOST_WORDS, &count));
    hold(count == words && memcmp(converted, file, count * sizeof *two) == 0, "edition one is not the conversion", (uint32_t)count);
    expect("edition one's recording", COARSE_DONE, coarse_bucketer_bucket_commands(&recorded, COARSE_EDITION_ONE, file, words));
    same_screens("another screen by edition one");
    kept++;
}

static void scene(void) {
    uint32_t n = below(40), k;
    const uint32_t *file = NULL;
    size_t words = 0;
    coarse_reason reason = {9, 9, 9, 9};
    expect("a screen", COARSE_DONE, coarse_bucketer_reset(&direct, view));
    coarse_recorder_clear(&recorder, view);
    of_panel_0 = below(3), has_panels = 0;
    some_lists();
    for (k = 0; k < n; k++, steps++)
        switch (below(8)) {
        case 0: case 1: case 2: push_step(); break;
        case 3: case 4: pop_step(); break;
        case 5: filter_step(); break;
        default: draw_step();
        }
    if (coarse_bucketer_open_layers(&direct) > 0) {
        expect("words with a layer open", COARSE_OPEN, coarse_recorder_words(&recorder, 1 + below(2), &file, &words));
        hold(!file && words == 0, "none are given", (uint32_t)words);
    }
    while (coarse_bucketer_open_layers(&direct) > 0)
        pop_step();
    expect("the recording", COARSE_DONE, coarse_recorder_bucket(&recorder, &recorded));
    same_screens("another screen than by direct calls");
    buffers_hold(&recorded);
    /* Asked why, the screen is the recording's too. */
    expect("why", COARSE_DONE, coarse_recorder_why(&recorder, &recorded, below(ROWS), below(TILES), (int)below(2), below(9), &reason));
    hold(reason.reason <= COARSE_SHOWN, "a reason", reason.reason);
    same_screens("another screen once it was asked why");
    both_editions();
    /* More may be recorded after its words were asked for. */
    draw_step();
    expect("and one more", COARSE_DONE, coarse_recorder_bucket(&recorder, &recorded));
    same_screens("another screen with one draw more");
    lists_hold();
}

/* What the file's judge says */

static coarse_bucketer judge;

/* The recording, in an edition that has words for it, with this record in the place of the last one of its section, after which so many words stand. The last word
 * of a draw or a layer is its panel, which edition one has not. */
static uint32_t with_record(const uint32_t *record, size_t size, size_t after, int has_panel) {
    uint32_t copy[400], edition = has_panel && record[size - 1] ? (uint32_t)COARSE_EDITION_TWO : 1 + below(2);
    const uint32_t *file = NULL;
    size_t words = 0;
    if (has_panel && edition == COARSE_EDITION_ONE)
        size--;
    expect("the recording's words", COARSE_DONE, coarse_recorder_words(&recorder, edition, &file, &words));
    if (words > 400 || size + after > words)
        return COARSE_NO_ROOM;
    memcpy(copy, file, words * sizeof *copy);
    memcpy(copy + (words - after - size), record, size * sizeof *copy);
    return coarse_bucketer_bucket_commands(&judge, edition, copy, words);
}

/* The recorder's answer to a record, and the judge's to the file that has it: the same where either refuses. */
static void same_answers(const char *what, uint32_t mine, uint32_t judges) {
    judged++, refused += mine != COARSE_DONE;
    hold(mine == judges || (mine == COARSE_DONE && judges > COARSE_BAD_ORDER), what, 100 * mine + judges);
}

/* A recording of two paints and five segments, of which the third and the fourth overlap. */
static void base(void) {
    static const coarse_segment list[] = {{0, 0, 0, 9, 0}, {1, 0, 9, 12, 32}, {0, 1, 4, 8, 0}, {0, 1, 7, 9, 0}, {1, 0, 30, 40, 0}};
    static const coarse_paint paint = {1, 5, 0, 0};
    uint32_t place = 0;
    coarse_recorder_clear(&recorder, view);
    coarse_recorder_paint(&recorder, &paint, &place);
    coarse_recorder_paint(&recorder, &paint, &place);
    coarse_recorder_segments(&recorder, list, 5, &place);
}

/* The words of a recording from its draws on, of which there is one, with so many layers and as many nodes as there must be; then the root. */
enum { ROOT = 3, NODES = 1 + COARSE_NODE_RECORD, EMPTY = 1 };

static void judged_draw(void) {
    static const coarse_draw good = {0, 0, 0, 0, COARSE_DEFAULT_BLEND_INIT, 0, 0};
    coarse_draw draw = good;
    uint32_t record[COARSE_DRAW], mine;
    draw.start = about(5), draw.end = about(5), draw.thread = about(255), draw.paint = about(1);
    draw.blend.mix = about(15), draw.blend.compose = about(13), draw.mask = once_in(9) ? 0x80000000u : below(9);
    draw.panel = once_in(2) ? 0 : about(COARSE_LAST_PANEL);
    record[0] = draw.thread, record[1] = (uint32_t)draw.start, record[2] = (uint32_t)draw.end, record[3] = draw.paint;
    record[4] = draw.blend.mix, record[5] = draw.blend.compose, record[6] = draw.mask, record[7] = draw.panel;
    base();
    mine = coarse_recorder_draw(&recorder, &draw);
    if (mine != COARSE_DONE)
        expect("a good draw in its place", COARSE_DONE, coarse_recorder_draw(&recorder, &good));
    same_answers("a draw", mine, with_record(record, COARSE_DRAW, EMPTY + NODES + ROOT, 1));
}

static void judged_layer(int is_filter) {
    coarse_clip clip = {{0, 0, 0, 0}, 0, 0, 0};
    coarse_layer_props props = {COARSE_DEFAULT_BLEND_INIT, 0.5f, 0, NULL, 0}, good = props;
    coarse_placement placement = {{0, 0, 0, 0}, 0, 0}, nowhere = placement;
    uint32_t record[COARSE_LAYER_RECORD] = {0}, handle = once_in(9) ? 0x80000000u : below(9), mine, *pixmap = once_in(3) ? NULL : &handle, i;
    uint32_t sides[8];
    for (i = 0; i < 8; i++)
        sides[i] = once_in(9) ? about(32768) : once_in(9) ? 32768 : 4 * below(9) + (i >= 4 && i % 2 ? below(4) : 0) + (i % 4 > 1 ? 40 : 0);
    props.blend.mix = about(15), props.blend.compose = about(13), props.mask = once_in(9) ? 0x80000000u : below(9);
    props.panel = once_in(2) ? 0 : about(COARSE_LAST_PANEL);
    if (once_in(2)) {
        clip.box.x0 = sides[0], clip.box.y0 = sides[1], clip.box.x1 = sides[2], clip.box.y1 = sides[3];
        clip.start = about(5), clip.end = about(5), clip.thread = about(255);
        props.clip = &clip;
    }
    record[3] = props.blend.mix, record[4] = props.blend.compose, record[6] = props.mask;
    memcpy(record + 5, &props.opacity, sizeof props.opacity);
    if (props.clip) {
        record[7] = 1;
        memcpy(record + 8, &clip, sizeof clip);
    }
    if (is_filter) {
        placement.dest.x0 = sides[4], placement.dest.y0 = sides[5], placement.dest.x1 = sides[6], placement.dest.y1 = sides[7];
        placement.source_x = about(32768), placement.source_y = about(32768);
        record[0] = 1;
        record[15] = pixmap ? handle + 1 : 0;
        memcpy(record + 16, &placement, sizeof placement);
    }
    record[22] = props.panel;
    base();
    if (is_filter) {
        mine = coarse_recorder_filter_layer(&recorder, &props, pixmap, &placement);
        if (mine != COARSE_DONE)
            expect("a good filter in its place", COARSE_DONE, coarse_recorder_filter_layer(&recorder, &good, NULL, &nowhere));
    } else {
        mine = coarse_recorder_push_layer(&recorder, &props);
        if (mine != COARSE_DONE)
            expect("a good layer in its place", COARSE_DONE, coarse_recorder_push_layer(&recorder, &good));
        expect("its end", COARSE_DONE, coarse_recorder_pop_layer(&recorder));
    }
    same_answers(is_filter ? "a filter" : "a layer", mine, with_record(record, COARSE_LAYER_RECORD, NODES + ROOT, 1));
}

static void judged_paint(void) {
    static const coarse_paint good = {0, 0, 0, 0};
    coarse_paint paint = {0, 0, 0, 0};
    uint32_t place = 7, mine;
    paint.opaque = about(1), paint.handle = once_in(3) ? 0x80000000u - below(2) : below(9), paint.shift_x = (int32_t)any();
    coarse_recorder_clear(&recorder, view);
    mine = coarse_recorder_paint(&recorder, &paint, &place);
    expect("its place, if it is recorded", mine ? 7 : 0, place);
    if (mine != COARSE_DONE)
        expect("a good paint in its place", COARSE_DONE, coarse_recorder_paint(&recorder, &good, &place));
    same_answers("a paint", mine, with_record((const uint32_t *)&paint, COARSE_PAINT, 4 * EMPTY + ROOT, 0));
}

static void judged_segment(void) {
    static const coarse_segment good = {0, 0, 0, 1, 0};
    coarse_segment s = {0, 0, 0, 0, 0};
    uint32_t place = 7, mine;
    s.kind = about(1), s.row = once_in(4) ? 8191 + below(2) : about(8191), s.first = about(60);
    s.end = once_in(4) ? 8192 + below(2) : s.first + below(40), s.alpha = once_in(2) ? 0 : once_in(2) ? 0u - 16 * below(40) : any();
    coarse_recorder_clear(&recorder, view);
    mine = coarse_recorder_segments(&recorder, &s, 1, &place);
    expect("its place, if it is recorded", mine ? 7 : 0, place);
    if (mine != COARSE_DONE)
        expect("a good segment in its place", COARSE_DONE, coarse_recorder_segments(&recorder, &good, 1, &place));
    same_answers("a segment", mine, with_record((const uint32_t *)&s, COARSE_SEGMENT, 3 * EMPTY + ROOT, 0));
}

/* Known refusals, in order, with nothing changed */

static void full_sections(void) {
    static const coarse_paint paint = {1, 1, 0, 0};
    static const coarse_segment one = {0, 0, 0, 1, 0};
    static const coarse_draw draw = {0, 0, 0, 1, COARSE_DEFAULT_BLEND_INIT, 0, 0}, bad = {0, 0, 1, 0, COARSE_DEFAULT_BLEND_INIT, 0, 0};
    static const coarse_layer_props props = {COARSE_DEFAULT_BLEND_INIT, 1, 0, NULL, 0};
    static const coarse_placement nowhere = {{0, 0, 0, 0}, 0, 0};
    coarse_segment three[3];
    uint32_t place = 0, i;
    const uint32_t *file = NULL;
    size_t words = 0;
    coarse_reason reason = {9, 9, 9, 9};
    coarse_recorder_clear(&recorder, view);
    expect("no layer to close", COARSE_NO_LAYER, coarse_recorder_pop_layer(&recorder));
    expect("a draw of no paint", COARSE_BAD_RECORD, coarse_recorder_draw(&recorder, &draw));
    three[0] = three[1] = three[2] = one;
    three[2].end = 0;
    expect("a bad segment among good ones", COARSE_BAD_RECORD, coarse_recorder_segments(&recorder, three, 3, &place));
    expect("none is recorded", 0, (uint32_t)recorder.segments.count);
    expect("no segments at all", COARSE_DONE, coarse_recorder_segments(&recorder, NULL, 0, &place));
    for (i = 0; i < COARSE_MOST_RECORDS; i++) {
        expect("a paint", COARSE_DONE, coarse_recorder_paint(&recorder, &paint, &place));
        expect("a segment", COARSE_DONE, coarse_recorder_segments(&recorder, &one, 1, &place));
    }
    expect("4,097 paints", COARSE_BAD_FORM, coarse_recorder_paint(&recorder, &paint, &place));
    expect("4,097 segments", COARSE_BAD_FORM, coarse_recorder_segments(&recorder, three, 1, &place));
    expect("before a bad one", COARSE_BAD_FORM, coarse_recorder_segments(&recorder, three + 2, 1, &place));
    expect("and far more", COARSE_BAD_FORM, coarse_recorder_segments(&recorder, three, (size_t)-1, &place));
    for (i = 0; i < COARSE_MOST_RECORDS; i++)
        expect("a draw", COARSE_DONE, coarse_recorder_draw(&recorder, &draw));
    expect("4,097 draws", COARSE_BAD_FORM, coarse_recorder_draw(&recorder, &draw));
    expect("before a bad one", COARSE_BAD_FORM, coarse_recorder_draw(&recorder, &bad));
    expect("the words", COARSE_DONE, coarse_recorder_words(&recorder, COARSE_EDITION_ONE, &file, &words));
    expect("so many", 13 + COARSE_MOST_RECORDS * (COARSE_PAINT + COARSE_SEGMENT + COARSE_DRAW - 1) + COARSE_NODE_RECORD, (uint32_t)words);
    expect("the words of edition two", COARSE_DONE, coarse_recorder_words(&recorder, COARSE_EDITION_TWO, &file, &words));
    expect("so many", 15 + COARSE_MOST_RECORDS * (COARSE_PAINT + COARSE_SEGMENT + COARSE_DRAW) + COARSE_NODE_RECORD, (uint32_t)words);
    expect("one node for all draws", 1, (uint32_t)recorder.pending.count);
    expect("which are too many for the attributes", COARSE_FULL_ATTRS, coarse_recorder_bucket(&recorder, &judge));
    expect("as a reason says too", COARSE_FULL_ATTRS, coarse_recorder_why(&recorder, &judge, 0, 0, 0, 0, &reason));
    expect("none is given", 9, reason.reason);

    coarse_recorder_clear(&recorder, view);
    for (i = 0; i < COARSE_MOST_RECORDS; i++)
        expect("a filter", COARSE_DONE, coarse_recorder_filter_layer(&recorder, &props, NULL, &nowhere));
    expect("4,097 layers", COARSE_BAD_FORM, coarse_recorder_push_layer(&recorder, &props));
    expect("and as many nodes", COARSE_MOST_RECORDS, (uint32_t)recorder.pending.count);
    expect("of which there is one more for a draw", COARSE_BAD_FORM, coarse_recorder_draw(&recorder, &draw));
    expect("they are a recording", COARSE_DONE, coarse_recorder_bucket(&recorder, &judge));

    coarse_recorder_clear(&recorder, view);
    for (i = 0; i < COARSE_MOST_LAYERS; i++)
        expect("a layer", COARSE_DONE, coarse_recorder_push_layer(&recorder, &props));
    expect("a 17th", COARSE_DEEP, coarse_recorder_push_layer(&recorder, &props));
    expect("no words", COARSE_OPEN, coarse_recorder_words(&recorder, COARSE_EDITION_TWO, &file, &words));
    expect("no question", COARSE_OPEN, coarse_recorder_why(&recorder, &judge, 0, 0, 0, 0, &reason));
    for (i = 0; i < COARSE_MOST_LAYERS; i++)
        expect("its end", COARSE_DONE, coarse_recorder_pop_layer(&recorder));
    expect("16 deep", COARSE_DONE, coarse_recorder_bucket(&recorder, &judge));
    expect("all closed", 16, (uint32_t)coarse_bucketer_layer_attr_count(&judge));
}

/* The words with a layer open or not, of each number for an edition: one that is none comes first, then the layer, then a panel. */
static void each_edition(uint32_t one, uint32_t two) {
    static const uint32_t numbers[] = {0, COARSE_EDITION_ONE, COARSE_EDITION_TWO, 3, 0x101, UINT32_MAX};
    const uint32_t *file = NULL;
    size_t words = 7, i;
    for (i = 0; i < sizeof numbers / sizeof *numbers; i++) {
        uint32_t want = numbers[i] == COARSE_EDITION_ONE ? one : numbers[i] == COARSE_EDITION_TWO ? two : (uint32_t)COARSE_BAD_FORM;
        expect("the words of an edition", want, coarse_recorder_words(&recorder, numbers[i], &file, &words));
        hold((want == COARSE_DONE) == (file != NULL) && (want == COARSE_DONE) == (words != 7), "whether there are words", numbers[i]);
        file = NULL, words = 7;
    }
}

/* Panels are kept, up to the last; above 255 they are refused, as a direct call does. Edition one is refused by the panel of a draw, of a layer or of a filter. */
static void panels(void) {
    static const coarse_placement nowhere = {{0, 0, 0, 0}, 0, 0};
    coarse_draw draw = {0, 0, 0, 5, COARSE_DEFAULT_BLEND_INIT, 0, 255};
    coarse_layer_props props = {COARSE_DEFAULT_BLEND_INIT, 1, 0, NULL, 256};
    coarse_reason reason = {9, 9, 9, 9};
    uint32_t which;
    base();
    expect("out of order", COARSE_BAD_ORDER, coarse_recorder_draw(&recorder, &draw));
    draw.panel = 256;
    expect("a bad panel before that", COARSE_BAD_RECORD, coarse_recorder_draw(&recorder, &draw));
    expect("of a layer", COARSE_BAD_RECORD, coarse_recorder_push_layer(&recorder, &props));
    expect("of a filter", COARSE_BAD_RECORD, coarse_recorder_filter_layer(&recorder, &props, NULL, &nowhere));
    each_edition(COARSE_DONE, COARSE_DONE);
    draw.end = 2, draw.panel = 255, props.panel = 254;
    expect("the last panel", COARSE_DONE, coarse_recorder_draw(&recorder, &draw));
    expect("a layer's", COARSE_DONE, coarse_recorder_push_layer(&recorder, &props));
    each_edition(COARSE_OPEN, COARSE_OPEN);
    expect("its end", COARSE_DONE, coarse_recorder_pop_layer(&recorder));
    each_edition(COARSE_HAS_PANELS, COARSE_DONE);
    expect("the recording", COARSE_DONE, coarse_recorder_bucket(&recorder, &judge));
    expect("has the draw's panel", 255, coarse_bucketer_paint_attrs(&judge, 0).panel);
    expect("and the layer's", 254, coarse_bucketer_layer_attrs(&judge, 0).panel);
    expect("why", COARSE_DONE, coarse_recorder_why(&recorder, &judge, 0, 0, 1, 0, &reason));
    expect("of the layer's panel", 254, reason.panel);

    /* One panel alone: of none, a draw, a layer, a filter. */
    for (which = 0; which < 4; which++) {
        base();
        draw.panel = which == 1 ? 1 : 0, props.panel = which == 2 ? 1 : 0;
        expect("a draw", COARSE_DONE, coarse_recorder_draw(&recorder, &draw));
        expect("a layer", COARSE_DONE, coarse_recorder_push_layer(&recorder, &props));
        expect("a draw in it", COARSE_DONE, coarse_recorder_draw(&recorder, &draw));
        expect("its end", COARSE_DONE, coarse_recorder_pop_layer(&recorder));
        props.panel = which == 3 ? 1 : 0;
        expect("a filter", COARSE_DONE, coarse_recorder_filter_layer(&recorder, &props, NULL, &nowhere));
        each_edition(which ? COARSE_HAS_PANELS : COARSE_DONE, COARSE_DONE);
    }
}

/* A layer of panel 7 with a draw of panel 9 in it, and a filter of panel 8 with a picture: word for word. Then the same without panels, in either edition. */
static void known_words(void) {
    uint32_t two[] = {1, 2, 1, 0, 0, 512, 4, 1, 1, 1, 0, 0, 1, 0, 0, 0, 128, 0, 1, 6, 0, 1, 0, 0, 3, 2, 9,
                      2, 0, 0, 1, 0, 3, 0x3f800000, 4, 1, 0, 0, 64, 4, 0, 1, 5, 0, 0, 0, 0, 0, 0, 0, 7,
                      1, 0, 0, 0, 3, 0x3f800000, 0, 0, 0, 0, 0, 0, 0, 0, 0, 12, 8, 3, 24, 9, 2, 1, 8, 3, 0, 1, 0, 0, 0, 1, 1, 1, 2, 1, 1, 3};
    static const uint32_t one[] = {1, 0, 0, 512, 4, 1, 1, 1, 0, 0, 1, 0, 0, 0, 128, 0, 1, 6, 0, 1, 0, 0, 3, 2,
                                   2, 0, 0, 1, 0, 3, 0x3f800000, 4, 1, 0, 0, 64, 4, 0, 1, 5, 0, 0, 0, 0, 0, 0, 0,
                                   1, 0, 0, 0, 3, 0x3f800000, 0, 0, 0, 0, 0, 0, 0, 0, 0, 12, 8, 3, 24, 9, 2, 1, 3, 0, 1, 0, 0, 0, 1, 1, 1, 2, 1, 1, 3};
    static const coarse_rect row = {0, 0, 512, 4};
    static const coarse_paint paint = {1, 1, 0, 0};
    static const coarse_segment segment = {0, 0, 0, 128, 0};
    static const coarse_placement placement = {{8, 3, 24, 9}, 2, 1};
    const coarse_clip clip = {{0, 0, 64, 4}, 0, 1, 5};
    coarse_layer_props group = {COARSE_DEFAULT_BLEND_INIT, 1, 4, NULL, 7}, filter = {COARSE_DEFAULT_BLEND_INIT, 1, 0, NULL, 8};
    coarse_draw draw = {6, 0, 0, 1, COARSE_DEFAULT_BLEND_INIT, 2, 9};
    const uint32_t *file = NULL;
    uint32_t place = 0, picture = 11;
    size_t words = 0;
    int again;
    group.clip = &clip;
    for (again = 0; again < 2; again++) {
        coarse_recorder_clear(&recorder, row);
        expect("a paint", COARSE_DONE, coarse_recorder_paint(&recorder, &paint, &place));
        expect("a segment", COARSE_DONE, coarse_recorder_segments(&recorder, &segment, 1, &place));
        expect("a layer", COARSE_DONE, coarse_recorder_push_layer(&recorder, &group));
        expect("a draw", COARSE_DONE, coarse_recorder_draw(&recorder, &draw));
        expect("its end", COARSE_DONE, coarse_recorder_pop_layer(&recorder));
        expect("a filter", COARSE_DONE, coarse_recorder_filter_layer(&recorder, &filter, &picture, &placement));
        expect("edition two", COARSE_DONE, coarse_recorder_words(&recorder, COARSE_EDITION_TWO, &file, &words));
        hold(words == sizeof two / sizeof *two && memcmp(file, two, sizeof two) == 0, "the words of edition two", (uint32_t)words);
        expect("edition one", again ? COARSE_DONE : COARSE_HAS_PANELS, coarse_recorder_words(&recorder, COARSE_EDITION_ONE, &file, &words));
        two[26] = two[50] = two[73] = draw.panel = group.panel = filter.panel = 0;
    }
    hold(words == sizeof one / sizeof *one && memcmp(file, one, sizeof one) == 0, "the words of edition one", (uint32_t)words);
}

/* An empty recording; one of a viewport that is none, which the mode judges. */
static void empty(void) {
    static const coarse_rect odd = {0, 0, 6, 4};
    coarse_recorder none;
    coarse_recorder_new(&none, view);
    expect("no records", COARSE_DONE, coarse_recorder_bucket(&none, &judge));
    expect("no draw", 1, coarse_bucketer_next_draw_id(&judge));
    coarse_recorder_clear(&none, odd);
    expect("an odd viewport", COARSE_BAD_VIEWPORT, coarse_recorder_bucket(&none, &judge));
    coarse_recorder_free(&none);
    coarse_recorder_free(&none);
}

int main(int argc, char **argv) {
    unsigned long count = argc > 1 ? strtoul(argv[1], NULL, 10) : 400, k;
    seed = 0x9e3779b97f4a7c15u ^ (argc > 2 ? strtoul(argv[2], NULL, 10) : 1);
    if (coarse_bucketer_new(&direct, view, setup) || coarse_bucketer_new(&recorded, view, setup) || coarse_bucketer_new(&judge, view, setup))
        return 2;
    coarse_recorder_new(&recorder, view);
    for (scenes = 1; scenes <= count; scenes++)
        scene();
    for (k = 0; k < 10 * count; k++) {
        judged_draw(), judged_paint(), judged_segment();
        judged_layer(0), judged_layer(1);
    }
    full_sections();
    panels();
    known_words();
    empty();
    hold(buffered > count, "fills in buffers", (uint32_t)buffered);
    hold(listed > count, "entries of tiles' lists", (uint32_t)listed);
    hold(kept > count / 4 && lost > count / 4, "recordings with panels and without", (uint32_t)lost);
    hold(refused > judged / 10 && refused < judged - judged / 10, "records refused", (uint32_t)refused);
    printf("%lu scenes of %lu steps, %lu records judged, %lu of them refused; %lu things do not hold\n", count, steps, judged, refused, wrong);
    coarse_recorder_free(&recorder);
    coarse_bucketer_free(&direct), coarse_bucketer_free(&recorded), coarse_bucketer_free(&judge);
    return wrong != 0;
}
