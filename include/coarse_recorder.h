/* A recorder: what a host draws by direct calls, kept as the words of a recording file, which coarse_bucketer_bucket_commands and
 * coarse_bucketer_why take. So a host that draws by direct calls can ask why a tile shows what it shows: it records what it draws.
 *
 * A record is refused at once by the number that the file would be refused by, where that is known at once: COARSE_BAD_FORM where its
 * section has 4,096 records already, then COARSE_BAD_RECORD for a field that is out of bounds or a place that nothing is recorded at yet,
 * then COARSE_BAD_ORDER for segments out of order. COARSE_DEEP and COARSE_NO_LAYER are as in direct calls, and COARSE_NO_MEMORY is where
 * memory ran out. Refused, nothing has changed. All else is said when the words are bucketed: the viewport, ids, attributes, rooms.
 *
 * Boxes are in pixels and segments in tiles, all of the scene. Draws and layers are kept with their panels: coarse_recorder_bucket and
 * coarse_recorder_why go by edition two, so that attributes and reasons have the panels that direct calls give them. The words may be had
 * in either edition; edition one has none for a panel, and is refused by COARSE_HAS_PANELS where one is not 0. */
#ifndef COARSE_RECORDER_H
#define COARSE_RECORDER_H

#include "coarse_bucketer.h"

/* How many records a section has at most, and the words of those that coarse.h has no number for, as edition two has them: a layer's last
 * word is its panel, as a draw's is. */
#define COARSE_MOST_RECORDS 4096
#define COARSE_LAYER_RECORD 23
#define COARSE_NODE_RECORD 3

/* Records of one kind, so many words each, one after the other. */
typedef struct coarse_records { uint32_t *words; size_t count, room; } coarse_records;

/* What is recorded so far. All of it is the calls' own. Nodes stand in `nodes` once their layer is closed; before that, and for good where
 * they are in no layer, in `pending`: those of the outermost layer first, and level k's from from[k] on. */
typedef struct coarse_recorder {
    coarse_rect viewport;
    coarse_records paints, segments, draws, layers, nodes, pending, file;
    size_t open, from[COARSE_MOST_LAYERS + 1], layer[COARSE_MOST_LAYERS + 1];
} coarse_recorder;

/* Room for n more records of so many words. */
static inline uint32_t coarse_records_room(coarse_records *r, size_t size, size_t n) {
    size_t room = 2 * (r->count + n);
    uint32_t *more;
    if (r->count + n <= r->room)
        return COARSE_DONE;
    more = (uint32_t *)realloc(r->words, room * size * sizeof *more);
    if (!more)
        return COARSE_NO_MEMORY;
    r->words = more;
    r->room = room;
    return COARSE_DONE;
}

/* One more record, where there is room: its place. */
static inline uint32_t coarse_records_add(coarse_records *r, size_t size, const void *record) {
    memcpy(r->words + r->count * size, record, size * sizeof *r->words);
    return (uint32_t)r->count++;
}

/* A recording of this viewport, in pixels of the scene, with nothing in it. */
static inline void coarse_recorder_new(coarse_recorder *r, coarse_rect viewport) {
    memset(r, 0, sizeof *r);
    r->viewport = viewport;
}

/* The same again: what was recorded is forgotten, and its memory kept for what comes. */
static inline void coarse_recorder_clear(coarse_recorder *r, coarse_rect viewport) {
    r->viewport = viewport;
    r->paints.count = r->segments.count = r->draws.count = r->layers.count = r->nodes.count = r->pending.count = 0;
    r->open = 0;
    r->from[0] = 0;
}

static inline void coarse_recorder_free(coarse_recorder *r) {
    free(r->paints.words), free(r->segments.words), free(r->draws.words), free(r->layers.words);
    free(r->nodes.words), free(r->pending.words), free(r->file.words);
    memset(r, 0, sizeof *r);
}

/* What the file's judge asks of the fields. */
static inline int coarse_recorder_is_segment(const coarse_segment *s) {
    if (s->kind > 1 || s->row >= 8192 || s->first >= s->end || s->end > 8192)
        return 0;
    return s->kind == 0 ? s->alpha == 0 : s->alpha <= UINT32_MAX - 16 * (s->end - s->first);
}

static inline int coarse_recorder_is_blend(coarse_blend blend) { return blend.mix <= 15 && blend.compose <= 13; }

/* A box up to 32,768 whose sides are multiples of 4, those of a filter's across alone. */
static inline int coarse_recorder_is_box(coarse_rect b, uint32_t down) {
    return b.x0 % 4 == 0 && b.x1 % 4 == 0 && b.y0 % down == 0 && b.y1 % down == 0 && b.x0 <= b.x1 && b.y0 <= b.y1 && b.x1 <= 32768 && b.y1 <= 32768;
}

/* Recorded segments from start to end, which are places of the list: 5 where one does not follow the one before it. */
static inline uint32_t coarse_recorder_order(const coarse_recorder *r, size_t start, size_t end) {
    for (; start + 1 < end; start++) {
        const uint32_t *a = r->segments.words + start * COARSE_SEGMENT, *b = a + COARSE_SEGMENT;
        if (a[1] > b[1] || (a[1] == b[1] && a[3] > b[2]))
            return COARSE_BAD_ORDER;
    }
    return COARSE_DONE;
}

/* A paint, and its place, which draws name. */
static inline uint32_t coarse_recorder_paint(coarse_recorder *r, const coarse_paint *paint, uint32_t *place) {
    uint32_t answer;
    if (r->paints.count == COARSE_MOST_RECORDS)
        return COARSE_BAD_FORM;
    if (paint->opaque > 1 || paint->handle >> 31)
        return COARSE_BAD_RECORD;
    answer = coarse_records_room(&r->paints, COARSE_PAINT, 1);
    if (answer == COARSE_DONE)
        *place = coarse_records_add(&r->paints, COARSE_PAINT, paint);
    return answer;
}

/* Segments after those that are recorded, and the place of the first of them: draws and clips name places from there on. */
static inline uint32_t coarse_recorder_segments(coarse_recorder *r, const coarse_segment *list, size_t count, uint32_t *start) {
    uint32_t answer;
    size_t i;
    if (count > COARSE_MOST_RECORDS - r->segments.count)
        return COARSE_BAD_FORM;
    for (i = 0; i < count; i++)
        if (!coarse_recorder_is_segment(list + i))
            return COARSE_BAD_RECORD;
    answer = coarse_records_room(&r->segments, COARSE_SEGMENT, count);
    if (answer != COARSE_DONE)
        return answer;
    *start = (uint32_t)r->segments.count;
    for (i = 0; i < count; i++)
        coarse_records_add(&r->segments, COARSE_SEGMENT, list + i);
    return COARSE_DONE;
}

/* Whether the last node of the innermost open layer takes what comes next: one that names no layer yet. Else a node begins. */
static inline int coarse_recorder_is_same_node(const coarse_recorder *r) {
    return r->pending.count > r->from[r->open] && r->pending.words[r->pending.count * COARSE_NODE_RECORD - 1] == 0;
}

/* Whether a section has no place for one more record, or no node would take it. */
static inline int coarse_recorder_is_full(const coarse_recorder *r, const coarse_records *section) {
    return section->count == COARSE_MOST_RECORDS || (!coarse_recorder_is_same_node(r) && r->nodes.count + r->pending.count == COARSE_MOST_RECORDS);
}

/* Room for one more record of a section, and for a node. */
static inline uint32_t coarse_recorder_room(coarse_recorder *r, coarse_records *section, size_t size) {
    uint32_t answer = coarse_records_room(&r->pending, COARSE_NODE_RECORD, 1);
    return answer == COARSE_DONE ? coarse_records_room(section, size, 1) : answer;
}

/* The node that takes what comes next. */
static inline uint32_t *coarse_recorder_node(coarse_recorder *r) {
    if (!coarse_recorder_is_same_node(r)) {
        uint32_t draws = (uint32_t)r->draws.count, node[COARSE_NODE_RECORD] = {0, 0, 0};
        node[0] = node[1] = draws;
        coarse_records_add(&r->pending, COARSE_NODE_RECORD, node);
    }
    return r->pending.words + (r->pending.count - 1) * COARSE_NODE_RECORD;
}

/* A draw in the innermost open layer: its paint and its segments are places of what is recorded. */
static inline uint32_t coarse_recorder_draw(coarse_recorder *r, const coarse_draw *draw) {
    uint32_t record[COARSE_DRAW], answer, *node;
    if (coarse_recorder_is_full(r, &r->draws))
        return COARSE_BAD_FORM;
    if (draw->thread > 255 || draw->start > draw->end || draw->end > r->segments.count || draw->paint >= r->paints.count ||
        !coarse_recorder_is_blend(draw->blend) || draw->mask >> 31 || draw->panel > COARSE_LAST_PANEL)
        return COARSE_BAD_RECORD;
    if (coarse_recorder_order(r, draw->start, draw->end) != COARSE_DONE)
        return COARSE_BAD_ORDER;
    answer = coarse_recorder_room(r, &r->draws, COARSE_DRAW);
    if (answer != COARSE_DONE)
        return answer;
    record[0] = draw->thread, record[1] = (uint32_t)draw->start, record[2] = (uint32_t)draw->end, record[3] = draw->paint;
    record[4] = draw->blend.mix, record[5] = draw->blend.compose, record[6] = draw->mask, record[7] = draw->panel;
    node = coarse_recorder_node(r);
    node[1] = coarse_records_add(&r->draws, COARSE_DRAW, record) + 1; /* its draws are the last ones, up to this */
    return COARSE_DONE;
}

/* A layer's record, named by a node by its number + 1. */
static inline uint32_t coarse_recorder_layer(coarse_recorder *r, const coarse_layer_props *props, int is_filter, const uint32_t *pixmap,
                                             const coarse_placement *placement) {
    uint32_t record[COARSE_LAYER_RECORD] = {0}, answer, *node;
    const coarse_clip *clip = props->clip;
    if (coarse_recorder_is_full(r, &r->layers))
        return COARSE_BAD_FORM;
    if (!coarse_recorder_is_blend(props->blend) || props->mask >> 31 || props->panel > COARSE_LAST_PANEL)
        return COARSE_BAD_RECORD;
    if (clip && (!coarse_recorder_is_box(clip->box, 4) || clip->start > clip->end || clip->end > r->segments.count || clip->thread > 255))
        return COARSE_BAD_RECORD;
    if (is_filter && ((pixmap && *pixmap >> 31) || !coarse_recorder_is_box(placement->dest, 1) || placement->source_x > 32768 || placement->source_y > 32768))
        return COARSE_BAD_RECORD;
    if (clip && coarse_recorder_order(r, clip->start, clip->end) != COARSE_DONE)
        return COARSE_BAD_ORDER;
    answer = coarse_recorder_room(r, &r->layers, COARSE_LAYER_RECORD);
    if (answer != COARSE_DONE)
        return answer;
    record[0] = is_filter ? 1 : 0;
    record[3] = props->blend.mix, record[4] = props->blend.compose, record[6] = props->mask;
    memcpy(record + 5, &props->opacity, sizeof props->opacity);
    if (clip) {
        record[7] = 1;
        record[8] = clip->box.x0, record[9] = clip->box.y0, record[10] = clip->box.x1, record[11] = clip->box.y1;
        record[12] = clip->start, record[13] = clip->end, record[14] = clip->thread;
    }
    if (is_filter) {
        record[15] = pixmap ? *pixmap + 1 : 0;
        record[16] = placement->dest.x0, record[17] = placement->dest.y0, record[18] = placement->dest.x1, record[19] = placement->dest.y1;
        record[20] = placement->source_x, record[21] = placement->source_y;
    }
    record[22] = props->panel;
    node = coarse_recorder_node(r);
    node[2] = coarse_records_add(&r->layers, COARSE_LAYER_RECORD, record) + 1;
    return COARSE_DONE;
}

/* Opens a layer. Its clip's segments are places of what is recorded. */
static inline uint32_t coarse_recorder_push_layer(coarse_recorder *r, const coarse_layer_props *props) {
    uint32_t answer;
    if (r->open == COARSE_MOST_LAYERS)
        return COARSE_DEEP;
    answer = coarse_recorder_layer(r, props, 0, NULL, NULL);
    if (answer != COARSE_DONE)
        return answer;
    r->open++;
    r->from[r->open] = r->pending.count;
    r->layer[r->open] = r->layers.count - 1;
    return COARSE_DONE;
}

/* Closes the innermost layer. */
static inline uint32_t coarse_recorder_pop_layer(coarse_recorder *r) {
    size_t from = r->from[r->open], count = r->pending.count - from, i;
    uint32_t *record, answer;
    if (r->open == 0)
        return COARSE_NO_LAYER;
    answer = coarse_records_room(&r->nodes, COARSE_NODE_RECORD, count);
    if (answer != COARSE_DONE)
        return answer;
    record = r->layers.words + r->layer[r->open] * COARSE_LAYER_RECORD;
    record[1] = (uint32_t)r->nodes.count, record[2] = (uint32_t)(r->nodes.count + count);
    for (i = 0; i < count; i++)
        coarse_records_add(&r->nodes, COARSE_NODE_RECORD, r->pending.words + (from + i) * COARSE_NODE_RECORD);
    r->pending.count = from;
    r->open--;
    return COARSE_DONE;
}

/* A filter layer: its picture drawn into a box, in a layer of these properties if any but the panel is not the default one. What is drawn
 * has the panel too. pixmap: the picture's handle, or null for none. */
static inline uint32_t coarse_recorder_filter_layer(coarse_recorder *r, const coarse_layer_props *props, const uint32_t *pixmap,
                                                    const coarse_placement *placement) {
    return coarse_recorder_layer(r, props, 1, pixmap, placement);
}

/* Whether a draw or a layer has a panel, the last word of its record, that is not 0. */
static inline int coarse_records_have_panels(const coarse_records *r, size_t size) {
    size_t i;
    for (i = 1; i <= r->count; i++)
        if (r->words[i * size - 1] != 0)
            return 1;
    return 0;
}

/* The first words of each record, so many of them, at a place of the file's words; the place after them. */
static inline uint32_t *coarse_records_put(uint32_t *at, const coarse_records *r, size_t size, size_t words) {
    size_t i;
    for (i = 0; i < r->count; i++, at += words)
        memcpy(at, r->words + i * size, words * sizeof *at);
    return at;
}

/* A section likewise: the count before its records. */
static inline uint32_t *coarse_recorder_section(uint32_t *at, const coarse_records *r, size_t size, size_t words) {
    *at++ = (uint32_t)r->count;
    return coarse_records_put(at, r, size, words);
}

/* The words of the recording file, of a coarse_edition, which stand until the next call of the recorder; more may be recorded after it.
 * In a file they are little-endian. Refused by COARSE_BAD_FORM for an edition that is none, then by COARSE_OPEN with a layer open, then, of
 * edition one, by COARSE_HAS_PANELS where a draw or a layer has a panel that is not 0. */
static inline uint32_t coarse_recorder_words(coarse_recorder *r, uint32_t edition, const uint32_t **file, size_t *words) {
    size_t panel = edition == COARSE_EDITION_TWO ? 1 : 0, head = 2 * panel, nodes = r->nodes.count + r->pending.count;
    size_t draw = COARSE_DRAW - 1 + panel, layer = COARSE_LAYER_RECORD - 1 + panel;
    size_t n = head + 13 + r->paints.count * COARSE_PAINT + r->segments.count * COARSE_SEGMENT + r->draws.count * draw +
               r->layers.count * layer + nodes * COARSE_NODE_RECORD;
    uint32_t *at, answer;
    if (edition != COARSE_EDITION_ONE && edition != COARSE_EDITION_TWO)
        return COARSE_BAD_FORM;
    if (r->open > 0)
        return COARSE_OPEN;
    if (edition == COARSE_EDITION_ONE &&
        (coarse_records_have_panels(&r->draws, COARSE_DRAW) || coarse_records_have_panels(&r->layers, COARSE_LAYER_RECORD)))
        return COARSE_HAS_PANELS;
    answer = coarse_records_room(&r->file, 1, n);
    if (answer != COARSE_DONE)
        return answer;
    at = r->file.words;
    if (head)
        *at++ = 1, *at++ = 2;
    *at++ = 1, *at++ = r->viewport.x0, *at++ = r->viewport.y0, *at++ = r->viewport.x1, *at++ = r->viewport.y1;
    at = coarse_recorder_section(at, &r->paints, COARSE_PAINT, COARSE_PAINT);
    at = coarse_recorder_section(at, &r->segments, COARSE_SEGMENT, COARSE_SEGMENT);
    at = coarse_recorder_section(at, &r->draws, COARSE_DRAW, draw);
    at = coarse_recorder_section(at, &r->layers, COARSE_LAYER_RECORD, layer);
    *at++ = (uint32_t)nodes;
    at = coarse_records_put(at, &r->nodes, COARSE_NODE_RECORD, COARSE_NODE_RECORD);
    at = coarse_records_put(at, &r->pending, COARSE_NODE_RECORD, COARSE_NODE_RECORD);
    *at++ = 1, *at++ = (uint32_t)r->nodes.count, *at++ = (uint32_t)nodes;
    *file = r->file.words;
    *words = (size_t)(at - r->file.words);
    return COARSE_DONE;
}

/* What is recorded, with its panels, bucketed on the screen as coarse_bucketer_bucket_commands does it. */
static inline uint32_t coarse_recorder_bucket(coarse_recorder *r, coarse_bucketer *b) {
    const uint32_t *file;
    size_t words;
    uint32_t answer = coarse_recorder_words(r, COARSE_EDITION_TWO, &file, &words);
    return answer == COARSE_DONE ? coarse_bucketer_bucket_commands(b, COARSE_EDITION_TWO, file, words) : answer;
}

/* Why what is recorded shows an attribute at a tile or not, as coarse_bucketer_why says it: the screen is left bucketed. A host that wants
 * to paint on asks a bucketer of its own for it. */
static inline uint32_t coarse_recorder_why(coarse_recorder *r, coarse_bucketer *b, uint32_t row, uint32_t tile, int layer, uint32_t attribute,
                                           coarse_reason *reason) {
    const uint32_t *file;
    size_t words;
    uint32_t answer = coarse_recorder_words(r, COARSE_EDITION_TWO, &file, &words);
    return answer == COARSE_DONE ? coarse_bucketer_why(b, COARSE_EDITION_TWO, file, words, row, tile, layer, attribute, reason) : answer;
}

#endif
