/* The coarse stage of a renderer, proved. Link libcoarse.a or libcoarse.so (x86-64).
 *
 * Every slice is a pointer and a length in elements: that many elements stand there, aligned, and neither a slice nor a struct of a
 * call overlaps one that the call writes. A pointer to a struct or a number is never null. The pointer of a slice that is a parameter
 * may be null with length 0; a pointer within a struct is never null, with length 0 too. A call writes what a struct's pointers point
 * to, and never the pointers or the lengths. Nothing is allocated, and no call keeps a pointer. Every call takes any numbers, words
 * and lengths, and ends. coarse_bucketer.h owns the tables and hands them over: with it these duties are kept.
 *
 * Each call returns one of the answers below. A refused call changes no word; only coarse_bucket_recording and
 * coarse_why, refused for the recording's records or its steps, leave a freshly reset screen, and coarse_why refused with 12 leaves
 * the recording's.
 *
 * Places are counted from 0, rightward and downward, in two ways. A tile is 4 x 4 pixels, and a row is one tile high.
 *   of the scene:  pixels and tiles, from the scene's corner. So is what is drawn: viewports, clip boxes, filters' boxes, segments.
 *   of the screen: rows and tiles, from the viewport's corner, and depth buckets, from its left edge, as wide as the setup says. So is
 *                  what is painted or asked about: rows, pieces, runs, reasons.
 * With the corner of the screen's viewport at the pixels x0, y0, tile t of row r of the screen is tile x0 / 4 + t of row y0 / 4 + r of
 * the scene: with the corner at 20, 8 a segment on the tiles 8 to 60 of row 3 gives pieces on the tiles 3 to 55 of row 1. No box, range
 * or run has its end in it.
 *
 * When does a host clear a buffer, and when does it composite it? What a layer holds is drawn into a buffer as wide as the row; the
 * nesting is how many buffers are open, and buffer 0 is the row of the picture. A row's stored commands say it (coarse_render_cmd), and
 * coarse_progress tells the nesting after each step:
 *
 *     command    PaintFill   PushBuf   PaintFill   LayerFill   PopBuf   PaintFill
 *     nesting        0          1          1           1          0         0
 *     buffer 1                clear ---- draw ----- composite -- end
 *                                                      |
 *     picture  --- draw ------------------------------ v -------------- draw --->
 *
 * PushBuf opens the next buffer, cleared over its span: the tiles that its own level touches. The pieces of a PaintFill are drawn into
 * the innermost buffer. The pieces of a LayerFill composite the innermost buffer into the one below it, with the opacity, blend and mask
 * of the layer attribute. PopBuf ends the innermost buffer: what no LayerFill has composited by then is seen nowhere. A PushBuf without
 * a span has no LayerFill: nothing of that buffer is composited, and it need not be cleared. A row in which nothing was painted within
 * the layer has no PushBuf, and nothing to composite.
 *
 * PushBuf and PopBuf give no piece, so the pieces alone do not decide the picture: a buffer that ends with nothing composited, and
 * another that opens after it, look among pieces like one buffer. examples/buffers.c has two scenes with the same pieces and different
 * pictures. A host with layers paints by coarse_paint_step and looks at coarse_progress after each step, or at the commands:
 * examples/composite.c composites both scenes in colours by either. */
#ifndef COARSE_H
#define COARSE_H

#include "coarse_version.h"
#include <stddef.h>
#include <stdint.h>

#ifdef __cplusplus
extern "C" {
#endif

enum coarse_answer {
    COARSE_DONE = 0,
    COARSE_BAD_ARENA = 1,    /* render_cmds, depth_cmds or depth of a wrong length, or C or D not from 1 to 1,024 */
    COARSE_BAD_VIEWPORT = 2, /* as the mode reads it: a side no multiple of 4, an end before its start, past 32,768, wider than 4,096, higher than 2,048; or a bucket's width that is none */
    COARSE_BAD_FORM = 3,     /* a recording that is not exactly its sections in the edition that it is told to be of, or an edition that is none */
    COARSE_BAD_RECORD = 4,   /* a field out of bounds, a table of a wrong length, a state that is no screen's */
    COARSE_BAD_ORDER = 5,    /* a segment list out of order */
    COARSE_DEEP = 6,         /* a push with 16 layers open */
    COARSE_NO_LAYER = 7,     /* a pop with none open */
    COARSE_IDS = 8,          /* no draw id left */
    COARSE_FULL_ATTRS = 9,   /* no room for an attribute or a filter paint */
    COARSE_FULL_ROW = 10,    /* a row's render commands pass C */
    COARSE_FULL_DEPTH = 11,  /* a row's depth fills pass D */
    COARSE_BAD_RUN = 12,     /* no such row, tile or command, a range out of order or past its end, or id 0 where it is written */
    COARSE_OPEN = 13,        /* painting, or compacting a row, with a layer open; or a step with painting not begun */
    COARSE_NO_ROOM = 14,     /* the list is shorter than the result */
    COARSE_HAS_PANELS = 15   /* towards edition one: a draw or a layer has a panel that is not 0 */
};

/* No answer of the library: the one number that coarse_bucketer.h and coarse_recorder.h add. Memory could not be had. */
#define COARSE_NO_MEMORY 256u

/* An answer's name and what it says. */
static inline const char *coarse_answer_text(uint32_t answer) {
    switch (answer) {
    case COARSE_DONE: return "Done: the call was carried out";
    case COARSE_BAD_ARENA: return "BadArena: the table of render commands, depth fills or depth words has another length than the screen needs, or C or D is not from 1 to 1,024";
    case COARSE_BAD_VIEWPORT: return "BadViewport: the viewport is not made of multiples of 4 in order up to 32,768, or is wider than 4,096 or higher than 2,048, or a bucket's width is not 64, 128 or 256";
    case COARSE_BAD_FORM: return "BadForm: the recording is not exactly the counted sections of its edition, or a count is out of range, or there is no such edition";
    case COARSE_BAD_RECORD: return "BadRecord: a field, a range or a table that the call reads is out of bounds";
    case COARSE_BAD_ORDER: return "BadOrder: a segment list is not in order, or its segments overlap";
    case COARSE_DEEP: return "Deep: 16 layers are open already";
    case COARSE_NO_LAYER: return "NoLayer: no layer is open";
    case COARSE_IDS: return "Ids: every draw id has been taken since the reset";
    case COARSE_FULL_ATTRS: return "FullAttrs: no room is left for an attribute or a filter paint";
    case COARSE_FULL_ROW: return "FullRow: a row would have more than C render commands";
    case COARSE_FULL_DEPTH: return "FullDepth: a row would have more than D depth fills";
    case COARSE_BAD_RUN: return "BadRun: no such row, tile or command, or a range out of order or past its limit, or id 0 where an id is written";
    case COARSE_OPEN: return "Open: a layer is still open, or painting has not begun";
    case COARSE_NO_ROOM: return "NoRoom: the result list is shorter than the result";
    case COARSE_HAS_PANELS: return "HasPanels: a draw or a layer has a panel that is not 0, and edition one has none";
    case COARSE_NO_MEMORY: return "NoMemory: out of memory, and nothing has changed";
    default: return "an answer that no call of this library gives";
    }
}

/* A panel: the number, 0 to 255, of the program module that drew a fill or a layer. It goes with the draw or the layer to its attribute,
 * to each painted piece and to each reason; nothing else depends on it. A filter fill takes its layer's panel. Above 255 is answer 4, in a
 * call, in a table's words and in a recording. A recording of edition one has none: all its draws and layers have panel 0. */
#define COARSE_LAST_PANEL 255

/* Words of one record. An alpha index is the first tile's; a tile has 16. */
#define COARSE_PAINT 4        /* a paint: 1 if opaque else 0, handle, shift x, shift y */
#define COARSE_DRAW 8         /* a draw of a list: thread, segments start and end, paint, mix, compose, mask, panel */
#define COARSE_SEGMENT 5      /* a segment: 0 solid or 1 alpha; row, first tile, end tile of the scene; alpha index or 0 */
#define COARSE_PIECE 7        /* a piece: a fill's coarse_tag; attribute; first tile, end tile of the screen; alpha index or 0; nesting; panel */
#define COARSE_RUN 2          /* a run: first, end, in tiles or buckets of the screen's row, as the call says */
#define COARSE_OPEN_LAYER 17  /* an open layer's own; the last is its panel */
#define COARSE_PAINT_ATTR 9   /* a paint attribute: paint, mix, compose, mask, draw id, thread, viewport's x0 and y0 (pixels of the scene), panel */
#define COARSE_LAYER_ATTR 7   /* a layer attribute: mix, compose, mask, draw id, thread, the opacity's bits if it is a NaN else 0, panel */
#define COARSE_FILTER_PAINT 4 /* a filter fill's paint, as a paint; its shifts are source_x less x0 and source_y less y0, in pixels */
#define COARSE_PAINTING 2     /* where a row's painting stands: steps done, and the nesting there */

/* How many numbers coarse_figures gives of a recording, and how many recordings it takes at most. */
#define COARSE_FIGURES 6
#define COARSE_MOST_RECORDINGS 65536

/* How many there may be: layers open at once, attributes of each kind, paints of filter fills, buckets of a row, and
 * minima above them. */
#define COARSE_MOST_LAYERS 16
#define COARSE_MOST_ATTRS 1024
#define COARSE_MOST_FILTERS 256
#define COARSE_MOST_BUCKETS 64
#define COARSE_MOST_MINIMA (2 * COARSE_MOST_BUCKETS - 1)

/* Lengths that no viewport changes. coarse_sizes gives the others. Opacities: of the open layers, then of the layer attributes. */
#define COARSE_LAYERS (COARSE_MOST_LAYERS * COARSE_OPEN_LAYER)
#define COARSE_OPACITIES (COARSE_MOST_LAYERS + COARSE_MOST_ATTRS)
#define COARSE_PAINT_ATTRS (COARSE_MOST_ATTRS * COARSE_PAINT_ATTR)
#define COARSE_LAYER_ATTRS (COARSE_MOST_ATTRS * COARSE_LAYER_ATTR)
#define COARSE_FILTER_PAINTS (COARSE_MOST_FILTERS * COARSE_FILTER_PAINT)

/* What a render command is; those of the four fills are also the tags of their pieces. */
enum coarse_tag {
    COARSE_PAINT_FILL = 1,       /* tiles of a draw or of a filter's picture; a piece of one, or of a depth fill */
    COARSE_PAINT_FILL_ALPHA = 2, /* the same, with alphas */
    COARSE_LAYER_FILL = 3,       /* tiles over which the innermost buffer is composited into the one below it */
    COARSE_LAYER_FILL_ALPHA = 4, /* the same, with alphas */
    COARSE_PUSH_BUF = 5,         /* a buffer opens, of which nothing is composited */
    COARSE_PUSH_BUF_SPAN = 6,    /* a buffer opens, cleared over a span */
    COARSE_POP_BUF = 7           /* the innermost buffer ends */
};

/* A tag's name. */
static inline const char *coarse_tag_text(uint32_t tag) {
    switch (tag) {
    case COARSE_PAINT_FILL: return "PaintFill";
    case COARSE_PAINT_FILL_ALPHA: return "PaintFill with alphas";
    case COARSE_LAYER_FILL: return "LayerFill";
    case COARSE_LAYER_FILL_ALPHA: return "LayerFill with alphas";
    case COARSE_PUSH_BUF: return "PushBuf without a span";
    case COARSE_PUSH_BUF_SPAN: return "PushBuf";
    case COARSE_POP_BUF: return "PopBuf";
    default: return "no render command";
    }
}

/* How a viewport is read. */
enum coarse_mode {
    COARSE_EXACT = 0,   /* as it is given */
    COARSE_SNAPPING = 1 /* carried outward to tile edges, starts down and ends up to a multiple of 4; limits are judged on that box alone */
};

/* How many pixels wide a depth bucket is. Narrow ones hide more on small panels, wide ones cost less on large screens. */
enum coarse_width { COARSE_64 = 64, COARSE_128 = 128, COARSE_256 = 256 };

/* The edition of a recording file. It is told with the file, and nothing of the words says it. In edition two there stand a 1 and a 2 before
 * the sections, and a panel's word at the end of each draw (8 words in place of 7) and of each layer (23 in place of 22). */
enum coarse_edition { COARSE_EDITION_ONE = 1, COARSE_EDITION_TWO = 2 };
#define COARSE_EDITION_TWO_MORE (2 + 2 * 4096)

/* What a screen is asked to be, by value: room for c render commands and d depth fills in a row, the mode, and the width of its buckets.
 * The screen holds the viewport as the mode reads it, the width, and no mode. A width that is none of the three is answer 2; then a mode
 * above 1 is answer 4, before the viewport's 2 and before 1: there is no viewport to judge. A recording's 3 comes before both, first for an
 * edition that is none, then for its form. Nothing changes then. */
typedef struct coarse_setup { uint32_t c, d, mode, width; } coarse_setup;

/* Why an attribute is shown at a tile or not: the first that holds. With every case but the first comes the attribute's panel. */
enum coarse_reason_case {
    COARSE_UNKNOWN_ATTRIBUTE = 0, /* the recording has no such draw or layer attribute */
    COARSE_NO_SEGMENT = 1,        /* no segment of it covers the tile */
    COARSE_CUT_AWAY = 2,          /* one covers it, and a clip box cuts it away */
    COARSE_ROW_UNTOUCHED = 3,     /* the row was never touched within the layer that closes */
    COARSE_HIDDEN = 4,            /* hidden by a newer depth fill; number: the attribute of the newest one, whose panel comes too */
    COARSE_SHOWN = 5              /* number: its place in the tile's list, from 0 */
};

/* A reason's words, as the program `why` has them. */
static inline const char *coarse_reason_text(uint32_t reason) {
    switch (reason) {
    case COARSE_UNKNOWN_ATTRIBUTE: return "unknown attribute";
    case COARSE_NO_SEGMENT: return "no segment covers the tile";
    case COARSE_CUT_AWAY: return "cut away by a clip box";
    case COARSE_ROW_UNTOUCHED: return "row never touched by the closing layer";
    case COARSE_HIDDEN: return "hidden by a newer depth fill";
    case COARSE_SHOWN: return "shown";
    default: return "no reason";
    }
}

/* A box, in pixels. */
typedef struct coarse_rect { uint32_t x0, y0, x1, y1; } coarse_rect;

/* The screen's own numbers: viewport in pixels of the scene, clip box in pixels from the viewport's corner, C, D, next draw id, how many
 * paint attributes, layer attributes, filter paints and open layers there are, 1 if painting has begun, else 0, and a bucket's width: 0
 * for 128 pixels, 1 for 64, 2 for 256. A host starts with zeros and lends them to every call. A painting word above 1 or a width word
 * above 2 is answer 4 after 3, 2 and 1. */
typedef struct coarse_state {
    coarse_rect viewport, clip;
    uint32_t c, d, next_draw_id, paint_attrs, layer_attrs, filter_paints, layers, painting, width;
} coarse_state;

/* How many elements each of the eleven tables has. */
typedef struct coarse_lengths {
    size_t render_cmds, depth_cmds, depth, rows, painting, layers, opacities, paint_attrs, layer_attrs, filter_paints, minima;
} coarse_lengths;

/* The eleven tables, with the lengths that coarse_sizes gives. Each pointer is followed by its length. minima: above the depth words, for each
 * row the smallest id of the row, of each half, of each quarter and so on down to one bucket. A group has its own first, then those of its
 * left half, then those of its right half; a place past the row's last bucket counts as 4,294,967,295. */
typedef struct coarse_tables {
    uint32_t *render_cmds; size_t render_cmds_len;
    uint32_t *depth_cmds; size_t depth_cmds_len;
    uint32_t *depth; size_t depth_len;
    uint32_t *minima; size_t minima_len;
    uint32_t *rows; size_t rows_len;
    uint32_t *painting; size_t painting_len;
    uint32_t *layers; size_t layers_len;
    float *opacities; size_t opacities_len;
    uint32_t *paint_attrs; size_t paint_attrs_len;
    uint32_t *layer_attrs; size_t layer_attrs_len;
    int32_t *filter_paints; size_t filter_paints_len;
} coarse_tables;

/* What painting only reads of the tables. */
typedef struct coarse_stored {
    const uint32_t *rows; size_t rows_len;
    const uint32_t *render_cmds; size_t render_cmds_len;
    const uint32_t *depth_cmds; size_t depth_cmds_len;
    const uint32_t *paint_attrs; size_t paint_attrs_len;
    const uint32_t *layer_attrs; size_t layer_attrs_len;
} coarse_stored;

/* What painting writes: the depth words and their minima, and where each row's painting stands. One screen may be painted in several threads, each with
 * a canvas of its own, if none changes the state and what is stored meanwhile. */
typedef struct coarse_canvas {
    uint32_t *depth; size_t depth_len;
    uint32_t *minima; size_t minima_len;
    uint32_t *painting; size_t painting_len;
} coarse_canvas;

/* What a painting call gives: 1 if no command was left (a step) or the row has come to its end (a row), else 0; how many pieces. */
typedef struct coarse_painted { uint32_t finished; size_t pieces; } coarse_painted;

/* How far a call for rows came: how many rows are painted to their end; how many pieces are in the list. */
typedef struct coarse_painted_rows { size_t rows, pieces; } coarse_painted_rows;

/* What is stored of a row: how many render commands and depth fills. */
typedef struct coarse_row_counts { uint32_t render_cmds, depth_cmds; } coarse_row_counts;

/* A render command of a row: a coarse_tag, then what it has, and 0 for what it has not. first, end: its span, in tiles of the screen's
 * row. alpha_idx: the alpha index of its first tile. attrs_idx: its paint attribute or layer attribute, by the tag. */
typedef struct coarse_command { uint32_t tag, first, end, alpha_idx, attrs_idx; } coarse_command;

/* A depth fill of a row: its buckets first to end, and its paint attribute. */
typedef struct coarse_depth_fill { uint32_t first, end, attrs_idx; } coarse_depth_fill;

/* How far a row is painted: steps done since painting began, and how many buffers are open after them. The first steps are the row's
 * depth fills from the last to the first, the others its render commands in order. */
typedef struct coarse_row_progress { uint32_t steps, nesting; } coarse_row_progress;

/* How a fill or a layer is blended: mix 0 to 15 and compose 0 to 13, in peniko's order. The default, normal and source over, can be
 * assigned, and initializes what is no static object; one that is takes COARSE_DEFAULT_BLEND_INIT, as a part of its braces, too. */
typedef struct coarse_blend { uint32_t mix, compose; } coarse_blend;
#define COARSE_DEFAULT_BLEND_INIT {0, 3}
#ifdef __cplusplus
#define COARSE_DEFAULT_BLEND (coarse_blend COARSE_DEFAULT_BLEND_INIT)
#else
#define COARSE_DEFAULT_BLEND ((coarse_blend)COARSE_DEFAULT_BLEND_INIT)
#endif

/* What is drawn: the segments start to end of a list, with the paint at a place of a list. thread: that of their alpha values. mask: a
 * handle, or 0 for none. */
typedef struct coarse_draw { uint32_t thread, paint; size_t start, end; coarse_blend blend; uint32_t mask, panel; } coarse_draw;

/* The draws start to end of a list, COARSE_DRAW words each. They are a recording's draws of edition two as they stand in its file, so the words
 * may be a part of one; they must not overlap a table. */
typedef struct coarse_draws { const uint32_t *words; size_t words_len; size_t start, end; } coarse_draws;

/* A layer. opacity: the bits of an f32, any; every pattern is kept. flag: 1 with a clip, whose box (bounds, in pixels of the scene), segment
 * range (start to end, places in the list that the pop is lent) and thread follow, or 0 without, and those are not read. */
typedef struct coarse_props { coarse_blend blend; uint32_t opacity, mask, flag; coarse_rect bounds; uint32_t start, end, thread, panel; } coarse_props;

/* A filter layer's picture, drawn into a box: dest, in pixels of the scene. source_x, source_y: from where in the picture, in its pixels.
 * has_pixmap: 1 with a picture, whose handle follows, any below 2^31 and 0 too; or 0 without, and the handle is not read: then nothing is
 * drawn. paint_count: how many paints the paint list has. panel: the layer's. */
typedef struct coarse_filter { coarse_rect dest; uint32_t source_x, source_y, has_pixmap, pixmap, paint_count, panel; } coarse_filter;

/* What is asked of a recording: a row and a tile of its screen, each from 0, and an attribute, a draw's (layer 0) or a layer's (layer 1;
 * above 1 is answer 4 after 3, 2 and 1). */
typedef struct coarse_question { uint32_t row, tile, layer, attribute; } coarse_question;

/* Why: a case of coarse_reason_case; with COARSE_HIDDEN the attribute that hides, with COARSE_SHOWN the place, else 0; the asked
 * attribute's panel, with COARSE_UNKNOWN_ATTRIBUTE 0; with COARSE_HIDDEN that of the attribute that hides, else 0. */
typedef struct coarse_reason { uint32_t reason, number, panel, hider_panel; } coarse_reason;

/* A run as a struct: from a first tile or bucket of the screen's row to an end, which is not among them. */
typedef struct coarse_span { uint32_t first, end; } coarse_span;

/* A part of an opaque span: kind 1, a regular piece of tiles first to end, or 2, a depth fill of buckets first to end; all 0: no part. */
typedef struct coarse_part { uint32_t kind, first, end; } coarse_part;
typedef struct coarse_parts { coarse_part left, middle, right; } coarse_parts;

/* The lengths of the eleven tables for a viewport, in pixels of the scene, in a setup. */
uint32_t coarse_sizes(coarse_rect viewport, coarse_setup setup, coarse_lengths *sizes);

/* A fresh screen of this viewport, in pixels of the scene, in a setup: every lent word is 0, but for the minima of groups that
 * lie past a row's last bucket. */
uint32_t coarse_reset(coarse_state *state, coarse_rect viewport, coarse_setup setup, coarse_tables *tables);

/* The same for a screen that a reset and done calls made: a fresh screen of its own viewport and setup, every word as coarse_reset leaves it
 * there. Only what its steps and painting wrote is cleared, so it takes time by that and by the rows, and not by C and D. On other words
 * it clears what the state and the rows' records count. */
uint32_t coarse_reset_used(coarse_state *state, coarse_tables *tables);

/* A recording, as the little-endian words of its file, of a coarse_edition, bucketed from a fresh screen of its own viewport in a setup. The
 * tables have the lengths that coarse_sizes gives for that. The file's viewport and boxes are in pixels, its segments in tiles, all of the
 * scene. An edition that is neither 1 nor 2 is answer 3 before all else. */
uint32_t coarse_bucket_recording(coarse_state *state, uint32_t edition, const uint32_t *file, size_t file_len, coarse_setup setup,
                                 coarse_tables *tables);

/* Why does this tile show that? A recording is bucketed as by coarse_bucket_recording, and answers for one attribute at one row and
 * tile of its screen. The answer is the recording's own, then 12 for a row or tile off the screen; the state and the tables are what
 * coarse_bucket_recording leaves. The reason is written only with answer 0. */
uint32_t coarse_why(coarse_state *state, uint32_t edition, const uint32_t *file, size_t file_len, coarse_setup setup,
                    const coarse_question *question, coarse_tables *tables, coarse_reason *reason);

/* What does this tile receive? A recording is gone through in draw order, with no state and no tables: no row is kept, so that there is no c
 * and no d. The tile's entries stand at the start of the list, oldest first, COARSE_PIECE words each, as pieces of that tile alone: tag,
 * attribute, tile, tile + 1, alpha index of that tile or 0, nesting, panel. They are what the row paints there after a done
 * coarse_bucket_recording with this mode and width, whatever its c and d. entries: how many; there are never more than
 * 2 * COARSE_MOST_ATTRS. Refused, in this order: by 3 for the edition, then for the file's form; 2 for a width that is none; 4 for a mode
 * above 1; 2 for the viewport as the mode reads it; 4 and 5 for the records; 6, 8 or 9 for a step; 12 for a row or tile off the screen; 14
 * where the list has room for fewer entries. No row is ever full: what coarse_bucket_recording refuses by 10 or 11 may be listed, or be
 * refused for a later step. Refused, the list and entries stay; done, the words after the entries do. */
uint32_t coarse_list_tile(uint32_t edition, const uint32_t *file, size_t file_len, uint32_t mode, uint32_t width, uint32_t row, uint32_t tile,
                          uint32_t *list, size_t list_len, size_t *entries);

/* What does the depth stage save? Recordings, all of a coarse_edition, stand one after the other in `words`; ends: where each ends among them, so
 * that each begins where the one before it ends. Each is bucketed as by coarse_bucket_recording into the first words of each table, as many as
 * coarse_sizes gives for it, and counted; where a table has fewer it is handed over as it is, and the recording is refused. COARSE_FIGURES numbers a
 * recording stand at the start of the table, and after them those of all recordings, summed: tiles asked for, every entry of plain draw order at
 * every tile of the screen; tiles painted, those of all pieces; tiles hidden, the entries that painting leaves out, so that asked is painted and
 * hidden together; render commands and depth fills that the rows hold; refused recordings. A refused recording is 0 0 0 0 0 1. With no recording the
 * totals are 0. No number is 2^47 or more. The state and the tables are what the last recording leaves; the words of a table after those that it is
 * handed stay, and so do the numbers after the totals. Refused, in this order: by 3 for the edition; 2 for a width that is none; 4 for a mode above
 * 1, for a state that is none, for more than COARSE_MOST_RECORDINGS recordings, and for ends that fall or pass the words; 14 where the table has fewer
 * than COARSE_FIGURES numbers for each recording and the totals. Refused, nothing changes. */
uint32_t coarse_figures(coarse_state *state, uint32_t edition, const uint32_t *words, size_t words_len, const size_t *ends, size_t ends_len,
                        coarse_setup setup, coarse_tables *tables, uint64_t *table, size_t table_len);

/* A recording of edition one as one of edition two, each panel 0: its words at the start of `out`, and how many they are. They say the same
 * recording: the viewport's numbers stand as they are given, whatever the mode, and so do all others. Nothing is bucketed, but every record is
 * judged: refused by 3; by 2 for a viewport that is bad as the mode reads it; by 4 and by 5; then by 14 where `out` is shorter than the result,
 * which has COARSE_EDITION_TWO_MORE words more than the file at most. A mode above 1 is answer 4 after 3. Refused, `out` and `words` stay. */
uint32_t coarse_to_edition_two(const uint32_t *file, size_t file_len, uint32_t mode, uint32_t *out, size_t out_len, size_t *words);

/* A recording of edition two as one of edition one, likewise, with fewer words than the file: refused also by 15, before 14, where a draw or a
 * layer has a panel that is not 0, whether anything names it or not. */
uint32_t coarse_to_edition_one(const uint32_t *file, size_t file_len, uint32_t mode, uint32_t *out, size_t out_len, size_t *words);

/* Segments of a list, in tiles of the scene, filled with a paint of a paint list. */
uint32_t coarse_fill(coarse_state *state, coarse_tables *tables, const uint32_t *paints, size_t paints_len,
                     const uint32_t *segments, size_t segments_len, const coarse_draw *draw);

/* As coarse_fill for each of the draws, in order, up to the first that is refused. done: how many fills are done, written on every answer; the
 * state and the tables are what these leave, also where the next is refused. 4, with none done, where the words are no whole draws, or start is
 * after end, or end past their count. An empty range is done, and changes nothing. */
uint32_t coarse_fill_list(coarse_state *state, coarse_tables *tables, const uint32_t *paints, size_t paints_len,
                          const uint32_t *segments, size_t segments_len, const coarse_draws *draws, size_t *done);

/* Opens a layer. */
uint32_t coarse_push_layer(coarse_state *state, coarse_tables *tables, const coarse_props *props);

/* Closes the innermost layer, whose attribute has the panel that it was pushed with. segments: the list that its clip's range lies
 * in, in tiles of the scene; empty without a clip. */
uint32_t coarse_pop_layer(coarse_state *state, coarse_tables *tables, const uint32_t *segments, size_t segments_len);

/* Draws a filter layer's picture into a box. */
uint32_t coarse_filter_fill(coarse_state *state, coarse_tables *tables, const coarse_filter *filter);

/* Takes out of a row of the screen the render commands that nothing will ever show, so that the row has room for others: a fill of which no tile is
 * visible, as every bucket that it meets has a depth fill of a newer id, and a PushBuf directly followed by a PopBuf; again and again until there is
 * neither. What is left closes up in its order, each command as it was, the words behind it are 0, and the row's record has the new count: painted,
 * the row gives the pieces that it would have given, and further drawing goes on behind them. Depth fills, the depth words and their minima,
 * attributes, ids and every other row stay. Done, also where nothing is taken out, it ends painting. Refused, in this order: by 2 for the state's
 * viewport; 1 where render_cmds or depth_cmds has another length than the state's C and D ask for, or for C or D; 4 where rows, paint_attrs or
 * layer_attrs has, or for a state that is none; 12 for no such row; 13 with a layer open; 4 for a count, a depth fill or a command of the row that is
 * none, or an attribute of one. */
uint32_t coarse_compact_row(coarse_state *state, coarse_tables *tables, size_t row);

/* Clears the depth words, makes their minima afresh, and sets every row to its first step. */
uint32_t coarse_begin_painting(coarse_state *state, coarse_canvas *canvas);

/* The next stored command of a row of the screen: its pieces at the start of the list, COARSE_PIECE words each, in tiles of that
 * row. */
uint32_t coarse_paint_step(const coarse_state *state, const coarse_stored *stored, coarse_canvas *canvas, size_t row,
                           uint32_t *list, size_t list_len, coarse_painted *painted);

/* The steps of a row of the screen, from where it stands to its end, or up to the first whose pieces have no room left in the list:
 * then call again with more room. The pieces, in tiles of that row, stand one after the other. */
uint32_t coarse_paint_row(const coarse_state *state, const coarse_stored *stored, coarse_canvas *canvas, size_t row,
                           uint32_t *list, size_t list_len, coarse_painted *painted);

/* As coarse_paint_row, of one row whose own words are all that is lent: stored has its record, its commands and its depth fills, of
 * each a screen's divided by its rows, and the tables of attributes whole; canvas its depth words, its minima and its
 * COARSE_PAINTING words. The state is the whole screen's. Threads may paint rows of one canvas side by side so, each with a list of
 * its own: no word that one writes is lent to another. Refused, every word staying: COARSE_BAD_ARENA for another number of commands,
 * depth fills, depth words or minima, COARSE_BAD_RECORD for another number of other words, and never COARSE_BAD_RUN. */
uint32_t coarse_paint_own_row(const coarse_state *state, const coarse_stored *stored, coarse_canvas *canvas, uint32_t *list,
                              size_t list_len, coarse_painted *painted);

/* The rows first to end of the screen, one after the other, each from where it stands to its end, as coarse_paint_row: one call, by
 * which the screen is looked at once. The pieces stand one after the other, and ends[k] says how many stand in the
 * list after row first + k. painted is written on every answer: how many rows are painted to their end, and so have an end, and how
 * many pieces there are. Refused with nothing painted: COARSE_BAD_RUN for no range of the screen's rows, COARSE_OPEN, and
 * COARSE_NO_ROOM for fewer ends than rows. A row that is refused stops the call: the rows before it are painted, it keeps what it
 * did, and those behind it stand as they stood. Stopped by COARSE_NO_ROOM, call again from the row first + painted->rows with
 * another list: it goes on where it stands, and its pieces follow those that it has given. */
uint32_t coarse_paint_rows(const coarse_state *state, const coarse_stored *stored, coarse_canvas *canvas, size_t first, size_t end,
                           uint32_t *list, size_t list_len, size_t *ends, size_t ends_len, coarse_painted_rows *painted);

/* The runs of the tiles first to end of a row of the screen whose buckets are unset, in tiles: two words a run. first and end may
 * lie past the screen, up to 8,192; a run ends with the row's last bucket at the latest. count: how many runs. */
uint32_t coarse_unset_runs(const coarse_state *state, const coarse_canvas *canvas, size_t row, coarse_span tiles,
                             uint32_t *list, size_t list_len, size_t *count);

/* The runs of those tiles whose buckets hold at most the id, in tiles too. */
uint32_t coarse_visible_runs(const coarse_state *state, const coarse_canvas *canvas, size_t row, coarse_span tiles,
                             uint32_t id, uint32_t *list, size_t list_len, size_t *count);

/* The runs of coarse_visible_runs, with its answers, in a list of list_len spans of tiles of the screen's row; the spans after them
 * stay. */
uint32_t coarse_visible_spans(const coarse_state *state, const coarse_canvas *canvas, size_t row, coarse_span tiles,
                             uint32_t id, coarse_span *list, size_t list_len, size_t *count);

/* Lists the unset runs of the buckets first to end of a row of the screen, in buckets, and stores the id there; the minima follow. Done, it
 * ends painting. */
uint32_t coarse_unset_runs_and_write(coarse_state *state, coarse_canvas *canvas, size_t row, coarse_span buckets,
                                     uint32_t id, uint32_t *list, size_t list_len, size_t *count);

/* 1 if every bucket from first to end of a row of the screen is hidden from the id, as each holds a greater one, else 0; of no bucket, 1. It reads the
 * minima alone, of the state's screen or of a canvas, in a step or two for each halving, where coarse_visible_runs looks at every bucket. Refused,
 * yes stays: 2 for the state's viewport; 1 where minima has another length than the screen asks for, or for C or D; 4 for a state that is none; 12
 * for no such row, for a first bucket after the end and for an end past the row's buckets. */
uint32_t coarse_is_hidden(const coarse_state *state, const uint32_t *minima, size_t minima_len, size_t row, coarse_span buckets,
                          uint32_t id, uint32_t *yes);

/* 1 if a draw of the id over the tiles first to end of a row of the screen need not look at the row's depth words, else 0. */
uint32_t coarse_can_skip(const coarse_state *state, const coarse_stored *stored, size_t row, coarse_span tiles,
                         uint32_t id, uint32_t *yes);

/* How many render commands and depth fills are stored of a row of the screen. Refused, lengths stays, as it does in the three calls below:
 * 2 for the state's viewport; 1 where render_cmds or depth_cmds has another length than the state's C and D ask for; 4 where rows has, for a
 * state or a row's record that is none; 12 for no such row. They read rows, render_cmds and depth_cmds alone, at any time, with layers
 * open or not. */
uint32_t coarse_row_lengths(const coarse_state *state, const coarse_stored *stored, size_t row, coarse_row_counts *lengths);

/* A row's render command of a number, from 0 on, in the order in which they are painted, which is that of drawing. An open layer's PushBuf
 * has no span yet: it gets it at the pop. Refused as coarse_row_lengths, with 12 for no such command too, and with 4 where the words are
 * none. */
uint32_t coarse_render_cmd(const coarse_state *state, const coarse_stored *stored, size_t row, size_t number, coarse_command *cmd);

/* A row's depth fill of a number, from 0 on, in the order of drawing; painting begins with the last of them. Refused as a command is. */
uint32_t coarse_depth_cmd(const coarse_state *state, const coarse_stored *stored, size_t row, size_t number, coarse_depth_fill *fill);

/* How far a row of the screen is painted on a canvas. It reads the painting words alone. Refused, progress stays: 2 for the state's viewport;
 * 1 for its C or D; 4 where painting has another length than the screen's rows ask for, or for a state that is none; 12 for no such row.
 * After painting has ended it says what the words hold still. */
uint32_t coarse_progress(const coarse_state *state, const coarse_canvas *canvas, size_t row, coarse_row_progress *progress);

/* The version of the library that is linked: 65,536 x the first number + 256 x the second + the third. COARSE_VERSION_NUMBER is that of
 * these headers. */
uint32_t coarse_version(void);

/* The parts of an opaque span, tiles of a row of the screen, over buckets of so many pixels, left to right. A width that is none is
 * answer 2. */
uint32_t coarse_split_opaque_span(coarse_span tiles, uint32_t pixels, coarse_parts *parts);

#ifdef __cplusplus
}
#endif

#endif
