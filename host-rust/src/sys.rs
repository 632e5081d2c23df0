//! The calls of `include/coarse.h` and the structs that cross. A slice crosses as a pointer and a length.

use crate::input::{Rect, Setup};

/// A [`Setup`] as it crosses.
#[derive(Clone, Copy)]
#[repr(C)]
pub struct SetupWords {
    pub c: u32,
    pub d: u32,
    pub mode: u32,
    pub width: u32,
}

impl From<Setup> for SetupWords {
    fn from(setup: Setup) -> Self {
        Self {
            c: setup.c,
            d: setup.d,
            mode: setup.mode as u32,
            width: setup.width as u32,
        }
    }
}

/// A screen's own numbers: viewport in pixels of the scene, clip box in pixels from the viewport's corner, room, next draw id, counts, 1 if
/// painting has begun, and a bucket's width: 0 for 128 pixels, 1 for 64, 2 for 256.
#[repr(C)]
#[derive(Clone, Copy, Debug, Default, PartialEq, Eq)]
pub struct StateWords {
    pub viewport: Corners,
    pub clip: Corners,
    pub c: u32,
    pub d: u32,
    pub next_draw_id: u32,
    pub paint_attrs: u32,
    pub layer_attrs: u32,
    pub filter_paints: u32,
    pub layers: u32,
    pub painting: u32,
    pub width: u32,
}

/// A slice that a call writes, inside a struct. The pointer is never null.
#[repr(C)]
#[derive(Debug)]
pub struct Lent<T> {
    pub at: *mut T,
    pub len: usize,
}

/// A slice that a call only reads, inside a struct. The pointer is never null.
#[repr(C)]
#[derive(Debug)]
pub struct Read<T> {
    pub at: *const T,
    pub len: usize,
}

impl<T> Copy for Lent<T> {}
impl<T> Clone for Lent<T> {
    fn clone(&self) -> Self {
        *self
    }
}
impl<T> Copy for Read<T> {}
impl<T> Clone for Read<T> {
    fn clone(&self) -> Self {
        *self
    }
}

impl<T> Read<T> {
    pub fn of(words: &[T]) -> Self {
        Self {
            at: words.as_ptr(),
            len: words.len(),
        }
    }
}

impl<T> Lent<T> {
    pub fn of(words: &mut [T]) -> Self {
        Self {
            at: words.as_mut_ptr(),
            len: words.len(),
        }
    }

    pub fn read(self) -> Read<T> {
        Read {
            at: self.at,
            len: self.len,
        }
    }
}

/// How many elements each of the eleven tables has.
#[repr(C)]
#[derive(Clone, Copy, Debug, Default, PartialEq, Eq)]
pub struct Lengths {
    pub render_cmds: usize,
    pub depth_cmds: usize,
    pub depth: usize,
    pub rows: usize,
    pub painting: usize,
    pub layers: usize,
    pub opacities: usize,
    pub paint_attrs: usize,
    pub layer_attrs: usize,
    pub filter_paints: usize,
    pub minima: usize,
}

impl Lengths {
    /// Of each table the greater of two lengths.
    pub fn or_more(self, other: Self) -> Self {
        Self {
            render_cmds: self.render_cmds.max(other.render_cmds),
            depth_cmds: self.depth_cmds.max(other.depth_cmds),
            depth: self.depth.max(other.depth),
            rows: self.rows.max(other.rows),
            painting: self.painting.max(other.painting),
            layers: self.layers.max(other.layers),
            opacities: self.opacities.max(other.opacities),
            paint_attrs: self.paint_attrs.max(other.paint_attrs),
            layer_attrs: self.layer_attrs.max(other.layer_attrs),
            filter_paints: self.filter_paints.max(other.filter_paints),
            minima: self.minima.max(other.minima),
        }
    }
}

/// The eleven tables, as they cross: a pointer and a length each.
#[repr(C)]
#[derive(Clone, Copy, Debug)]
pub struct TableWords {
    pub render_cmds: Lent<u32>,
    pub depth_cmds: Lent<u32>,
    pub depth: Lent<u32>,
    pub minima: Lent<u32>,
    pub rows: Lent<u32>,
    pub painting: Lent<u32>,
    pub layers: Lent<u32>,
    pub opacities: Lent<f32>,
    pub paint_attrs: Lent<u32>,
    pub layer_attrs: Lent<u32>,
    pub filter_paints: Lent<i32>,
}

/// Draws `start` to `end` of a list, as they cross.
#[repr(C)]
#[derive(Clone, Copy, Debug)]
pub struct DrawsWords {
    pub words: Read<u32>,
    pub start: usize,
    pub end: usize,
}

/// What painting only reads.
#[repr(C)]
#[derive(Clone, Copy, Debug)]
pub struct StoredWords {
    pub rows: Read<u32>,
    pub render_cmds: Read<u32>,
    pub depth_cmds: Read<u32>,
    pub paint_attrs: Read<u32>,
    pub layer_attrs: Read<u32>,
}

/// What painting writes.
#[repr(C)]
#[derive(Clone, Copy, Debug)]
pub struct CanvasWords {
    pub depth: Lent<u32>,
    pub minima: Lent<u32>,
    pub painting: Lent<u32>,
}

/// What a painting call gives.
#[repr(C)]
#[derive(Clone, Copy, Debug, Default)]
pub struct PaintedWords {
    pub finished: u32,
    pub pieces: usize,
}

/// How far rows came: how many are painted to their end, and how many pieces are listed.
#[repr(C)]
#[derive(Clone, Copy, Debug, Default, PartialEq, Eq)]
pub struct PaintedRowsWords {
    pub rows: usize,
    pub pieces: usize,
}

/// How many render commands and depth fills a row has.
#[repr(C)]
#[derive(Clone, Copy, Debug, Default)]
pub struct RowLengthsWords {
    pub render_cmds: u32,
    pub depth_cmds: u32,
}

/// A render command: 1 and 2 `PaintFill` without and with alpha, 3 and 4 `LayerFill`, 5 and 6 `PushBuf` without and with a span, 7 `PopBuf`;
/// 0 for what it has none of.
#[repr(C)]
#[derive(Clone, Copy, Debug, Default)]
pub struct RenderCmdWords {
    pub tag: u32,
    pub first: u32,
    pub end: u32,
    pub alpha_idx: u32,
    pub attrs_idx: u32,
}

/// A depth fill: its buckets and its paint attribute.
#[repr(C)]
#[derive(Clone, Copy, Debug, Default)]
pub struct DepthCmdWords {
    pub first: u32,
    pub end: u32,
    pub attrs_idx: u32,
}

/// How far a row is painted: steps done, and how many buffers are open after them.
#[repr(C)]
#[derive(Clone, Copy, Debug, Default)]
pub struct ProgressWords {
    pub steps: u32,
    pub nesting: u32,
}

/// What is drawn.
#[repr(C)]
#[derive(Clone, Copy, Debug)]
pub struct DrawWords {
    pub thread: u32,
    pub paint: u32,
    pub start: usize,
    pub end: usize,
    pub mix: u32,
    pub compose: u32,
    pub mask: u32,
    pub panel: u32,
}

/// What a push is given.
#[repr(C)]
#[derive(Clone, Copy, Debug)]
pub struct PropsWords {
    pub mix: u32,
    pub compose: u32,
    pub opacity: u32,
    pub mask: u32,
    pub flag: u32,
    pub bounds: Corners,
    pub start: u32,
    pub end: u32,
    pub thread: u32,
    pub panel: u32,
}

/// What a filter fill is given.
#[repr(C)]
#[derive(Clone, Copy, Debug)]
pub struct FilterWords {
    pub dest: Corners,
    pub source_x: u32,
    pub source_y: u32,
    pub has_pixmap: u32,
    pub pixmap: u32,
    pub paint_count: u32,
    pub panel: u32,
}

/// What is asked of a recording.
#[repr(C)]
#[derive(Clone, Copy, Debug)]
pub struct QuestionWords {
    pub row: u32,
    pub tile: u32,
    pub layer: u32,
    pub attribute: u32,
}

/// A reason.
#[repr(C)]
#[derive(Clone, Copy, Debug, Default)]
pub struct ReasonWords {
    pub kind: u32,
    pub number: u32,
    pub panel: u32,
    pub hider_panel: u32,
}

/// A part of an opaque span: 1 for tiles or 2 for buckets, first, end; all 0 for none.
#[repr(C)]
#[derive(Clone, Copy, Debug, Default)]
pub struct PartWords {
    pub kind: u32,
    pub first: u32,
    pub end: u32,
}

/// The parts of an opaque span, left to right.
#[repr(C)]
#[derive(Clone, Copy, Debug, Default)]
pub struct SplitWords {
    pub left: PartWords,
    pub middle: PartWords,
    pub right: PartWords,
}

/// From a first tile of a row to an end, which is not in it. A tile is 4 pixels wide.
#[derive(Debug, Clone, Copy, PartialEq, Eq, Hash, Default)]
#[repr(C)]
pub struct TileSpan {
    /// The first tile.
    pub first: u32,
    /// The tile after the last.
    pub end: u32,
}

/// A box, by value.
#[repr(C)]
#[derive(Clone, Copy, Debug, Default, PartialEq, Eq)]
pub struct Corners {
    pub x0: u32,
    pub y0: u32,
    pub x1: u32,
    pub y1: u32,
}

impl From<Corners> for Rect {
    fn from(corners: Corners) -> Self {
        let Corners { x0, y0, x1, y1 } = corners;
        Self { x0, y0, x1, y1 }
    }
}

impl From<Rect> for Corners {
    fn from(rect: Rect) -> Self {
        let Rect { x0, y0, x1, y1 } = rect;
        Self { x0, y0, x1, y1 }
    }
}

/// A call that paints a row: `coarse_paint_step`, `coarse_paint_row`.
pub type Paint = unsafe extern "C" fn(
    *const StateWords,
    *const StoredWords,
    *mut CanvasWords,
    usize,
    *mut u32,
    usize,
    *mut PaintedWords,
) -> u32;

/// A call that converts a recording: `coarse_to_edition_two`, `coarse_to_edition_one`.
pub type Convert = unsafe extern "C" fn(*const u32, usize, u32, *mut u32, usize, *mut usize) -> u32;

extern "C" {
    pub fn coarse_sizes(viewport: Corners, setup: SetupWords, sizes: *mut Lengths) -> u32;

    pub fn coarse_reset(
        state: *mut StateWords,
        viewport: Corners,
        setup: SetupWords,
        tables: *mut TableWords,
    ) -> u32;

    pub fn coarse_reset_used(state: *mut StateWords, tables: *mut TableWords) -> u32;

    pub fn coarse_bucket_recording(
        state: *mut StateWords,
        edition: u32,
        file: *const u32,
        file_len: usize,
        setup: SetupWords,
        tables: *mut TableWords,
    ) -> u32;

    pub fn coarse_why(
        state: *mut StateWords,
        edition: u32,
        file: *const u32,
        file_len: usize,
        setup: SetupWords,
        question: *const QuestionWords,
        tables: *mut TableWords,
        reason: *mut ReasonWords,
    ) -> u32;

    pub fn coarse_list_tile(
        edition: u32,
        file: *const u32,
        file_len: usize,
        mode: u32,
        width: u32,
        row: u32,
        tile: u32,
        list: *mut u32,
        list_len: usize,
        entries: *mut usize,
    ) -> u32;

    pub fn coarse_figures(
        state: *mut StateWords,
        edition: u32,
        words: *const u32,
        words_len: usize,
        ends: *const usize,
        ends_len: usize,
        setup: SetupWords,
        tables: *mut TableWords,
        table: *mut u64,
        table_len: usize,
    ) -> u32;

    pub fn coarse_to_edition_two(
        file: *const u32,
        file_len: usize,
        mode: u32,
        out: *mut u32,
        out_len: usize,
        words: *mut usize,
    ) -> u32;

    pub fn coarse_to_edition_one(
        file: *const u32,
        file_len: usize,
        mode: u32,
        out: *mut u32,
        out_len: usize,
        words: *mut usize,
    ) -> u32;

    pub fn coarse_fill(
        state: *mut StateWords,
        tables: *mut TableWords,
        paints: *const u32,
        paints_len: usize,
        segments: *const u32,
        segments_len: usize,
        draw: *const DrawWords,
    ) -> u32;

    pub fn coarse_fill_list(
        state: *mut StateWords,
        tables: *mut TableWords,
        paints: *const u32,
        paints_len: usize,
        segments: *const u32,
        segments_len: usize,
        draws: *const DrawsWords,
        done: *mut usize,
    ) -> u32;

    pub fn coarse_push_layer(
        state: *mut StateWords,
        tables: *mut TableWords,
        props: *const PropsWords,
    ) -> u32;

    pub fn coarse_pop_layer(
        state: *mut StateWords,
        tables: *mut TableWords,
        segments: *const u32,
        segments_len: usize,
    ) -> u32;

    pub fn coarse_filter_fill(
        state: *mut StateWords,
        tables: *mut TableWords,
        filter: *const FilterWords,
    ) -> u32;

    pub fn coarse_compact_row(state: *mut StateWords, tables: *mut TableWords, row: usize) -> u32;

    pub fn coarse_begin_painting(state: *mut StateWords, canvas: *mut CanvasWords) -> u32;

    pub fn coarse_paint_step(
        state: *const StateWords,
        stored: *const StoredWords,
        canvas: *mut CanvasWords,
        row: usize,
        list: *mut u32,
        list_len: usize,
        painted: *mut PaintedWords,
    ) -> u32;

    pub fn coarse_paint_row(
        state: *const StateWords,
        stored: *const StoredWords,
        canvas: *mut CanvasWords,
        row: usize,
        list: *mut u32,
        list_len: usize,
        painted: *mut PaintedWords,
    ) -> u32;

    pub fn coarse_paint_own_row(
        state: *const StateWords,
        stored: *const StoredWords,
        canvas: *mut CanvasWords,
        list: *mut u32,
        list_len: usize,
        painted: *mut PaintedWords,
    ) -> u32;

    pub fn coarse_paint_rows(
        state: *const StateWords,
        stored: *const StoredWords,
        canvas: *mut CanvasWords,
        first: usize,
        end: usize,
        list: *mut u32,
        list_len: usize,
        ends: *mut usize,
        ends_len: usize,
        painted: *mut PaintedRowsWords,
    ) -> u32;

    pub fn coarse_unset_runs(
        state: *const StateWords,
        canvas: *const CanvasWords,
        row: usize,
        tiles: TileSpan,
        list: *mut u32,
        list_len: usize,
        count: *mut usize,
    ) -> u32;

    pub fn coarse_visible_runs(
        state: *const StateWords,
        canvas: *const CanvasWords,
        row: usize,
        tiles: TileSpan,
        id: u32,
        list: *mut u32,
        list_len: usize,
        count: *mut usize,
    ) -> u32;

    pub fn coarse_visible_spans(
        state: *const StateWords,
        canvas: *const CanvasWords,
        row: usize,
        tiles: TileSpan,
        id: u32,
        list: *mut TileSpan,
        list_len: usize,
        count: *mut usize,
    ) -> u32;

    pub fn coarse_unset_runs_and_write(
        state: *mut StateWords,
        canvas: *mut CanvasWords,
        row: usize,
        buckets: TileSpan,
        id: u32,
        list: *mut u32,
        list_len: usize,
        count: *mut usize,
    ) -> u32;

    pub fn coarse_is_hidden(
        state: *const StateWords,
        minima: *const u32,
        minima_len: usize,
        row: usize,
        buckets: TileSpan,
        id: u32,
        yes: *mut u32,
    ) -> u32;

    pub fn coarse_can_skip(
        state: *const StateWords,
        stored: *const StoredWords,
        row: usize,
        tiles: TileSpan,
        id: u32,
        yes: *mut u32,
    ) -> u32;

    pub fn coarse_row_lengths(
        state: *const StateWords,
        stored: *const StoredWords,
        row: usize,
        lengths: *mut RowLengthsWords,
    ) -> u32;

    pub fn coarse_render_cmd(
        state: *const StateWords,
        stored: *const StoredWords,
        row: usize,
        number: usize,
        cmd: *mut RenderCmdWords,
    ) -> u32;

    pub fn coarse_depth_cmd(
        state: *const StateWords,
        stored: *const StoredWords,
        row: usize,
        number: usize,
        fill: *mut DepthCmdWords,
    ) -> u32;

    pub fn coarse_progress(
        state: *const StateWords,
        canvas: *const CanvasWords,
        row: usize,
        progress: *mut ProgressWords,
    ) -> u32;

    pub fn coarse_version() -> u32;

    pub fn coarse_split_opaque_span(tiles: TileSpan, pixels: u32, parts: *mut SplitWords) -> u32;
}
