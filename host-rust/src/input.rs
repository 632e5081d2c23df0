//! What a screen is asked to be, and what is drawn on it.

/// A box: from a left and a top edge to a right and a bottom edge, in pixels. The ends are not in it.
#[derive(Debug, Clone, Copy, PartialEq, Eq, Default)]
pub struct Rect {
    /// The left edge.
    pub x0: u32,
    /// The top edge.
    pub y0: u32,
    /// The right edge, which is not in the box.
    pub x1: u32,
    /// The bottom edge, which is not in the box.
    pub y1: u32,
}

impl Rect {
    /// The box with these edges: left, top, right, bottom.
    #[must_use]
    pub const fn new(x0: u32, y0: u32, x1: u32, y1: u32) -> Self {
        Self { x0, y0, x1, y1 }
    }
}

/// The edition of a recording file: the words of `coarse_edition`. It is told with the file, and nothing of the words says it.
#[derive(Debug, Clone, Copy, PartialEq, Eq)]
#[repr(u32)]
#[non_exhaustive]
pub enum Edition {
    /// Its draws have 7 words and its layers 22: all have panel 0.
    One = 1,
    /// It begins with a 1 and a 2, and a draw and a layer have one word more, for their panel.
    Two = 2,
}

/// How a viewport is read: the words of `coarse_mode`.
#[derive(Debug, Clone, Copy, PartialEq, Eq, Default)]
#[repr(u32)]
#[non_exhaustive]
pub enum Mode {
    /// As it is given.
    #[default]
    Exact = 0,
    /// Carried outward to tile edges. The limits are judged on that box alone.
    Snapping = 1,
}

/// How many pixels wide a depth bucket is: the words of `coarse_width`.
#[derive(Debug, Clone, Copy, PartialEq, Eq, Default)]
#[repr(u32)]
#[non_exhaustive]
pub enum Width {
    /// For small panels.
    W64 = 64,
    /// The original's.
    #[default]
    W128 = 128,
    /// For wall screens.
    W256 = 256,
}

/// What a screen is asked to be: room for `c` render commands and `d` depth fills in each row, how viewports are read, and how wide its
/// buckets are.
#[derive(Debug, Clone, Copy, PartialEq, Eq, Default)]
pub struct Setup {
    /// C, 1 to 1,024: the most render commands of a row.
    pub c: u32,
    /// D, 1 to 1,024: the most depth fills of a row.
    pub d: u32,
    /// How the viewports of resets and recordings are read.
    pub mode: Mode,
    /// How wide a depth bucket is.
    pub width: Width,
}

impl Setup {
    /// In the exact mode, with buckets of 128 pixels.
    #[must_use]
    pub fn new(c: u32, d: u32) -> Self {
        Self {
            c,
            d,
            ..Self::default()
        }
    }

    /// In the snapping mode, with buckets of 128 pixels.
    #[must_use]
    pub fn snapping(c: u32, d: u32) -> Self {
        Self {
            mode: Mode::Snapping,
            ..Self::new(c, d)
        }
    }

    /// The same with buckets of another width.
    #[must_use]
    pub fn with_width(self, width: Width) -> Self {
        Self { width, ..self }
    }
}

/// A paint of a paint list.
#[derive(Debug, Clone, Copy, PartialEq, Eq)]
#[repr(C)]
pub struct Paint {
    /// 1 if no pixel of it can be transparent, else 0. An opaque fill hides what lies under its whole buckets.
    pub opaque: u32,
    /// The host's own number for the paint, below 2^31.
    pub handle: u32,
    /// By how many pixels a picture is shifted to the right; kept for the host.
    pub shift_x: i32,
    /// By how many pixels a picture is shifted downward; kept for the host.
    pub shift_y: i32,
}

impl Paint {
    /// A paint without a shift.
    #[must_use]
    pub fn new(opaque: bool, handle: u32) -> Self {
        Self {
            opaque: u32::from(opaque),
            handle,
            shift_x: 0,
            shift_y: 0,
        }
    }

    pub(crate) fn words(self) -> [u32; 4] {
        [
            self.opaque,
            self.handle,
            self.shift_x.cast_unsigned(),
            self.shift_y.cast_unsigned(),
        ]
    }
}

/// Neighbouring tiles of one row of the scene.
#[derive(Debug, Clone, Copy, PartialEq, Eq)]
#[repr(C)]
pub struct Segment {
    /// 0 where every pixel of the tiles is covered, 1 where they have alphas.
    pub kind: u32,
    /// The row of tiles of the scene, below 8,192.
    pub row: u32,
    /// The first tile.
    pub first: u32,
    /// The tile after the last, at most 8,192.
    pub end: u32,
    /// The index of the first tile's alphas, of which a tile has 16, in kind 1; 0 in kind 0.
    pub alpha: u32,
}

impl Segment {
    /// Tiles that are covered whole.
    #[must_use]
    pub const fn solid(row: u32, first: u32, end: u32) -> Self {
        Self {
            kind: 0,
            row,
            first,
            end,
            alpha: 0,
        }
    }

    /// Tiles with alphas, those of the first from an index on.
    #[must_use]
    pub const fn alpha(row: u32, first: u32, end: u32, alpha: u32) -> Self {
        Self {
            kind: 1,
            row,
            first,
            end,
            alpha,
        }
    }

    pub(crate) fn words(self) -> [u32; 5] {
        [self.kind, self.row, self.first, self.end, self.alpha]
    }
}

/// How a fill or a layer is blended, by the numbers of peniko's `BlendMode`. The default is mix 0, normal, and compose 3, source over.
#[derive(Debug, Clone, Copy, PartialEq, Eq)]
pub struct BlendMode {
    /// 0 to 15.
    pub mix: u32,
    /// 0 to 13.
    pub compose: u32,
}

impl Default for BlendMode {
    fn default() -> Self {
        Self { mix: 0, compose: 3 }
    }
}

/// The largest number that a panel has.
pub const LAST_PANEL: u32 = 255;

/// The original's `RecordedFill`: segments `start` to `end` of a list, with the paint at a place of a paint list.
#[derive(Debug, Clone, Copy, PartialEq, Eq, Default)]
pub struct RecordedFill {
    /// The thread, below 256, that has the segments' alphas.
    pub thread_idx: u32,
    /// The place of the first segment in its list.
    pub start: usize,
    /// The place after the last.
    pub end: usize,
    /// The paint's place in its list.
    pub paint: u32,
    /// How it is blended.
    pub blend_mode: BlendMode,
    /// The mask's handle, below 2^31, or 0 for none.
    pub mask: u32,
    /// Whose fill it is, 0 to [`LAST_PANEL`].
    pub panel: u32,
}

/// A layer's clip: its box, its segments and the thread that has their alphas.
#[derive(Debug, Clone, Copy, PartialEq, Eq, Default)]
pub struct LayerClip {
    /// A box of whole tiles, in pixels of the scene.
    pub bbox: Rect,
    /// The place of its first segment in the list that the pop is lent.
    pub start: u32,
    /// The place after the last.
    pub end: u32,
    /// The thread, below 256, that has the segments' alphas.
    pub thread_idx: u32,
}

/// What a layer is pushed with.
#[derive(Debug, Clone, Copy, PartialEq)]
pub struct LayerProps {
    /// How it is blended when it closes.
    pub blend_mode: BlendMode,
    /// Kept bit for bit, a NaN's pattern too.
    pub opacity: f32,
    /// The mask's handle, below 2^31, or 0 for none.
    pub mask: u32,
    /// What cuts its content, if it has a clip.
    pub clip: Option<LayerClip>,
    /// Whose layer it is, 0 to [`LAST_PANEL`].
    pub panel: u32,
}

impl Default for LayerProps {
    fn default() -> Self {
        Self {
            blend_mode: BlendMode::default(),
            opacity: 1.0,
            mask: 0,
            clip: None,
            panel: 0,
        }
    }
}

/// Where a filter layer's picture is drawn, and from where in it.
#[derive(Debug, Clone, Copy, PartialEq, Eq, Default)]
pub struct FilterLayerPlacement {
    /// The box that it is drawn into, in pixels of the scene; the left and the right edge are multiples of 4.
    pub dest: Rect,
    /// Which pixel of the picture comes to the box's left edge.
    pub source_x: u32,
    /// Which comes to its top edge.
    pub source_y: u32,
}
