//! What is stored of what was drawn: commands, attributes, open layers. A screen hands out values, not the words that they stand in.

use crate::answer::Answer;
use crate::bucketer::CommandBucketer;
use crate::input::{BlendMode, LayerClip, Rect, Width};
use crate::sys;
use core::iter::FusedIterator;
use core::ops::Range;

pub use crate::sys::TileSpan;

impl TileSpan {
    /// The tiles from a first to an end.
    #[must_use]
    pub const fn new(first: u32, end: u32) -> Self {
        Self { first, end }
    }
}

/// From a first depth bucket of a row to an end, which is not in it.
#[derive(Debug, Clone, Copy, PartialEq, Eq, Hash, Default)]
#[repr(C)]
pub struct BucketRange {
    /// The first bucket.
    pub first: u32,
    /// The bucket after the last.
    pub end: u32,
}

impl BucketRange {
    /// The buckets from a first to an end.
    #[must_use]
    pub const fn new(first: u32, end: u32) -> Self {
        Self { first, end }
    }

    /// Their tiles, where buckets are so wide.
    #[must_use]
    pub fn span(self, width: Width) -> TileSpan {
        let tiles = width as u32 / 4;
        TileSpan {
            first: self.first.saturating_mul(tiles),
            end: self.end.saturating_mul(tiles),
        }
    }
}

/// A stored command of a row, in the order of painting. What a fine stage does at each, with a stack of buffers of which the row of the picture is
/// the lowest:
///
/// | command | what to do |
/// |---|---|
/// | [`PushBuf`](Self::PushBuf) | open a buffer, cleared over the span |
/// | [`PaintFill`](Self::PaintFill) | draw the attribute's paint into the innermost buffer |
/// | [`LayerFill`](Self::LayerFill) | composite the innermost buffer into the one below it, with the attribute's opacity, blend and mask |
/// | [`PopBuf`](Self::PopBuf) | end the innermost buffer |
///
/// [The crate's front page](crate#buffers) has a picture of it.
#[derive(Debug, Clone, Copy, PartialEq, Eq, Hash)]
pub enum RenderCmd {
    /// Tiles of a draw, or of a filter layer's picture.
    PaintFill(PaintFill),
    /// A layer's buffer opens, cleared over the tiles that its own level fills or composites. `None` where nothing of it is composited: it need not be
    /// cleared. An open layer has its span only when it closes.
    PushBuf(Option<TileSpan>),
    /// The innermost buffer ends.
    PopBuf,
    /// Tiles over which the innermost buffer is composited into the one below it.
    LayerFill(LayerFill),
}

/// Tiles that a paint is drawn on.
#[derive(Debug, Clone, Copy, PartialEq, Eq, Hash)]
#[non_exhaustive]
pub struct PaintFill {
    /// In tiles of the screen.
    pub span: TileSpan,
    /// The index of the first tile's alphas, of which a tile has 16; `None` where every pixel is covered.
    pub alpha_idx: Option<u32>,
    /// The attribute's place among [`CommandBucketer::paint_attrs`].
    pub attrs_idx: u32,
}

/// Tiles over which a layer's buffer is composited.
#[derive(Debug, Clone, Copy, PartialEq, Eq, Hash)]
#[non_exhaustive]
pub struct LayerFill {
    /// In tiles of the screen.
    pub span: TileSpan,
    /// The index of the first tile's alphas, of which a tile has 16; `None` where every pixel is covered.
    pub alpha_idx: Option<u32>,
    /// The attribute's place among [`CommandBucketer::layer_attrs`].
    pub attrs_idx: u32,
}

/// Whole buckets of an opaque draw outside of all layers.
#[derive(Debug, Clone, Copy, PartialEq, Eq, Hash)]
#[non_exhaustive]
pub struct DepthFill {
    /// In buckets of the screen's row.
    pub bucket_range: BucketRange,
    /// The attribute's place among [`CommandBucketer::paint_attrs`].
    pub attrs_idx: u32,
}

impl RenderCmd {
    fn of(words: sys::RenderCmdWords) -> Self {
        let sys::RenderCmdWords {
            tag,
            first,
            end,
            alpha_idx,
            attrs_idx,
        } = words;
        let span = TileSpan { first, end };
        let alpha_idx = (tag & 1 == 0).then_some(alpha_idx);
        match tag {
            1 | 2 => Self::PaintFill(PaintFill {
                span,
                alpha_idx,
                attrs_idx,
            }),
            3 | 4 => Self::LayerFill(LayerFill {
                span,
                alpha_idx,
                attrs_idx,
            }),
            5 => Self::PushBuf(None),
            6 => Self::PushBuf(Some(span)),
            _ => Self::PopBuf,
        }
    }
}

/// How far a row is painted on a canvas.
#[derive(Debug, Clone, Copy, PartialEq, Eq, Hash, Default)]
#[non_exhaustive]
pub struct Progress {
    /// Steps done since painting began: first the row's depth fills, from the last to the first, then its render commands in order.
    pub steps: u32,
    /// How many layers' buffers are open after them.
    pub nesting: u32,
}

/// The rows of a screen, from the top: [`CommandBucketer::rows`].
#[derive(Debug, Clone)]
pub struct Rows<'a> {
    screen: &'a CommandBucketer,
    left: Range<usize>,
}

impl<'a> Rows<'a> {
    pub(crate) fn of(screen: &'a CommandBucketer, count: usize) -> Self {
        Self {
            screen,
            left: 0..count,
        }
    }

    /// How many rows of tiles are left.
    #[must_use]
    #[expect(
        clippy::len_without_is_empty,
        reason = "an iterator, as its own length has it"
    )]
    pub fn len(&self) -> usize {
        self.left.len()
    }
}

impl<'a> Iterator for Rows<'a> {
    type Item = Row<'a>;

    fn next(&mut self) -> Option<Row<'a>> {
        self.screen.row(self.left.next()?).ok()
    }

    fn nth(&mut self, n: usize) -> Option<Row<'a>> {
        self.screen.row(self.left.nth(n)?).ok()
    }

    fn size_hint(&self) -> (usize, Option<usize>) {
        self.left.size_hint()
    }
}

impl DoubleEndedIterator for Rows<'_> {
    fn next_back(&mut self) -> Option<Self::Item> {
        self.screen.row(self.left.next_back()?).ok()
    }
}

impl ExactSizeIterator for Rows<'_> {}
impl FusedIterator for Rows<'_> {}

/// What is stored of one row of a screen: [`CommandBucketer::row`].
///
/// ```
/// use coarse::{CommandBucketer, LayerProps, Paint, RecordedFill, RenderCmd, Segment, Setup, TileSpan};
///
/// let mut screen = CommandBucketer::from_wh(256, 8, Setup::new(64, 64))?;
/// screen.push_layer(&LayerProps::default())?;
/// let fill = RecordedFill { start: 0, end: 1, ..RecordedFill::default() };
/// screen.generate_fill(&[Paint::new(true, 1)], &[Segment::solid(0, 2, 8)], &fill)?;
/// screen.pop_layer(&[])?;
///
/// let row = screen.row(0)?;
/// assert_eq!(row.render_cmds().len(), 4);
/// let RenderCmd::PushBuf(cleared) = row.render_cmd(0)? else { panic!() };
/// assert_eq!(cleared, Some(TileSpan::new(0, 64)));
/// let RenderCmd::PaintFill(fill) = row.render_cmd(1)? else { panic!() };
/// assert_eq!((fill.span, fill.alpha_idx), (TileSpan::new(2, 8), None));
/// assert!(matches!(row.render_cmd(2)?, RenderCmd::LayerFill(_)));
/// assert_eq!(row.render_cmd(3)?, RenderCmd::PopBuf);
/// // Nothing touches row 1, so the layer has no buffer there.
/// assert_eq!(screen.row(1)?.render_cmds().len(), 0);
/// # Ok::<(), coarse::Answer>(())
/// ```
#[derive(Debug, Clone, Copy)]
pub struct Row<'a> {
    screen: &'a CommandBucketer,
    index: usize,
    render_cmds: usize,
    depth_cmds: usize,
}

impl<'a> Row<'a> {
    pub(crate) fn of(screen: &'a CommandBucketer, index: usize) -> Result<Self, Answer> {
        let mut lengths = sys::RowLengthsWords::default();
        Answer::check(unsafe {
            sys::coarse_row_lengths(screen.state(), screen.stored(), index, &mut lengths)
        })?;
        Ok(Self {
            screen,
            index,
            render_cmds: lengths.render_cmds as usize,
            depth_cmds: lengths.depth_cmds as usize,
        })
    }

    /// Its number on the screen, from 0 at the top.
    #[must_use]
    pub fn index(self) -> usize {
        self.index
    }

    /// A command by its number, from 0, in the order of painting.
    ///
    /// # Errors
    /// [`Answer::BadRun`] where there is no such command.
    pub fn render_cmd(self, number: usize) -> Result<RenderCmd, Answer> {
        let mut words = sys::RenderCmdWords::default();
        Answer::check(unsafe {
            sys::coarse_render_cmd(
                self.screen.state(),
                self.screen.stored(),
                self.index,
                number,
                &mut words,
            )
        })?;
        Ok(RenderCmd::of(words))
    }

    /// A depth fill by its number, from 0, in the order of drawing. Painting begins with the last of them.
    ///
    /// # Errors
    /// [`Answer::BadRun`] where there is no such depth fill.
    pub fn depth_cmd(self, number: usize) -> Result<DepthFill, Answer> {
        let mut words = sys::DepthCmdWords::default();
        Answer::check(unsafe {
            sys::coarse_depth_cmd(
                self.screen.state(),
                self.screen.stored(),
                self.index,
                number,
                &mut words,
            )
        })?;
        Ok(DepthFill {
            bucket_range: BucketRange::new(words.first, words.end),
            attrs_idx: words.attrs_idx,
        })
    }

    /// Its commands, in the order of painting.
    #[must_use]
    pub fn render_cmds(self) -> RenderCmds<'a> {
        RenderCmds {
            row: self,
            left: 0..self.render_cmds,
        }
    }

    /// Its depth fills, in the order of drawing. They are painted in the other order, `.rev()`, before the commands.
    #[must_use]
    pub fn depth_cmds(self) -> DepthCmds<'a> {
        DepthCmds {
            row: self,
            left: 0..self.depth_cmds,
        }
    }
}

/// The commands of a row: [`Row::render_cmds`].
#[derive(Debug, Clone)]
pub struct RenderCmds<'a> {
    row: Row<'a>,
    left: Range<usize>,
}

/// The depth fills of a row: [`Row::depth_cmds`].
#[derive(Debug, Clone)]
pub struct DepthCmds<'a> {
    row: Row<'a>,
    left: Range<usize>,
}

/// An iterator over what a call of `Row` gives by its number. The calls refuse no number that is left.
macro_rules! by_number {
    ($name:ident, $item:ty, $call:ident) => {
        impl Iterator for $name<'_> {
            type Item = $item;

            fn next(&mut self) -> Option<$item> {
                self.row.$call(self.left.next()?).ok()
            }

            fn nth(&mut self, n: usize) -> Option<$item> {
                self.row.$call(self.left.nth(n)?).ok()
            }

            fn size_hint(&self) -> (usize, Option<usize>) {
                self.left.size_hint()
            }
        }

        impl DoubleEndedIterator for $name<'_> {
            fn next_back(&mut self) -> Option<$item> {
                self.row.$call(self.left.next_back()?).ok()
            }
        }

        impl ExactSizeIterator for $name<'_> {}
        impl FusedIterator for $name<'_> {}
    };
}

by_number!(RenderCmds, RenderCmd, render_cmd);
by_number!(DepthCmds, DepthFill, depth_cmd);

/// What a fill left for the fine stage.
#[derive(Debug, Clone, Copy, PartialEq, Eq)]
#[non_exhaustive]
pub struct PaintFillAttrs {
    /// The paint's place in the paint list; from the list's length on, a filter paint's.
    pub paint: u32,
    /// How it is blended.
    pub blend_mode: BlendMode,
    /// The mask's handle, or 0 for none.
    pub mask: u32,
    /// Its place in the order of drawing, from 1.
    pub draw_id: u32,
    /// The thread that has its alphas.
    pub thread_idx: u32,
    /// The viewport's x0 and y0, in pixels of the scene: a paint is sampled there for the screen's first pixel.
    pub origin: (u32, u32),
    /// Whose it is.
    pub panel: u32,
}

impl PaintFillAttrs {
    pub(crate) fn of(w: &[u32]) -> Self {
        Self {
            paint: w[0],
            blend_mode: BlendMode {
                mix: w[1],
                compose: w[2],
            },
            mask: w[3],
            draw_id: w[4],
            thread_idx: w[5],
            origin: (w[6], w[7]),
            panel: w[8],
        }
    }
}

/// What a closed layer left for the fine stage.
#[derive(Debug, Clone, Copy, PartialEq)]
#[non_exhaustive]
pub struct LayerFillAttrs {
    /// How it is blended.
    pub blend_mode: BlendMode,
    /// As it was pushed, a NaN's pattern too.
    pub opacity: f32,
    /// The mask's handle, or 0 for none.
    pub mask: u32,
    /// Its place in the order of drawing, from 1: that of its closing.
    pub draw_id: u32,
    /// The thread that has its clip's alphas.
    pub thread_idx: u32,
    /// Whose it is.
    pub panel: u32,
}

/// An opacity, whose NaN's pattern stands beside it.
fn opacity(kept: f32, nan: u32) -> f32 {
    if nan == 0 {
        kept
    } else {
        f32::from_bits(nan)
    }
}

impl LayerFillAttrs {
    pub(crate) fn of(w: &[u32], kept: f32) -> Self {
        Self {
            blend_mode: BlendMode {
                mix: w[0],
                compose: w[1],
            },
            opacity: opacity(kept, w[5]),
            mask: w[2],
            draw_id: w[3],
            thread_idx: w[4],
            panel: w[6],
        }
    }
}

/// A paint that a filter fill added after the paint list. The shifts are the source's place less the box's corner, in pixels.
#[derive(Debug, Clone, Copy, PartialEq, Eq)]
#[non_exhaustive]
pub struct FilterPaint {
    /// The picture's handle.
    pub pixmap: u32,
    /// The source's x less the box's left edge.
    pub shift_x: i32,
    /// The source's y less the box's top edge.
    pub shift_y: i32,
}

impl FilterPaint {
    pub(crate) fn of(w: &[i32]) -> Self {
        Self {
            pixmap: w[1].unsigned_abs(),
            shift_x: w[2],
            shift_y: w[3],
        }
    }
}

/// A layer that is open: what it was pushed with, and its own box.
#[derive(Debug, Clone, Copy, PartialEq)]
#[non_exhaustive]
pub struct OpenLayer {
    /// How it will be blended.
    pub blend_mode: BlendMode,
    /// As it was pushed, a NaN's pattern too.
    pub opacity: f32,
    /// The mask's handle, or 0 for none.
    pub mask: u32,
    /// Its clip, as it was pushed.
    pub clip: Option<LayerClip>,
    /// Its clip's box met with that of the layer around it, in pixels from the viewport's corner.
    pub bbox: Rect,
    /// Whose it is.
    pub panel: u32,
}

impl OpenLayer {
    pub(crate) fn of(w: &[u32], kept: f32) -> Self {
        let clip = LayerClip {
            bbox: Rect::new(w[4], w[5], w[6], w[7]),
            start: w[8],
            end: w[9],
            thread_idx: w[10],
        };
        Self {
            blend_mode: BlendMode {
                mix: w[0],
                compose: w[1],
            },
            opacity: opacity(kept, w[15]),
            mask: w[2],
            clip: (w[3] == 1).then_some(clip),
            bbox: Rect::new(w[11], w[12], w[13], w[14]),
            panel: w[16],
        }
    }
}

/// A part of an opaque span.
#[derive(Debug, Clone, Copy, PartialEq, Eq)]
pub enum DepthSegment {
    /// Tiles that fill no whole bucket: an ordinary fill.
    Regular(TileSpan),
    /// Whole buckets: a depth fill.
    Opaque(BucketRange),
}
