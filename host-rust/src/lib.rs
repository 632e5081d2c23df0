//! The coarse stage of vello_cpu, proved, behind the original's names: what is drawn is bucketed into the rows of a screen, and each row is painted as
//! pieces, of which those that are hidden are left out. A [`CommandBucketer`] owns the tables that the calls of `libcoarse.a` are lent; each method is
//! one call. Bad input is an [`Answer`], never a panic.
//!
//! ```
//! use coarse::{CommandBucketer, Paint, RecordedFill, Segment, Setup};
//!
//! // A screen of 256 x 8 pixels: two rows of 64 tiles, with room for 64 commands and 64 depth fills each.
//! let mut screen = CommandBucketer::from_wh(256, 8, Setup::new(64, 64))?;
//! let fill = RecordedFill { start: 0, end: 1, ..RecordedFill::default() };
//! screen.generate_fill(&[Paint::new(true, 7)], &[Segment::solid(1, 2, 8)], &fill)?;
//!
//! screen.begin_painting()?;
//! assert!(screen.paint_row(0)?.is_empty());
//! for piece in screen.paint_row(1)?.to_vec() {
//!     assert_eq!((piece.first, piece.end), (2, 8));
//!     assert_eq!(screen.paint_attr(piece.attrs_idx).map(|attrs| attrs.paint), Some(0));
//! }
//! # Ok::<(), coarse::Answer>(())
//! ```
//!
//! # Units
//!
//! Places are counted from 0, rightward and downward; a tile is 4 x 4 pixels, and a row is one tile high. What is drawn is of the *scene*: boxes in
//! pixels and segments in tiles, counted from the scene's corner. What is painted or asked about is of the *screen*: rows, tiles and depth buckets,
//! counted from the viewport's corner. No box, range or run has its end in it.
//!
//! A *panel* is the number, 0 to [`LAST_PANEL`], of the program module that drew a fill or a layer. It goes with it to its attribute, its pieces and its
//! reasons. Above is [`Answer::BadRecord`]; left out it is 0, as in every recording of edition one.
//!
//! # Buffers
//!
//! When does a host clear a buffer, and when does it composite it? What a layer holds is drawn into a buffer as wide as the row; the nesting is how many
//! buffers are open, and buffer 0 is the row of the picture. A row's stored commands say it ([`Row::render_cmds`]), and [`CommandBucketer::progress`]
//! tells the nesting after each step:
//!
//! ```text
//! command    PaintFill   PushBuf   PaintFill   LayerFill   PopBuf   PaintFill
//! nesting        0          1          1           1          0         0
//! buffer 1                clear ---- draw ----- composite -- end
//!                                                  |
//! picture  --- draw ------------------------------ v -------------- draw --->
//! ```
//!
//! [`PushBuf`](RenderCmd::PushBuf) opens the next buffer, cleared over its span: the tiles that its own level touches. The pieces of a
//! [`PaintFill`](RenderCmd::PaintFill) are drawn into the innermost buffer. The pieces of a [`LayerFill`](RenderCmd::LayerFill) composite the innermost
//! buffer into the one below it, with the opacity, blend and mask of the layer attribute. [`PopBuf`](RenderCmd::PopBuf) ends the innermost buffer: what
//! no `LayerFill` has composited by then is seen nowhere. A `PushBuf` without a span has no `LayerFill`: nothing of that buffer is composited, and it
//! need not be cleared. A row in which nothing was painted within the layer has no `PushBuf`, and nothing to composite.
//!
//! `PushBuf` and `PopBuf` give no piece, so the pieces alone do not decide the picture: a buffer that ends with nothing composited, and another that
//! opens after it, look among pieces like one buffer. The example `buffers` has two scenes with the same pieces and different pictures. A host with
//! layers paints by [`paint_step`](CommandBucketer::paint_step) and looks at `progress` after each step, or at the commands: the example `composite`
//! composites both scenes in colours by either.
//!
//! # The archive
//!
//! The crate links `libcoarse.a`, from the folder that `COARSE_LIB_DIR` names while it is built, or else from `../out`, where `tools/archive` puts it in
//! the repository. The first call compares its version with the crate's: [`library_version`].
//!
//! # Features
//!
//! `std`, a default feature, turns an [`Answer`] into a `std::io::Error`. Without it the crate needs `core` and `alloc` alone.
#![cfg_attr(not(any(feature = "std", test)), no_std)]
#![deny(missing_docs)]

extern crate alloc;

mod answer;
mod bucketer;
mod canvas;
mod editions;
mod figures;
mod fills;
mod input;
mod own;
mod reason;
mod recorder;
mod stored;
mod sys;
mod tile_list;
mod version;

pub use answer::{Answer, Stopped};
pub use bucketer::{split_opaque_span, CommandBucketer};
pub use canvas::{Canvas, PaintedRows, Piece, Runs};
pub use editions::{to_edition_one, to_edition_two};
pub use figures::{figures, Figures, ListFigures};
pub use fills::FillList;
pub use input::{
    BlendMode, Edition, FilterLayerPlacement, LayerClip, LayerProps, Mode, Paint, RecordedFill,
    Rect, Segment, Setup, Width, LAST_PANEL,
};
pub use own::{OwnRow, OwnRows};
pub use reason::{Attribute, Reason};
pub use recorder::Recorder;
pub use stored::{
    BucketRange, DepthCmds, DepthFill, DepthSegment, FilterPaint, LayerFill, LayerFillAttrs,
    OpenLayer, PaintFill, PaintFillAttrs, Progress, RenderCmd, RenderCmds, Row, Rows, TileSpan,
};
pub use tile_list::list_tile;
pub use version::{library_version, VERSION};

#[cfg(test)]
mod tests;
