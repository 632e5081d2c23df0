//! What is asked of the original's coarse stage, whatever the width of its buckets.

use crate::painting::Piece;
use crate::panels::Panels;
use crate::record::RecordedFill;
use crate::scene::Scene;
use std::sync::Arc;
use vello_common::encode::EncodedPaint;
use vello_common::filter::FilterLayerPlacement;
use vello_common::geometry::RectU16;
use vello_common::pixmap::Pixmap;
use vello_common::record::LayerProps;
use vello_common::strip::Strip;

/// First and end, of tiles or buckets.
pub(crate) type Range = (u32, u32);

/// A part of a split: whether it is a range of buckets, and the range.
pub(crate) type Part = (bool, Range);

/// The original at one width of a bucket.
pub(crate) struct Stage {
    /// A new screen of a viewport.
    pub(crate) screen: fn(RectU16) -> Box<dyn Screen>,
    /// A new depth buffer for so many pixels.
    pub(crate) buffer: fn(u16) -> Box<dyn Buffer>,
    pub(crate) split: fn(Range) -> Vec<Part>,
    /// The tiles of a range of buckets.
    pub(crate) tiles: fn(Range) -> Range,
    /// Of a summary that has included these spans with their ids.
    pub(crate) can_skip: fn(&[(Range, u32)], Range, u32) -> bool,
}

pub(crate) trait Screen {
    fn reset(&mut self, viewport: RectU16);
    fn viewport(&self) -> RectU16;
    /// The box that fills are cut to.
    fn clip_box(&self) -> RectU16;
    /// Pixels across.
    fn width(&self) -> u16;
    /// The id that the next step would take.
    fn next_id(&self) -> u32;
    fn set_next_id(&mut self, id: u32);
    fn open_layers(&self) -> usize;
    /// The clip range of the innermost open layer, if one is open and has a clip.
    fn innermost_clip(&self) -> Option<Option<std::ops::Range<usize>>>;

    /// A draw of these strips, with the viewport's origin, as the walk of a node does it.
    fn fill(
        &mut self,
        draw: &RecordedFill,
        origin: (u16, u16),
        strips: &[Strip],
        paints: &[EncodedPaint],
    );
    fn push(&mut self, props: &LayerProps);
    fn filter(&mut self, pixmap: Arc<Pixmap>, placement: FilterLayerPlacement, paints: usize);
    fn pop(&mut self, strips: &[Strip]);
    /// Of a row's commands those at these places alone are left. The original has no such call.
    fn keep(&mut self, row: usize, places: &[usize]);
    /// The original's own walk of a whole recording.
    fn walk(&mut self, scene: &Scene);

    /// How many paint attributes, layer attributes and filter paints there are.
    fn counts(&self) -> [usize; 3];
    /// The most commands and the most depth fills that a row has.
    fn fullest(&self) -> [usize; 2];
    fn rows(&self) -> usize;
    fn row(&self, row: usize) -> Row;
    /// The row's pieces in painting order; with `skip` a command for which `can_skip_depth` says yes is not searched.
    /// The original knows no panels: each piece has that of its attribute.
    fn pieces(&self, row: usize, skip: bool, panels: &Panels) -> Vec<Piece>;
    fn can_skip(&self, row: usize, tiles: Range, id: u32) -> bool;
    fn paint_attrs(&self) -> Vec<PaintAttr>;
    fn layer_attrs(&self) -> Vec<LayerAttr>;
    fn filter_paints(&self) -> &[EncodedPaint];
}

/// A depth buffer; its runs are listed from left to right.
pub(crate) trait Buffer {
    fn words(&self) -> Vec<u32>;
    fn unset(&self, tiles: Range) -> Vec<Range>;
    fn visible(&self, tiles: Range, id: u32) -> Vec<Range>;
    /// Unset runs as ranges of buckets, where the id is stored.
    fn write(&mut self, buckets: Range, id: u32) -> Vec<Range>;
}

/// What a row holds.
pub(crate) struct Row {
    pub(crate) commands: Vec<Command>,
    pub(crate) fills: Vec<DepthFill>,
    /// Its depth summary: first tile, end tile, largest id.
    pub(crate) summary: [u32; 3],
    /// How many layers it has a PushBuf of.
    pub(crate) levels: usize,
}

#[derive(Debug, Clone, Copy, PartialEq, Eq)]
pub(crate) enum Command {
    Fill(Fill),
    Push(Option<Range>),
    Pop,
}

/// A fill of a paint or of a layer.
#[derive(Debug, Clone, Copy, PartialEq, Eq)]
pub(crate) struct Fill {
    pub(crate) layer: bool,
    pub(crate) tiles: Range,
    pub(crate) alpha: Option<u32>,
    pub(crate) attribute: u32,
}

#[derive(Debug, Clone, Copy, PartialEq, Eq)]
pub(crate) struct DepthFill {
    pub(crate) buckets: Range,
    pub(crate) attribute: u32,
}

pub(crate) struct PaintAttr {
    pub(crate) paint: u32,
    pub(crate) blend: [u32; 2],
    pub(crate) mask: u32,
    pub(crate) id: u32,
    pub(crate) thread: u32,
    pub(crate) origin: [u32; 2],
}

pub(crate) struct LayerAttr {
    pub(crate) blend: [u32; 2],
    pub(crate) opacity: u32,
    pub(crate) mask: u32,
    pub(crate) id: u32,
    pub(crate) thread: u32,
}
