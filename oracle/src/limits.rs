//! Answer numbers and limits, and which limit a screen passes.

use crate::panels::draws;
use crate::screen::Screen;
use crate::walk::Step;
use vello_common::geometry::RectU16;
use vello_common::util::RectExt;

pub(crate) const BAD_ARENA: u32 = 1;
pub(crate) const BAD_VIEWPORT: u32 = 2;
pub(crate) const BAD_FORM: u32 = 3;
pub(crate) const BAD_RECORD: u32 = 4;
pub(crate) const BAD_ORDER: u32 = 5;
const DEEP: u32 = 6;
pub(crate) const NO_LAYER: u32 = 7;
const IDS: u32 = 8;
const FULL_ATTRS: u32 = 9;
pub(crate) const FULL_ROW: u32 = 10;
pub(crate) const FULL_DEPTH: u32 = 11;
pub(crate) const BAD_RUN: u32 = 12;
pub(crate) const OPEN: u32 = 13;
pub(crate) const NO_ROOM: u32 = 14;
pub(crate) const HAS_PANELS: u32 = 15;

/// The last pixel edge and the last tile edge.
pub(crate) const LAST_PIXEL: u32 = 32_768;
pub(crate) const LAST_TILE: u32 = 8_192;
/// A viewport's largest width and height.
pub(crate) const WIDEST: u32 = 4_096;
pub(crate) const HIGHEST: u32 = 2_048;
/// Masks and pixmaps are handles below this; a mask of 0 says none.
pub(crate) const HANDLES: u32 = 1 << 31;
/// Thread numbers are below this.
pub(crate) const THREADS: u32 = 256;
/// Panel numbers are below this.
pub(crate) const PANELS: u32 = 256;
/// The most records of a section.
pub(crate) const MOST_RECORDS: u32 = 4_096;
/// The most commands or depth fills that a row can have room for.
pub(crate) const MOST_ROOM: u32 = 1_024;
pub(crate) const LAST_ID: u32 = 1_048_576;
pub(crate) const MOST_LAYERS: usize = 16;
pub(crate) const MOST_ATTRS: usize = 1_024;
pub(crate) const MOST_FILTERS: usize = 256;

/// Limits of the program `rowlist`: bytes, rows, and C and D.
pub(crate) const MOST_BYTES: usize = 65_536;
/// Bytes of a file of which no rows are kept.
pub(crate) const LONG_BYTES: usize = 1_048_576;
pub(crate) const MOST_ROWS: u32 = 32;
pub(crate) const ROOM: usize = 64;

/// The smallest number that refuses the step just done on a screen with room for c commands and d depth fills a row; a count that equals its
/// limit is fine.
pub(crate) fn within(screen: &dyn Screen, c: usize, d: usize) -> Result<(), u32> {
    let [paints, layers, filters] = screen.counts();
    let [commands, fills] = screen.fullest();
    let passed = [
        (DEEP, screen.open_layers() > MOST_LAYERS),
        (IDS, screen.next_id() > LAST_ID + 1),
        (
            FULL_ATTRS,
            paints > MOST_ATTRS || layers > MOST_ATTRS || filters > MOST_FILTERS,
        ),
        (FULL_ROW, commands > c),
        (FULL_DEPTH, fills > d),
    ];
    passed
        .iter()
        .find(|(_, yes)| *yes)
        .map_or(Ok(()), |(number, _)| Err(*number))
}

/// What a walk counts where no row is kept: ids, attributes, filter paints, and the boxes of the open layers.
pub(crate) struct Counts {
    viewport: RectU16,
    next: u32,
    paints: usize,
    layers: usize,
    filters: usize,
    open: Vec<RectU16>,
}

impl Counts {
    /// Of a screen that holds this box, from this id on.
    pub(crate) fn new(viewport: RectU16, next: u32) -> Self {
        Self {
            viewport,
            next,
            paints: 0,
            layers: 0,
            filters: 0,
            open: Vec::new(),
        }
    }

    /// One step more, or the smallest number of the limits that it passes: 6, 8 or 9.
    pub(crate) fn take(&mut self, step: &Step) -> Result<(), u32> {
        let RectU16 { x0, y0, x1, y1 } = self.viewport;
        let screen = RectU16::new(0, 0, x1 - x0, y1 - y0);
        let bounds = self.open.last().copied().unwrap_or(screen);
        match *step {
            // An id also without a segment, an attribute only with one.
            Step::Fill(draw, _) => {
                self.next += 1;
                self.paints += usize::from(!draw.strip_range.is_empty());
            }
            Step::Push(layer, _) => self.open.push(match &layer.props.clip_path {
                Some(clip) => clip.bbox.relative_to_origin((x0, y0)).intersect(bounds),
                None => bounds,
            }),
            Step::Filter(_, placement, _) if draws(placement.dest_bbox(), (x0, y0), bounds) => {
                self.next += 1;
                self.paints += 1;
                self.filters += 1;
            }
            Step::Filter(..) => {}
            Step::Pop(_) => {
                self.open.pop();
                self.next += 1;
                self.layers += 1;
            }
        }
        let full = self.paints > MOST_ATTRS || self.layers > MOST_ATTRS;
        if self.open.len() > MOST_LAYERS {
            Err(DEEP)
        } else if self.next > LAST_ID + 1 {
            Err(IDS)
        } else if full || self.filters > MOST_FILTERS {
            Err(FULL_ATTRS)
        } else {
            Ok(())
        }
    }
}
