//! The rules that know how wide a depth bucket is, over a number of tiles and written from the rules in words (docs/RULES.md). The original answers beside them
//! at each width, and in every run the two must agree.

use crate::compacted::Hiding;
use crate::painting::Piece;
use crate::panels::Panels;
use crate::peniko::BlendMode;
use crate::record::RecordedFill;
use crate::screen::{Command, DepthFill, Part, Range, Row, Screen};
use std::collections::BTreeSet;
use vello_common::encode::EncodedPaint;
use vello_common::geometry::RectU16;
use vello_common::strip::Strip;

/// Buckets of a row of so many tiles: the last may lie partly off the screen.
pub(crate) fn buckets(tiles: u32, width: u32) -> u32 {
    tiles.div_ceil(width)
}

/// The tiles of a range of buckets.
pub(crate) fn tiles((first, end): Range, width: u32) -> Range {
    (first * width, end * width)
}

/// Rule 7.
pub(crate) fn split((x, end): Range, width: u32) -> Vec<Part> {
    let (a, b) = (x.div_ceil(width) * width, end / width * width);
    if a >= b {
        return vec![(false, (x, end))];
    }
    let mut parts = Vec::new();
    if x < a {
        parts.push((false, (x, a)));
    }
    parts.push((true, (a / width, b / width)));
    if b < end {
        parts.push((false, (b, end)));
    }
    parts
}

/// The longest stretches of places in a range that are all open.
fn runs((first, end): Range, open: impl Fn(u32) -> bool) -> Vec<Range> {
    let mut runs: Vec<Range> = Vec::new();
    for place in (first..end).filter(|&place| open(place)) {
        match runs.last_mut() {
            Some(run) if run.1 == place => run.1 += 1,
            _ => runs.push((place, place + 1)),
        }
    }
    runs
}

/// The bucket's word, or none past the buffer.
fn word(words: &[u32], bucket: u32) -> Option<u32> {
    words.get(bucket as usize).copied()
}

/// Tiles whose bucket holds 0.
pub(crate) fn unset(words: &[u32], range: Range, width: u32) -> Vec<Range> {
    runs(range, |tile| word(words, tile / width) == Some(0))
}

/// Tiles whose bucket holds at most the id.
pub(crate) fn visible(words: &[u32], range: Range, id: u32, width: u32) -> Vec<Range> {
    runs(range, |tile| {
        word(words, tile / width).is_some_and(|word| word <= id)
    })
}

/// Buckets that hold 0; they hold the id afterwards.
pub(crate) fn write(words: &mut [u32], range: Range, id: u32) -> Vec<Range> {
    let unset = runs(range, |bucket| word(words, bucket) == Some(0));
    for bucket in unset.iter().flat_map(|&(first, end)| first..end) {
        words[bucket as usize] = id;
    }
    unset
}

/// A row's depth summary: the union of its depth fills' tiles, and the largest id.
#[derive(Debug, Clone, Default)]
pub(crate) struct Summary {
    union: Option<Range>,
    largest: u32,
}

impl Summary {
    pub(crate) fn include(&mut self, (first, end): Range, id: u32) {
        let (from, to) = self.union.unwrap_or((first, end));
        self.union = Some((from.min(first), to.max(end)));
        self.largest = self.largest.max(id);
    }

    pub(crate) fn can_skip(&self, (first, end): Range, id: u32) -> bool {
        let beside = |(from, to)| first >= to || end <= from;
        id >= self.largest || self.union.is_none_or(beside)
    }

    /// First tile, end tile, largest id; without a depth fill all are 0.
    fn words(&self) -> [u32; 3] {
        let (first, end) = self.union.unwrap_or((0, 0));
        [first, end, self.largest]
    }
}

/// What painting a row of so many tiles gives: depth fills last to first with write, then the commands. The ids are those of the paint and of the
/// layer attributes.
pub(crate) fn pieces(
    row: &Row,
    ids: [&[u32]; 2],
    panels: &Panels,
    across: u32,
    width: u32,
) -> Vec<Piece> {
    let mut words = vec![0; buckets(across, width) as usize];
    let mut pieces = Vec::new();
    let short = |n: u32| u16::try_from(n).expect("on the screen");
    for fill in row.fills.iter().rev() {
        let id = ids[0][fill.attribute as usize];
        for run in write(&mut words, fill.buckets, id) {
            let (first, end) = tiles(run, width);
            pieces.push(Piece {
                layer: false,
                attribute: fill.attribute,
                first: short(first),
                end: short(end),
                alpha: None,
                nesting: 0,
                panel: panels.of(false, fill.attribute),
            });
        }
    }
    let mut nesting = 0;
    for command in &row.commands {
        match *command {
            Command::Push(_) => nesting += 1,
            Command::Pop => nesting -= 1,
            Command::Fill(fill) => {
                let id = ids[usize::from(fill.layer)][fill.attribute as usize];
                for (first, end) in visible(&words, fill.tiles, id, width) {
                    pieces.push(Piece {
                        layer: fill.layer,
                        attribute: fill.attribute,
                        first: short(first),
                        end: short(end),
                        alpha: fill.alpha.map(|alpha| alpha + 16 * (first - fill.tiles.0)),
                        nesting,
                        panel: panels.of(fill.layer, fill.attribute),
                    });
                }
            }
        }
    }
    pieces
}

/// What the eligible segments drawn since a reset have left in each row.
#[derive(Clone)]
pub(crate) struct Ledger {
    viewport: RectU16,
    width: u32,
    rows: Vec<OwnRow>,
    /// The paint attributes whose solid segments are eligible.
    eligible: BTreeSet<u32>,
}

#[derive(Clone, Default)]
struct OwnRow {
    fills: Vec<DepthFill>,
    /// The attribute and the tiles of each regular part.
    regular: Vec<(u32, Range)>,
    summary: Summary,
}

impl Ledger {
    /// Of a screen that holds this box, with so many tiles a bucket.
    pub(crate) fn new(viewport: RectU16, width: u32) -> Self {
        Self {
            viewport,
            width,
            rows: vec![OwnRow::default(); usize::from(viewport.height() / 4)],
            eligible: BTreeSet::new(),
        }
    }

    /// A fill that the screen is about to take. With no layer open its segments are cut to the screen alone.
    pub(crate) fn fill(
        &mut self,
        screen: &dyn Screen,
        draw: &RecordedFill,
        strips: &[Strip],
        paints: &[EncodedPaint],
    ) {
        let eligible = screen.open_layers() == 0
            && draw.blend_mode == BlendMode::default()
            && draw.mask.is_none()
            && !draw.paint.may_have_transparency(paints);
        if !eligible {
            return;
        }
        let [attributes, ..] = screen.counts();
        let attribute = u32::try_from(attributes).expect("few");
        let id = screen.next_id();
        if !strips.is_empty() {
            self.eligible.insert(attribute);
        }
        for strip in strips.iter().filter(|strip| !strip.alpha) {
            if let Some((row, tiles)) = self.local(strip) {
                self.segment(row, tiles, attribute, id);
            }
        }
    }

    /// The row and tiles that are left of a segment on the screen.
    fn local(&self, strip: &Strip) -> Option<(usize, Range)> {
        let RectU16 { x0, y0, x1, y1 } = self.viewport;
        let (left, right) = (x0 / 4, x1 / 4);
        let (first, end) = (strip.first.max(left), strip.end.min(right));
        if strip.row < y0 / 4 || strip.row >= y1 / 4 || first >= end {
            return None;
        }
        let tiles = (u32::from(first - left), u32::from(end - left));
        Some((usize::from(strip.row - y0 / 4), tiles))
    }

    fn segment(&mut self, row: usize, range: Range, attribute: u32, id: u32) {
        let row = &mut self.rows[row];
        for (whole, range) in split(range, self.width) {
            if whole {
                row.fills.push(DepthFill {
                    buckets: range,
                    attribute,
                });
                row.summary.include(tiles(range, self.width), id);
            } else {
                row.regular.push((attribute, range));
            }
        }
    }

    /// The regular parts that a row's newest ids hide are taken out of it.
    pub(crate) fn compact(&mut self, row: usize, hiding: &Hiding) {
        let stays = |&(attribute, tiles): &(u32, Range)| !hiding.hides(false, attribute, tiles);
        self.rows[row].regular.retain(stays);
    }

    /// The screen's rows must have these depth fills, this summary, and these solid commands of eligible attributes.
    pub(crate) fn must_agree(&self, screen: &dyn Screen) {
        assert_eq!(screen.rows(), self.rows.len());
        for (i, own) in self.rows.iter().enumerate() {
            let row = screen.row(i);
            assert_eq!(row.fills, own.fills, "depth fills of row {i}");
            assert_eq!(row.summary, own.summary.words(), "summary of row {i}");
            let solid = |command: &Command| match *command {
                Command::Fill(fill)
                    if !fill.layer
                        && fill.alpha.is_none()
                        && self.eligible.contains(&fill.attribute) =>
                {
                    Some((fill.attribute, fill.tiles))
                }
                _ => None,
            };
            let regular: Vec<(u32, Range)> = row.commands.iter().filter_map(solid).collect();
            assert_eq!(regular, own.regular, "regular parts of row {i}");
        }
    }

    /// By the own summary of a row.
    pub(crate) fn can_skip(&self, row: usize, range: Range, id: u32) -> bool {
        self.rows[row].summary.can_skip(range, id)
    }
}
