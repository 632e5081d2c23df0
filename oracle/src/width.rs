//! The width of a depth bucket, which a screen chooses, and the original at that width with the oracle's own account beside it.

use crate::minima;
use crate::rules::{self, Summary};
use crate::screen::{Buffer, Part, Range, Screen, Stage};
use crate::{coarse, coarse_256, coarse_64};
use vello_common::geometry::RectU16;

/// Numbers of pixels that no bucket has: beside the widths, between them, theirs in tiles, and far off.
pub(crate) const NO_WIDTHS: [u32; 13] =
    [0, 1, 16, 32, 63, 65, 96, 127, 129, 255, 257, 512, u32::MAX];

#[derive(Debug, Clone, Copy, PartialEq, Eq)]
pub enum Width {
    Of64,
    Of128,
    Of256,
}

impl Width {
    pub(crate) const ALL: [Self; 3] = [Self::Of64, Self::Of128, Self::Of256];

    /// The width of so many pixels; others are refused by 2.
    pub fn of(pixels: u32) -> Option<Self> {
        Self::ALL.into_iter().find(|width| width.pixels() == pixels)
    }

    pub(crate) fn pixels(self) -> u32 {
        match self {
            Self::Of64 => 64,
            Self::Of128 => 128,
            Self::Of256 => 256,
        }
    }

    pub(crate) fn tiles(self) -> u32 {
        self.pixels() / 4
    }

    pub(crate) fn stage(self) -> Stage {
        match self {
            Self::Of64 => coarse_64::stage::STAGE,
            Self::Of128 => coarse::stage::STAGE,
            Self::Of256 => coarse_256::stage::STAGE,
        }
    }

    pub(crate) fn screen(self, viewport: RectU16) -> Box<dyn Screen> {
        (self.stage().screen)(viewport)
    }

    /// The original's split, which the own account must give too.
    pub(crate) fn split(self, range: Range) -> Vec<Part> {
        let parts = (self.stage().split)(range);
        assert_eq!(parts, rules::split(range, self.tiles()), "{range:?}");
        parts
    }

    /// The tiles of a range of buckets, by both accounts.
    pub(crate) fn tiles_of(self, buckets: Range) -> Range {
        let tiles = (self.stage().tiles)(buckets);
        assert_eq!(tiles, rules::tiles(buckets, self.tiles()), "{buckets:?}");
        tiles
    }

    /// `can_skip` of a summary that has included these spans, by both accounts.
    pub(crate) fn can_skip(self, included: &[(Range, u32)], range: Range, id: u32) -> bool {
        let says = (self.stage().can_skip)(included, range, id);
        let mut summary = Summary::default();
        for &(span, id) in included {
            summary.include(span, id);
        }
        assert_eq!(says, summary.can_skip(range, id), "{included:?} {range:?}");
        says
    }
}

/// A depth buffer of the original, with the words that the own account has for it; the two must agree in whatever is asked.
pub(crate) struct Depth {
    width: Width,
    buffer: Box<dyn Buffer>,
    words: Vec<u32>,
}

impl Depth {
    /// Clear, for a screen of so many pixels across.
    pub(crate) fn new(width: Width, pixels: u16) -> Self {
        let buffer = (width.stage().buffer)(pixels);
        let count = rules::buckets(u32::from(pixels) / 4, width.tiles());
        let depth = Self {
            width,
            buffer,
            words: vec![0; count as usize],
        };
        depth.must_agree();
        depth
    }

    /// With these words, written bucket by bucket.
    pub(crate) fn of(width: Width, words: &[u32]) -> Self {
        let count = u32::try_from(words.len()).expect("few buckets");
        let pixels = u16::try_from(width.pixels() * count).expect("few buckets");
        let mut depth = Self::new(width, pixels);
        for (i, &word) in (0..).zip(words).filter(|(_, word)| **word != 0) {
            depth.buffer.write((i, i + 1), word);
        }
        depth.words = words.to_vec();
        depth.must_agree();
        depth
    }

    pub(crate) fn words(&self) -> &[u32] {
        &self.words
    }

    pub(crate) fn unset(&self, tiles: Range) -> Vec<Range> {
        let runs = self.buffer.unset(tiles);
        let own = rules::unset(&self.words, tiles, self.width.tiles());
        assert_eq!(runs, own, "unset {tiles:?} of {:?}", self.words);
        runs
    }

    pub(crate) fn visible(&self, tiles: Range, id: u32) -> Vec<Range> {
        let runs = self.buffer.visible(tiles, id);
        let own = rules::visible(&self.words, tiles, id, self.width.tiles());
        assert_eq!(runs, own, "visible {tiles:?} at {id} of {:?}", self.words);
        runs
    }

    pub(crate) fn write(&mut self, buckets: Range, id: u32) -> Vec<Range> {
        let runs = self.buffer.write(buckets, id);
        let own = rules::write(&mut self.words, buckets, id);
        assert_eq!(runs, own, "writing {buckets:?}, then {:?}", self.words);
        self.must_agree();
        runs
    }

    /// The minima of its words, made afresh.
    pub(crate) fn minima(&self) -> Vec<u32> {
        minima::minima(&self.words)
    }

    /// Whether a range of its buckets is hidden from an id: by the minima, by the words themselves, and by the visible runs, of which there must be none.
    pub(crate) fn is_hidden(&self, buckets: Range, id: u32) -> bool {
        let says = minima::is_hidden(&self.minima(), buckets, id);
        let own = (buckets.0..buckets.1).all(|bucket| self.words[bucket as usize] > id);
        assert_eq!(says, own, "hidden {buckets:?} at {id} of {:?}", self.words);
        let runs = self.visible(self.width.tiles_of(buckets), id);
        assert_eq!(says, runs.is_empty(), "{buckets:?} at {id}: {runs:?}");
        says
    }

    fn must_agree(&self) {
        assert_eq!(self.buffer.words(), self.words, "the depth words");
    }
}

impl Clone for Depth {
    fn clone(&self) -> Self {
        Self::of(self.width, &self.words)
    }
}
