//! A recording under construction.

use crate::editions::Edition;
use crate::file::Recording;

/// 1.0 and 0.5 as bits.
pub(crate) const ONE: u32 = 0x3f80_0000;
pub(crate) const HALF: u32 = 0x3f00_0000;

/// Places of a layer's words.
pub(crate) const CLIP_FLAG: usize = 7;
pub(crate) const CLIP_BOX: usize = 8;
pub(crate) const CLIP_RANGE: usize = 12;
pub(crate) const CLIP_THREAD: usize = 14;
pub(crate) const PIXMAP: usize = 15;
pub(crate) const DEST: usize = 16;
pub(crate) const SOURCE: usize = 20;

/// First and end of records.
pub type Range = (u32, u32);

/// The records of a file, which need not be good.
pub type Draft = Recording;

/// A solid segment.
pub fn solid(row: u32, first: u32, end: u32) -> [u32; 5] {
    [0, row, first, end, 0]
}

/// A regular layer with default blend, opacity 1.0, no mask and no clip.
pub fn layer((start, end): Range) -> [u32; 22] {
    let mut words = [0; 22];
    (words[1], words[2], words[4], words[5]) = (start, end, 3, ONE);
    words
}

/// The layer with a clip.
pub fn clipped(
    mut layer: [u32; 22],
    bounds: [u32; 4],
    (start, end): Range,
    thread: u32,
) -> [u32; 22] {
    layer[CLIP_FLAG] = 1;
    layer[CLIP_BOX..CLIP_RANGE].copy_from_slice(&bounds);
    layer[CLIP_RANGE..=CLIP_THREAD].copy_from_slice(&[start, end, thread]);
    layer
}

/// The layer as a filter layer, with the pixmap of a handle or none.
pub(crate) fn filter(
    mut layer: [u32; 22],
    pixmap: impl Into<Option<u32>>,
    dest: [u32; 4],
    source: [u32; 2],
) -> [u32; 22] {
    (layer[0], layer[PIXMAP]) = (1, pixmap.into().map_or(0, |handle| handle + 1));
    layer[DEST..SOURCE].copy_from_slice(&dest);
    layer[SOURCE..].copy_from_slice(&source);
    layer
}

fn count<T>(records: &[T]) -> u32 {
    u32::try_from(records.len()).expect("few records")
}

impl Draft {
    /// A viewport at (0, 0) and one opaque paint.
    pub fn new(width: u32, height: u32) -> Self {
        Self {
            viewport: [0, 0, width, height],
            paints: vec![[1, 7, 0, 0]],
            ..Self::default()
        }
    }

    pub fn segments(&mut self, list: &[[u32; 5]]) -> Range {
        let start = count(&self.segments);
        self.segments.extend(list);
        (start, count(&self.segments))
    }

    /// A draw of these segments with paint 0, default blend, no mask; its number.
    pub fn draw(&mut self, (start, end): Range) -> u32 {
        self.draws.push([0, start, end, 0, 0, 3, 0]);
        count(&self.draws) - 1
    }

    /// A layer; its number + 1, as a node names it.
    pub fn layer(&mut self, layer: [u32; 22]) -> u32 {
        self.layers.push(layer);
        count(&self.layers)
    }

    /// A node; the range that holds it alone.
    pub fn node(&mut self, (start, end): Range, layer: u32) -> Range {
        self.nodes.push([start, end, layer]);
        (count(&self.nodes) - 1, count(&self.nodes))
    }

    /// Nodes one after another, as a range.
    pub fn nodes(&mut self, nodes: &[[u32; 3]]) -> Range {
        let start = count(&self.nodes);
        self.nodes.extend(nodes);
        (start, count(&self.nodes))
    }

    /// With this range as the root.
    pub fn rooted(mut self, (start, end): Range) -> Self {
        self.root = [start, end];
        self
    }

    /// As a file of edition one, with no panels.
    pub fn words(&self) -> Vec<u32> {
        self.words_in(Edition::One)
    }

    /// As a file of an edition.
    pub fn words_in(&self, edition: Edition) -> Vec<u32> {
        fn section<const N: usize>(records: &[[u32; N]]) -> Vec<u32> {
            std::iter::once(count(records))
                .chain(records.iter().flatten().copied())
                .collect()
        }
        fn with_panels<const N: usize>(
            records: &[[u32; N]],
            panel: impl Fn(usize) -> u32,
        ) -> Vec<u32> {
            let with_panel = |(i, record): (usize, &[u32; N])| [&record[..], &[panel(i)]].concat();
            std::iter::once(count(records))
                .chain(records.iter().enumerate().flat_map(with_panel))
                .collect()
        }
        let (draws, layers) = match edition {
            Edition::One => (section(&self.draws), section(&self.layers)),
            Edition::Two => (
                with_panels(&self.draws, |i| self.draw_panel(i)),
                with_panels(&self.layers, |i| self.layer_panel(i)),
            ),
        };
        [
            edition.head().to_vec(),
            section(&[self.viewport]),
            section(&self.paints),
            section(&self.segments),
            draws,
            layers,
            section(&self.nodes),
            section(&[self.root]),
        ]
        .concat()
    }

    pub fn bytes(&self) -> Vec<u8> {
        bytes(&self.words())
    }

    /// How many records each section has, from the viewport's to the root's.
    pub fn counts(&self) -> [usize; 7] {
        [
            1,
            self.paints.len(),
            self.segments.len(),
            self.draws.len(),
            self.layers.len(),
            self.nodes.len(),
            1,
        ]
    }

    /// The place of a record's field among the words of a file of edition one: sections from 0 (viewport) to 6 (root).
    pub fn place(&self, section: usize, record: usize, field: usize) -> usize {
        self.place_in(Edition::One, section, record, field)
    }

    /// The same in an edition.
    pub fn place_in(&self, edition: Edition, section: usize, record: usize, field: usize) -> usize {
        let sizes = edition.sizes();
        let before: usize = sizes[..section]
            .iter()
            .zip(self.counts())
            .map(|(words, records)| 1 + words * records)
            .sum();
        edition.head().len() + before + 1 + sizes[section] * record + field
    }
}

pub(crate) fn bytes(words: &[u32]) -> Vec<u8> {
    words.iter().copied().flat_map(u32::to_le_bytes).collect()
}
