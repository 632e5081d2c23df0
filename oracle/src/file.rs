//! The recording file: its form, its records, and whether they are good.

use crate::editions::Edition;
use crate::limits::{
    BAD_FORM, BAD_ORDER, BAD_RECORD, BAD_VIEWPORT, HANDLES, LAST_PIXEL, LAST_TILE, MOST_BYTES,
    MOST_RECORDS, MOST_ROWS, PANELS, THREADS,
};
use crate::viewport::Mode;
use crate::width::Width;

/// A file's sections, each record as its words.
#[derive(Clone, Default)]
pub struct Recording {
    pub viewport: [u32; 4],
    pub paints: Vec<[u32; 4]>,
    pub segments: Vec<[u32; 5]>,
    pub draws: Vec<[u32; 7]>,
    pub layers: Vec<[u32; 22]>,
    pub nodes: Vec<[u32; 3]>,
    pub root: [u32; 2],
    /// The panels of its draws and of its layers, by their numbers. A file of edition one has none; what has none here is of panel 0.
    pub draw_panels: Vec<u32>,
    pub layer_panels: Vec<u32>,
}

impl Recording {
    pub fn draw_panel(&self, draw: usize) -> u32 {
        self.draw_panels.get(draw).copied().unwrap_or(0)
    }

    pub fn layer_panel(&self, layer: usize) -> u32 {
        self.layer_panels.get(layer).copied().unwrap_or(0)
    }
}

/// A stream's recordings: each after its length in bytes; the last may be cut short.
pub fn stream(mut bytes: &[u8]) -> Vec<&[u8]> {
    let mut recordings = Vec::new();
    while let Some((length, rest)) = bytes.split_first_chunk::<4>() {
        let (recording, rest) = split(u32::from_le_bytes(*length), rest);
        recordings.push(recording);
        bytes = rest;
    }
    recordings
}

/// So many bytes, or what is left, and the rest.
pub(crate) fn split(length: u32, bytes: &[u8]) -> (&[u8], &[u8]) {
    let length = usize::try_from(length).expect("a length");
    bytes.split_at(length.min(bytes.len()))
}

/// A file of edition one that `rowlist` takes, good up to the order of its segment lists, or the number that refuses it. A bucket of no good width is refused
/// as a viewport is.
pub(crate) fn judged(bytes: &[u8], mode: Mode, width: Option<Width>) -> Result<Recording, u32> {
    judged_in(Some(Edition::One), bytes, mode, width)
}

/// The same of a file of an edition; an edition that is none is refused by 3.
pub(crate) fn judged_in(
    edition: Option<Edition>,
    bytes: &[u8],
    mode: Mode,
    width: Option<Width>,
) -> Result<Recording, u32> {
    let edition = edition.ok_or(BAD_FORM)?;
    if bytes.len() > MOST_BYTES {
        return Err(BAD_FORM);
    }
    let recording = sections(bytes, edition).ok_or(BAD_FORM)?;
    if width.is_none() || !few_rows(recording.viewport, mode) {
        Err(BAD_VIEWPORT)
    } else {
        judged_records(recording)
    }
}

/// A file of an edition, whatever its length and rows.
pub(crate) fn judged_for(bytes: &[u8], edition: Edition, mode: Mode) -> Result<Recording, u32> {
    let recording = sections(bytes, edition).ok_or(BAD_FORM)?;
    if mode.held(recording.viewport).is_none() {
        Err(BAD_VIEWPORT)
    } else {
        judged_records(recording)
    }
}

fn judged_records(recording: Recording) -> Result<Recording, u32> {
    if !good_records(&recording) {
        Err(BAD_RECORD)
    } else if !good_order(&recording) {
        Err(BAD_ORDER)
    } else {
        Ok(recording)
    }
}

/// The counted sections, with nothing missing and nothing left over.
pub(crate) fn sections(bytes: &[u8], edition: Edition) -> Option<Recording> {
    if !bytes.len().is_multiple_of(4) {
        return None;
    }
    let words: Vec<u32> = bytes
        .chunks(4)
        .map(|b| u32::from_le_bytes([b[0], b[1], b[2], b[3]]))
        .collect();
    let mut rest = words.strip_prefix(edition.head())?;
    let (viewport, paints, segments) = (only(&mut rest)?, section(&mut rest)?, section(&mut rest)?);
    let ((draws, draw_panels), (layers, layer_panels)) = match edition {
        Edition::One => (
            (section(&mut rest)?, Vec::new()),
            (section(&mut rest)?, Vec::new()),
        ),
        Edition::Two => (
            with_panels::<8, 7>(&mut rest)?,
            with_panels::<23, 22>(&mut rest)?,
        ),
    };
    let recording = Recording {
        viewport,
        paints,
        segments,
        draws,
        layers,
        nodes: section(&mut rest)?,
        root: only(&mut rest)?,
        draw_panels,
        layer_panels,
    };
    rest.is_empty().then_some(recording)
}

/// A section of records that end in a panel, which is kept apart from the others' words.
fn with_panels<const N: usize, const M: usize>(
    rest: &mut &[u32],
) -> Option<(Vec<[u32; M]>, Vec<u32>)> {
    let parts = |record: [u32; N]| (*record.first_chunk::<M>().expect("its words"), record[M]);
    Some(section::<N>(rest)?.into_iter().map(parts).unzip())
}

/// A count, then that many records of N words.
fn section<const N: usize>(rest: &mut &[u32]) -> Option<Vec<[u32; N]>> {
    let (&count, mut words) = rest.split_first()?;
    if count > MOST_RECORDS {
        return None;
    }
    let mut records = Vec::new();
    for _ in 0..count {
        let (record, more) = words.split_first_chunk::<N>()?;
        records.push(*record);
        words = more;
    }
    *rest = words;
    Some(records)
}

/// A section whose count is fixed at 1.
fn only<const N: usize>(rest: &mut &[u32]) -> Option<[u32; N]> {
    match section(rest)?[..] {
        [record] => Some(record),
        _ => None,
    }
}

/// A viewport that `rowlist` takes: the rows are those of the box that the screen holds.
fn few_rows(viewport: [u32; 4], mode: Mode) -> bool {
    mode.held(viewport)
        .is_some_and(|[_, y0, _, y1]| (y1 - y0) / 4 <= MOST_ROWS)
}

/// Multiples of 4, ends not before starts, all on the scene.
pub(crate) fn good_box([x0, y0, x1, y1]: [u32; 4]) -> bool {
    [x0, y0, x1, y1].iter().all(|edge| edge % 4 == 0)
        && x0 <= x1
        && y0 <= y1
        && x1 <= LAST_PIXEL
        && y1 <= LAST_PIXEL
}

fn good_range(start: u32, end: u32, count: usize) -> bool {
    start <= end && end as usize <= count
}

/// Every record, also one that no walk reaches.
fn good_records(r: &Recording) -> bool {
    r.paints
        .iter()
        .all(|&[flag, handle, _, _]| flag <= 1 && handle < HANDLES)
        && r.segments.iter().all(good_segment)
        && r.draws.iter().all(|draw| good_draw(r, draw))
        && r.layers.iter().all(|layer| good_layer(r, layer))
        && r.nodes.iter().all(|node| good_node(r, node))
        && good_range(r.root[0], r.root[1], r.nodes.len())
        && r.draw_panels.iter().all(|&panel| panel < PANELS)
        && r.layer_panels.iter().all(|&panel| panel < PANELS)
}

pub(crate) fn good_segment(&[kind, row, first, end, alpha]: &[u32; 5]) -> bool {
    kind <= 1
        && row < LAST_TILE
        && first < end
        && end <= LAST_TILE
        && (kind == 1 || alpha == 0)
        && u64::from(alpha) + 16 * u64::from(end - first) < 1 << 32
}

pub(crate) fn good_blend(mix: u32, compose: u32) -> bool {
    mix <= 15 && compose <= 13
}

fn good_draw(r: &Recording, &[thread, start, end, paint, mix, compose, mask]: &[u32; 7]) -> bool {
    thread < THREADS
        && good_range(start, end, r.segments.len())
        && (paint as usize) < r.paints.len()
        && good_blend(mix, compose)
        && mask < HANDLES
}

fn good_layer(r: &Recording, layer: &[u32; 22]) -> bool {
    let &[kind, start, end, mix, compose, _opacity, mask, flag, ..] = layer;
    kind <= 1
        && good_range(start, end, r.nodes.len())
        && good_blend(mix, compose)
        && mask < HANDLES
        && match flag {
            0 => layer[8..15].iter().all(|&word| word == 0),
            1 => good_clip(r, layer),
            _ => false,
        }
        && match kind {
            0 => layer[15..22].iter().all(|&word| word == 0),
            _ => good_placement(layer),
        }
}

fn good_clip(r: &Recording, layer: &[u32; 22]) -> bool {
    let &[.., x0, y0, x1, y1, start, end, thread, _, _, _, _, _, _, _] = layer;
    good_box([x0, y0, x1, y1]) && good_range(start, end, r.segments.len()) && thread < THREADS
}

/// A filter layer's pixmap word: the handle + 1, or 0 where there is none.
pub(crate) fn pixmap(word: u32) -> Option<u32> {
    word.checked_sub(1)
}

fn good_placement(layer: &[u32; 22]) -> bool {
    let &[.., word, x0, y0, x1, y1, source_x, source_y] = layer;
    pixmap(word).is_none_or(|handle| handle < HANDLES)
        && good_dest([x0, y0, x1, y1])
        && source_x <= LAST_PIXEL
        && source_y <= LAST_PIXEL
}

/// As a clip box, but with y free.
pub(crate) fn good_dest([x0, y0, x1, y1]: [u32; 4]) -> bool {
    x0 % 4 == 0 && x1 % 4 == 0 && x0 <= x1 && x1 <= LAST_PIXEL && y0 <= y1 && y1 <= LAST_PIXEL
}

fn good_node(r: &Recording, &[start, end, layer]: &[u32; 3]) -> bool {
    good_range(start, end, r.draws.len()) && layer as usize <= r.layers.len()
}

/// A draw's list and a present clip's list, each by itself.
pub(crate) fn good_order(r: &Recording) -> bool {
    let ordered = |start: u32, end: u32| {
        r.segments[start as usize..end as usize]
            .windows(2)
            .all(in_order)
    };
    r.draws.iter().all(|draw| ordered(draw[1], draw[2]))
        && r.layers
            .iter()
            .all(|layer| layer[7] == 0 || ordered(layer[12], layer[13]))
}

/// By row, then by tiles without overlap; touching is fine.
pub(crate) fn in_order(pair: &[[u32; 5]]) -> bool {
    let ([_, row, _, end, _], [_, next_row, next_first, _, _]) = (pair[0], pair[1]);
    row < next_row || (row == next_row && end <= next_first)
}
