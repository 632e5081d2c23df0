//! Many fills in one list.

use crate::input::RecordedFill;
use alloc::vec::Vec;

/// Fills in the form in which many of them cross at once: eight words each, as `include/coarse.h` has them.
///
/// ```
/// use coarse::{CommandBucketer, FillList, Paint, RecordedFill, Segment, Setup};
///
/// // A page of three lines, of which the second is typed again.
/// let lines: FillList = (0..3).map(|i| RecordedFill { start: i, end: i + 1, ..RecordedFill::default() }).collect();
/// let segments = [Segment::solid(0, 0, 64), Segment::solid(1, 0, 64), Segment::solid(2, 0, 64)];
/// let mut screen = CommandBucketer::from_wh(256, 12, Setup::new(64, 64))?;
/// screen.generate_fill_list(&[Paint::new(true, 1)], &segments, &lines, 0..lines.len())?;
/// screen.generate_fill_list(&[Paint::new(true, 1)], &segments, &lines, 1..2)?;
/// assert_eq!(screen.paint_attrs().len(), 4);
/// # Ok::<(), Box<dyn std::error::Error>>(())
/// ```
#[derive(Debug, Clone, Default, PartialEq, Eq)]
pub struct FillList {
    words: Vec<[u32; 8]>,
}

impl FillList {
    /// A list without fills.
    #[must_use]
    pub fn new() -> Self {
        Self::default()
    }

    /// One more fill at the end.
    pub fn push(&mut self, fill: &RecordedFill) {
        self.words.push(draw_words(fill));
    }

    /// No fills any more; the memory is kept.
    pub fn clear(&mut self) {
        self.words.clear();
    }

    /// How many fills there are.
    #[must_use]
    pub fn len(&self) -> usize {
        self.words.len()
    }

    /// Whether there is none.
    #[must_use]
    pub fn is_empty(&self) -> bool {
        self.words.is_empty()
    }

    pub(crate) fn words(&self) -> &[u32] {
        self.words.as_flattened()
    }
}

impl<'a> FromIterator<&'a RecordedFill> for FillList {
    fn from_iter<I: IntoIterator<Item = &'a RecordedFill>>(fills: I) -> Self {
        Self {
            words: fills.into_iter().map(draw_words).collect(),
        }
    }
}

impl FromIterator<RecordedFill> for FillList {
    fn from_iter<I: IntoIterator<Item = RecordedFill>>(fills: I) -> Self {
        Self {
            words: fills.into_iter().map(|fill| draw_words(&fill)).collect(),
        }
    }
}

impl Extend<RecordedFill> for FillList {
    fn extend<I: IntoIterator<Item = RecordedFill>>(&mut self, fills: I) {
        self.words
            .extend(fills.into_iter().map(|fill| draw_words(&fill)));
    }
}

/// A place of a list as a word; one that no word holds is past the end of any list, and so is the largest word.
fn place(place: usize) -> u32 {
    u32::try_from(place).unwrap_or(u32::MAX)
}

fn draw_words(fill: &RecordedFill) -> [u32; 8] {
    [
        fill.thread_idx,
        place(fill.start),
        place(fill.end),
        fill.paint,
        fill.blend_mode.mix,
        fill.blend_mode.compose,
        fill.mask,
        fill.panel,
    ]
}
