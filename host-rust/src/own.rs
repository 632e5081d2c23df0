//! Rows painted side by side: each on its own words.

use crate::answer::Answer;
use crate::bucketer::Tables;
use crate::canvas::{words_mut, Piece};
use crate::sys;
use alloc::vec::Vec;
use core::iter::FusedIterator;
use core::ops::Range;
use core::slice::from_raw_parts_mut;

/// One row of a screen that is being painted: its own words, which no other row has. So rows may be painted by several threads at once, as
/// [`OwnRows`] hands them out, each into a list of its own.
#[derive(Debug)]
pub struct OwnRow<'a> {
    number: usize,
    state: &'a sys::StateWords,
    record: &'a [u32],
    render_cmds: &'a [u32],
    depth_cmds: &'a [u32],
    paint_attrs: &'a [u32],
    layer_attrs: &'a [u32],
    depth: &'a mut [u32],
    minima: &'a mut [u32],
    painting: &'a mut [u32],
}

impl OwnRow<'_> {
    /// The row's number, from the top of the screen.
    #[must_use]
    pub fn number(&self) -> usize {
        self.number
    }

    /// Its depth words, one for each bucket: the id of the newest depth fill that is painted there, or 0.
    #[must_use]
    pub fn depth_words(&self) -> &[u32] {
        self.depth
    }

    /// All pieces of the row, in tiles of that row, from where it stands to its end: as [`CommandBucketer::paint_row`](crate::CommandBucketer::paint_row). They stand at the start of the list, which
    /// is made longer where it has too little room for them.
    ///
    /// # Errors
    /// Of a row of a screen that is drawn by this crate, none.
    pub fn paint<'l>(&mut self, list: &'l mut Vec<Piece>) -> Result<&'l [Piece], Answer> {
        // One step has a piece for each second bucket at most.
        let step = self.depth.len() + 1;
        let mut count = 0;
        // Each call has room for one step at least, and a row has at most c + d.
        for _ in 0..=self.state.c + self.state.d {
            if list.len() < count + step {
                list.resize(2 * (count + step), Piece::default());
            }
            let (finished, pieces) = self.paint_on(list.get_mut(count..).unwrap_or_default())?;
            count += pieces;
            if finished {
                return Ok(list.get(..count).unwrap_or_default());
            }
        }
        Err(Answer::NoRoom)
    }

    /// The row's steps as far as the list has room: whether it has come to its end, and how many pieces.
    pub(crate) fn paint_on(&mut self, list: &mut [Piece]) -> Result<(bool, usize), Answer> {
        let own = sys::StoredWords {
            rows: sys::Read::of(self.record),
            render_cmds: sys::Read::of(self.render_cmds),
            depth_cmds: sys::Read::of(self.depth_cmds),
            paint_attrs: sys::Read::of(self.paint_attrs),
            layer_attrs: sys::Read::of(self.layer_attrs),
        };
        let mut canvas = sys::CanvasWords {
            depth: sys::Lent::of(self.depth),
            minima: sys::Lent::of(self.minima),
            painting: sys::Lent::of(self.painting),
        };
        let (list, list_len) = words_mut(list);
        let mut painted = sys::PaintedWords::default();
        Answer::check(unsafe {
            sys::coarse_paint_own_row(self.state, &own, &mut canvas, list, list_len, &mut painted)
        })?;
        Ok((painted.finished == 1, painted.pieces))
    }
}

/// The rows of a screen, from the top, each to be painted by itself: [`CommandBucketer::own_rows`](crate::CommandBucketer::own_rows),
/// [`Canvas::own_rows`](crate::Canvas::own_rows). No two of
/// them share a word that is written, so each may go to another thread.
///
/// ```
/// use coarse::{CommandBucketer, Paint, RecordedFill, Segment, Setup};
///
/// let mut screen = CommandBucketer::from_wh(256, 8, Setup::new(64, 64))?;
/// let fill = RecordedFill { start: 0, end: 2, ..RecordedFill::default() };
/// let segments = [Segment::solid(0, 2, 8), Segment::solid(1, 4, 6)];
/// screen.generate_fill(&[Paint::new(true, 1)], &segments, &fill)?;
/// screen.begin_painting()?;
///
/// let rows = screen.own_rows()?;
/// let pieces = std::thread::scope(|threads| {
///     let rows: Vec<_> = rows
///         .map(|mut row| threads.spawn(move || row.paint(&mut Vec::new()).map(<[_]>::len)))
///         .collect();
///     rows.into_iter().map(|row| row.join().unwrap()).sum::<Result<usize, _>>()
/// })?;
/// assert_eq!(pieces, 2);
/// # Ok::<(), coarse::Answer>(())
/// ```
#[derive(Debug)]
pub struct OwnRows<'a> {
    state: &'a sys::StateWords,
    paint_attrs: &'a [u32],
    layer_attrs: &'a [u32],
    /// Which rows are left, and the words of those.
    left: Range<usize>,
    records: &'a [u32],
    render_cmds: &'a [u32],
    depth_cmds: &'a [u32],
    depth: &'a mut [u32],
    minima: &'a mut [u32],
    painting: &'a mut [u32],
}

impl<'a> OwnRows<'a> {
    /// So many rows of a screen, by the words of a canvas.
    ///
    /// # Safety
    /// Nothing else reads or writes the words that the canvas' pointers lead to, as long as a row is there.
    pub(crate) unsafe fn of(
        state: &'a sys::StateWords,
        tables: &'a Tables,
        canvas: sys::CanvasWords,
        count: usize,
    ) -> Self {
        let words = |lent: sys::Lent<u32>| from_raw_parts_mut(lent.at, lent.len);
        Self {
            state,
            paint_attrs: &tables.paint_attrs,
            layer_attrs: &tables.layer_attrs,
            left: 0..count,
            records: &tables.rows,
            render_cmds: &tables.render_cmds,
            depth_cmds: &tables.depth_cmds,
            depth: words(canvas.depth),
            minima: words(canvas.minima),
            painting: words(canvas.painting),
        }
    }
}

/// The first row's words of so many rows'; those of the others are left.
fn first<'a>(words: &mut &'a [u32], rows: usize) -> &'a [u32] {
    let each = words.len() / rows;
    words.split_off(..each).unwrap_or_default()
}

/// .. of words that are written.
fn first_mut<'a>(words: &mut &'a mut [u32], rows: usize) -> &'a mut [u32] {
    let each = words.len() / rows;
    words.split_off_mut(..each).unwrap_or_default()
}

impl<'a> Iterator for OwnRows<'a> {
    type Item = OwnRow<'a>;

    fn next(&mut self) -> Option<OwnRow<'a>> {
        let rows = self.left.len();
        let number = self.left.next()?;
        Some(OwnRow {
            number,
            state: self.state,
            record: first(&mut self.records, rows),
            render_cmds: first(&mut self.render_cmds, rows),
            depth_cmds: first(&mut self.depth_cmds, rows),
            paint_attrs: self.paint_attrs,
            layer_attrs: self.layer_attrs,
            depth: first_mut(&mut self.depth, rows),
            minima: first_mut(&mut self.minima, rows),
            painting: first_mut(&mut self.painting, rows),
        })
    }

    fn size_hint(&self) -> (usize, Option<usize>) {
        self.left.size_hint()
    }
}

impl ExactSizeIterator for OwnRows<'_> {}
impl FusedIterator for OwnRows<'_> {}
