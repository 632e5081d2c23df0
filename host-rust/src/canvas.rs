//! Painting: a row's pieces, and the depth words that decide which are shown.

use crate::answer::Answer;
use crate::bucketer::CommandBucketer;
use crate::own::OwnRows;
use crate::stored::{BucketRange, Progress, TileSpan};
use crate::sys;
use alloc::vec::Vec;
use core::fmt;
use core::mem::size_of_val;
use core::ops::{Deref, Range};

/// What tiles of a row of the screen receive in one painting step.
#[derive(Debug, Clone, Copy, PartialEq, Eq, Hash, Default)]
#[repr(C)]
#[non_exhaustive]
pub struct Piece {
    /// 1 paint solid, 2 paint alpha, 3 layer solid, 4 layer alpha.
    pub tag: u32,
    /// The attribute's place, among [`CommandBucketer::layer_attrs`] where [`is_layer`](Self::is_layer), else among
    /// [`CommandBucketer::paint_attrs`].
    pub attrs_idx: u32,
    /// The first tile.
    pub first: u32,
    /// The tile after the last.
    pub end: u32,
    /// The index of the first tile's alphas; 0 where the piece is solid.
    pub alpha: u32,
    /// How many layers' buffers are open there: the piece is of the innermost.
    pub nesting: u32,
    /// Its attribute's.
    pub panel: u32,
}

impl Piece {
    /// Whether it composites a layer's buffer; else it is a paint's.
    #[must_use]
    pub fn is_layer(self) -> bool {
        self.tag >= 3
    }

    /// The index of the first tile's alphas, of which a tile has 16; `None` where every pixel is covered.
    #[must_use]
    pub fn alpha_idx(self) -> Option<u32> {
        (self.tag & 1 == 0).then_some(self.alpha)
    }

    /// Its tiles.
    #[must_use]
    pub fn span(self) -> TileSpan {
        TileSpan {
            first: self.first,
            end: self.end,
        }
    }

    /// Whether the tile is one of them.
    #[must_use]
    pub fn covers(self, tile: u32) -> bool {
        self.first <= tile && tile < self.end
    }
}

/// A record of `repr(C)` with 32-bit fields alone.
///
/// # Safety
/// The type has no padding, and any words are a value of it.
pub(crate) unsafe trait Words: Copy + Default {}

// Each has 32-bit integers alone.
unsafe impl Words for TileSpan {}
unsafe impl Words for BucketRange {}
unsafe impl Words for Piece {}

pub(crate) fn words_mut<T: Words>(records: &mut [T]) -> (*mut u32, usize) {
    (records.as_mut_ptr().cast(), size_of_val(records) / 4)
}

/// The words of a row's painting: steps done, and nesting.
const PAINTING: usize = 2;

/// The most rows of a screen.
const MOST_ROWS: usize = 512;

/// The most runs that a row has: each second of 64 buckets.
const MOST_RUNS: usize = 32;

/// Runs of tiles or of buckets, from left to right: a slice of its own, which borrows nothing.
#[derive(Clone, Copy)]
pub struct Runs<T> {
    list: [T; MOST_RUNS],
    count: usize,
}

impl<T> Deref for Runs<T> {
    type Target = [T];

    fn deref(&self) -> &[T] {
        self.list.get(..self.count).unwrap_or_default()
    }
}

impl<T: fmt::Debug> fmt::Debug for Runs<T> {
    fn fmt(&self, f: &mut fmt::Formatter<'_>) -> fmt::Result {
        self.deref().fmt(f)
    }
}

impl<T: PartialEq> PartialEq for Runs<T> {
    fn eq(&self, other: &Self) -> bool {
        **self == **other
    }
}

impl<T: PartialEq, const N: usize> PartialEq<[T; N]> for Runs<T> {
    fn eq(&self, other: &[T; N]) -> bool {
        **self == other[..]
    }
}

impl<T: Copy> IntoIterator for Runs<T> {
    type Item = T;
    type IntoIter = core::iter::Take<core::array::IntoIter<T, MOST_RUNS>>;

    fn into_iter(self) -> Self::IntoIter {
        self.list.into_iter().take(self.count)
    }
}

/// The runs that a call lists and counts.
fn listed<T: Words>(
    call: impl FnOnce(*mut u32, usize, &mut usize) -> u32,
) -> Result<Runs<T>, Answer> {
    let mut runs = Runs {
        list: [T::default(); MOST_RUNS],
        count: 0,
    };
    let (list, list_len) = words_mut(&mut runs.list);
    Answer::check(call(list, list_len, &mut runs.count))?;
    Ok(runs)
}

/// The pieces of rows that are painted by one call: those of each row, one row after the other.
#[derive(Debug, Clone)]
pub struct PaintedRows<'a> {
    pieces: &'a [Piece],
    ends: core::slice::Iter<'a, usize>,
    first: usize,
}

impl<'a> Iterator for PaintedRows<'a> {
    type Item = &'a [Piece];

    #[inline]
    fn next(&mut self) -> Option<&'a [Piece]> {
        let end = *self.ends.next()?;
        let pieces = self.pieces.get(self.first..end).unwrap_or_default();
        self.first = end;
        Some(pieces)
    }

    fn size_hint(&self) -> (usize, Option<usize>) {
        self.ends.size_hint()
    }
}

impl ExactSizeIterator for PaintedRows<'_> {}

/// What paints a screen: where the words lie that painting writes, and the list that a call's pieces stand in.
#[derive(Debug, Clone)]
pub(crate) struct Brush {
    pub(crate) words: sys::CanvasWords,
    pieces: Vec<Piece>,
    /// Where the pieces of each row end, in the last call for rows.
    ends: Vec<usize>,
    /// How many pieces one step has at most: one for each run of a row, and fewer than this.
    step: usize,
    /// What the last painting call gave.
    painted: sys::PaintedWords,
}

impl Brush {
    pub(crate) fn new(words: sys::CanvasWords, buckets: usize) -> Self {
        let mut brush = Self {
            words,
            pieces: Vec::new(),
            ends: Vec::new(),
            step: 0,
            painted: sys::PaintedWords::default(),
        };
        brush.make_room(buckets);
        brush
    }

    /// The same over other words.
    pub(crate) fn over(&self, words: sys::CanvasWords) -> Self {
        Self {
            words,
            ..self.clone()
        }
    }

    /// Room for every run that a row of so many buckets can have.
    pub(crate) fn make_room(&mut self, buckets: usize) {
        self.step = buckets + 1;
        self.pieces.resize(self.step, Piece::default());
    }

    /// A row's step or steps into the list from piece `at` on: whether the row has come to its end, and how many pieces.
    #[inline]
    pub(crate) fn paint_on(
        &mut self,
        call: sys::Paint,
        state: &sys::StateWords,
        stored: &sys::StoredWords,
        row: usize,
        at: usize,
    ) -> Result<(bool, usize), Answer> {
        let (list, list_len) = words_mut(self.pieces.get_mut(at..).unwrap_or_default());
        Answer::check(unsafe {
            call(
                state,
                stored,
                &mut self.words,
                row,
                list,
                list_len,
                &mut self.painted,
            )
        })?;
        Ok((self.painted.finished == 1, self.painted.pieces))
    }

    #[inline]
    pub(crate) fn paint_step(
        &mut self,
        state: &sys::StateWords,
        stored: &sys::StoredWords,
        row: usize,
    ) -> Result<Option<&[Piece]>, Answer> {
        let (finished, count) = self.paint_on(sys::coarse_paint_step, state, stored, row, 0)?;
        Ok(if finished {
            None
        } else {
            self.pieces.get(..count)
        })
    }

    #[inline]
    pub(crate) fn paint_row(
        &mut self,
        state: &sys::StateWords,
        stored: &sys::StoredWords,
        row: usize,
    ) -> Result<&[Piece], Answer> {
        let count = match self.paint_on(sys::coarse_paint_row, state, stored, row, 0) {
            Ok((true, count)) => count,
            Ok((false, count)) => self.paint_more(state, stored, row, count)?,
            Err(Answer::NoRoom) => self.paint_more(state, stored, row, 0)?,
            Err(refused) => return Err(refused),
        };
        Ok(self.pieces.get(..count).unwrap_or_default())
    }

    /// The rest of a row, in a longer list: how many pieces are listed in all.
    #[cold]
    fn paint_more(
        &mut self,
        state: &sys::StateWords,
        stored: &sys::StoredWords,
        row: usize,
        mut count: usize,
    ) -> Result<usize, Answer> {
        // Each call has room for one step at least, and a row has at most c + d.
        for _ in 0..=state.c + state.d {
            if self.pieces.len() < count + self.step {
                self.pieces
                    .resize(2 * (count + self.step), Piece::default());
            }
            let (finished, pieces) =
                self.paint_on(sys::coarse_paint_row, state, stored, row, count)?;
            count += pieces;
            if finished {
                return Ok(count);
            }
        }
        Err(Answer::NoRoom)
    }

    /// Rows into the list from piece `at` on, and their ends into the ends from the `done`th on.
    #[inline]
    pub(crate) fn paint_rows_on(
        &mut self,
        state: &sys::StateWords,
        stored: &sys::StoredWords,
        rows: Range<usize>,
        done: usize,
        at: usize,
    ) -> (Result<(), Answer>, sys::PaintedRowsWords) {
        let (list, list_len) = words_mut(self.pieces.get_mut(at..).unwrap_or_default());
        let ends = self.ends.get_mut(done..).unwrap_or_default();
        let mut painted = sys::PaintedRowsWords::default();
        let answer = Answer::check(unsafe {
            sys::coarse_paint_rows(
                state,
                stored,
                &mut self.words,
                rows.start,
                rows.end,
                list,
                list_len,
                ends.as_mut_ptr(),
                ends.len(),
                &mut painted,
            )
        });
        (answer, painted)
    }

    #[inline]
    pub(crate) fn paint_rows(
        &mut self,
        state: &sys::StateWords,
        stored: &sys::StoredWords,
        rows: Range<usize>,
    ) -> Result<PaintedRows<'_>, Answer> {
        let asked = rows.len().min(MOST_ROWS);
        if self.ends.len() < asked {
            self.ends.resize(asked, 0);
        }
        let (answer, painted) = self.paint_rows_on(state, stored, rows.clone(), 0, 0);
        match answer {
            Ok(()) => {}
            Err(Answer::NoRoom) => self.paint_more_rows(state, stored, rows, painted)?,
            Err(refused) => return Err(refused),
        }
        Ok(PaintedRows {
            pieces: &self.pieces,
            ends: self.ends.get(..asked).unwrap_or_default().iter(),
            first: 0,
        })
    }

    /// The rest of the rows, in a longer list.
    #[cold]
    fn paint_more_rows(
        &mut self,
        state: &sys::StateWords,
        stored: &sys::StoredWords,
        rows: Range<usize>,
        so_far: sys::PaintedRowsWords,
    ) -> Result<(), Answer> {
        let sys::PaintedRowsWords {
            rows: mut done,
            pieces: mut count,
        } = so_far;
        // A call that finds room for a step does that step.
        while self.pieces.len() < count + self.step {
            self.pieces
                .resize(2 * (count + self.step), Piece::default());
            let left = rows.start + done..rows.end;
            let (answer, painted) = self.paint_rows_on(state, stored, left, done, count);
            for end in self.ends.iter_mut().skip(done).take(painted.rows) {
                *end += count;
            }
            done += painted.rows;
            count += painted.pieces;
            if answer != Err(Answer::NoRoom) {
                return answer;
            }
        }
        Err(Answer::NoRoom)
    }

    pub(crate) fn progress(&self, state: &sys::StateWords, row: usize) -> Result<Progress, Answer> {
        let mut told = sys::ProgressWords::default();
        Answer::check(unsafe { sys::coarse_progress(state, &self.words, row, &mut told) })?;
        let sys::ProgressWords { steps, nesting } = told;
        Ok(Progress { steps, nesting })
    }

    pub(crate) fn unset_runs(
        &self,
        state: &sys::StateWords,
        row: usize,
        tiles: TileSpan,
    ) -> Result<Runs<TileSpan>, Answer> {
        listed(|list, list_len, count| unsafe {
            sys::coarse_unset_runs(state, &self.words, row, tiles, list, list_len, count)
        })
    }

    pub(crate) fn visible_runs(
        &self,
        state: &sys::StateWords,
        row: usize,
        tiles: TileSpan,
        id: u32,
    ) -> Result<Runs<TileSpan>, Answer> {
        listed(|list, list_len, count| unsafe {
            sys::coarse_visible_runs(state, &self.words, row, tiles, id, list, list_len, count)
        })
    }

    pub(crate) fn visible_spans(
        &self,
        state: &sys::StateWords,
        row: usize,
        tiles: TileSpan,
        id: u32,
        list: &mut [TileSpan],
    ) -> Result<usize, Answer> {
        let mut count = 0;
        Answer::check(unsafe {
            sys::coarse_visible_spans(
                state,
                &self.words,
                row,
                tiles,
                id,
                list.as_mut_ptr(),
                list.len(),
                &mut count,
            )
        })?;
        Ok(count)
    }

    pub(crate) fn unset_runs_and_write(
        &mut self,
        state: &mut sys::StateWords,
        row: usize,
        buckets: BucketRange,
        id: u32,
    ) -> Result<Runs<BucketRange>, Answer> {
        let BucketRange { first, end } = buckets;
        let span = TileSpan { first, end };
        listed(|list, list_len, count| unsafe {
            sys::coarse_unset_runs_and_write(
                state,
                &mut self.words,
                row,
                span,
                id,
                list,
                list_len,
                count,
            )
        })
    }

    pub(crate) fn is_hidden(
        &self,
        state: &sys::StateWords,
        row: usize,
        buckets: BucketRange,
        id: u32,
    ) -> Result<bool, Answer> {
        let BucketRange { first, end } = buckets;
        let sys::Read { at, len } = self.words.minima.read();
        let mut yes = 0;
        Answer::check(unsafe {
            sys::coarse_is_hidden(state, at, len, row, TileSpan { first, end }, id, &mut yes)
        })?;
        Ok(yes == 1)
    }

    #[cfg(test)]
    pub(crate) fn pieces(&mut self) -> &mut Vec<Piece> {
        &mut self.pieces
    }

    #[cfg(test)]
    pub(crate) fn ends(&mut self) -> &mut Vec<usize> {
        &mut self.ends
    }
}

/// What one thread writes while it paints a screen: depth words with their minima, and how far each row is painted. A [`CommandBucketer`] has one of its own; with
/// others, which [`CommandBucketer::canvas`] makes once painting has begun, several threads paint one screen. Each paints the rows that it likes, and
/// none knows of the others.
///
/// ```
/// use coarse::{CommandBucketer, Paint, RecordedFill, Segment, Setup};
///
/// let mut screen = CommandBucketer::from_wh(256, 8, Setup::new(64, 64))?;
/// let fill = RecordedFill { start: 0, end: 2, ..RecordedFill::default() };
/// let segments = [Segment::solid(0, 2, 8), Segment::solid(1, 4, 6)];
/// screen.generate_fill(&[Paint::new(true, 1)], &segments, &fill)?;
/// screen.begin_painting()?;
///
/// let screen = &screen;
/// let pieces = std::thread::scope(|threads| {
///     let rows: Vec<_> = (0..2)
///         .map(|row| threads.spawn(move || screen.canvas()?.paint_row(screen, row).map(<[_]>::len)))
///         .collect();
///     rows.into_iter().map(|row| row.join().unwrap()).sum::<Result<usize, _>>()
/// })?;
/// assert_eq!(pieces, 2);
/// # Ok::<(), coarse::Answer>(())
/// ```
#[derive(Debug)]
pub struct Canvas {
    depth: Vec<u32>,
    minima: Vec<u32>,
    painting: Vec<u32>,
    brush: Brush,
    /// The number of the beginning that it belongs to, or 0.
    begun: u64,
}

// The pointers lead to vectors of its own, which are written through `&mut` alone.
unsafe impl Send for Canvas {}
unsafe impl Sync for Canvas {}

impl Clone for Canvas {
    fn clone(&self) -> Self {
        let mut depth = self.depth.clone();
        let mut minima = self.minima.clone();
        let mut painting = self.painting.clone();
        let words = sys::CanvasWords {
            depth: sys::Lent::of(&mut depth),
            minima: sys::Lent::of(&mut minima),
            painting: sys::Lent::of(&mut painting),
        };
        Self {
            depth,
            minima,
            painting,
            brush: self.brush.over(words),
            begun: self.begun,
        }
    }
}

impl Canvas {
    /// A canvas of a screen whose painting has begun, at the first step of every row. The same as [`CommandBucketer::canvas`].
    ///
    /// # Errors
    /// [`Answer::Open`] where painting has not begun.
    pub fn new(screen: &CommandBucketer) -> Result<Self, Answer> {
        let (mut depth, mut minima, mut painting) = (Vec::new(), Vec::new(), Vec::new());
        let words = sys::CanvasWords {
            depth: sys::Lent::of(&mut depth),
            minima: sys::Lent::of(&mut minima),
            painting: sys::Lent::of(&mut painting),
        };
        let mut canvas = Self {
            depth,
            minima,
            painting,
            brush: Brush::new(words, 0),
            begun: 0,
        };
        canvas.begin(screen)?;
        Ok(canvas)
    }

    /// Sets it to the first step of every row of a screen whose painting has begun, and clears its depth words. Its room is kept where it suffices.
    ///
    /// # Errors
    /// [`Answer::Open`] where painting has not begun; nothing changes then.
    pub fn begin(&mut self, screen: &CommandBucketer) -> Result<(), Answer> {
        let mut state = *screen.state();
        if state.painting != 1 {
            return Err(Answer::Open);
        }
        let rows = screen.rows().len();
        self.depth.resize(rows * screen.buckets(), 0);
        self.minima.resize(screen.minima().len(), 0);
        self.painting.resize(rows * PAINTING, 0);
        self.brush.words = sys::CanvasWords {
            depth: sys::Lent::of(&mut self.depth),
            minima: sys::Lent::of(&mut self.minima),
            painting: sys::Lent::of(&mut self.painting),
        };
        self.brush.make_room(screen.buckets());
        self.begun = 0;
        Answer::check(unsafe { sys::coarse_begin_painting(&mut state, &mut self.brush.words) })?;
        self.begun = screen.begun();
        Ok(())
    }

    /// Whether it belongs to the painting of this screen, as it stands.
    fn belongs(&self, screen: &CommandBucketer) -> Result<(), Answer> {
        if self.begun == screen.begun() && screen.is_painting() {
            Ok(())
        } else {
            Err(Answer::Open)
        }
    }

    /// As [`CommandBucketer::paint_step`], on this canvas.
    ///
    /// # Errors
    /// [`Answer::Open`] where the screen has changed since the canvas was begun, or it is another's. [`Answer::BadRun`] for no such row.
    pub fn paint_step(
        &mut self,
        screen: &CommandBucketer,
        row: usize,
    ) -> Result<Option<&[Piece]>, Answer> {
        self.belongs(screen)?;
        self.brush.paint_step(screen.state(), screen.stored(), row)
    }

    /// As [`CommandBucketer::paint_row`], on this canvas.
    ///
    /// # Errors
    /// As [`paint_step`](Self::paint_step).
    pub fn paint_row(&mut self, screen: &CommandBucketer, row: usize) -> Result<&[Piece], Answer> {
        self.belongs(screen)?;
        self.brush.paint_row(screen.state(), screen.stored(), row)
    }

    /// As [`CommandBucketer::paint_rows`], on this canvas.
    ///
    /// # Errors
    /// As [`paint_step`](Self::paint_step); [`Answer::BadRun`] for no range of the screen's rows.
    pub fn paint_rows(
        &mut self,
        screen: &CommandBucketer,
        rows: Range<usize>,
    ) -> Result<PaintedRows<'_>, Answer> {
        self.belongs(screen)?;
        self.brush.paint_rows(screen.state(), screen.stored(), rows)
    }

    /// As [`CommandBucketer::own_rows`], on this canvas.
    ///
    /// # Errors
    /// [`Answer::Open`] where the screen has changed since the canvas was begun, or it is another's.
    pub fn own_rows<'a>(&'a mut self, screen: &'a CommandBucketer) -> Result<OwnRows<'a>, Answer> {
        self.belongs(screen)?;
        let rows = screen.rows().len();
        // The words are the canvas' own, which the rows borrow whole.
        Ok(unsafe { OwnRows::of(screen.state(), screen.tables(), self.brush.words, rows) })
    }

    /// As [`CommandBucketer::progress`], on this canvas.
    ///
    /// # Errors
    /// As [`paint_step`](Self::paint_step).
    pub fn progress(&self, screen: &CommandBucketer, row: usize) -> Result<Progress, Answer> {
        self.belongs(screen)?;
        self.brush.progress(screen.state(), row)
    }

    /// As [`CommandBucketer::unset_runs`], on this canvas.
    ///
    /// # Errors
    /// As [`progress`](Self::progress); [`Answer::BadRun`] also for no range.
    pub fn unset_runs(
        &self,
        screen: &CommandBucketer,
        row: usize,
        first: u32,
        end: u32,
    ) -> Result<Runs<TileSpan>, Answer> {
        self.belongs(screen)?;
        self.brush
            .unset_runs(screen.state(), row, TileSpan { first, end })
    }

    /// As [`CommandBucketer::visible_runs`], on this canvas.
    ///
    /// # Errors
    /// As [`unset_runs`](Self::unset_runs).
    pub fn visible_runs(
        &self,
        screen: &CommandBucketer,
        row: usize,
        first: u32,
        end: u32,
        draw_id: u32,
    ) -> Result<Runs<TileSpan>, Answer> {
        self.belongs(screen)?;
        self.brush
            .visible_runs(screen.state(), row, TileSpan { first, end }, draw_id)
    }

    /// As [`CommandBucketer::unset_runs_and_write`], on this canvas: its painting alone ends.
    ///
    /// # Errors
    /// As [`unset_runs`](Self::unset_runs); [`Answer::BadRun`] also for id 0.
    pub fn unset_runs_and_write(
        &mut self,
        screen: &CommandBucketer,
        row: usize,
        first: u32,
        end: u32,
        draw_id: u32,
    ) -> Result<Runs<BucketRange>, Answer> {
        self.belongs(screen)?;
        let mut state = *screen.state();
        let range = BucketRange { first, end };
        let runs = self
            .brush
            .unset_runs_and_write(&mut state, row, range, draw_id)?;
        self.begun = 0;
        Ok(runs)
    }

    /// As [`CommandBucketer::is_hidden`], on this canvas.
    ///
    /// # Errors
    /// As [`progress`](Self::progress); [`Answer::BadRun`] also for no range or an end past the row's buckets.
    pub fn is_hidden(
        &self,
        screen: &CommandBucketer,
        row: usize,
        first: u32,
        end: u32,
        draw_id: u32,
    ) -> Result<bool, Answer> {
        self.belongs(screen)?;
        self.brush
            .is_hidden(screen.state(), row, BucketRange { first, end }, draw_id)
    }

    /// All depth words, a word for each bucket, row after row of the screen: the id of the newest depth fill that is painted there, or 0.
    #[must_use]
    pub fn depth_words(&self) -> &[u32] {
        &self.depth
    }
}
