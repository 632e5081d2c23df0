//! A screen that owns its tables.

use crate::answer::{Answer, Stopped};
use crate::canvas::{Brush, Canvas, PaintedRows, Piece, Runs};
use crate::fills::FillList;
use crate::input::{
    Edition, FilterLayerPlacement, LayerProps, Paint, RecordedFill, Rect, Segment, Setup, Width,
};
use crate::own::OwnRows;
use crate::reason::{Attribute, Reason};
use crate::stored::{
    BucketRange, DepthSegment, FilterPaint, LayerFillAttrs, OpenLayer, PaintFillAttrs, Progress,
    Row, Rows, TileSpan,
};
use crate::{sys, version};
use alloc::vec;
use alloc::vec::Vec;
use core::mem::size_of_val;
use core::ops::Range;
use core::sync::atomic::{AtomicU64, Ordering};

/// The words of one record of a table, as `include/coarse.h` has them.
pub(crate) const PAINT_ATTR: usize = 9;
pub(crate) const LAYER_ATTR: usize = 7;
pub(crate) const FILTER_PAINT: usize = 4;
pub(crate) const OPEN_LAYER: usize = 17;

/// The most layers open at once. Their opacities stand before those of the layer attributes.
pub(crate) const MOST_LAYERS: usize = 16;

/// A record of `repr(C)` with 32-bit fields alone, as words.
fn paint_words(paints: &[Paint]) -> (*const u32, usize) {
    (paints.as_ptr().cast(), size_of_val(paints) / 4)
}

fn segment_words(segments: &[Segment]) -> (*const u32, usize) {
    (segments.as_ptr().cast(), size_of_val(segments) / 4)
}

pub(crate) fn sizes(viewport: Rect, setup: Setup) -> Result<sys::Lengths, Answer> {
    let mut sizes = sys::Lengths::default();
    Answer::check(unsafe { sys::coarse_sizes(viewport.into(), setup.into(), &mut sizes) })?;
    Ok(sizes)
}

/// A recording's viewport: it stands after its count, and in edition two after two words more.
pub(crate) fn viewport_of(edition: Edition, file: &[u32]) -> Option<Rect> {
    match (edition, file) {
        (Edition::One, [_, x0, y0, x1, y1, ..]) | (Edition::Two, [_, _, _, x0, y0, x1, y1, ..]) => {
            Some(Rect::new(*x0, *y0, *x1, *y1))
        }
        _ => None,
    }
}

/// Rule 7: the parts of an opaque span, the tiles `first` to `end` of a row of the screen, over buckets of a width, from left to right: a regular
/// piece, whole buckets, a regular piece, without those that are empty.
///
/// ```
/// use coarse::{split_opaque_span, BucketRange, DepthSegment, TileSpan, Width};
///
/// let parts = split_opaque_span(10, 100, Width::W128)?;
/// assert_eq!(
///     parts.into_iter().collect::<Vec<_>>(),
///     [
///         DepthSegment::Regular(TileSpan::new(10, 32)),
///         DepthSegment::Opaque(BucketRange::new(1, 3)),
///         DepthSegment::Regular(TileSpan::new(96, 100)),
///     ]
/// );
/// # Ok::<(), coarse::Answer>(())
/// ```
///
/// # Errors
/// [`Answer::BadRun`] where the end is before the first tile or above 8,192.
pub fn split_opaque_span(first: u32, end: u32, width: Width) -> Result<Vec<DepthSegment>, Answer> {
    version::compare();
    let mut parts = sys::SplitWords::default();
    Answer::check(unsafe {
        sys::coarse_split_opaque_span(TileSpan { first, end }, width as u32, &mut parts)
    })?;
    let sys::SplitWords {
        left,
        middle,
        right,
    } = parts;
    Ok([left, middle, right]
        .into_iter()
        .filter_map(|sys::PartWords { kind, first, end }| match kind {
            1 => Some(DepthSegment::Regular(TileSpan { first, end })),
            2 => Some(DepthSegment::Opaque(BucketRange { first, end })),
            _ => None,
        })
        .collect())
}

#[derive(Debug, Clone, Default)]
pub(crate) struct Tables {
    pub(crate) render_cmds: Vec<u32>,
    pub(crate) depth_cmds: Vec<u32>,
    pub(crate) depth: Vec<u32>,
    pub(crate) minima: Vec<u32>,
    pub(crate) rows: Vec<u32>,
    pub(crate) painting: Vec<u32>,
    pub(crate) layers: Vec<u32>,
    pub(crate) opacities: Vec<f32>,
    pub(crate) paint_attrs: Vec<u32>,
    pub(crate) layer_attrs: Vec<u32>,
    pub(crate) filter_paints: Vec<i32>,
}

impl Tables {
    /// The same tables, as they cross.
    pub(crate) fn lent(&mut self) -> (sys::TableWords, sys::StoredWords, sys::CanvasWords) {
        let lent = sys::TableWords {
            render_cmds: sys::Lent::of(&mut self.render_cmds),
            depth_cmds: sys::Lent::of(&mut self.depth_cmds),
            depth: sys::Lent::of(&mut self.depth),
            minima: sys::Lent::of(&mut self.minima),
            rows: sys::Lent::of(&mut self.rows),
            painting: sys::Lent::of(&mut self.painting),
            layers: sys::Lent::of(&mut self.layers),
            opacities: sys::Lent::of(&mut self.opacities),
            paint_attrs: sys::Lent::of(&mut self.paint_attrs),
            layer_attrs: sys::Lent::of(&mut self.layer_attrs),
            filter_paints: sys::Lent::of(&mut self.filter_paints),
        };
        let stored = sys::StoredWords {
            rows: lent.rows.read(),
            render_cmds: lent.render_cmds.read(),
            depth_cmds: lent.depth_cmds.read(),
            paint_attrs: lent.paint_attrs.read(),
            layer_attrs: lent.layer_attrs.read(),
        };
        let canvas = sys::CanvasWords {
            depth: lent.depth,
            minima: lent.minima,
            painting: lent.painting,
        };
        (lent, stored, canvas)
    }

    pub(crate) fn new(sizes: sys::Lengths) -> Self {
        Self {
            render_cmds: vec![0; sizes.render_cmds],
            depth_cmds: vec![0; sizes.depth_cmds],
            depth: vec![0; sizes.depth],
            minima: vec![0; sizes.minima],
            rows: vec![0; sizes.rows],
            painting: vec![0; sizes.painting],
            layers: vec![0; sizes.layers],
            opacities: vec![0.0; sizes.opacities],
            paint_attrs: vec![0; sizes.paint_attrs],
            layer_attrs: vec![0; sizes.layer_attrs],
            filter_paints: vec![0; sizes.filter_paints],
        }
    }

    fn lens(&self) -> sys::Lengths {
        sys::Lengths {
            render_cmds: self.render_cmds.len(),
            depth_cmds: self.depth_cmds.len(),
            depth: self.depth.len(),
            rows: self.rows.len(),
            painting: self.painting.len(),
            layers: self.layers.len(),
            opacities: self.opacities.len(),
            paint_attrs: self.paint_attrs.len(),
            layer_attrs: self.layer_attrs.len(),
            filter_paints: self.filter_paints.len(),
            minima: self.minima.len(),
        }
    }
}

/// How often painting was begun, on any screen.
static BEGINNINGS: AtomicU64 = AtomicU64::new(0);

/// A screen with all its tables. What is drawn on it, what is read of it and what is painted of it are its methods, by the original's names.
///
/// It can be sent to another thread, and shared: reading takes `&self`. Its own painting takes `&mut self`; with a [`Canvas`] for each, several threads
/// paint one screen at once.
///
/// ```
/// use coarse::{CommandBucketer, Paint, RecordedFill, Segment, Setup};
///
/// // One row of 128 tiles, in 4 depth buckets of 32.
/// let mut screen = CommandBucketer::from_wh(512, 4, Setup::new(64, 64))?;
/// let paints = [Paint::new(true, 1), Paint::new(true, 2)];
/// let segments = [Segment::solid(0, 0, 128), Segment::solid(0, 20, 70)];
/// let fill = |i| RecordedFill { start: i, end: i + 1, paint: i as u32, ..RecordedFill::default() };
/// screen.generate_fill(&paints, &segments, &fill(0))?;
/// screen.generate_fill(&paints, &segments, &fill(1))?;
///
/// screen.begin_painting()?;
/// let at_40: Vec<u32> = screen.paint_row(0)?.iter().filter(|piece| piece.covers(40)).map(|piece| piece.attrs_idx).collect();
/// // The second fill covers the whole bucket, and the first is never painted there.
/// assert_eq!(at_40, [1]);
/// # Ok::<(), coarse::Answer>(())
/// ```
#[derive(Debug)]
pub struct CommandBucketer {
    setup: Setup,
    state: sys::StateWords,
    tables: Tables,
    lent: sys::TableWords,
    stored: sys::StoredWords,
    brush: Brush,
    /// The number of the last beginning of painting.
    begun: u64,
}

// The pointers lead to vectors of its own, which are written through `&mut` alone.
unsafe impl Send for CommandBucketer {}
unsafe impl Sync for CommandBucketer {}

impl Clone for CommandBucketer {
    fn clone(&self) -> Self {
        let mut tables = self.tables.clone();
        let (lent, stored, words) = tables.lent();
        Self {
            setup: self.setup,
            state: self.state,
            tables,
            lent,
            stored,
            brush: self.brush.over(words),
            begun: self.begun,
        }
    }
}

/// Making a screen, and drawing on it.
impl CommandBucketer {
    /// A fresh screen of a viewport, in pixels of the scene. Its mode reads every viewport, of a reset and of a recording.
    ///
    /// # Errors
    /// [`Answer::BadViewport`]; [`Answer::BadArena`] where C or D is not from 1 to 1,024.
    ///
    /// # Panics
    /// Where the archive that is linked is of another version than this crate: [`library_version`](crate::library_version).
    pub fn new(viewport: Rect, setup: Setup) -> Result<Self, Answer> {
        version::compare();
        let mut tables = Tables::new(sizes(viewport, setup)?);
        let (lent, stored, words) = tables.lent();
        let mut bucketer = Self {
            setup,
            state: sys::StateWords::default(),
            tables,
            lent,
            stored,
            brush: Brush::new(words, 0),
            begun: 0,
        };
        bucketer.reset(viewport)?;
        Ok(bucketer)
    }

    /// A fresh screen so many pixels wide and high, whose corner is the scene's.
    ///
    /// # Errors
    /// As [`new`](Self::new).
    ///
    /// # Panics
    /// As [`new`](Self::new).
    pub fn from_wh(width: u32, height: u32, setup: Setup) -> Result<Self, Answer> {
        Self::new(Rect::new(0, 0, width, height), setup)
    }

    /// Rule 1: a fresh screen of another viewport, in pixels of the scene. Tables are made anew only where it asks for other lengths.
    ///
    /// # Errors
    /// [`Answer::BadViewport`].
    pub fn reset(&mut self, viewport: Rect) -> Result<(), Answer> {
        let sizes = sizes(viewport, self.setup)?;
        if self.tables.lens() != sizes {
            self.take(Tables::new(sizes));
        }
        Answer::check(unsafe {
            sys::coarse_reset(
                &mut self.state,
                viewport.into(),
                self.setup.into(),
                &mut self.lent,
            )
        })?;
        self.brush.make_room(self.buckets());
        Ok(())
    }

    /// Rule 1, for the next picture of the same viewport: a fresh screen in the same setup, as [`reset`](Self::reset) makes it. Only what was drawn and painted is
    /// cleared, so it takes time by that and by the rows, and not by how much they have room for.
    ///
    /// ```
    /// use coarse::{CommandBucketer, Rect, Setup};
    ///
    /// let mut screen = CommandBucketer::from_wh(512, 4, Setup::new(64, 64))?;
    /// screen.reset_used();
    /// assert_eq!(screen.rows().count(), 1);
    /// # Ok::<(), coarse::Answer>(())
    /// ```
    pub fn reset_used(&mut self) {
        let answer = unsafe { sys::coarse_reset_used(&mut self.state, &mut self.lent) };
        debug_assert_eq!(answer, 0, "a screen of done calls");
    }

    fn take(&mut self, tables: Tables) {
        self.tables = tables;
        (self.lent, self.stored, self.brush.words) = self.tables.lent();
    }

    /// Rule 2: the words of a recording file of an edition, bucketed from a fresh screen of its own viewport. Its viewport and boxes are in pixels, its
    /// segments in tiles, all of the scene. [`Recorder`](crate::Recorder) makes such words, of either edition.
    ///
    /// ```
    /// use coarse::{CommandBucketer, Edition, Setup};
    ///
    /// // One draw of panel 7 over the 128 tiles of one row.
    /// let words = [
    ///     1, 2, 1, 0, 0, 512, 4, 1, 1, 1, 0, 0, 1, 0, 0, 0, 128, 0, 1, 0, 0, 1, 0, 0, 3, 0, 7, 0, 1, 0, 1, 0, 1, 0, 1,
    /// ];
    /// let mut screen = CommandBucketer::from_wh(512, 4, Setup::new(64, 64))?;
    /// screen.bucket_commands(Edition::Two, &words)?;
    /// assert_eq!(screen.paint_attr(0).map(|attrs| attrs.panel), Some(7));
    /// # Ok::<(), coarse::Answer>(())
    /// ```
    ///
    /// # Errors
    /// [`Answer::BadForm`], then [`Answer::BadViewport`]: nothing changes. Then [`Answer::BadRecord`], [`Answer::BadOrder`] or what the first refused
    /// step of the recording answers: a fresh screen of the recording's viewport is left.
    pub fn bucket_commands(&mut self, edition: Edition, file: &[u32]) -> Result<(), Answer> {
        self.on_own_screen(edition, file, |state, setup, tables| {
            record(state, edition, file, setup, tables)
        })
    }

    /// Buckets a recording, and says why an attribute is shown at a row and tile of its screen or not. The screen is left as
    /// [`bucket_commands`](Self::bucket_commands) leaves it.
    ///
    /// # Errors
    /// The recording's own, then [`Answer::BadRun`] for a row or a tile off the screen.
    pub fn why(
        &mut self,
        edition: Edition,
        file: &[u32],
        row: u32,
        tile: u32,
        attribute: Attribute,
    ) -> Result<Reason, Answer> {
        let (layer, attribute) = match attribute {
            Attribute::Draw(attribute) => (0, attribute),
            Attribute::Layer(attribute) => (1, attribute),
        };
        let question = sys::QuestionWords {
            row,
            tile,
            layer,
            attribute,
        };
        self.on_own_screen(edition, file, |state, setup, tables| {
            explain(state, edition, file, setup, question, tables)
        })
    }

    /// A recording call, with tables for the file's own viewport. They are kept unless it is refused by 1 to 3.
    fn on_own_screen<T>(
        &mut self,
        edition: Edition,
        file: &[u32],
        call: impl FnOnce(&mut sys::StateWords, Setup, &mut sys::TableWords) -> Result<T, Answer>,
    ) -> Result<T, Answer> {
        let viewport = viewport_of(edition, file).ok_or(Answer::BadForm)?;
        match sizes(viewport, self.setup) {
            Ok(sizes) if sizes != self.tables.lens() => {
                let mut tables = Tables::new(sizes);
                let done = call(&mut self.state, self.setup, &mut tables.lent().0);
                if !matches!(
                    done,
                    Err(Answer::BadArena | Answer::BadViewport | Answer::BadForm)
                ) {
                    self.take(tables);
                    self.brush.make_room(self.buckets());
                }
                done
            }
            _ => call(&mut self.state, self.setup, &mut self.lent),
        }
    }

    /// Rules 3 to 7: the segments `start` to `end` of a list are filled with the paint at a place of a paint list. Segments are in tiles of the scene.
    ///
    /// # Errors
    /// [`Answer::BadRecord`] where a field of the fill, the paint or one of the segments is out of bounds, [`Answer::BadOrder`] where those are not in
    /// order, [`Answer::Ids`], [`Answer::FullAttrs`], [`Answer::FullRow`] or [`Answer::FullDepth`] where there is no room.
    pub fn generate_fill(
        &mut self,
        paints: &[Paint],
        segments: &[Segment],
        fill: &RecordedFill,
    ) -> Result<(), Answer> {
        let (paints, paints_len) = paint_words(paints);
        let (segments, segments_len) = segment_words(segments);
        let draw = sys::DrawWords {
            thread: fill.thread_idx,
            paint: fill.paint,
            start: fill.start,
            end: fill.end,
            mix: fill.blend_mode.mix,
            compose: fill.blend_mode.compose,
            mask: fill.mask,
            panel: fill.panel,
        };
        Answer::check(unsafe {
            sys::coarse_fill(
                &mut self.state,
                &mut self.lent,
                paints,
                paints_len,
                segments,
                segments_len,
                &draw,
            )
        })
    }

    /// [`generate_fill`](Self::generate_fill) for each of the fills, in order, up to the first that is refused; the fills before it stand. It makes a
    /// [`FillList`] of them; a list that is filled more than once is better made once.
    ///
    /// ```
    /// use coarse::{Answer, CommandBucketer, Paint, RecordedFill, Segment, Setup};
    ///
    /// let mut screen = CommandBucketer::from_wh(512, 4, Setup::new(64, 64))?;
    /// let segments = [Segment::solid(0, 0, 128), Segment::solid(0, 20, 70)];
    /// let fill = |i, panel| RecordedFill { start: i, end: i + 1, panel, ..RecordedFill::default() };
    /// let fills = [fill(0, 3), fill(1, 256)];
    /// let stopped = screen.generate_fills(&[Paint::new(true, 1)], &segments, &fills).unwrap_err();
    /// assert_eq!((stopped.done, stopped.answer), (1, Answer::BadRecord));
    /// assert_eq!(screen.paint_attrs().len(), 1);
    /// # Ok::<(), Answer>(())
    /// ```
    ///
    /// # Errors
    /// [`Stopped`] says how many fills are done, and why the next is refused, as [`generate_fill`](Self::generate_fill) refuses it.
    pub fn generate_fills(
        &mut self,
        paints: &[Paint],
        segments: &[Segment],
        fills: &[RecordedFill],
    ) -> Result<(), Stopped> {
        self.generate_fill_list(paints, segments, &fills.iter().collect(), 0..fills.len())
    }

    /// The same for a range of the fills of a list. An empty range judges nothing and changes nothing.
    ///
    /// # Errors
    /// As [`generate_fills`](Self::generate_fills); [`Answer::BadRecord`] with none done where the range is none of the list's.
    pub fn generate_fill_list(
        &mut self,
        paints: &[Paint],
        segments: &[Segment],
        fills: &FillList,
        range: Range<usize>,
    ) -> Result<(), Stopped> {
        let (paints, paints_len) = paint_words(paints);
        let (segments, segments_len) = segment_words(segments);
        let draws = sys::DrawsWords {
            words: sys::Read::of(fills.words()),
            start: range.start,
            end: range.end,
        };
        let mut done = 0;
        Answer::check(unsafe {
            sys::coarse_fill_list(
                &mut self.state,
                &mut self.lent,
                paints,
                paints_len,
                segments,
                segments_len,
                &draws,
                &mut done,
            )
        })
        .map_err(|answer| Stopped { done, answer })
    }

    /// Rule 8: opens a layer. The clip's box is in pixels of the scene; its segments are read at the pop.
    ///
    /// # Errors
    /// [`Answer::BadRecord`] where a field is out of bounds, [`Answer::Deep`] where 16 layers are open. A blend that changes what the layer does not
    /// cover opens a buffer in every row of its box: [`Answer::FullRow`] where there is no room for one.
    pub fn push_layer(&mut self, props: &LayerProps) -> Result<(), Answer> {
        let clip = props.clip.unwrap_or_default();
        let props = sys::PropsWords {
            mix: props.blend_mode.mix,
            compose: props.blend_mode.compose,
            opacity: props.opacity.to_bits(),
            mask: props.mask,
            flag: u32::from(props.clip.is_some()),
            bounds: clip.bbox.into(),
            start: clip.start,
            end: clip.end,
            thread: clip.thread_idx,
            panel: props.panel,
        };
        Answer::check(unsafe { sys::coarse_push_layer(&mut self.state, &mut self.lent, &props) })
    }

    /// Rules 9 and 10: closes the innermost layer. The list has the segments of its clip, in tiles of the scene; without a clip it may be empty.
    ///
    /// # Errors
    /// [`Answer::NoLayer`] where none is open; [`Answer::BadRecord`] or [`Answer::BadOrder`] for the clip's segments; [`Answer::Ids`],
    /// [`Answer::FullAttrs`] or [`Answer::FullRow`] where there is no room.
    pub fn pop_layer(&mut self, segments: &[Segment]) -> Result<(), Answer> {
        let (segments, segments_len) = segment_words(segments);
        Answer::check(unsafe {
            sys::coarse_pop_layer(&mut self.state, &mut self.lent, segments, segments_len)
        })
    }

    /// Rule 11: draws a filter layer's picture into a box, in pixels of the scene. Nothing is drawn without a picture. `paint_count` is the paint list's
    /// length, at most 4,096; `panel` is the layer's.
    ///
    /// # Errors
    /// [`Answer::BadRecord`] where a field is out of bounds; [`Answer::Ids`], [`Answer::FullAttrs`] or [`Answer::FullRow`] where there is no room.
    pub fn generate_filter_layer_fill(
        &mut self,
        pixmap: Option<u32>,
        placement: &FilterLayerPlacement,
        paint_count: u32,
        panel: u32,
    ) -> Result<(), Answer> {
        let filter = sys::FilterWords {
            dest: placement.dest.into(),
            source_x: placement.source_x,
            source_y: placement.source_y,
            has_pixmap: u32::from(pixmap.is_some()),
            pixmap: pixmap.unwrap_or(0),
            paint_count,
            panel,
        };
        Answer::check(unsafe { sys::coarse_filter_fill(&mut self.state, &mut self.lent, &filter) })
    }

    /// Takes out of a row of the screen the render commands that nothing will ever show, so that it has room for others: a fill of which no tile is
    /// visible, as every bucket that it meets has a depth fill of a newer id, and a `PushBuf` directly followed by a `PopBuf`; again and again until
    /// there is neither. What is left keeps its order, and the row gives the pieces that it would have given. Done, also where nothing is taken out, it
    /// ends painting.
    ///
    /// ```
    /// use coarse::{Answer, CommandBucketer, Paint, RecordedFill, Segment, Setup};
    ///
    /// // One row of 64 tiles, with room for one render command.
    /// let mut screen = CommandBucketer::from_wh(256, 4, Setup::new(1, 8))?;
    /// let paints = [Paint::new(true, 1), Paint::new(false, 2)];
    /// let segments = [Segment::solid(0, 0, 64)];
    /// let fill = |paint| RecordedFill { end: 1, paint, ..RecordedFill::default() };
    /// screen.generate_fill(&paints, &segments, &fill(1))?;
    /// assert_eq!(screen.generate_fill(&paints, &segments, &fill(1)), Err(Answer::FullRow));
    /// // An opaque fill over all buckets is a depth fill, which hides what was drawn before it.
    /// screen.generate_fill(&paints, &segments, &fill(0))?;
    /// screen.compact_row(0)?;
    /// screen.generate_fill(&paints, &segments, &fill(1))?;
    /// # Ok::<(), Answer>(())
    /// ```
    ///
    /// # Errors
    /// [`Answer::BadRun`] for no such row, then [`Answer::Open`] where a layer is open.
    pub fn compact_row(&mut self, row: usize) -> Result<(), Answer> {
        Answer::check(unsafe { sys::coarse_compact_row(&mut self.state, &mut self.lent, row) })
    }
}

/// Painting, on the screen's own canvas.
impl CommandBucketer {
    /// Ends drawing, clears the depth words, makes their minima afresh and sets every row to its first step. What is drawn afterwards ends painting.
    ///
    /// # Errors
    /// [`Answer::Open`] where a layer is open.
    pub fn begin_painting(&mut self) -> Result<(), Answer> {
        Answer::check(unsafe {
            sys::coarse_begin_painting(&mut self.state, &mut self.brush.words)
        })?;
        self.begun = 1 + BEGINNINGS.fetch_add(1, Ordering::Relaxed);
        Ok(())
    }

    /// Another canvas of the screen, whose painting has begun, at the first step of every row: for another thread.
    ///
    /// # Errors
    /// [`Answer::Open`] where painting has not begun.
    pub fn canvas(&self) -> Result<Canvas, Answer> {
        Canvas::new(self)
    }

    /// The pieces of the next stored command of a row of the screen, in tiles of that row, or `None` where none is left. First come the row's depth
    /// fills, from the last to the first, then its render commands in order; some have no piece, as `PushBuf` and `PopBuf` and what is hidden.
    ///
    /// # Errors
    /// [`Answer::Open`] where painting has not begun, [`Answer::BadRun`] for no such row.
    pub fn paint_step(&mut self, row: usize) -> Result<Option<&[Piece]>, Answer> {
        self.brush.paint_step(&self.state, &self.stored, row)
    }

    /// All pieces of a row of the screen, in tiles of that row, from where it stands to its end.
    ///
    /// # Errors
    /// As [`paint_step`](Self::paint_step).
    pub fn paint_row(&mut self, row: usize) -> Result<&[Piece], Answer> {
        self.brush.paint_row(&self.state, &self.stored, row)
    }

    /// All pieces of a range of rows of the screen, row after row, each from where it stands to its end: by one call, which judges the screen once.
    ///
    /// ```
    /// use coarse::{CommandBucketer, Paint, RecordedFill, Segment, Setup};
    ///
    /// let mut screen = CommandBucketer::from_wh(256, 8, Setup::new(64, 64))?;
    /// let fill = RecordedFill { start: 0, end: 2, ..RecordedFill::default() };
    /// let segments = [Segment::solid(0, 2, 8), Segment::solid(1, 4, 6)];
    /// screen.generate_fill(&[Paint::new(false, 1)], &segments, &fill)?;
    /// screen.begin_painting()?;
    /// let first: Vec<u32> = screen.paint_rows(0..2)?.map(|pieces| pieces[0].first).collect();
    /// assert_eq!(first, [2, 4]);
    /// # Ok::<(), coarse::Answer>(())
    /// ```
    ///
    /// # Errors
    /// As [`paint_step`](Self::paint_step); [`Answer::BadRun`] for no range of the screen's rows. Rows before one that is refused are painted.
    pub fn paint_rows(&mut self, rows: Range<usize>) -> Result<PaintedRows<'_>, Answer> {
        self.brush.paint_rows(&self.state, &self.stored, rows)
    }

    /// The rows of the screen, from the top, each with its own words alone: to be painted side by side, by threads, without a canvas for each.
    ///
    /// # Errors
    /// [`Answer::Open`] where painting has not begun.
    pub fn own_rows(&mut self) -> Result<OwnRows<'_>, Answer> {
        if !self.is_painting() {
            return Err(Answer::Open);
        }
        let rows = self.height_in_rows();
        // The words are the screen's own, which the rows borrow whole.
        Ok(unsafe { OwnRows::of(&self.state, &self.tables, self.brush.words, rows) })
    }

    /// How far a row is painted: how many steps are done, and how many layers' buffers are open after them.
    ///
    /// # Errors
    /// [`Answer::BadRun`] for no such row.
    pub fn progress(&self, row: usize) -> Result<Progress, Answer> {
        self.brush.progress(&self.state, row)
    }

    /// The tiles `first` to `end` of a row of the screen whose buckets hold 0, as runs of tiles.
    ///
    /// # Errors
    /// [`Answer::BadRun`] for no such row, or where the end is before the first or above 8,192.
    pub fn unset_runs(&self, row: usize, first: u32, end: u32) -> Result<Runs<TileSpan>, Answer> {
        self.brush
            .unset_runs(&self.state, row, TileSpan { first, end })
    }

    /// The tiles `first` to `end` of a row of the screen whose buckets hold at most the id, as runs of tiles.
    ///
    /// # Errors
    /// As [`unset_runs`](Self::unset_runs).
    pub fn visible_runs(
        &self,
        row: usize,
        first: u32,
        end: u32,
        draw_id: u32,
    ) -> Result<Runs<TileSpan>, Answer> {
        self.brush
            .visible_runs(&self.state, row, TileSpan { first, end }, draw_id)
    }

    /// The runs of [`visible_runs`](Self::visible_runs), at the start of a list of the caller's own, and how many there are; the others stay.
    ///
    /// # Errors
    /// As [`unset_runs`](Self::unset_runs); [`Answer::NoRoom`] where the list is shorter.
    pub fn visible_spans(
        &self,
        row: usize,
        first: u32,
        end: u32,
        draw_id: u32,
        list: &mut [TileSpan],
    ) -> Result<usize, Answer> {
        self.brush
            .visible_spans(&self.state, row, TileSpan { first, end }, draw_id, list)
    }

    /// The unset runs of the buckets `first` to `end` of a row of the screen, as runs of buckets; the id is stored there, and painting ends.
    ///
    /// # Errors
    /// [`Answer::BadRun`] for no such row, no range, or id 0.
    pub fn unset_runs_and_write(
        &mut self,
        row: usize,
        first: u32,
        end: u32,
        draw_id: u32,
    ) -> Result<Runs<BucketRange>, Answer> {
        let range = BucketRange { first, end };
        self.brush
            .unset_runs_and_write(&mut self.state, row, range, draw_id)
    }

    /// The depth words, a word for each bucket, row after row of the screen: the id of the newest depth fill that is painted there, or 0.
    #[must_use]
    pub fn depth_words(&self) -> &[u32] {
        &self.tables.depth
    }

    /// The minima above the depth words, row after row: the smallest id of the row's buckets, then those of its left half, then those of its right half, down to
    /// one bucket; a place past the row's last bucket counts as `u32::MAX`.
    #[must_use]
    pub fn minima(&self) -> &[u32] {
        &self.tables.minima
    }

    /// The depth words of a row of the screen; `None` where there is no such row.
    #[must_use]
    pub fn depth_words_of(&self, row: usize) -> Option<&[u32]> {
        let buckets = self.buckets();
        (row < self.height_in_rows())
            .then(|| self.tables.depth.get(row * buckets..(row + 1) * buckets))
            .flatten()
    }
}

/// What is read of a screen.
impl CommandBucketer {
    /// The viewport that the screen holds, in pixels of the scene, as the mode has read it.
    #[must_use]
    pub fn viewport(&self) -> Rect {
        self.state.viewport.into()
    }

    /// The box that what is drawn is cut to, in pixels from the viewport's corner: the innermost open layer's, else the whole viewport's.
    #[must_use]
    pub fn clip_bbox(&self) -> Rect {
        self.state.clip.into()
    }

    /// What the screen is asked to be.
    #[must_use]
    pub fn setup(&self) -> Setup {
        self.setup
    }

    fn height_in_rows(&self) -> usize {
        let Rect { y0, y1, .. } = self.viewport();
        (y1.saturating_sub(y0) / 4) as usize
    }

    /// The rows of tiles of the screen, from the top; `rows().len()` says how many there are.
    #[must_use]
    pub fn rows(&self) -> Rows<'_> {
        Rows::of(self, self.height_in_rows())
    }

    /// What is stored of a row.
    ///
    /// # Errors
    /// [`Answer::BadRun`] for no such row.
    pub fn row(&self, row: usize) -> Result<Row<'_>, Answer> {
        Row::of(self, row)
    }

    /// The viewport's width in pixels.
    #[must_use]
    pub fn width(&self) -> u32 {
        let Rect { x0, x1, .. } = self.viewport();
        x1.saturating_sub(x0)
    }

    /// How many depth buckets a row has.
    #[must_use]
    pub fn buckets(&self) -> usize {
        self.width().div_ceil(self.bucket_width() as u32) as usize
    }

    /// How wide a bucket of the screen is.
    #[must_use]
    pub fn bucket_width(&self) -> Width {
        match self.state.width {
            1 => Width::W64,
            2 => Width::W256,
            _ => Width::W128,
        }
    }

    /// Whether every bucket from `first` to `end` of a row of the screen is hidden from a draw: each holds a greater id. Of no bucket, yes. It is told
    /// from the minima above the depth words, without a look at every bucket.
    ///
    /// # Errors
    /// [`Answer::BadRun`] for no such row, no range, or an end past the row's buckets.
    pub fn is_hidden(
        &self,
        row: usize,
        first: u32,
        end: u32,
        draw_id: u32,
    ) -> Result<bool, Answer> {
        self.brush
            .is_hidden(&self.state, row, BucketRange { first, end }, draw_id)
    }

    /// Whether a draw over the tiles `first` to `end` of a row of the screen need not look at the row's depth words.
    ///
    /// # Errors
    /// [`Answer::BadRun`] for no such row or no range.
    pub fn can_skip(&self, row: usize, first: u32, end: u32, draw_id: u32) -> Result<bool, Answer> {
        let mut yes = 0;
        Answer::check(unsafe {
            sys::coarse_can_skip(
                &self.state,
                &self.stored,
                row,
                TileSpan { first, end },
                draw_id,
                &mut yes,
            )
        })?;
        Ok(yes == 1)
    }

    /// The id that the next draw or closing layer takes, from 1.
    #[must_use]
    pub fn next_draw_id(&self) -> u32 {
        self.state.next_draw_id
    }

    /// Whether painting has begun, and nothing has ended it.
    #[must_use]
    pub fn is_painting(&self) -> bool {
        self.state.painting == 1
    }

    /// The open layers, from the outermost; `open_layers().len()` says how many there are.
    pub fn open_layers(&self) -> impl ExactSizeIterator<Item = OpenLayer> + '_ {
        let words = self.tables.layers.chunks_exact(OPEN_LAYER);
        words
            .zip(&self.tables.opacities)
            .take(self.state.layers as usize)
            .map(|(words, &opacity)| OpenLayer::of(words, opacity))
    }

    /// The attributes of all fills, in the order of their places; `paint_attrs().len()` says how many there are.
    pub fn paint_attrs(&self) -> impl ExactSizeIterator<Item = PaintFillAttrs> + '_ {
        let words = self.tables.paint_attrs.chunks_exact(PAINT_ATTR);
        words
            .take(self.state.paint_attrs as usize)
            .map(PaintFillAttrs::of)
    }

    /// The attribute of a fill by its place, as [`PaintFill`](crate::PaintFill) and [`Piece`] name it.
    #[must_use]
    pub fn paint_attr(&self, place: u32) -> Option<PaintFillAttrs> {
        self.paint_attrs().nth(place as usize)
    }

    /// The attributes of all closed layers, in the order of their places; `layer_attrs().len()` says how many there are.
    pub fn layer_attrs(&self) -> impl ExactSizeIterator<Item = LayerFillAttrs> + '_ {
        let words = self.tables.layer_attrs.chunks_exact(LAYER_ATTR);
        words
            .zip(self.tables.opacities.iter().skip(MOST_LAYERS))
            .take(self.state.layer_attrs as usize)
            .map(|(words, &opacity)| LayerFillAttrs::of(words, opacity))
    }

    /// The attribute of a closed layer by its place, as [`LayerFill`](crate::LayerFill) and [`Piece`] name it.
    #[must_use]
    pub fn layer_attr(&self, place: u32) -> Option<LayerFillAttrs> {
        self.layer_attrs().nth(place as usize)
    }

    /// The paints that filter fills added, in order: with a paint list of `n`, the first is the one that attributes name by `n`.
    pub fn filter_paints(&self) -> impl ExactSizeIterator<Item = FilterPaint> + '_ {
        let words = self.tables.filter_paints.chunks_exact(FILTER_PAINT);
        words
            .take(self.state.filter_paints as usize)
            .map(FilterPaint::of)
    }
}

/// What the other parts of this crate read.
impl CommandBucketer {
    pub(crate) fn state(&self) -> &sys::StateWords {
        &self.state
    }

    pub(crate) fn stored(&self) -> &sys::StoredWords {
        &self.stored
    }

    pub(crate) fn tables(&self) -> &Tables {
        &self.tables
    }

    pub(crate) fn begun(&self) -> u64 {
        self.begun
    }

    #[cfg(test)]
    pub(crate) fn parts(&mut self) -> (&mut sys::StateWords, &mut Tables, &mut Brush) {
        (&mut self.state, &mut self.tables, &mut self.brush)
    }
}

fn record(
    state: &mut sys::StateWords,
    edition: Edition,
    file: &[u32],
    setup: Setup,
    tables: &mut sys::TableWords,
) -> Result<(), Answer> {
    Answer::check(unsafe {
        sys::coarse_bucket_recording(
            state,
            edition as u32,
            file.as_ptr(),
            file.len(),
            setup.into(),
            tables,
        )
    })
}

fn explain(
    state: &mut sys::StateWords,
    edition: Edition,
    file: &[u32],
    setup: Setup,
    question: sys::QuestionWords,
    tables: &mut sys::TableWords,
) -> Result<Reason, Answer> {
    let mut reason = sys::ReasonWords::default();
    Answer::check(unsafe {
        sys::coarse_why(
            state,
            edition as u32,
            file.as_ptr(),
            file.len(),
            setup.into(),
            &question,
            tables,
            &mut reason,
        )
    })?;
    Ok(Reason::of(reason))
}
