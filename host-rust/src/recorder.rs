//! A recording's words, made record by record.

use crate::answer::Answer;
use crate::bucketer::MOST_LAYERS;
use crate::input::{
    BlendMode, Edition, FilterLayerPlacement, LayerClip, LayerProps, Paint, RecordedFill, Rect,
    Segment, LAST_PANEL,
};
use alloc::vec;
use alloc::vec::Vec;

/// The most records of a section.
const MOST_RECORDS: usize = 4096;

/// Handles are below it.
const HANDLE_END: u32 = 1 << 31;

/// Threads are below it.
const THREAD_END: u32 = 256;

/// Tile numbers and row numbers of the scene are below it; ends are at most it.
const TILE_END: u32 = 8192;

/// The edges of boxes and the places in pictures are at most it, in pixels.
const SCENE_END: u32 = 4 * TILE_END;

/// The words of a draw's record as edition two has it, the panel last.
const DRAW: usize = 8;

/// The words of a layer's record likewise.
const LAYER: usize = 23;

/// Makes a recording: the words that [`CommandBucketer::bucket_commands`] and [`CommandBucketer::why`] take, and that a file of it has. So a host that draws by
/// direct calls can ask why: it records what it draws.
///
/// Paints and segments are recorded first; a fill and a clip name them by their places. Each record is refused where the recording would be, as far as
/// that can be known at once: by [`BadForm`](Answer::BadForm) where its section has 4,096 already, by [`BadRecord`](Answer::BadRecord) for its fields,
/// by [`BadOrder`](Answer::BadOrder) for its segments. A refused record is not there. The viewport, and whether there is room on the screen, only
/// `bucket_commands` can judge.
///
/// Fills and layers are kept with their panels. The words are of the edition that is asked for; edition one has none for a panel, so that it is refused by
/// [`HasPanels`](Answer::HasPanels) where one is not 0.
///
/// ```
/// use coarse::{Answer, Attribute, CommandBucketer, Edition, Paint, Reason, RecordedFill, Recorder, Rect, Segment, Setup};
///
/// let mut recorder = Recorder::new(Rect::new(0, 0, 512, 4));
/// let paint = recorder.paint(Paint::new(true, 1))?;
/// let segments = recorder.segments(&[Segment::solid(0, 0, 128)])?;
/// let fill = RecordedFill { start: segments.start, end: segments.end, paint, ..RecordedFill::default() };
/// recorder.draw(&RecordedFill { panel: 5, ..fill })?;
/// recorder.draw(&RecordedFill { panel: 7, ..fill })?;
/// let words = recorder.words(Edition::Two)?;
///
/// let mut screen = CommandBucketer::from_wh(512, 4, Setup::new(64, 64))?;
/// let reason = screen.why(Edition::Two, &words, 0, 5, Attribute::Draw(0))?;
/// assert_eq!(reason, Reason::HiddenBy { attribute: 1, hider_panel: 7, panel: 5 });
/// assert_eq!(recorder.words(Edition::One), Err(Answer::HasPanels));
/// # Ok::<(), Answer>(())
/// ```
///
/// [`CommandBucketer::bucket_commands`]: crate::CommandBucketer::bucket_commands
/// [`CommandBucketer::why`]: crate::CommandBucketer::why
#[derive(Debug, Clone)]
pub struct Recorder {
    viewport: Rect,
    paints: Vec<Paint>,
    segments: Vec<Segment>,
    draws: Vec<[u32; DRAW]>,
    layers: Vec<[u32; LAYER]>,
    /// The nodes of the closed layers, those of one layer side by side.
    nodes: Vec<Node>,
    /// How many nodes there are in all, in open layers too.
    count: usize,
    /// The nodes of what is drawn outside of all layers, then of each open layer from the outermost, with that layer's number.
    open: Vec<Level>,
}

/// Draws `start` to `end`, then a layer by its number + 1, or 0 for none.
#[derive(Debug, Clone, Copy)]
struct Node {
    start: u32,
    end: u32,
    layer: u32,
}

#[derive(Debug, Clone, Default)]
struct Level {
    layer: usize,
    nodes: Vec<Node>,
}

/// `BadRecord` where it does not hold.
fn good(holds: bool) -> Result<(), Answer> {
    if holds {
        Ok(())
    } else {
        Err(Answer::BadRecord)
    }
}

/// `BadForm` where a section has no room for so many more.
fn room(count: usize, more: usize) -> Result<(), Answer> {
    if count + more <= MOST_RECORDS {
        Ok(())
    } else {
        Err(Answer::BadForm)
    }
}

/// A place or a count of at most 4,096 as a word.
fn word(place: usize) -> u32 {
    u32::try_from(place).unwrap_or(u32::MAX)
}

fn is_good_segment(segment: Segment) -> bool {
    let Segment {
        kind,
        row,
        first,
        end,
        alpha,
    } = segment;
    let alphas = match kind {
        0 => alpha == 0,
        1 => alpha.checked_add(16 * end.saturating_sub(first)).is_some(),
        _ => false,
    };
    row < TILE_END && first < end && end <= TILE_END && alphas
}

fn is_good_blend(blend: BlendMode) -> bool {
    blend.mix <= 15 && blend.compose <= 13
}

/// Edges in order and in the scene, the left and the right one in whole tiles.
fn is_good_dest(bounds: Rect) -> bool {
    let Rect { x0, y0, x1, y1 } = bounds;
    x0.is_multiple_of(4)
        && x1.is_multiple_of(4)
        && x0 <= x1
        && y0 <= y1
        && x1 <= SCENE_END
        && y1 <= SCENE_END
}

fn is_good_box(bounds: Rect) -> bool {
    bounds.y0.is_multiple_of(4) && bounds.y1.is_multiple_of(4) && is_good_dest(bounds)
}

fn words_of(bounds: Rect) -> [u32; 4] {
    let Rect { x0, y0, x1, y1 } = bounds;
    [x0, y0, x1, y1]
}

/// The words of a draw or a layer in an edition: edition one has no panel.
fn written(record: &[u32], edition: Edition) -> &[u32] {
    match (edition, record) {
        (Edition::One, [fields @ .., _]) => fields,
        _ => record,
    }
}

impl Recorder {
    /// An empty recording of a viewport, in pixels of the scene.
    #[must_use]
    pub fn new(viewport: Rect) -> Self {
        Self {
            viewport,
            paints: Vec::new(),
            segments: Vec::new(),
            draws: Vec::new(),
            layers: Vec::new(),
            nodes: Vec::new(),
            count: 0,
            open: vec![Level::default()],
        }
    }

    /// An empty recording again, of another viewport; its room is kept.
    pub fn clear(&mut self, viewport: Rect) {
        self.viewport = viewport;
        self.paints.clear();
        self.segments.clear();
        self.draws.clear();
        self.layers.clear();
        self.nodes.clear();
        self.count = 0;
        self.open.clear();
        self.open.push(Level::default());
    }

    /// Records a paint; its place.
    ///
    /// # Errors
    /// [`Answer::BadForm`] with 4,096 paints there, [`Answer::BadRecord`] where `opaque` is above 1 or the handle not below 2^31.
    pub fn paint(&mut self, paint: Paint) -> Result<u32, Answer> {
        room(self.paints.len(), 1)?;
        good(paint.opaque <= 1 && paint.handle < HANDLE_END)?;
        self.paints.push(paint);
        Ok(word(self.paints.len() - 1))
    }

    /// Records segments, in tiles of the scene; their places.
    ///
    /// # Errors
    /// [`Answer::BadForm`] where there would be more than 4,096, [`Answer::BadRecord`] for the fields of one of them: none is recorded then. Their
    /// order is judged where a fill or a clip names them.
    pub fn segments(&mut self, segments: &[Segment]) -> Result<core::ops::Range<usize>, Answer> {
        let start = self.segments.len();
        room(start, segments.len())?;
        good(segments.iter().copied().all(is_good_segment))?;
        self.segments.extend_from_slice(segments);
        Ok(start..self.segments.len())
    }

    /// The order of recorded segments: rows downward, and in a row to the right without an overlap.
    fn ordered(&self, start: usize, end: usize) -> Result<(), Answer> {
        let list = self.segments.get(start..end).ok_or(Answer::BadRecord)?;
        let follows = |pair: &[Segment]| match pair {
            [one, next] => one.row < next.row || one.row == next.row && one.end <= next.first,
            _ => true,
        };
        if list.windows(2).all(follows) {
            Ok(())
        } else {
            Err(Answer::BadOrder)
        }
    }

    /// The node that a draw or a layer is added to: the last of the innermost level, if it has no layer yet, or a new one.
    fn node(&mut self) -> Result<&mut Node, Answer> {
        let next = word(self.draws.len());
        // There is a level for what is drawn outside of all layers, which no pop takes away.
        let level = self.open.last_mut().ok_or(Answer::NoLayer)?;
        if level.nodes.last().is_none_or(|node| node.layer != 0) {
            room(self.count, 1)?;
            self.count += 1;
            level.nodes.push(Node {
                start: next,
                end: next,
                layer: 0,
            });
        }
        level.nodes.last_mut().ok_or(Answer::NoLayer)
    }

    /// Records a fill, in the innermost open layer; how many were recorded before it. Its segments and its paint are recorded already.
    ///
    /// # Errors
    /// [`Answer::BadForm`] where there is no room for a draw or for its node, [`Answer::BadRecord`] for its fields, [`Answer::BadOrder`] for its
    /// segments.
    pub fn draw(&mut self, fill: &RecordedFill) -> Result<u32, Answer> {
        room(self.draws.len(), 1)?;
        good(
            fill.thread_idx < THREAD_END
                && fill.start <= fill.end
                && fill.end <= self.segments.len()
                && (fill.paint as usize) < self.paints.len()
                && is_good_blend(fill.blend_mode)
                && fill.mask < HANDLE_END
                && fill.panel <= LAST_PANEL,
        )?;
        self.ordered(fill.start, fill.end)?;
        self.node()?.end += 1;
        self.draws.push([
            fill.thread_idx,
            word(fill.start),
            word(fill.end),
            fill.paint,
            fill.blend_mode.mix,
            fill.blend_mode.compose,
            fill.mask,
            fill.panel,
        ]);
        Ok(word(self.draws.len() - 1))
    }

    /// A layer's record: of no nodes yet.
    fn layer(
        &mut self,
        props: &LayerProps,
        filter: Option<(Option<u32>, &FilterLayerPlacement)>,
    ) -> Result<u32, Answer> {
        room(self.layers.len(), 1)?;
        let clip = props.clip.unwrap_or_default();
        let LayerClip {
            bbox,
            start,
            end,
            thread_idx,
        } = clip;
        let placement = filter.map_or(FilterLayerPlacement::default(), |(_, placement)| *placement);
        let pixmap = filter.and_then(|(pixmap, _)| pixmap);
        good(
            is_good_blend(props.blend_mode)
                && props.mask < HANDLE_END
                && props.panel <= LAST_PANEL
                && is_good_box(bbox)
                && thread_idx < THREAD_END
                && start <= end
                && end as usize <= self.segments.len()
                && pixmap.is_none_or(|handle| handle < HANDLE_END)
                && is_good_dest(placement.dest)
                && placement.source_x <= SCENE_END
                && placement.source_y <= SCENE_END,
        )?;
        self.ordered(start as usize, end as usize)?;
        let [x0, y0, x1, y1] = words_of(bbox);
        let [to_x0, to_y0, to_x1, to_y1] = words_of(placement.dest);
        let number = word(self.layers.len() + 1);
        self.node()?.layer = number;
        self.layers.push([
            u32::from(filter.is_some()),
            0,
            0,
            props.blend_mode.mix,
            props.blend_mode.compose,
            props.opacity.to_bits(),
            props.mask,
            u32::from(props.clip.is_some()),
            x0,
            y0,
            x1,
            y1,
            start,
            end,
            thread_idx,
            pixmap.map_or(0, |handle| handle + 1),
            to_x0,
            to_y0,
            to_x1,
            to_y1,
            placement.source_x,
            placement.source_y,
            props.panel,
        ]);
        Ok(number - 1)
    }

    /// Opens a layer; how many layers were recorded before it. What is recorded until its [`pop_layer`](Self::pop_layer) is in it.
    ///
    /// # Errors
    /// [`Answer::Deep`] with 16 layers open, else as [`draw`](Self::draw), of its clip.
    pub fn push_layer(&mut self, props: &LayerProps) -> Result<u32, Answer> {
        if self.open_layers() == MOST_LAYERS {
            return Err(Answer::Deep);
        }
        let layer = self.layer(props, None)?;
        self.open.push(Level {
            layer: layer as usize,
            nodes: Vec::new(),
        });
        Ok(layer)
    }

    /// Closes the innermost layer.
    ///
    /// # Errors
    /// [`Answer::NoLayer`] where none is open.
    pub fn pop_layer(&mut self) -> Result<(), Answer> {
        if self.open_layers() == 0 {
            return Err(Answer::NoLayer);
        }
        let Level { layer, nodes } = self.open.pop().ok_or(Answer::NoLayer)?;
        let start = self.nodes.len();
        self.nodes.extend(nodes);
        if let Some([_, first, end, ..]) = self.layers.get_mut(layer) {
            (*first, *end) = (word(start), word(self.nodes.len()));
        }
        Ok(())
    }

    /// Records a filter layer, whose picture, if it has one, is drawn into a box; how many layers were recorded before it. It is drawn as
    /// [`CommandBucketer::generate_filter_layer_fill`](crate::CommandBucketer::generate_filter_layer_fill) does, with the layer's panel, within a layer of
    /// these properties unless all but the panel are the default.
    ///
    /// # Errors
    /// As [`push_layer`](Self::push_layer), and [`Answer::BadRecord`] for the picture's handle and the placement too.
    pub fn filter_layer(
        &mut self,
        props: &LayerProps,
        pixmap: Option<u32>,
        placement: &FilterLayerPlacement,
    ) -> Result<u32, Answer> {
        self.layer(props, Some((pixmap, placement)))
    }

    /// How many layers are open.
    #[must_use]
    pub fn open_layers(&self) -> usize {
        self.open.len() - 1
    }

    /// Whether a draw or a layer has a panel, the last word of its record, that is not 0.
    fn has_panels(&self) -> bool {
        let draws = self.draws.iter().map(|[.., panel]| panel);
        let layers = self.layers.iter().map(|[.., panel]| panel);
        draws.chain(layers).any(|panel| *panel != 0)
    }

    /// The recording's words, of an edition: in edition two with the panels. A file of it has them in little-endian order.
    ///
    /// # Errors
    /// [`Answer::Open`] while a layer is open; then, of edition one, [`Answer::HasPanels`] where a fill or a layer has a panel that is not 0.
    pub fn words(&self, edition: Edition) -> Result<Vec<u32>, Answer> {
        let [Level { nodes: root, .. }] = &self.open[..] else {
            return Err(Answer::Open);
        };
        let mut words = match edition {
            Edition::One if self.has_panels() => return Err(Answer::HasPanels),
            Edition::One => Vec::new(),
            Edition::Two => vec![1, 2],
        };
        words.push(1);
        words.extend(words_of(self.viewport));
        words.push(word(self.paints.len()));
        words.extend(self.paints.iter().flat_map(|paint| paint.words()));
        words.push(word(self.segments.len()));
        words.extend(self.segments.iter().flat_map(|segment| segment.words()));
        words.push(word(self.draws.len()));
        words.extend(self.draws.iter().flat_map(|draw| written(draw, edition)));
        words.push(word(self.layers.len()));
        let layers = self.layers.iter();
        words.extend(layers.flat_map(|layer| written(layer, edition)));
        words.push(word(self.count));
        for Node { start, end, layer } in self.nodes.iter().chain(root) {
            words.extend([*start, *end, *layer]);
        }
        words.extend([1, word(self.nodes.len()), word(self.count)]);
        Ok(words)
    }
}
