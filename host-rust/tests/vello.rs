//! The call site of `docs/VELLO.md`, compiled over a few types in the place of vello's, and run. What that file has as code stands here between the lines
//! that name it.

use coarse::{
    Answer, BlendMode, Canvas, CommandBucketer, Edition, FilterLayerPlacement, LayerFillAttrs,
    LayerProps, Paint, PaintFillAttrs, Piece, RecordedFill, Recorder, Rect, Segment, Setup,
};
use std::cell::RefCell;
use std::ops::Range;

/// vello's own, as far as the call site names them.
struct Node {
    draws: Range<usize>,
    layer: Option<usize>,
}

enum RecordedLayerKind {
    Regular,
    Filter { placement: FilterLayerPlacement },
}

struct RecordedLayer {
    kind: RecordedLayerKind,
    nodes: Vec<Node>,
}

struct CommandRecorder {
    nodes: Vec<Node>,
    layers: Vec<RecordedLayer>,
}

struct FilterContext;

impl FilterContext {
    fn picture(&self, layer: usize) -> Option<u32> {
        Some(layer as u32)
    }
}

struct Region {
    row_idx: usize,
}

/// The rows of a target, one after the other.
struct Regions(usize);

impl Regions {
    fn new(rows: usize) -> Self {
        Self(rows)
    }

    fn update(
        &mut self,
        mut rasterize: impl FnMut(&mut Region) -> Result<(), Answer>,
    ) -> Result<(), Answer> {
        (0..self.0).try_for_each(|row_idx| rasterize(&mut Region { row_idx }))
    }
}

/// A fine stage that notes what it is told.
#[derive(Default)]
struct Fine {
    width: u32,
    open: u32,
    pieces: Vec<(usize, Piece)>,
    composited: usize,
    cleared: usize,
}

impl Fine {
    fn new(width: u32) -> Self {
        Self {
            width,
            ..Self::default()
        }
    }

    fn fill(&mut self, region: &Region, piece: &Piece, attrs: Option<PaintFillAttrs>) {
        assert!(attrs.is_some() && 4 * piece.end <= self.width && piece.nesting == self.open);
        self.pieces.push((region.row_idx, *piece));
    }

    fn composite_into_parent(
        &mut self,
        region: &Region,
        piece: &Piece,
        attrs: Option<LayerFillAttrs>,
    ) {
        assert!(attrs.is_some() && piece.nesting == self.open && self.open > 0);
        self.pieces.push((region.row_idx, *piece));
        self.composited += 1;
    }

    fn push_buf(&mut self, nesting: u32) {
        self.open += 1;
        self.cleared += 1;
        assert_eq!(self.open, nesting);
    }

    fn pop_buf(&mut self) {
        self.open -= 1;
    }
}

// Of `docs/VELLO.md`: the scene.
/// What the recorder has, as this crate takes it: one paint, one fill and one layer for each of the recorder's own, by its place.
struct Scene<'a> {
    recorder: &'a CommandRecorder,
    paints: &'a [Paint],
    segments: &'a [Segment],
    fills: &'a [RecordedFill],
    layers: &'a [LayerProps],
}

// Of `docs/VELLO.md`: the walk.
fn bucket(
    bucketer: &mut CommandBucketer,
    nodes: &[Node],
    scene: &Scene<'_>,
    filters: &FilterContext,
) -> Result<(), Answer> {
    for node in nodes {
        for draw in node.draws.clone() {
            bucketer.generate_fill(scene.paints, scene.segments, &scene.fills[draw])?;
        }
        let Some(id) = node.layer else { continue };
        let (layer, props) = (&scene.recorder.layers[id], &scene.layers[id]);
        match &layer.kind {
            RecordedLayerKind::Regular => {
                bucketer.push_layer(props)?;
                bucket(bucketer, &layer.nodes, scene, filters)?;
                bucketer.pop_layer(scene.segments)?;
            }
            RecordedLayerKind::Filter { placement } => {
                let needs_layer = props.blend_mode != BlendMode::default()
                    || props.opacity != 1.0
                    || props.mask != 0
                    || props.clip.is_some();
                if needs_layer {
                    bucketer.push_layer(props)?;
                }
                let (picture, paints) = (filters.picture(id), scene.paints.len() as u32);
                bucketer.generate_filter_layer_fill(picture, placement, paints, props.panel)?;
                if needs_layer {
                    bucketer.pop_layer(scene.segments)?;
                }
            }
        }
    }
    Ok(())
}

// Of `docs/VELLO.md`: both calls of the dispatcher.
fn bucket_and_rasterize(
    bucketer: &RefCell<CommandBucketer>,
    cmds: &[Node],
    viewport: Rect,
    scene: &Scene<'_>,
    filter_ctx: &FilterContext,
    fine: &mut Fine,
) -> Result<(), Answer> {
    let mut bucketer = bucketer.borrow_mut();
    bucketer.reset(viewport)?;
    bucket(&mut bucketer, cmds, scene, filter_ctx)?;
    bucketer.begin_painting()?;
    let mut regions = Regions::new(bucketer.rows().len());
    rasterize_target(&bucketer, &mut regions, fine)
}

fn rasterize_target(
    bucketer: &CommandBucketer,
    regions: &mut Regions,
    fine: &mut Fine,
) -> Result<(), Answer> {
    let mut canvas = bucketer.canvas()?;
    regions.update(|region| rasterize_row(fine, &mut canvas, region, bucketer))
}

// Of `docs/VELLO.md`: the row.
fn rasterize_row(
    fine: &mut Fine,
    canvas: &mut Canvas,
    region: &mut Region,
    bucketer: &CommandBucketer,
) -> Result<(), Answer> {
    let row = region.row_idx;
    let mut open = 0;
    while let Some(pieces) = canvas.paint_step(bucketer, row)? {
        for piece in pieces {
            if piece.is_layer() {
                let attrs = bucketer.layer_attr(piece.attrs_idx);
                fine.composite_into_parent(region, piece, attrs);
            } else {
                let attrs = bucketer.paint_attr(piece.attrs_idx);
                fine.fill(region, piece, attrs);
            }
        }
        let nesting = canvas.progress(bucketer, row)?.nesting;
        if nesting > open {
            fine.push_buf(nesting);
        } else if nesting < open {
            fine.pop_buf();
        }
        open = nesting;
    }
    Ok(())
}
// End of what `docs/VELLO.md` has.

/// Draws, a layer with a layer in it, and a filter layer, over four rows.
#[test]
fn the_call_site() -> Result<(), Answer> {
    let paints = [Paint::new(true, 1), Paint::new(false, 2)];
    let segments = [
        Segment::solid(0, 0, 64),
        Segment::alpha(1, 4, 20, 64),
        Segment::solid(2, 2, 40),
    ];
    let fill = |start, end, paint| RecordedFill {
        start,
        end,
        paint,
        panel: paint + 1,
        ..RecordedFill::default()
    };
    let fills = [fill(0, 1, 0), fill(1, 3, 1), fill(1, 2, 0), fill(0, 3, 1)];
    let half = LayerProps {
        opacity: 0.5,
        panel: 3,
        ..LayerProps::default()
    };
    let whole = LayerProps {
        panel: 4,
        ..LayerProps::default()
    };
    let layers = [half, whole, half, whole];
    let placement = FilterLayerPlacement {
        dest: Rect::new(8, 3, 40, 12),
        ..FilterLayerPlacement::default()
    };
    let regular = |nodes| RecordedLayer {
        kind: RecordedLayerKind::Regular,
        nodes,
    };
    let filter = || RecordedLayer {
        kind: RecordedLayerKind::Filter { placement },
        nodes: Vec::new(),
    };
    let node = |draws, layer| Node { draws, layer };
    let recorder = CommandRecorder {
        nodes: vec![
            node(0..1, Some(0)),
            node(3..4, Some(2)),
            node(4..4, Some(3)),
        ],
        layers: vec![
            regular(vec![node(1..2, Some(1))]),
            regular(vec![node(2..3, None)]),
            filter(),
            filter(),
        ],
    };
    let scene = Scene {
        recorder: &recorder,
        paints: &paints,
        segments: &segments,
        fills: &fills,
        layers: &layers,
    };
    let bucketer = RefCell::new(CommandBucketer::from_wh(4, 4, Setup::snapping(1024, 1024))?);
    let mut fine = Fine::new(256);
    let viewport = Rect::new(0, 0, 254, 15);
    bucket_and_rasterize(
        &bucketer,
        &recorder.nodes,
        viewport,
        &scene,
        &FilterContext,
        &mut fine,
    )?;
    assert_eq!(fine.open, 0);
    assert!(fine.cleared > 3 && fine.composited > 3);

    // The same by a recording, painted by rows.
    let mut recorded = Recorder::new(viewport);
    for paint in paints {
        recorded.paint(paint)?;
    }
    recorded.segments(&segments)?;
    recorded.draw(&fills[0])?;
    recorded.push_layer(&layers[0])?;
    recorded.draw(&fills[1])?;
    recorded.push_layer(&layers[1])?;
    recorded.draw(&fills[2])?;
    recorded.pop_layer()?;
    recorded.pop_layer()?;
    recorded.draw(&fills[3])?;
    recorded.filter_layer(&layers[2], FilterContext.picture(2), &placement)?;
    recorded.filter_layer(&layers[3], FilterContext.picture(3), &placement)?;
    let mut screen = CommandBucketer::from_wh(4, 4, Setup::snapping(1024, 1024))?;
    screen.bucket_commands(Edition::Two, &recorded.words(Edition::Two)?)?;
    screen.begin_painting()?;
    let mut pieces = Vec::new();
    for row in 0..screen.rows().len() {
        pieces.extend(screen.paint_row(row)?.iter().map(|piece| (row, *piece)));
    }
    assert_eq!(pieces, fine.pieces);
    Ok(())
}

/// Each block of Rust in `docs/VELLO.md` stands in this file, where both are there.
#[test]
fn the_text_of_the_call_site() {
    let Ok(text) =
        std::fs::read_to_string(concat!(env!("CARGO_MANIFEST_DIR"), "/../docs/VELLO.md"))
    else {
        return;
    };
    let here = include_str!("vello.rs");
    let blocks: Vec<&str> = text
        .split("```rust\n")
        .skip(1)
        .filter_map(|rest| rest.split("```").next())
        .collect();
    assert_eq!(blocks.len(), 4);
    for block in blocks {
        assert!(here.contains(block), "{block}");
    }
}
