//! What is asked of the coarse stage, done by its own calls. Compiled once for each width of a bucket, beside the files of that width.

use super::bucketer::RowState;
use super::cmd::{PaintFillAttrs, RenderCmd};
use super::depth::{split_opaque_span, BucketRange, DepthBuffer, DepthSegment, DepthState};
use super::{probe, CommandBucketer};
use crate::painting::Piece;
use crate::panels::Panels;
use crate::peniko::BlendMode;
use crate::record::RecordedFill;
use crate::scene::Scene;
use crate::screen::{
    Buffer, Command, DepthFill, Fill, LayerAttr, PaintAttr, Part, Range, Row, Screen, Stage,
};
use crate::span::TileAlignedSpan;
use std::sync::Arc;
use vello_common::encode::EncodedPaint;
use vello_common::filter::FilterLayerPlacement;
use vello_common::geometry::RectU16;
use vello_common::mask::Mask;
use vello_common::paint::Paint;
use vello_common::pixmap::Pixmap;
use vello_common::record::LayerProps;
use vello_common::strip::Strip;

pub(crate) const STAGE: Stage = Stage {
    screen: |viewport| Box::new(CommandBucketer::new(viewport)),
    buffer: |pixels| Box::new(DepthBuffer::new(pixels)),
    split,
    tiles: |(first, end)| tiles(BucketRange::new(short(first), short(end)).span()),
    can_skip,
};

fn short(n: u32) -> u16 {
    u16::try_from(n).expect("at most tile 8,192")
}

fn span((first, end): Range) -> TileAlignedSpan {
    TileAlignedSpan::from_tiles(short(first), short(end - first))
}

fn tiles(span: TileAlignedSpan) -> Range {
    (span.tile_x().into(), span.tile_end().into())
}

fn buckets(range: BucketRange) -> Range {
    (range.start.into(), range.end.into())
}

fn split(range: Range) -> Vec<Part> {
    let mut parts = Vec::new();
    split_opaque_span(span(range), |part| {
        parts.push(match part {
            DepthSegment::Regular(span) => (false, tiles(span)),
            DepthSegment::Opaque(range) => (true, buckets(range)),
        });
    });
    parts
}

fn can_skip(included: &[(Range, u32)], range: Range, id: u32) -> bool {
    let mut state = DepthState::default();
    for &(of, id) in included {
        state.include_span(span(of), id);
    }
    state.can_skip(span(range), id)
}

impl Buffer for DepthBuffer {
    fn words(&self) -> Vec<u32> {
        probe::depth_words(self)
    }

    fn unset(&self, range: Range) -> Vec<Range> {
        let mut runs = Vec::new();
        self.for_each_unset_run(span(range), |run| runs.push(tiles(run)));
        runs
    }

    fn visible(&self, range: Range, id: u32) -> Vec<Range> {
        let mut runs = Vec::new();
        self.for_each_visible_run(span(range), id, |run| runs.push(tiles(run)));
        runs
    }

    fn write(&mut self, (first, end): Range, id: u32) -> Vec<Range> {
        let mut runs = Vec::new();
        let range = BucketRange::new(short(first), short(end));
        self.for_each_unset_run_and_write(range, id, |run| runs.push(buckets(run)));
        runs
    }
}

impl Screen for CommandBucketer {
    fn reset(&mut self, viewport: RectU16) {
        self.reset(viewport);
    }

    fn viewport(&self) -> RectU16 {
        probe::viewport(self)
    }

    fn clip_box(&self) -> RectU16 {
        probe::clip_box(self)
    }

    fn width(&self) -> u16 {
        self.width()
    }

    fn next_id(&self) -> u32 {
        probe::next_id(self)
    }

    fn set_next_id(&mut self, id: u32) {
        probe::set_next_id(self, id);
    }

    fn open_layers(&self) -> usize {
        probe::open_layers(self)
    }

    fn innermost_clip(&self) -> Option<Option<std::ops::Range<usize>>> {
        probe::innermost_clip(self)
    }

    fn fill(
        &mut self,
        draw: &RecordedFill,
        origin: (u16, u16),
        strips: &[Strip],
        paints: &[EncodedPaint],
    ) {
        fill(self, draw, origin, strips, paints);
    }

    fn push(&mut self, props: &LayerProps) {
        self.push_layer(props);
    }

    fn filter(&mut self, pixmap: Arc<Pixmap>, placement: FilterLayerPlacement, paints: usize) {
        self.generate_filter_layer_fill(pixmap, placement, paints);
    }

    fn pop(&mut self, strips: &[Strip]) {
        self.pop_layer(strips);
    }

    fn keep(&mut self, row: usize, places: &[usize]) {
        probe::keep(self, row, places);
    }

    fn walk(&mut self, scene: &Scene) {
        walk(self, scene);
    }

    fn counts(&self) -> [usize; 3] {
        [
            self.paint_fill_attrs.len(),
            self.layer_fill_attrs.len(),
            self.filter_paints.len(),
        ]
    }

    fn fullest(&self) -> [usize; 2] {
        let most = |of: fn(&RowState) -> usize| self.rows().iter().map(of).max().unwrap_or(0);
        [
            most(|row| row.render_cmds.len()),
            most(|row| row.depth_cmds.len()),
        ]
    }

    fn rows(&self) -> usize {
        self.rows().len()
    }

    fn row(&self, row: usize) -> Row {
        let row = &self.rows()[row];
        let fill = |fill: &super::cmd::DepthFill| DepthFill {
            buckets: buckets(fill.bucket_range()),
            attribute: fill.attrs_idx,
        };
        Row {
            commands: row.render_cmds.iter().map(command).collect(),
            fills: row.depth_cmds.iter().map(fill).collect(),
            summary: probe::summary(row),
            levels: probe::levels(row),
        }
    }

    fn pieces(&self, row: usize, skip: bool, panels: &Panels) -> Vec<Piece> {
        let mut depth = DepthBuffer::new(self.width());
        let mut pieces = Vec::new();
        let row = &self.rows()[row];
        paint(self, row, skip, panels, &mut depth, &mut pieces);
        pieces
    }

    fn can_skip(&self, row: usize, range: Range, id: u32) -> bool {
        self.rows()[row].can_skip_depth(span(range), id)
    }

    fn paint_attrs(&self) -> Vec<PaintAttr> {
        let attr = |attrs: &PaintFillAttrs| {
            let Paint::Indexed(paint) = &attrs.paint;
            let (x, y) = attrs.origin;
            PaintAttr {
                paint: u32::try_from(paint.index()).expect("few"),
                blend: words(attrs.blend_mode),
                mask: handle(&attrs.mask),
                id: attrs.draw_id,
                thread: attrs.thread_idx.into(),
                origin: [x.into(), y.into()],
            }
        };
        self.paint_fill_attrs.iter().map(attr).collect()
    }

    fn layer_attrs(&self) -> Vec<LayerAttr> {
        let attr = |attrs: &super::cmd::LayerFillAttrs| LayerAttr {
            blend: words(attrs.blend_mode),
            opacity: attrs.opacity.to_bits(),
            mask: handle(&attrs.mask),
            id: attrs.draw_id,
            thread: attrs.thread_idx.into(),
        };
        self.layer_fill_attrs.iter().map(attr).collect()
    }

    fn filter_paints(&self) -> &[EncodedPaint] {
        &self.filter_paints
    }
}

fn words(blend: BlendMode) -> [u32; 2] {
    [blend.mix, blend.compose].map(u32::from)
}

fn handle(mask: &Option<Mask>) -> u32 {
    mask.as_ref().map_or(0, |mask| mask.0)
}

fn command(cmd: &RenderCmd) -> Command {
    match *cmd {
        RenderCmd::PaintFill(fill) => Command::Fill(Fill {
            layer: false,
            tiles: tiles(fill.span),
            alpha: fill.alpha_idx(),
            attribute: fill.attrs_idx,
        }),
        RenderCmd::LayerFill(fill) => Command::Fill(Fill {
            layer: true,
            tiles: tiles(fill.span),
            alpha: fill.alpha_idx(),
            attribute: fill.attrs_idx,
        }),
        RenderCmd::PushBuf(span) => Command::Push(span.map(tiles)),
        RenderCmd::PopBuf => Command::Pop,
    }
}

/// A draw with the attributes that the walk of a node makes of it.
pub(crate) fn fill(
    bucketer: &mut CommandBucketer,
    draw: &RecordedFill,
    origin: (u16, u16),
    strips: &[Strip],
    paints: &[EncodedPaint],
) {
    let attrs = PaintFillAttrs {
        paint: draw.paint.clone(),
        blend_mode: draw.blend_mode,
        mask: draw.mask.clone(),
        draw_id: probe::take_id(bucketer),
        thread_idx: draw.thread_idx,
        origin,
    };
    bucketer.generate_fill(strips, &attrs, paints);
}

/// The original's own walk of the whole recording, on a screen of its viewport.
pub(crate) fn walk(bucketer: &mut CommandBucketer, scene: &Scene) {
    bucketer.bucket_commands(
        &scene.root,
        &scene.draws,
        &scene.layers,
        &scene.strips,
        &scene.paints,
        &scene.filters,
    );
}

/// The pieces of a row in painting order, over a depth buffer that is clear and after what the list holds: depth fills from newest to oldest, then
/// commands from oldest to newest. With `skip` a command for which `can_skip_depth` says yes is not searched.
pub(crate) fn paint(
    bucketer: &CommandBucketer,
    row: &RowState,
    skip: bool,
    panels: &Panels,
    depth: &mut DepthBuffer,
    pieces: &mut Vec<Piece>,
) {
    for fill in row.depth_cmds.iter().rev() {
        let id = bucketer.paint_fill_attrs[fill.attrs_idx as usize].draw_id;
        depth.for_each_unset_run_and_write(fill.bucket_range(), id, |run: BucketRange| {
            let (layer, attribute, alpha, nesting) = (false, fill.attrs_idx, None, 0);
            pieces.push(Piece {
                layer,
                attribute,
                first: run.span().tile_x(),
                end: run.span().tile_end(),
                alpha,
                nesting,
                panel: panels.of(layer, attribute),
            });
        });
    }
    let mut nesting = 0;
    for cmd in &row.render_cmds {
        let (layer, attribute, span, alpha, id) = match *cmd {
            RenderCmd::PushBuf(_) => {
                nesting += 1;
                continue;
            }
            RenderCmd::PopBuf => {
                nesting -= 1;
                continue;
            }
            RenderCmd::PaintFill(fill) => {
                let id = bucketer.paint_fill_attrs[fill.attrs_idx as usize].draw_id;
                (false, fill.attrs_idx, fill.span, fill.alpha_idx(), id)
            }
            RenderCmd::LayerFill(fill) => {
                let id = bucketer.layer_fill_attrs[fill.attrs_idx as usize].draw_id;
                (true, fill.attrs_idx, fill.span, fill.alpha_idx(), id)
            }
        };
        // A cut at the left moves the alpha index by 16 a tile.
        let mut give = |run: TileAlignedSpan| {
            let alpha = alpha.map(|alpha| alpha + 16 * u32::from(run.tile_x() - span.tile_x()));
            pieces.push(Piece {
                layer,
                attribute,
                first: run.tile_x(),
                end: run.tile_end(),
                alpha,
                nesting,
                panel: panels.of(layer, attribute),
            });
        };
        if skip && row.can_skip_depth(span, id) {
            give(span);
        } else {
            depth.for_each_visible_run(span, id, give);
        }
    }
}
