//! A good recording as the values that the Rust takes.

use crate::file::{pixmap, Recording};
use crate::filter::context::FilterContext;
use crate::kurbo::{Affine, Vec2};
use crate::peniko::{BlendMode, Extend, ImageQuality, ImageSampler};
use crate::record::RecordedFill;
use crate::viewport::Mode;
use std::ops::Range;
use std::sync::Arc;
use vello_common::encode::{EncodedImage, EncodedPaint};
use vello_common::filter::FilterLayerPlacement;
use vello_common::geometry::RectU16;
use vello_common::mask::Mask;
use vello_common::paint::{ImageSource, IndexedPaint, Paint};
use vello_common::pixmap::Pixmap;
use vello_common::record::{LayerClip, LayerProps, Node, RecordedLayer, RecordedLayerKind};
use vello_common::strip::Strip;

pub(crate) struct Scene {
    /// The viewport as it stands in the file, which the Rust is given.
    pub(crate) given: RectU16,
    /// The box that the screen holds.
    pub(crate) viewport: RectU16,
    pub(crate) paints: Vec<EncodedPaint>,
    pub(crate) strips: Vec<Strip>,
    pub(crate) draws: Vec<RecordedFill>,
    pub(crate) layers: Vec<RecordedLayer>,
    pub(crate) filters: FilterContext,
    pub(crate) root: Vec<Node>,
    /// The panel of each draw and of each layer.
    pub(crate) draw_panels: Vec<u32>,
    pub(crate) layer_panels: Vec<u32>,
}

impl Scene {
    /// The corner of the box that the screen holds.
    pub(crate) fn origin(&self) -> (u16, u16) {
        (self.viewport.x0, self.viewport.y0)
    }

    /// A draw's own strips.
    pub(crate) fn strips_of(&self, draw: &RecordedFill) -> &[Strip] {
        &self.strips[draw.strip_range.clone()]
    }
}

pub(crate) fn scene(r: &Recording, mode: Mode) -> Scene {
    let nodes: Vec<Node> = r.nodes.iter().map(node).collect();
    let mut filters = FilterContext::new(r.layers.len());
    for (id, layer) in r.layers.iter().enumerate() {
        if let Some(handle) = pixmap(layer[15]) {
            filters.set_layer(id, Pixmap::of(handle));
        }
    }
    Scene {
        given: rect(r.viewport),
        viewport: rect(mode.held(r.viewport).expect("judged")),
        paints: r.paints.iter().map(paint).collect(),
        strips: r.segments.iter().map(strip).collect(),
        draws: r.draws.iter().map(draw).collect(),
        layers: r
            .layers
            .iter()
            .map(|layer| recorded_layer(layer, &nodes))
            .collect(),
        filters,
        root: nodes[range(r.root[0], r.root[1])].to_vec(),
        draw_panels: (0..r.draws.len()).map(|i| r.draw_panel(i)).collect(),
        layer_panels: (0..r.layers.len()).map(|i| r.layer_panel(i)).collect(),
    }
}

fn range(start: u32, end: u32) -> Range<usize> {
    start as usize..end as usize
}

/// A pixel or tile number of a good recording.
fn short(word: u32) -> u16 {
    u16::try_from(word).expect("judged")
}

fn byte(word: u32) -> u8 {
    u8::try_from(word).expect("judged")
}

pub(crate) fn rect([x0, y0, x1, y1]: [u32; 4]) -> RectU16 {
    RectU16::new(short(x0), short(y0), short(x1), short(y1))
}

pub(crate) fn blend(mix: u32, compose: u32) -> BlendMode {
    BlendMode {
        mix: byte(mix),
        compose: byte(compose),
    }
}

/// Handle 0 says none.
pub(crate) fn mask(handle: u32) -> Option<Mask> {
    (handle != 0).then_some(Mask(handle))
}

pub(crate) fn paint(&[flag, handle, x, y]: &[u32; 4]) -> EncodedPaint {
    EncodedPaint::Image(EncodedImage {
        source: ImageSource::Pixmap(Arc::new(Pixmap::of(handle))),
        sampler: ImageSampler {
            x_extend: Extend::Pad,
            y_extend: Extend::Pad,
            quality: ImageQuality::Low,
            alpha: 1.0,
        },
        may_have_transparency: flag == 0,
        transform: Affine::translate((f64::from(x.cast_signed()), f64::from(y.cast_signed()))),
        x_advance: Vec2::new(1.0, 0.0),
        y_advance: Vec2::new(0.0, 1.0),
        tint: None,
    })
}

pub(crate) fn strip(&[kind, row, first, end, alpha]: &[u32; 5]) -> Strip {
    Strip {
        alpha: kind == 1,
        row: short(row),
        first: short(first),
        end: short(end),
        alpha_idx: alpha,
    }
}

pub(crate) fn draw(&[thread, start, end, paint, mix, compose, handle]: &[u32; 7]) -> RecordedFill {
    let paint = Paint::Indexed(IndexedPaint::new(paint as usize));
    RecordedFill::new(
        byte(thread),
        range(start, end),
        paint,
        blend(mix, compose),
        mask(handle),
    )
}

fn node(&[start, end, layer]: &[u32; 3]) -> Node {
    Node {
        draws: range(start, end),
        layer: layer.checked_sub(1),
    }
}

fn recorded_layer(layer: &[u32; 22], nodes: &[Node]) -> RecordedLayer {
    let &[kind, start, end, mix, compose, opacity, handle, flag, ..] = layer;
    let clip = LayerClip {
        bbox: rect([layer[8], layer[9], layer[10], layer[11]]),
        strip_range: range(layer[12], layer[13]),
        thread_idx: byte(layer[14]),
    };
    let placement = FilterLayerPlacement {
        dest: rect([layer[16], layer[17], layer[18], layer[19]]),
        source: (short(layer[20]), short(layer[21])),
    };
    RecordedLayer {
        nodes: nodes[range(start, end)].to_vec(),
        props: LayerProps {
            blend_mode: blend(mix, compose),
            opacity: f32::from_bits(opacity),
            mask: mask(handle),
            clip_path: (flag == 1).then_some(clip),
        },
        kind: if kind == 0 {
            RecordedLayerKind::Regular
        } else {
            RecordedLayerKind::Filter { placement }
        },
    }
}
