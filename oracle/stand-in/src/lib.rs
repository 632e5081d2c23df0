//! A small stand-in for the crate vello_common, written from the rules in words (docs/RULES.md): only what the unchanged
//! files of the coarse stage name. Handles stand for pixmaps, masks and images.

/// Blends and sampling, by their numbers in the rules.
pub mod peniko {
    /// A blend: mix 0 to 15, compose 0 to 13, in the order of peniko.
    #[derive(Debug, Clone, Copy, PartialEq, Eq)]
    pub struct BlendMode {
        pub mix: u8,
        pub compose: u8,
    }

    impl BlendMode {
        /// A blend that changes tiles where its layer is empty.
        pub fn is_destructive(&self) -> bool {
            matches!(self.compose, 0 | 1 | 5 | 6 | 7 | 10)
        }
    }

    impl Default for BlendMode {
        /// Mix normal, compose source over.
        fn default() -> Self {
            Self { mix: 0, compose: 3 }
        }
    }

    /// How an image goes on outside its bounds; only the case that the coarse stage names.
    #[derive(Debug, Clone, Copy)]
    pub enum Extend {
        Pad,
    }

    /// How an image is sampled; only the case that the coarse stage names.
    #[derive(Debug, Clone, Copy)]
    pub enum ImageQuality {
        Low,
    }

    /// What a filter paint stores for the fine stage; no line of the output shows it.
    #[derive(Debug, Clone, Copy)]
    pub struct ImageSampler {
        pub x_extend: Extend,
        pub y_extend: Extend,
        pub quality: ImageQuality,
        pub alpha: f32,
    }
}

/// The two shapes of numbers that a filter paint stores.
pub mod kurbo {
    /// A pair of numbers.
    #[derive(Debug, Clone, Copy)]
    pub struct Vec2 {
        pub x: f64,
        pub y: f64,
    }

    impl Vec2 {
        pub fn new(x: f64, y: f64) -> Self {
            Self { x, y }
        }
    }

    /// A transform: here always a shift.
    #[derive(Debug, Clone, Copy)]
    pub struct Affine {
        pub shift: Vec2,
    }

    impl Affine {
        pub fn translate(by: (f64, f64)) -> Self {
            Self {
                shift: Vec2::new(by.0, by.1),
            }
        }
    }
}

/// Boxes of pixels or tiles.
pub mod geometry {
    /// A box from (x0, y0) up to and without (x1, y1).
    #[derive(Debug, Clone, Copy, PartialEq, Eq)]
    pub struct RectU16 {
        pub x0: u16,
        pub y0: u16,
        pub x1: u16,
        pub y1: u16,
    }

    impl RectU16 {
        pub fn new(x0: u16, y0: u16, x1: u16, y1: u16) -> Self {
            Self { x0, y0, x1, y1 }
        }

        /// The larger of the starts, the smaller of the ends.
        pub fn intersect(self, other: Self) -> Self {
            Self {
                x0: self.x0.max(other.x0),
                y0: self.y0.max(other.y0),
                x1: self.x1.min(other.x1),
                y1: self.y1.min(other.y1),
            }
        }

        /// Without a tile on either axis.
        pub fn is_empty(self) -> bool {
            self.x0 >= self.x1 || self.y0 >= self.y1
        }

        pub fn width(self) -> u16 {
            self.x1.saturating_sub(self.x0)
        }

        pub fn height(self) -> u16 {
            self.y1.saturating_sub(self.y0)
        }
    }
}

/// The size of a tile in pixels.
pub mod tile {
    pub struct Tile;

    impl Tile {
        pub const WIDTH: u16 = 4;
        pub const HEIGHT: u16 = 4;
    }
}

/// Masks as handles.
pub mod mask {
    /// A mask is its handle, never 0.
    #[derive(Debug, Clone, PartialEq, Eq)]
    pub struct Mask(pub u32);
}

/// Pixmaps as handles.
pub mod pixmap {
    /// A pixmap is its handle; a size is kept only for the scratch buffer of filter/context.rs, which no run uses.
    #[derive(Debug)]
    pub struct Pixmap {
        pub handle: u32,
        size: (u16, u16),
    }

    impl Pixmap {
        pub fn of(handle: u32) -> Self {
            Self {
                handle,
                size: (0, 0),
            }
        }

        pub fn new(width: u16, height: u16) -> Self {
            Self {
                handle: 0,
                size: (width, height),
            }
        }

        pub fn width(&self) -> u16 {
            self.size.0
        }

        pub fn height(&self) -> u16 {
            self.size.1
        }

        pub fn resize(&mut self, width: u16, height: u16) {
            self.size = (width, height);
        }
    }
}

/// Paints by their place in the paint list.
pub mod paint {
    use crate::encode::EncodedPaint;
    use crate::pixmap::Pixmap;
    use std::sync::Arc;

    /// A place in the paint list, or past it among the filter paints.
    #[derive(Debug, Clone, Copy)]
    pub struct IndexedPaint(usize);

    impl IndexedPaint {
        pub fn new(index: usize) -> Self {
            Self(index)
        }

        pub fn index(self) -> usize {
            self.0
        }
    }

    /// A paint: every paint of a recording is named by its index.
    #[derive(Debug, Clone)]
    pub enum Paint {
        Indexed(IndexedPaint),
    }

    impl Paint {
        /// False exactly for an opaque paint of the list.
        pub fn may_have_transparency(&self, encoded_paints: &[EncodedPaint]) -> bool {
            let Paint::Indexed(paint) = self;
            let EncodedPaint::Image(image) = &encoded_paints[paint.0];
            image.may_have_transparency
        }
    }

    /// What an image is read from.
    #[derive(Debug, Clone)]
    pub enum ImageSource {
        Pixmap(Arc<Pixmap>),
    }
}

/// The paint list's entries.
pub mod encode {
    use crate::kurbo::{Affine, Vec2};
    use crate::paint::ImageSource;
    use crate::peniko::ImageSampler;

    /// A paint record: the opaque flag is `!may_have_transparency`, the handle is the source's, the shift is the transform's.
    #[derive(Debug, Clone)]
    pub struct EncodedImage {
        pub source: ImageSource,
        pub sampler: ImageSampler,
        pub may_have_transparency: bool,
        pub transform: Affine,
        pub x_advance: Vec2,
        pub y_advance: Vec2,
        pub tint: Option<()>,
    }

    /// A paint of the list; the coarse stage makes only images.
    #[derive(Debug, Clone)]
    pub enum EncodedPaint {
        Image(EncodedImage),
    }
}

/// Where a filter layer's pixmap goes.
pub mod filter {
    use crate::geometry::RectU16;

    /// The box drawn to, and the place in the pixmap that its corner is read from.
    #[derive(Debug, Clone, Copy)]
    pub struct FilterLayerPlacement {
        pub dest: RectU16,
        pub source: (u16, u16),
    }

    impl FilterLayerPlacement {
        pub fn dest_bbox(&self) -> RectU16 {
            self.dest
        }

        pub fn src_origin(&self) -> (u16, u16) {
            self.source
        }
    }
}

/// Recorded layers and nodes.
pub mod record {
    use crate::filter::FilterLayerPlacement;
    use crate::geometry::RectU16;
    use crate::mask::Mask;
    use crate::peniko::BlendMode;
    use crate::strip::Strip;
    use std::ops::Range;

    /// A layer's clip: box, range of segments, thread number.
    #[derive(Debug, Clone)]
    pub struct LayerClip {
        pub bbox: RectU16,
        pub strip_range: Range<usize>,
        pub thread_idx: u8,
    }

    /// A layer's properties.
    #[derive(Debug, Clone)]
    pub struct LayerProps {
        pub blend_mode: BlendMode,
        pub opacity: f32,
        pub mask: Option<Mask>,
        pub clip_path: Option<LayerClip>,
    }

    /// A run of draws, then maybe a layer.
    #[derive(Debug, Clone)]
    pub struct Node {
        pub draws: Range<usize>,
        pub layer: Option<u32>,
    }

    impl Node {
        pub fn draws_in<'a, T>(&self, draws: &'a [T]) -> &'a [T] {
            &draws[self.draws.clone()]
        }
    }

    /// A regular layer, or a filter layer with its placement.
    #[derive(Debug)]
    pub enum RecordedLayerKind {
        Regular,
        Filter { placement: FilterLayerPlacement },
    }

    /// A layer: its nodes, properties and kind.
    #[derive(Debug)]
    pub struct RecordedLayer {
        pub nodes: Vec<Node>,
        pub props: LayerProps,
        pub kind: RecordedLayerKind,
    }

    /// What record.rs says of a draw; no run uses it.
    pub trait Drawable {
        fn bbox(&self, strips: &[Strip]) -> Option<RectU16>;
        fn blend_mode(&self) -> Option<&BlendMode>;
    }
}

/// Strips, which are segment records here.
pub mod strip {
    use crate::geometry::RectU16;

    /// A segment record in place of a strip.
    #[derive(Debug, Clone, Copy)]
    pub struct Strip {
        pub alpha: bool,
        pub row: u16,
        pub first: u16,
        pub end: u16,
        pub alpha_idx: u32,
    }

    /// What is left of a segment between the bounds.
    #[derive(Debug, Clone, Copy)]
    pub struct FillSegment {
        pub tile_y: u16,
        pub tile_x0: u16,
        pub tile_x1: u16,
        pub alpha_idx: u32,
    }

    /// Cuts each segment to the bounds, in order; a left cut moves an alpha index by 16 a tile.
    pub fn visit_strip_fill_segments<S>(
        strips: &[Strip],
        tile_bounds: RectU16,
        state: &mut S,
        mut alpha_fill: impl FnMut(&mut S, FillSegment),
        mut fill: impl FnMut(&mut S, FillSegment),
    ) {
        for strip in strips {
            let tile_x0 = strip.first.max(tile_bounds.x0);
            let tile_x1 = strip.end.min(tile_bounds.x1);
            if strip.row < tile_bounds.y0 || strip.row >= tile_bounds.y1 || tile_x0 >= tile_x1 {
                continue;
            }
            let moved = if strip.alpha {
                16 * u32::from(tile_x0 - strip.first)
            } else {
                0
            };
            let left = FillSegment {
                tile_y: strip.row,
                tile_x0,
                tile_x1,
                alpha_idx: strip.alpha_idx + moved,
            };
            if strip.alpha {
                alpha_fill(state, left);
            } else {
                fill(state, left);
            }
        }
    }
}

/// Containers and box helpers.
pub mod util {
    use crate::geometry::RectU16;
    use crate::strip::Strip;
    use crate::tile::Tile;
    use std::ops::{Index, IndexMut};

    /// The hull of segments in pixels; record.rs names it, no run uses it.
    pub fn strip_bbox(strips: &[Strip]) -> Option<RectU16> {
        let hull = |a: RectU16, b: RectU16| {
            RectU16::new(
                a.x0.min(b.x0),
                a.y0.min(b.y0),
                a.x1.max(b.x1),
                a.y1.max(b.y1),
            )
        };
        let boxes = strips
            .iter()
            .map(|s| RectU16::new(4 * s.first, 4 * s.row, 4 * s.end, 4 * s.row + 4));
        boxes.reduce(hull)
    }

    /// Moving and aligning boxes.
    pub trait RectExt {
        fn relative_to_origin(self, origin: (u16, u16)) -> Self;
        fn snap_to_tile_coordinates(self) -> Self;
    }

    impl RectExt for RectU16 {
        /// A subtraction that stops at 0.
        fn relative_to_origin(self, (x, y): (u16, u16)) -> Self {
            Self {
                x0: self.x0.saturating_sub(x),
                y0: self.y0.saturating_sub(y),
                x1: self.x1.saturating_sub(x),
                y1: self.y1.saturating_sub(y),
            }
        }

        /// Starts lowered and ends raised to multiples of the tile's size, as the rules say it. The function itself was not to be had. What
        /// bucketer.rs tells of it: `new` and `reset` take their viewport through it before anything else, and afterwards hold the
        /// viewport's start, width and height to be multiples of the tile's size. An end past 65,532 has no multiple to be raised to, and none is given.
        fn snap_to_tile_coordinates(self) -> Self {
            Self {
                x0: self.x0 / Tile::WIDTH * Tile::WIDTH,
                y0: self.y0 / Tile::HEIGHT * Tile::HEIGHT,
                x1: self.x1.next_multiple_of(Tile::WIDTH),
                y1: self.y1.next_multiple_of(Tile::HEIGHT),
            }
        }
    }

    /// What can be emptied.
    pub trait Clear {
        fn clear(&mut self);
    }

    /// A list that keeps its emptied items for later use.
    #[derive(Debug)]
    pub struct RetainVec<T> {
        items: Vec<T>,
        len: usize,
    }

    impl<T: Clear> RetainVec<T> {
        pub fn with_len(len: usize, make: impl FnMut() -> T) -> Self {
            Self {
                items: std::iter::repeat_with(make).take(len).collect(),
                len,
            }
        }

        pub fn as_slice(&self) -> &[T] {
            &self.items[..self.len]
        }

        pub fn len(&self) -> usize {
            self.len
        }

        pub fn is_empty(&self) -> bool {
            self.len == 0
        }

        pub fn clear(&mut self) {
            self.items[..self.len].iter_mut().for_each(T::clear);
            self.len = 0;
        }

        pub fn resize_with(&mut self, len: usize, make: impl FnMut() -> T) {
            self.items[len.min(self.len)..self.len]
                .iter_mut()
                .for_each(T::clear);
            let missing = len.saturating_sub(self.items.len());
            self.items
                .extend(std::iter::repeat_with(make).take(missing));
            self.len = len;
        }
    }

    impl<T> Index<usize> for RetainVec<T> {
        type Output = T;
        fn index(&self, i: usize) -> &T {
            &self.items[..self.len][i]
        }
    }

    impl<T> IndexMut<usize> for RetainVec<T> {
        fn index_mut(&mut self, i: usize) -> &mut T {
            &mut self.items[..self.len][i]
        }
    }

    /// Lends empty lists and takes them back.
    #[derive(Debug)]
    pub struct VecPool<T>(Vec<Vec<T>>);

    impl<T> Default for VecPool<T> {
        fn default() -> Self {
            Self(Vec::new())
        }
    }

    impl<T> VecPool<T> {
        pub fn take(&mut self) -> Vec<T> {
            self.0.pop().unwrap_or_default()
        }

        pub fn submit(&mut self, mut list: Vec<T>) {
            list.clear();
            self.0.push(list);
        }
    }
}
