//! Colours: what a tile's buffer can be, and what fills and closing layers do to it. Two of them stand here, both with the two laws that compositing
//! rests on (docs/THEOREMS.md): a fill that hides leaves the same, whatever was there; a blank buffer that is closed by a blend which is not
//! destructive leaves the one below it as it was.

use std::fmt::Debug;

/// What a paint attribute says, and its place.
#[derive(Debug, Clone, Copy, PartialEq, Eq)]
pub struct PaintSaid {
    pub place: u32,
    /// 1 if opaque, the handle, the shifts: of a paint of the list, or of a filter's.
    pub paint: [i64; 4],
    pub blend: [u32; 2],
    pub mask: u32,
    pub thread: u32,
}

/// What a layer attribute says, and its place.
#[derive(Debug, Clone, Copy, PartialEq, Eq)]
pub struct LayerSaid {
    pub place: u32,
    pub blend: [u32; 2],
    /// The bits.
    pub opacity: u32,
    pub mask: u32,
    pub thread: u32,
}

const DEFAULT: [u32; 2] = [0, 3];

impl PaintSaid {
    /// Whether a draw that says this is eligible, drawn with no layer open.
    pub fn is_opaque(&self) -> bool {
        self.paint[0] == 1 && self.blend == DEFAULT && self.mask == 0
    }
}

impl LayerSaid {
    /// Whether its blend changes what the layer leaves uncovered.
    pub fn is_destructive(&self) -> bool {
        [0, 1, 5, 6, 7, 10].contains(&self.blend[1])
    }
}

pub trait Colours {
    type Buffer: Clone + PartialEq + Debug;

    fn blank(&self) -> Self::Buffer;

    /// A paint on a buffer of this tile, which has these alphas, or none; `hides` where the rules say that it hides what was there.
    fn fill(&self, by: &PaintSaid, alpha: Option<u32>, hides: bool, buffer: &mut Self::Buffer);

    /// A layer's buffer on the one below it.
    fn close(
        &self,
        by: &LayerSaid,
        alpha: Option<u32>,
        top: &Self::Buffer,
        below: &mut Self::Buffer,
    );
}

/// Two colours at once.
impl<A: Colours, B: Colours> Colours for (A, B) {
    type Buffer = (A::Buffer, B::Buffer);

    fn blank(&self) -> Self::Buffer {
        (self.0.blank(), self.1.blank())
    }

    fn fill(&self, by: &PaintSaid, alpha: Option<u32>, hides: bool, buffer: &mut Self::Buffer) {
        self.0.fill(by, alpha, hides, &mut buffer.0);
        self.1.fill(by, alpha, hides, &mut buffer.1);
    }

    fn close(
        &self,
        by: &LayerSaid,
        alpha: Option<u32>,
        top: &Self::Buffer,
        below: &mut Self::Buffer,
    ) {
        self.0.close(by, alpha, &top.0, &mut below.0);
        self.1.close(by, alpha, &top.1, &mut below.1);
    }
}

/// Red, green, blue and alpha in whole numbers from 0 to 255, the first three multiplied by the alpha, blended by the rules of Porter and Duff. The colour of
/// a paint is made of all that its attribute says, its place too.
pub struct Rgba;

pub type Colour = [u32; 4];

const FULL: u32 = 255;

/// So much of n, of 255: all of it at 255, nothing at 0.
fn part(n: u32, of: u32) -> u32 {
    (n * of + 127) / FULL
}

fn faded(colour: Colour, to: u32) -> Colour {
    colour.map(|n| part(n, to))
}

/// So much of one colour and so much of another.
fn sum(one: Colour, of_one: u32, other: Colour, of_other: u32) -> Colour {
    std::array::from_fn(|i| (part(one[i], of_one) + part(other[i], of_other)).min(FULL))
}

/// A number from 0 to 255 that looks as if it were any.
fn mixed(words: &[i64]) -> u32 {
    let mut hash = 0x9e37_79b9_7f4a_7c15_u64;
    for word in words {
        hash = (hash ^ word.cast_unsigned()).wrapping_mul(0xff51_afd7_ed55_8ccd);
        hash ^= hash >> 32;
    }
    u32::try_from(hash % 256).expect("a byte")
}

/// How much of a tile is painted: by its alphas and the mask.
fn cover(alpha: Option<u32>, mask: u32) -> u32 {
    let by = |word: u32| mixed(&[word.into()]);
    let by_mask = if mask == 0 { FULL } else { by(mask) };
    part(alpha.map_or(FULL, by), by_mask)
}

/// One over the other. What a destructive blend does is done to the covered part of the tile, any other with so much less of the source.
fn blended([mix, compose]: [u32; 2], source: Colour, cover: u32, below: Colour) -> Colour {
    // A mix takes of the source by what is below, and never adds to it.
    let mut source = source;
    if mix != 0 {
        for i in 0..3 {
            source[i] = part(source[i], FULL - below[(i + mix as usize) % 3]);
        }
    }
    let destructive = [0, 1, 5, 6, 7, 10].contains(&compose);
    if !destructive {
        source = faded(source, cover);
    }
    let (over, under) = (source[3], below[3]);
    let (of_source, of_below) = match compose {
        0 => (0, 0),
        1 => (FULL, 0),
        2 => (0, FULL),
        3 => (FULL, FULL - over),
        4 => (FULL - under, FULL),
        5 => (under, 0),
        6 => (0, over),
        7 => (FULL - under, 0),
        8 => (0, FULL - over),
        9 => (under, FULL - over),
        10 => (FULL - under, over),
        11 => (FULL - under, FULL - over),
        _ => (FULL, FULL),
    };
    let result = sum(source, of_source, below, of_below);
    if destructive {
        sum(result, cover, below, FULL - cover)
    } else {
        result
    }
}

impl Colours for Rgba {
    type Buffer = Colour;

    fn blank(&self) -> Colour {
        [0; 4]
    }

    fn fill(&self, by: &PaintSaid, alpha: Option<u32>, _hides: bool, buffer: &mut Colour) {
        let [flag, handle, x, y] = by.paint;
        let number = |i: i64| mixed(&[i, by.place.into(), handle, x, y, by.thread.into()]);
        let seen = if flag == 1 { FULL } else { number(3) };
        let colour = [number(0), number(1), number(2), FULL];
        let source = faded(colour, seen);
        *buffer = blended(by.blend, source, cover(alpha, by.mask), *buffer);
    }

    fn close(&self, by: &LayerSaid, alpha: Option<u32>, top: &Colour, below: &mut Colour) {
        let opacity = mixed(&[by.place.into(), by.opacity.into(), by.thread.into()]);
        let source = faded(*top, opacity);
        *below = blended(by.blend, source, cover(alpha, by.mask), *below);
    }
}

/// A list of all that was done to a buffer, but for what lies under a fill that hides and for blank buffers that leave no trace: wherever any colours
/// with both laws differ, it does.
pub struct Log {
    /// Whether a fill that hides covers what was there. Without it the first law is broken.
    pub forgets: bool,
    /// Whether a blank buffer that is closed leaves no trace. Without it the second law is broken.
    pub is_gentle: bool,
}

impl Log {
    /// With both laws.
    pub const LAWFUL: Self = Self {
        forgets: true,
        is_gentle: true,
    };
}

/// What was done, by an attribute's place and the tile's alphas.
#[derive(Debug, Clone, Copy, PartialEq, Eq)]
pub enum Entry {
    Fill(u32, Option<u32>),
    /// A layer: the buffer's own entries come between.
    Layer(u32, Option<u32>),
    End,
}

impl Colours for Log {
    type Buffer = Vec<Entry>;

    fn blank(&self) -> Vec<Entry> {
        Vec::new()
    }

    fn fill(&self, by: &PaintSaid, alpha: Option<u32>, hides: bool, buffer: &mut Vec<Entry>) {
        if self.forgets && hides {
            buffer.clear();
        }
        buffer.push(Entry::Fill(by.place, alpha));
    }

    fn close(&self, by: &LayerSaid, alpha: Option<u32>, top: &Vec<Entry>, below: &mut Vec<Entry>) {
        if top.is_empty() && !by.is_destructive() && self.is_gentle {
            return;
        }
        below.push(Entry::Layer(by.place, alpha));
        below.extend(top);
        below.push(Entry::End);
    }
}

/// The buffers of a row, one over the other, each tile by itself. The lowest is the row of the picture.
pub struct Buffers<'a, C: Colours> {
    colours: &'a C,
    levels: Vec<Vec<C::Buffer>>,
}

impl<'a, C: Colours> Buffers<'a, C> {
    /// A row of so many tiles, with no other buffer open.
    pub fn new(colours: &'a C, tiles: usize) -> Self {
        let levels = vec![vec![colours.blank(); tiles]];
        Self { colours, levels }
    }

    /// How many are open over the picture.
    pub fn nesting(&self) -> usize {
        self.levels.len() - 1
    }

    pub fn push(&mut self) {
        let tiles = self.levels[0].len();
        self.levels.push(vec![self.colours.blank(); tiles]);
    }

    /// One that is blank on these tiles alone, and on the others holds what the one below holds.
    pub fn push_over(&mut self, tiles: std::ops::Range<usize>) {
        let mut top = self.levels[self.nesting()].clone();
        top[tiles].fill(self.colours.blank());
        self.levels.push(top);
    }

    pub fn pop(&mut self) {
        assert!(self.nesting() > 0, "the picture stays");
        self.levels.pop();
    }

    pub fn fill(&mut self, tile: usize, by: &PaintSaid, alpha: Option<u32>, hides: bool) {
        let top = self.levels.last_mut().expect("the picture");
        self.colours.fill(by, alpha, hides, &mut top[tile]);
    }

    pub fn close(&mut self, tile: usize, by: &LayerSaid, alpha: Option<u32>) {
        let [.., below, top] = &mut self.levels[..] else {
            panic!("a layer's fill with no buffer open");
        };
        self.colours.close(by, alpha, &top[tile], &mut below[tile]);
    }

    /// Whether the innermost is blank at a tile.
    pub fn is_blank(&self, tile: usize) -> bool {
        self.levels[self.nesting()][tile] == self.colours.blank()
    }

    /// The row of the picture, once every buffer over it is gone.
    pub fn picture(mut self) -> Vec<C::Buffer> {
        assert_eq!(self.nesting(), 0, "a buffer is open at the end");
        self.levels.swap_remove(0)
    }
}

#[cfg(test)]
mod tests {
    use super::{Colours, Entry, LayerSaid, Log, PaintSaid, Rgba, FULL};
    use crate::random::Random;

    fn paint(random: &mut Random) -> PaintSaid {
        PaintSaid {
            place: random.below(40),
            paint: [random.below(2), random.below(9), 0, 0].map(i64::from),
            blend: [random.below(16) * random.below(2), random.below(14)],
            mask: random.below(2) * random.word(),
            thread: random.below(256),
        }
    }

    fn layer(random: &mut Random) -> LayerSaid {
        LayerSaid {
            place: random.below(40),
            blend: [random.below(16) * random.below(2), random.below(14)],
            opacity: random.word(),
            mask: random.below(2) * random.word(),
            thread: random.below(256),
        }
    }

    fn alpha(random: &mut Random) -> Option<u32> {
        random.chance(50).then(|| random.word())
    }

    /// A buffer that has had a few things done to it.
    fn used<C: Colours>(colours: &C, random: &mut Random) -> C::Buffer {
        let mut buffer = colours.blank();
        for _ in 0..random.below(6) {
            let mut top = colours.blank();
            colours.fill(&paint(random), alpha(random), false, &mut top);
            colours.fill(&paint(random), alpha(random), false, &mut buffer);
            colours.close(&layer(random), alpha(random), &top, &mut buffer);
        }
        buffer
    }

    /// How often each law was broken.
    fn broken<C: Colours>(colours: &C) -> [usize; 2] {
        let mut random = Random::new(1);
        let mut broken = [0; 2];
        for _ in 0..20_000 {
            let (mut one, mut other) = (used(colours, &mut random), used(colours, &mut random));
            let below = one.clone();
            let (by, alphas) = (layer(&mut random), alpha(&mut random));
            if !by.is_destructive() {
                colours.close(&by, alphas, &colours.blank(), &mut one);
                broken[1] += usize::from(one != below);
            }
            let opaque = PaintSaid {
                paint: [1, 3, 0, 0],
                blend: [0, 3],
                mask: 0,
                ..paint(&mut random)
            };
            assert!(opaque.is_opaque());
            colours.fill(&opaque, None, true, &mut one);
            colours.fill(&opaque, None, true, &mut other);
            broken[0] += usize::from(one != other);
        }
        broken
    }

    #[test]
    fn both_have_both_laws() {
        assert_eq!(broken(&Rgba), [0, 0]);
        assert_eq!(broken(&Log::LAWFUL), [0, 0]);
        assert_eq!(broken(&(Rgba, Log::LAWFUL)), [0, 0]);
    }

    #[test]
    fn a_log_can_break_either() {
        let lawful = Log::LAWFUL;
        let [first, second] = broken(&Log {
            forgets: false,
            ..lawful
        });
        assert!(first > 1_000 && second == 0);
        let [first, second] = broken(&Log {
            is_gentle: false,
            ..Log::LAWFUL
        });
        assert!(first == 0 && second > 1_000);
    }

    /// Each blend that is destructive changes something below a blank buffer, in either colours.
    #[test]
    fn destructive_blends_are_seen() {
        for compose in 0..14 {
            let by = LayerSaid {
                place: 0,
                blend: [0, compose],
                opacity: 0,
                mask: 0,
                thread: 0,
            };
            let before = ([9, 99, 200, FULL], vec![Entry::Fill(7, None)]);
            let mut after = before.clone();
            let colours = (Rgba, Log::LAWFUL);
            colours.close(&by, None, &colours.blank(), &mut after);
            assert_eq!(after.0 != before.0, by.is_destructive(), "{compose}");
            assert_eq!(after.1 != before.1, by.is_destructive(), "{compose}");
        }
    }
}
