//! Plain draw order in colours, written from the rules in words (docs/RULES.md) over the records of a file: each step is done to whole pictures, one over
//! the other. There are no rows of commands, no depth and no touched rows, and nothing is left out because something newer hides it.

use crate::colours::{Buffers, Colours, LayerSaid, PaintSaid};
use crate::file::{pixmap, Recording};

/// A picture's rows, and what stands in its attributes.
pub struct Picture<B> {
    pub rows: Vec<Vec<B>>,
    pub paints: Vec<PaintSaid>,
    pub layers: Vec<LayerSaid>,
}

/// The paint attributes that hide at each tile of each row, by their places: opaque ones, drawn with no layer open, one solid segment of which
/// covers the tile's whole bucket. Colours alone ask for it.
#[derive(Default)]
pub struct Hiding(Vec<Vec<Vec<u32>>>);

impl Hiding {
    pub fn has(&self, row: usize, tile: usize, place: u32) -> bool {
        self.0[row][tile].contains(&place)
    }
}

/// How often what is worth trying was met.
#[derive(Debug, Clone, Copy, PartialEq, Eq, Default)]
pub struct Met {
    /// Tiles that are shown after the last step, in all.
    pub tiles: usize,
    /// Fills of a tile that hide what was there.
    pub hiding: usize,
    /// Closings of a blank tile by a blend that is not destructive, and by one that is.
    pub gentle: usize,
    pub destructive: usize,
    /// Tiles that a clip covers in rows outside its layer's box, where the blend is destructive.
    pub outside: usize,
    /// The most layers that were open.
    pub deepest: usize,
}

impl Met {
    pub fn add(&mut self, other: Self) {
        self.tiles += other.tiles;
        self.hiding += other.hiding;
        self.gentle += other.gentle;
        self.destructive += other.destructive;
        self.outside += other.outside;
        self.deepest = self.deepest.max(other.deepest);
    }
}

/// The rows in which a layer closes.
#[derive(Debug, Clone, Copy, PartialEq, Eq)]
pub enum Closing {
    /// Those of its own box.
    OwnRows,
    /// All that its clip covers, which is no account of the rules.
    AllRows,
}

/// Half-open in pixels from the screen's corner.
#[derive(Clone, Copy)]
struct Area {
    across: (u32, u32),
    down: (u32, u32),
}

impl Area {
    fn met(self, other: Self) -> Self {
        let both = |a: (u32, u32), b: (u32, u32)| (a.0.max(b.0), a.1.min(b.1));
        Self {
            across: both(self.across, other.across),
            down: both(self.down, other.down),
        }
    }

    fn is_empty(self) -> bool {
        self.across.0 >= self.across.1 || self.down.0 >= self.down.1
    }

    /// Whether it has a pixel of a row, whatever it has across.
    fn has_row(self, row: u32) -> bool {
        self.down.0 < 4 * (row + 1) && 4 * row < self.down.1
    }

    /// Whether it has a pixel of a tile.
    fn has(self, row: u32, tile: u32) -> bool {
        !self.is_empty()
            && self.has_row(row)
            && self.across.0 < 4 * (tile + 1)
            && 4 * tile < self.across.1
    }
}

struct Layer<'a> {
    /// Its clip's box met with that of the layer around it.
    area: Area,
    /// Of its clip, if it has one.
    segments: Option<&'a [[u32; 5]]>,
    said: LayerSaid,
}

/// The account while it is told.
struct Telling<'a, C: Colours> {
    recording: &'a Recording,
    closing: Closing,
    /// How many tiles a bucket has.
    width: usize,
    hiding: Hiding,
    /// The screen's corner, in pixels of the scene.
    corner: (u32, u32),
    screen: Area,
    rows: Vec<Buffers<'a, C>>,
    open: Vec<Layer<'a>>,
    paints: Vec<PaintSaid>,
    layers: Vec<LayerSaid>,
    met: Met,
}

/// What an accepted recording comes to on a screen that holds this box, and what hides at buckets of so many tiles.
pub fn plain<C: Colours>(
    recording: &Recording,
    [x0, y0, x1, y1]: [u32; 4],
    width: u32,
    colours: &C,
    closing: Closing,
) -> (Picture<C::Buffer>, Hiding, Met) {
    let (wide, high) = (x1 - x0, y1 - y0);
    let tiles = (wide / 4) as usize;
    let mut telling = Telling {
        recording,
        closing,
        width: width as usize,
        hiding: Hiding(vec![vec![Vec::new(); tiles]; (high / 4) as usize]),
        corner: (x0, y0),
        screen: Area {
            across: (0, wide),
            down: (0, high),
        },
        rows: (0..high / 4)
            .map(|_| Buffers::new(colours, tiles))
            .collect(),
        open: Vec::new(),
        paints: Vec::new(),
        layers: Vec::new(),
        met: Met::default(),
    };
    telling.nodes(recording.root[0], recording.root[1]);
    let mut met = telling.met;
    met.tiles = tiles * telling.rows.len();
    let picture = Picture {
        rows: telling.rows.into_iter().map(Buffers::picture).collect(),
        paints: telling.paints,
        layers: telling.layers,
    };
    (picture, telling.hiding, met)
}

fn number<T>(list: &[T]) -> u32 {
    u32::try_from(list.len()).expect("few")
}

impl<'a, C: Colours> Telling<'a, C> {
    /// Rule 2: a node's draws, then its layer.
    fn nodes(&mut self, start: u32, end: u32) {
        for &[first, last, layer] in &self.recording.nodes[start as usize..end as usize] {
            for draw in first..last {
                self.draw(draw as usize);
            }
            if layer > 0 {
                self.layer(layer as usize - 1);
            }
        }
    }

    fn layer(&mut self, layer: usize) {
        let words = self.recording.layers[layer];
        if words[0] == 0 {
            self.push(&words);
            self.nodes(words[1], words[2]);
            self.pop();
            return;
        }
        // A filter layer: its nodes are not walked. It is pushed for any property but the default ones.
        let is_plain = words[3..5] == [0, 3]
            && f32::from_bits(words[5]) == 1.0
            && words[6] == 0
            && words[7] == 0;
        if !is_plain {
            self.push(&words);
        }
        self.filter(&words);
        if !is_plain {
            self.pop();
        }
    }

    /// The box that what is drawn is cut to.
    fn area(&self) -> Area {
        self.open.last().map_or(self.screen, |layer| layer.area)
    }

    /// A box of the scene, from the screen's corner; what lies before it is cut off.
    fn local(&self, words: &[u32]) -> Area {
        let (x, y) = self.corner;
        Area {
            across: (words[0].saturating_sub(x), words[2].saturating_sub(x)),
            down: (words[1].saturating_sub(y), words[3].saturating_sub(y)),
        }
    }

    /// The segments of a range of the list.
    fn segments(&self, start: u32, end: u32) -> &'a [[u32; 5]] {
        &self.recording.segments[start as usize..end as usize]
    }

    /// What a box leaves of a segment: a row and tiles of the screen, each tile with its alphas.
    fn cut(&self, &[kind, row, first, end, alpha]: &[u32; 5], area: Area) -> Vec<Tile> {
        let (left, top) = (self.corner.0 / 4, self.corner.1 / 4);
        let alphas = |tile: u32| (kind == 1).then(|| alpha + 16 * (tile - first));
        let inside = |tile: &u32| row >= top && area.has(row - top, tile - left);
        (first.max(left)..end)
            .filter(inside)
            .map(|tile| Tile {
                row: (row - top) as usize,
                tile: (tile - left) as usize,
                alpha: alphas(tile),
            })
            .collect()
    }

    /// Rules 3 and 4. With no segment it leaves no attribute.
    fn draw(&mut self, draw: usize) {
        let [thread, start, end, paint, mix, compose, mask] = self.recording.draws[draw];
        let segments = self.segments(start, end);
        if segments.is_empty() {
            return;
        }
        let [flag, handle, x, y] = self.recording.paints[paint as usize];
        let shift = |word: u32| i64::from(word.cast_signed());
        let said = PaintSaid {
            place: number(&self.paints),
            paint: [flag.into(), handle.into(), shift(x), shift(y)],
            blend: [mix, compose],
            mask,
            thread,
        };
        self.paints.push(said);
        let eligible = self.open.is_empty() && said.is_opaque();
        for segment in segments {
            let cut = self.cut(segment, self.area());
            let (Some(first), Some(last)) = (cut.first(), cut.last()) else {
                continue;
            };
            let tiles = first.tile..last.tile + 1;
            for at in &cut {
                let bucket = at.tile / self.width * self.width;
                let is_whole = tiles.start <= bucket && bucket + self.width <= tiles.end;
                let hides = eligible && at.alpha.is_none() && is_whole;
                if hides {
                    self.hiding.0[at.row][at.tile].push(said.place);
                    self.met.hiding += 1;
                }
                self.rows[at.row].fill(at.tile, &said, at.alpha, hides);
            }
        }
    }

    /// Rule 8.
    fn push(&mut self, words: &[u32; 22]) {
        let around = self.area();
        let has_clip = words[7] == 1;
        let area = if has_clip {
            self.local(&words[8..12]).met(around)
        } else {
            around
        };
        let segments = has_clip.then(|| self.segments(words[12], words[13]));
        // Its place is known when it closes.
        let said = LayerSaid {
            place: 0,
            blend: [words[3], words[4]],
            opacity: words[5],
            mask: words[6],
            thread: if has_clip { words[14] } else { 0 },
        };
        self.open.push(Layer {
            area,
            segments,
            said,
        });
        self.met.deepest = self.met.deepest.max(self.open.len());
        self.rows.iter_mut().for_each(Buffers::push);
    }

    /// Rule 9: a clip's segments are cut to the box around the layer; without a clip all of its own box closes. In rows outside its own box no layer
    /// closes, and nothing in an empty one.
    fn pop(&mut self) {
        let closing = self.open.pop().expect("pushed before");
        let said = LayerSaid {
            place: number(&self.layers),
            ..closing.said
        };
        self.layers.push(said);
        let tiles: Vec<Tile> = match closing.segments {
            Some(segments) => {
                let around = self.area();
                let cut = |segment| self.cut(segment, around);
                segments.iter().flat_map(cut).collect()
            }
            None => self.tiles(closing.area),
        };
        for at in tiles {
            let row = u32::try_from(at.row).expect("few rows");
            let own = !closing.area.is_empty() && closing.area.has_row(row);
            self.met.outside += usize::from(!own && said.is_destructive());
            if own || self.closing == Closing::AllRows {
                let blank = usize::from(self.rows[at.row].is_blank(at.tile));
                if said.is_destructive() {
                    self.met.destructive += blank;
                } else {
                    self.met.gentle += blank;
                }
                self.rows[at.row].close(at.tile, &said, at.alpha);
            }
        }
        self.rows.iter_mut().for_each(Buffers::pop);
    }

    /// Rule 11: nothing without a picture, or where nothing of the box is left.
    fn filter(&mut self, words: &[u32; 22]) {
        let area = self.local(&words[16..20]).met(self.area());
        let Some(handle) = pixmap(words[15]) else {
            return;
        };
        if area.is_empty() {
            return;
        }
        let less = |source: u32, edge: u32| i64::from(source) - i64::from(edge);
        let said = PaintSaid {
            place: number(&self.paints),
            paint: [
                0,
                handle.into(),
                less(words[20], words[16]),
                less(words[21], words[17]),
            ],
            blend: [0, 3],
            mask: 0,
            thread: 0,
        };
        self.paints.push(said);
        for at in self.tiles(area) {
            self.rows[at.row].fill(at.tile, &said, None, false);
        }
    }

    /// The tiles of which a box has a part.
    fn tiles(&self, area: Area) -> Vec<Tile> {
        let (rows, across) = (number(&self.rows), self.screen.across.1 / 4);
        let places = (0..rows).flat_map(|row| (0..across).map(move |tile| (row, tile)));
        places
            .filter(|&(row, tile)| area.has(row, tile))
            .map(|(row, tile)| Tile {
                row: row as usize,
                tile: tile as usize,
                alpha: None,
            })
            .collect()
    }
}

/// A tile of the screen, with its alphas.
struct Tile {
    row: usize,
    tile: usize,
    alpha: Option<u32>,
}

#[cfg(test)]
mod tests {
    use super::{plain, Closing};
    use crate::colours::{Entry, Log};
    use crate::generate::draft::{clipped, layer, solid, Draft};

    /// A layer that copies, with this box and a clip over all of two rows; nothing is drawn in it.
    fn copied(area: [u32; 4]) -> Draft {
        let mut draft = Draft::new(8, 8);
        let range = draft.segments(&[solid(0, 0, 2), solid(1, 0, 2)]);
        let inner = draft.node((0, 0), 0);
        let mut words = clipped(layer(inner), area, range, 0);
        words[4] = 1;
        let number = draft.layer(words);
        let root = draft.node((0, 0), number);
        draft.rooted(root)
    }

    #[test]
    fn a_layer_closes_in_its_own_rows() {
        let closed = vec![vec![Entry::Layer(0, None), Entry::End]; 2];
        let kept = vec![Vec::new(); 2];
        for (area, rows) in [
            ([0, 0, 8, 8], [&closed, &closed]),
            ([0, 4, 8, 8], [&kept, &closed]),
            // Beside the box, in its rows, the clip's segments close.
            ([4, 0, 8, 4], [&closed, &kept]),
            ([0, 0, 0, 0], [&kept, &kept]),
            ([4, 0, 4, 8], [&kept, &kept]),
        ] {
            let told = |closing| {
                let (picture, ..) = plain(&copied(area), [0, 0, 8, 8], 16, &Log::LAWFUL, closing);
                picture.rows
            };
            assert_eq!(told(Closing::OwnRows), rows.map(Vec::clone), "{area:?}");
            assert_eq!(told(Closing::AllRows), [closed.clone(), closed.clone()]);
        }
    }
}
