//! Both scenes of `buffers` in colours: what a host composites of a row, in each of the two ways that there are, and plain draw order beside it.
//!
//! - by steps: each painting step's pieces go into the innermost buffer; where the nesting rose after the step a buffer opens, where it fell one ends;
//! - by commands: the row's depth fills and then its stored commands, each on the tiles where the depth words of the painted row let it be seen;
//! - in order: what was drawn, call after call, on whole pictures: no stored commands, no depth, nothing hidden.
//!
//! All three have to give the same picture, whatever the colours are, as long as the two laws below hold of them.

use coarse::{
    Answer, CommandBucketer, LayerClip, LayerProps, Paint, Piece, RecordedFill, Rect, RenderCmd,
    Segment, Setup, TileSpan, Width,
};

const TILES: u32 = 24;
const ROWS: u32 = 2;

/// A page over everything; a clip's segment in row 0 alone; then red and blue in row 1, blue with soft edges: its alphas begin at index 0.
const SEGMENTS: [Segment; 5] = [
    Segment::solid(0, 0, TILES),
    Segment::solid(1, 0, TILES),
    Segment::solid(0, 0, TILES),
    Segment::solid(1, 2, 8),
    Segment::alpha(1, 12, 18, 0),
];
const PAGE: usize = 0;
const CLIP: usize = 2;
const RED: usize = 3;
const BLUE: usize = 4;

/// A tile's colour, where a host has 16 pixels: red, green, blue and alpha from 0 to 255, the first three multiplied by the alpha.
type Colour = [u32; 4];

const BLANK: Colour = [0; 4];

/// The paints' colours: page, red, blue.
const COLOURS: [Colour; 3] = [[255, 255, 255, 255], [255, 0, 0, 255], [0, 0, 255, 255]];

/// How much of a tile its 16 alphas cover, by the tile's place; all of it where it has none.
fn coverage(alpha_idx: Option<u32>) -> u32 {
    alpha_idx.map_or(255, |alpha| {
        [80, 160, 255, 255, 160, 80][alpha as usize / 16]
    })
}

/// So much of n, of 255.
fn part(n: u32, of_255: u32) -> u32 {
    (n * of_255 + 127) / 255
}

fn faded(colour: Colour, to: u32) -> Colour {
    colour.map(|n| part(n, to))
}

fn over(top: Colour, below: Colour) -> Colour {
    let rest = faded(below, 255 - top[3]);
    std::array::from_fn(|i| top[i] + rest[i])
}

/// The first law: an opaque paint that covers the whole tile leaves the same, whatever was there.
fn filled(paint: u32, cover: u32, tile: Colour) -> Colour {
    over(faded(COLOURS[paint as usize], cover), tile)
}

/// The second law: a blank buffer leaves the one below it as it was, where the layer's blend is not destructive.
fn closed(opacity: f32, cover: u32, top: Colour, below: Colour) -> Colour {
    over(faded(top, part((255.0 * opacity) as u32, cover)), below)
}

/// Buffers as wide as a row, one over the other. The lowest is the row of the picture.
struct Buffers(Vec<Vec<Colour>>);

impl Buffers {
    fn new() -> Self {
        let mut buffers = Self(Vec::new());
        buffers.open();
        buffers
    }

    /// How many lie over the picture.
    fn nesting(&self) -> usize {
        self.0.len() - 1
    }

    fn open(&mut self) {
        self.0.push(vec![BLANK; TILES as usize]);
    }

    fn end(&mut self) {
        self.0.pop();
    }

    fn paint(&mut self, tile: u32, paint: u32, cover: u32) {
        let (tile, top) = (tile as usize, self.nesting());
        self.0[top][tile] = filled(paint, cover, self.0[top][tile]);
    }

    fn composite(&mut self, tile: u32, opacity: f32, cover: u32) {
        let (tile, top) = (tile as usize, self.nesting());
        self.0[top - 1][tile] = closed(opacity, cover, self.0[top][tile], self.0[top - 1][tile]);
    }

    /// The row of the picture.
    fn row(self) -> Vec<Colour> {
        self.0.into_iter().next().unwrap_or_default()
    }
}

/// A fill, as a piece or a stored command has it.
struct Fill {
    is_layer: bool,
    attrs_idx: u32,
    span: TileSpan,
    alpha_idx: Option<u32>,
}

impl Fill {
    fn new(is_layer: bool, attrs_idx: u32, span: TileSpan, alpha_idx: Option<u32>) -> Self {
        Self {
            is_layer,
            attrs_idx,
            span,
            alpha_idx,
        }
    }

    fn of(piece: &Piece) -> Self {
        Self::new(
            piece.is_layer(),
            piece.attrs_idx,
            piece.span(),
            piece.alpha_idx(),
        )
    }

    /// On these tiles, which are all of its own or some of them: the alphas of a tile are 16 after those of the tile before it.
    fn on(&self, screen: &CommandBucketer, buffers: &mut Buffers, tiles: TileSpan) {
        for tile in tiles.first..tiles.end {
            let moved = 16 * (tile - self.span.first);
            let cover = coverage(self.alpha_idx.map(|alpha| alpha + moved));
            if self.is_layer {
                let attrs = screen.layer_attr(self.attrs_idx).expect("its attribute");
                buffers.composite(tile, attrs.opacity, cover);
            } else {
                let attrs = screen.paint_attr(self.attrs_idx).expect("its attribute");
                buffers.paint(tile, attrs.paint, cover);
            }
        }
    }

    /// Where no newer depth fill hides it: where the depth words are at most the id of its draw.
    fn on_visible(
        &self,
        screen: &CommandBucketer,
        row: usize,
        buffers: &mut Buffers,
    ) -> Result<(), Answer> {
        let id = if self.is_layer {
            screen.layer_attr(self.attrs_idx).map(|attrs| attrs.draw_id)
        } else {
            screen.paint_attr(self.attrs_idx).map(|attrs| attrs.draw_id)
        };
        let TileSpan { first, end } = self.span;
        for run in screen.visible_runs(row, first, end, id.expect("its attribute"))? {
            self.on(screen, buffers, run);
        }
        Ok(())
    }
}

fn by_steps(screen: &mut CommandBucketer, row: usize) -> Result<Buffers, Answer> {
    let mut buffers = Buffers::new();
    while let Some(pieces) = screen.paint_step(row)?.map(<[Piece]>::to_vec) {
        for fill in pieces.iter().map(Fill::of) {
            fill.on(screen, &mut buffers, fill.span);
        }
        let nesting = screen.progress(row)?.nesting as usize;
        if nesting > buffers.nesting() {
            buffers.open();
        } else if nesting < buffers.nesting() {
            buffers.end();
        }
    }
    Ok(buffers)
}

/// Painting the row writes its depth words. Its pieces are left aside. Of a buffer no more than its `PushBuf`'s span has to be cleared.
fn by_commands(screen: &mut CommandBucketer, row: usize) -> Result<Buffers, Answer> {
    screen.paint_row(row)?;
    let mut buffers = Buffers::new();
    let stored = screen.row(row)?;
    for depth in stored.depth_cmds() {
        let span = depth.bucket_range.span(screen.bucket_width());
        Fill::new(false, depth.attrs_idx, span, None).on_visible(screen, row, &mut buffers)?;
    }
    for cmd in stored.render_cmds() {
        let fill = match cmd {
            RenderCmd::PushBuf(_) => {
                buffers.open();
                continue;
            }
            RenderCmd::PopBuf => {
                buffers.end();
                continue;
            }
            RenderCmd::PaintFill(fill) => {
                Fill::new(false, fill.attrs_idx, fill.span, fill.alpha_idx)
            }
            RenderCmd::LayerFill(fill) => {
                Fill::new(true, fill.attrs_idx, fill.span, fill.alpha_idx)
            }
        };
        fill.on_visible(screen, row, &mut buffers)?;
    }
    Ok(buffers)
}

/// A call that draws a scene.
enum Step {
    /// A fill of a segment with a paint.
    Fill(usize, u32),
    /// A layer is opened, with a clip whose box is so many rows high, or with none.
    Push(Option<u32>),
    /// The innermost layer is closed.
    Pop,
}

/// Blue under the page, where it is hidden. A layer whose clip takes red away, since its segments leave out row 1; then a layer that holds blue.
const ONE_AFTER_THE_OTHER: [Step; 9] = [
    Step::Fill(BLUE, 2),
    Step::Fill(PAGE, 0),
    Step::Fill(PAGE + 1, 0),
    Step::Push(Some(ROWS)),
    Step::Fill(RED, 1),
    Step::Pop,
    Step::Push(None),
    Step::Fill(BLUE, 2),
    Step::Pop,
];

/// The same page. One layer that holds red and blue, and between the two an empty layer in row 0.
const ONE_IN_THE_OTHER: [Step; 9] = [
    Step::Fill(BLUE, 2),
    Step::Fill(PAGE, 0),
    Step::Fill(PAGE + 1, 0),
    Step::Push(None),
    Step::Fill(RED, 1),
    Step::Push(Some(1)),
    Step::Pop,
    Step::Fill(BLUE, 2),
    Step::Pop,
];

const OPACITY: f32 = 0.5;

fn draw(screen: &mut CommandBucketer, steps: &[Step]) -> Result<(), Answer> {
    let paints = [0, 1, 2].map(|handle| Paint::new(true, handle));
    for step in steps {
        match *step {
            Step::Fill(segment, paint) => {
                let fill = RecordedFill {
                    start: segment,
                    end: segment + 1,
                    paint,
                    ..RecordedFill::default()
                };
                screen.generate_fill(&paints, &SEGMENTS, &fill)?;
            }
            Step::Push(rows) => {
                let clip = rows.map(|rows| LayerClip {
                    bbox: Rect::new(0, 0, 4 * TILES, 4 * rows),
                    start: CLIP as u32,
                    end: CLIP as u32 + 1,
                    thread_idx: 0,
                });
                screen.push_layer(&LayerProps {
                    opacity: OPACITY,
                    clip,
                    ..LayerProps::default()
                })?;
            }
            Step::Pop => screen.pop_layer(&SEGMENTS)?,
        }
    }
    Ok(())
}

/// A segment's tiles in a row, each with how much of it is covered.
fn covered(segment: usize, row: u32) -> Vec<(u32, u32)> {
    let of = SEGMENTS[segment];
    let alphas = |tile| (of.kind == 1).then_some(of.alpha + 16 * (tile - of.first));
    (of.first..of.end)
        .filter(|_| of.row == row)
        .map(|tile| (tile, coverage(alphas(tile))))
        .collect()
}

/// A row in plain draw order. What is drawn is cut to the innermost layer's box; all boxes here begin at the top and are as wide as the screen. A layer
/// composites over its clip's segments, or its box where it has no clip, and in the rows of its own box alone.
fn in_order(steps: &[Step], row: u32) -> Buffers {
    let mut buffers = Buffers::new();
    // How many rows the screen has, then the box of each open layer; whether it has a clip.
    let mut boxes = vec![(ROWS, false)];
    for step in steps {
        let (rows, has_clip) = boxes[buffers.nesting()];
        match *step {
            Step::Fill(segment, paint) => {
                for (tile, cover) in covered(segment, row).into_iter().filter(|_| row < rows) {
                    buffers.paint(tile, paint, cover);
                }
            }
            Step::Push(clip) => {
                boxes.push((clip.unwrap_or(rows).min(rows), clip.is_some()));
                buffers.open();
            }
            Step::Pop => {
                let closing = if has_clip {
                    covered(CLIP, row)
                } else {
                    (0..TILES).map(|tile| (tile, 255)).collect()
                };
                for (tile, cover) in closing.into_iter().filter(|_| row < rows) {
                    buffers.composite(tile, OPACITY, cover);
                }
                boxes.pop();
                buffers.end();
            }
        }
    }
    buffers
}

/// A row's colours, tile after tile, as runs.
fn runs(tiles: &[Colour]) -> String {
    let mut from = 0;
    let runs = tiles.chunk_by(|one, next| one == next).map(|run| {
        let (first, [r, g, b, a]) = (from, run[0]);
        from += run.len();
        format!("{first} to {from} #{r:02x}{g:02x}{b:02x}{a:02x}")
    });
    runs.collect::<Vec<_>>().join(", ")
}

/// The picture of a scene. Where the three ways differ the program ends.
fn composited(what: &str, steps: &[Step]) -> Result<Vec<Vec<Colour>>, Answer> {
    let setup = Setup::new(16, 16).with_width(Width::W64);
    let mut screen = CommandBucketer::from_wh(4 * TILES, 4 * ROWS, setup)?;
    draw(&mut screen, steps)?;
    println!("{what}");
    let mut picture = Vec::new();
    for row in 0..ROWS {
        let tiles = in_order(steps, row).row();
        screen.begin_painting()?;
        assert_eq!(by_steps(&mut screen, row as usize)?.row(), tiles);
        screen.begin_painting()?;
        assert_eq!(by_commands(&mut screen, row as usize)?.row(), tiles);
        println!("  row {row}: {}", runs(&tiles));
        picture.push(tiles);
    }
    Ok(picture)
}

fn main() -> Result<(), Answer> {
    let first = composited(
        "a layer that holds red, clipped away in row 1, and then one that holds blue:",
        &ONE_AFTER_THE_OTHER,
    )?;
    let second = composited(
        "one layer that holds red and blue, and an empty layer of row 0 between:",
        &ONE_IN_THE_OTHER,
    )?;
    assert_ne!(first, second);
    println!(
        "each scene's picture is the same by steps, by commands and in order; the two pictures are not"
    );
    Ok(())
}
