//! The port's rows composited, by the wrapper that a host links: by painting steps and the nesting after each, and by stored commands.

use coarse::{
    Answer, Canvas, CommandBucketer, DepthFill, Edition, LayerFill, LayerFillAttrs,
    Mode as PortMode, PaintFill, PaintFillAttrs, Piece, RenderCmd, Row, Setup, TileSpan, Width,
};
use oracle::colours::{Buffers, Colours, LayerSaid, PaintSaid};
use oracle::plain::{Hiding, Picture};
use oracle::random::Random;
use oracle::viewport::Mode;

/// By what a row's buffers are opened and ended, while it is painted by steps.
#[derive(Clone, Copy, PartialEq, Eq)]
pub(crate) enum Following {
    /// The row's nesting after each step.
    Nesting,
    /// The nesting of the pieces alone, which does not say enough.
    Pieces,
}

/// A screen both ways, and how many steps painted it.
pub(crate) struct Painted<B> {
    pub(crate) steps: Picture<B>,
    pub(crate) commands: Picture<B>,
    pub(crate) turns: usize,
}

/// Room for commands and depth fills in a row, as the oracle's limits have it.
const ROOM: u32 = 64;

/// A recording's screen, painting begun.
pub(crate) fn screen(bytes: &[u8], mode: Mode, width: u32) -> Result<CommandBucketer, Answer> {
    let words: Vec<u32> = bytes
        .chunks_exact(4)
        .map(|word| u32::from_le_bytes(word.try_into().expect("four bytes")))
        .collect();
    let width = match width {
        64 => Width::W64,
        256 => Width::W256,
        _ => Width::W128,
    };
    let setup = Setup {
        mode: match mode {
            Mode::Exact => PortMode::Exact,
            Mode::Snapping => PortMode::Snapping,
        },
        ..Setup::new(ROOM, ROOM).with_width(width)
    };
    let mut screen = CommandBucketer::from_wh(0, 0, setup)?;
    screen.bucket_commands(Edition::One, &words)?;
    screen.begin_painting()?;
    Ok(screen)
}

/// What a screen's attributes say, by their places, the ids of their draws, and where they hide.
struct Said<'a> {
    paints: Vec<PaintSaid>,
    layers: Vec<LayerSaid>,
    paint_ids: Vec<u32>,
    layer_ids: Vec<u32>,
    hiding: &'a Hiding,
}

impl Said<'_> {
    fn id(&self, fill: &Fill) -> u32 {
        let ids = if fill.is_layer {
            &self.layer_ids
        } else {
            &self.paint_ids
        };
        ids[fill.attribute as usize]
    }
}

/// The rows of a screen whose painting has begun. The paints are the recording's.
pub(crate) fn painted<C: Colours>(
    screen: &CommandBucketer,
    paints: &[[u32; 4]],
    hiding: &Hiding,
    colours: &C,
    following: Following,
    random: &mut Random,
) -> Result<Painted<C::Buffer>, Answer> {
    let said = said(screen, paints, hiding);
    let (steps, turns) = by_steps(screen, &said, colours, following, random)?;
    let commands = by_commands(screen, &said, colours, random)?;
    let picture = |rows| Picture {
        rows,
        paints: said.paints.clone(),
        layers: said.layers.clone(),
    };
    Ok(Painted {
        steps: picture(steps),
        commands: picture(commands),
        turns,
    })
}

/// The rows of a picture.
type Rows<B> = Vec<Vec<B>>;

/// A fill, as a piece or what is stored has it.
struct Fill {
    is_layer: bool,
    attribute: u32,
    tiles: TileSpan,
    /// The index of the first tile's alphas.
    alpha: Option<u32>,
}

impl Fill {
    fn of_piece(piece: &Piece) -> Self {
        Self {
            is_layer: piece.is_layer(),
            attribute: piece.attrs_idx,
            tiles: piece.span(),
            alpha: piece.alpha_idx(),
        }
    }

    fn of_depth(fill: &DepthFill, width: Width) -> Self {
        Self {
            is_layer: false,
            attribute: fill.attrs_idx,
            tiles: fill.bucket_range.span(width),
            alpha: None,
        }
    }

    fn of_paint(fill: &PaintFill) -> Self {
        Self {
            is_layer: false,
            attribute: fill.attrs_idx,
            tiles: fill.span,
            alpha: fill.alpha_idx,
        }
    }

    fn of_layer(fill: &LayerFill) -> Self {
        Self {
            is_layer: true,
            attribute: fill.attrs_idx,
            tiles: fill.span,
            alpha: fill.alpha_idx,
        }
    }

    /// Done on all of its tiles in a row or on some of them.
    fn on<C: Colours>(&self, said: &Said<'_>, row: usize, buffers: &mut Buffers<C>, run: TileSpan) {
        for tile in run.first..run.end {
            let moved = 16 * (tile - self.tiles.first);
            let alpha = self.alpha.map(|alpha| alpha + moved);
            let (tile, at) = (tile as usize, self.attribute as usize);
            if self.is_layer {
                buffers.close(tile, &said.layers[at], alpha);
            } else {
                let hides = said.hiding.has(row, tile, self.attribute);
                buffers.fill(tile, &said.paints[at], alpha, hides);
            }
        }
    }
}

/// Steps of any rows, in any order, until all have finished; and how many.
fn by_steps<C: Colours>(
    screen: &CommandBucketer,
    said: &Said<'_>,
    colours: &C,
    following: Following,
    random: &mut Random,
) -> Result<(Rows<C::Buffer>, usize), Answer> {
    let tiles = (screen.width() / 4) as usize;
    let mut canvas = screen.canvas()?;
    let rows = screen.rows().len();
    let mut all: Vec<_> = (0..rows).map(|_| Buffers::new(colours, tiles)).collect();
    let mut left: Vec<usize> = (0..rows).collect();
    let mut turns = 0;
    while !left.is_empty() {
        let at = random.below(u32::try_from(left.len()).expect("few rows")) as usize;
        let row = left[at];
        let buffers = &mut all[row];
        let step = canvas.paint_step(screen, row)?;
        for piece in step.unwrap_or_default() {
            if following == Following::Pieces {
                follow(buffers, piece.nesting);
            }
            let fill = Fill::of_piece(piece);
            fill.on(said, row, buffers, fill.tiles);
        }
        let has_finished = step.is_none();
        let nesting = canvas.progress(screen, row)?.nesting;
        if following == Following::Nesting || has_finished {
            follow(buffers, nesting);
        }
        if has_finished {
            left.swap_remove(at);
        }
        turns += 1;
    }
    Ok((all.into_iter().map(Buffers::picture).collect(), turns))
}

/// A blank buffer on top for each by which the nesting rose, the top off for each by which it fell.
fn follow<C: Colours>(buffers: &mut Buffers<C>, nesting: u32) {
    while buffers.nesting() < nesting as usize {
        buffers.push();
    }
    while buffers.nesting() > nesting as usize {
        buffers.pop();
    }
}

/// Rows that are painted by a call, at times after some steps; then their depth fills and commands, each where the row's depth words show it. A buffer is
/// cleared over its span alone.
fn by_commands<C: Colours>(
    screen: &CommandBucketer,
    said: &Said<'_>,
    colours: &C,
    random: &mut Random,
) -> Result<Rows<C::Buffer>, Answer> {
    let mut canvas = screen.canvas()?;
    let mut all = Vec::new();
    for row in screen.rows() {
        for _ in 0..random.below(4) {
            canvas.paint_step(screen, row.index())?;
        }
        canvas.paint_row(screen, row.index())?;
        all.push(commands(screen, &canvas, row, said, colours)?);
    }
    Ok(all)
}

fn commands<C: Colours>(
    screen: &CommandBucketer,
    canvas: &Canvas,
    row: Row<'_>,
    said: &Said<'_>,
    colours: &C,
) -> Result<Vec<C::Buffer>, Answer> {
    let mut buffers = Buffers::new(colours, (screen.width() / 4) as usize);
    let show = |fill: Fill, buffers: &mut Buffers<C>| -> Result<(), Answer> {
        let TileSpan { first, end } = fill.tiles;
        let id = said.id(&fill);
        for run in canvas.visible_runs(screen, row.index(), first, end, id)? {
            fill.on(said, row.index(), buffers, run);
        }
        Ok(())
    };
    for depth in row.depth_cmds() {
        let fill = Fill::of_depth(&depth, screen.bucket_width());
        show(fill, &mut buffers)?;
    }
    for cmd in row.render_cmds() {
        match cmd {
            RenderCmd::PushBuf(span) => {
                let TileSpan { first, end } = span.unwrap_or_default();
                buffers.push_over(first as usize..end as usize);
            }
            RenderCmd::PopBuf => buffers.pop(),
            RenderCmd::PaintFill(fill) => show(Fill::of_paint(&fill), &mut buffers)?,
            RenderCmd::LayerFill(fill) => show(Fill::of_layer(&fill), &mut buffers)?,
        }
    }
    Ok(buffers.picture())
}

/// What the port's attributes say. Paints past the list are filter paints.
fn said<'a>(screen: &CommandBucketer, paints: &[[u32; 4]], hiding: &'a Hiding) -> Said<'a> {
    let filters: Vec<[i64; 4]> = screen
        .filter_paints()
        .map(|paint| {
            [
                0,
                paint.pixmap.into(),
                paint.shift_x.into(),
                paint.shift_y.into(),
            ]
        })
        .collect();
    let shift = |word: u32| i64::from(word.cast_signed());
    let paint = |place: usize| match paints.get(place) {
        Some(&[flag, handle, x, y]) => [flag.into(), handle.into(), shift(x), shift(y)],
        None => filters[place - paints.len()],
    };
    let paint_said = |(place, attrs): (u32, PaintFillAttrs)| PaintSaid {
        place,
        paint: paint(attrs.paint as usize),
        blend: [attrs.blend_mode.mix, attrs.blend_mode.compose],
        mask: attrs.mask,
        thread: attrs.thread_idx,
    };
    let layer_said = |(place, attrs): (u32, LayerFillAttrs)| LayerSaid {
        place,
        blend: [attrs.blend_mode.mix, attrs.blend_mode.compose],
        opacity: attrs.opacity.to_bits(),
        mask: attrs.mask,
        thread: attrs.thread_idx,
    };
    Said {
        paints: (0..).zip(screen.paint_attrs()).map(paint_said).collect(),
        layers: (0..).zip(screen.layer_attrs()).map(layer_said).collect(),
        paint_ids: screen.paint_attrs().map(|attrs| attrs.draw_id).collect(),
        layer_ids: screen.layer_attrs().map(|attrs| attrs.draw_id).collect(),
        hiding,
    }
}
