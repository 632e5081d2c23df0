//! Two scenes whose pieces are the same in every row, and whose pictures are not: what a buffer held when it ended is seen nowhere, unless a
//! layer's fill composited it. Each is painted into a small picture of tiles, a letter a tile, by steps: where the nesting rises a buffer is cleared, a
//! piece of a paint goes into the innermost buffer, and a piece of a layer composites that buffer into the one below it.

use coarse::{
    Answer, CommandBucketer, LayerClip, LayerProps, Paint, Piece, RecordedFill, Rect, RenderCmd,
    Row, Segment, Setup,
};

const TILES: u32 = 24;
const ROWS: u32 = 2;

/// The letters of the paints.
const LETTERS: [char; 2] = ['r', 'b'];

/// A clip's segment in row 0 alone, then red and blue in row 1.
const SEGMENTS: [Segment; 3] = [
    Segment::solid(0, 0, TILES),
    Segment::solid(1, 2, 8),
    Segment::solid(1, 12, 18),
];
const CLIP: u32 = 0;
const RED: usize = 1;
const BLUE: usize = 2;

fn fill(screen: &mut CommandBucketer, segment: usize, paint: u32) -> Result<(), Answer> {
    let paints = [Paint::new(true, 1), Paint::new(true, 2)];
    let fill = RecordedFill {
        start: segment,
        end: segment + 1,
        paint,
        ..RecordedFill::default()
    };
    screen.generate_fill(&paints, &SEGMENTS, &fill)
}

/// Opens a layer, with a clip whose box is so many rows high, or with none.
fn push(screen: &mut CommandBucketer, rows: Option<u32>) -> Result<(), Answer> {
    let clip = rows.map(|rows| LayerClip {
        bbox: Rect::new(0, 0, 4 * TILES, 4 * rows),
        start: CLIP,
        end: CLIP + 1,
        thread_idx: 0,
    });
    screen.push_layer(&LayerProps {
        opacity: 0.5,
        clip,
        ..LayerProps::default()
    })
}

/// A layer whose clip takes red away, since its segments leave out row 1; then a layer that holds blue.
fn one_after_the_other(screen: &mut CommandBucketer) -> Result<(), Answer> {
    push(screen, Some(ROWS))?;
    fill(screen, RED, 0)?;
    screen.pop_layer(&SEGMENTS)?;
    push(screen, None)?;
    fill(screen, BLUE, 1)?;
    screen.pop_layer(&SEGMENTS)
}

/// One layer that holds red and blue, and between the two an empty layer in row 0.
fn one_in_the_other(screen: &mut CommandBucketer) -> Result<(), Answer> {
    push(screen, None)?;
    fill(screen, RED, 0)?;
    push(screen, Some(1))?;
    screen.pop_layer(&SEGMENTS)?;
    fill(screen, BLUE, 1)?;
    screen.pop_layer(&SEGMENTS)
}

/// A command's name, and its span.
fn named(cmd: RenderCmd) -> String {
    let (name, span) = match cmd {
        RenderCmd::PaintFill(fill) => ("PaintFill", Some(fill.span)),
        RenderCmd::LayerFill(fill) => ("LayerFill", Some(fill.span)),
        RenderCmd::PushBuf(span) => ("PushBuf", span),
        RenderCmd::PopBuf => ("PopBuf", None),
    };
    span.map_or(name.to_owned(), |span| {
        format!("{name} {} to {}", span.first, span.end)
    })
}

/// The commands of a row, as they are stored.
fn commands(row: Row<'_>) -> String {
    let names: Vec<String> = row.render_cmds().map(named).collect();
    if names.is_empty() {
        "empty".to_owned()
    } else {
        names.join(", ")
    }
}

/// A row painted into a row of letters, and its pieces.
fn paint(screen: &mut CommandBucketer, row: usize) -> Result<(String, Vec<Piece>), Answer> {
    let paints: Vec<u32> = screen.paint_attrs().map(|attrs| attrs.paint).collect();
    // The picture's row is the lowest of the buffers.
    let mut buffers = vec![vec![Some('.'); TILES as usize]];
    let mut all = Vec::new();
    while let Some(pieces) = screen.paint_step(row)?.map(<[Piece]>::to_vec) {
        let open = screen.progress(row)?.nesting as usize;
        if buffers.len() <= open {
            buffers.push(vec![None; TILES as usize]);
        }
        buffers.truncate(open + 1);
        for piece in &pieces {
            let tiles = piece.first as usize..piece.end as usize;
            if piece.is_layer() {
                let shown = buffers[open][tiles.clone()].to_vec();
                let below = &mut buffers[open - 1][tiles];
                for (tile, shown) in below.iter_mut().zip(shown) {
                    *tile = shown.or(*tile);
                }
            } else {
                let paint = paints[piece.attrs_idx as usize];
                buffers[open][tiles].fill(Some(LETTERS[paint as usize]));
            }
        }
        all.extend(pieces);
    }
    Ok((buffers[0].iter().flatten().collect(), all))
}

/// What a scene comes to: the picture's rows, and all pieces.
type Painted = (Vec<String>, Vec<Vec<Piece>>);

fn show(
    what: &str,
    draw: fn(&mut CommandBucketer) -> Result<(), Answer>,
) -> Result<Painted, Answer> {
    let mut screen = CommandBucketer::from_wh(4 * TILES, 4 * ROWS, Setup::new(16, 16))?;
    draw(&mut screen)?;
    screen.begin_painting()?;
    println!("{what}");
    for row in screen.rows() {
        println!("  row {} is {}", row.index(), commands(row));
    }
    let mut painted = Painted::default();
    for row in 0..screen.rows().len() {
        let (letters, pieces) = paint(&mut screen, row)?;
        println!("  {letters}");
        painted.0.push(letters);
        painted.1.push(pieces);
    }
    Ok(painted)
}

/// Whether two are the same, in words.
fn same<T: PartialEq>(one: &T, other: &T) -> &'static str {
    if one == other {
        "the same"
    } else {
        "not the same"
    }
}

fn main() -> Result<(), Answer> {
    let (picture, pieces) = show(
        "a layer that holds red, clipped away in row 1, and then one that holds blue:",
        one_after_the_other,
    )?;
    let (other_picture, other_pieces) = show(
        "one layer that holds red and blue, and an empty layer of row 0 between:",
        one_in_the_other,
    )?;
    println!(
        "their pieces are {}, their pictures are {}",
        same(&pieces, &other_pieces),
        same(&picture, &other_picture)
    );
    Ok(())
}
