//! A panel over a banner, drawn by two program modules: whose each piece of a row is, and what its tiles receive.

use coarse::{
    list_tile, CommandBucketer, Edition, Mode, Paint, Piece, RecordedFill, Recorder, Rect, Segment,
    Setup, Width,
};
use std::error::Error;

const NAMES: [&str; 2] = ["banner", "panel"];

/// The panel numbers of the two modules.
const STATUS: u32 = 3;
const DIALOGS: u32 = 7;

/// The names of what a tile receives, in the order of painting.
fn received(pieces: &[Piece], paints: &[u32], tile: u32) -> String {
    let names: Vec<&str> = pieces
        .iter()
        .filter(|piece| piece.covers(tile))
        .map(|piece| NAMES[paints[piece.attrs_idx as usize] as usize])
        .collect();
    names.join(", then ")
}

/// What a row's pieces, which are solid, are to one tile.
fn of_tile(pieces: &[Piece], tile: u32) -> impl Iterator<Item = Piece> + '_ {
    let own = pieces.iter().filter(move |piece| piece.covers(tile));
    own.map(move |&piece| {
        let mut own = piece;
        (own.first, own.end) = (tile, tile + 1);
        own
    })
}

fn main() -> Result<(), Box<dyn Error>> {
    // A screen of 512 x 4 pixels: one row of 128 tiles, in 4 depth buckets of 32.
    let mut screen = CommandBucketer::from_wh(512, 4, Setup::new(64, 64))?;

    // Both are opaque. The banner has the whole row, the panel tiles 20 to 70: all of bucket 1, and a part of 0 and of 2.
    let opaque = [Paint::new(true, 1), Paint::new(true, 2)];
    let segments = [Segment::solid(0, 0, 128), Segment::solid(0, 20, 70)];
    let banner = RecordedFill {
        start: 0,
        end: 1,
        paint: 0,
        panel: STATUS,
        ..RecordedFill::default()
    };
    let panel = RecordedFill {
        start: 1,
        end: 2,
        paint: 1,
        panel: DIALOGS,
        ..RecordedFill::default()
    };
    screen.generate_fills(&opaque, &segments, &[banner, panel])?;

    // All rows are painted to their end by one call: here it is one. A piece says which module drew it.
    screen.begin_painting()?;
    let pieces = screen.paint_rows(0..1)?.collect::<Vec<_>>().concat();
    let paints: Vec<u32> = screen.paint_attrs().map(|attrs| attrs.paint).collect();
    for piece in &pieces {
        println!(
            "{} on tiles {} to {}, by module {}",
            NAMES[paints[piece.attrs_idx as usize] as usize], piece.first, piece.end, piece.panel
        );
    }

    println!("tile 40: {}", received(&pieces, &paints, 40));
    println!("tile 25: {}", received(&pieces, &paints, 25));
    println!("tile 10: {}", received(&pieces, &paints, 10));

    // Of the banner nothing shows in bucket 1, which the panel has whole.
    let id = screen.paint_attrs().next().map_or(0, |attrs| attrs.draw_id);
    for bucket in 0..4 {
        let hidden = screen.is_hidden(0, bucket, bucket + 1, id)?;
        println!(
            "bucket {bucket}: the banner is {}",
            if hidden { "hidden" } else { "seen" }
        );
    }

    // The same two draws, recorded: what a tile receives can be listed without a screen.
    let mut scene = Recorder::new(Rect::new(0, 0, 512, 4));
    scene.segments(&segments)?;
    for (paint, draw) in opaque.into_iter().zip([banner, panel]) {
        scene.paint(paint)?;
        scene.draw(&draw)?;
    }
    let words = scene.words(Edition::Two)?;
    for tile in [10, 25, 40] {
        let list = list_tile(Edition::Two, &words, Mode::Exact, Width::W128, 0, tile)?;
        let is_painted = list.into_iter().eq(of_tile(&pieces, tile));
        println!(
            "the list of tile {tile} is {}what was painted",
            if is_painted { "" } else { "not " }
        );
    }
    Ok(())
}
