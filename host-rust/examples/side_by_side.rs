//! Rows of one screen painted by four threads at once, each on its own words: no thread waits for another, and no word is shared that is written.

use coarse::{CommandBucketer, Paint, RecordedFill, Segment, Setup};
use std::error::Error;
use std::thread;

const THREADS: usize = 4;

fn main() -> Result<(), Box<dyn Error>> {
    // A screen of 1,024 x 64 pixels: 16 rows of 256 tiles. Each draw is opaque and has every row.
    let mut screen = CommandBucketer::from_wh(1_024, 64, Setup::new(64, 64))?;
    for draw in 0..8 {
        let segments: Vec<Segment> = (0..16)
            .map(|row| Segment::solid(row, 10 * draw + row, 120 + 17 * draw + row))
            .collect();
        let fill = RecordedFill {
            end: segments.len(),
            ..RecordedFill::default()
        };
        screen.generate_fill(&[Paint::new(true, draw)], &segments, &fill)?;
    }
    screen.begin_painting()?;

    // Each thread has the rows that it is given, and a list of its own.
    let mut shares: [Vec<_>; THREADS] = Default::default();
    for row in screen.own_rows()? {
        shares[row.number() % THREADS].push(row);
    }
    let painted = thread::scope(|threads| {
        let started: Vec<_> = shares
            .into_iter()
            .map(|share| {
                threads.spawn(move || {
                    let mut list = Vec::new();
                    share
                        .into_iter()
                        .map(|mut row| Ok((row.number(), row.paint(&mut list)?.to_vec())))
                        .collect::<Result<Vec<_>, coarse::Answer>>()
                })
            })
            .collect();
        started
            .into_iter()
            .map(|thread| thread.join().expect("a thread"))
            .collect::<Result<Vec<_>, _>>()
    })?;

    let mut rows = painted.concat();
    rows.sort_by_key(|(number, _)| *number);
    for (number, pieces) in rows {
        let tiles: u32 = pieces.iter().map(|piece| piece.end - piece.first).sum();
        println!("row {number}: {} pieces on {tiles} tiles", pieces.len());
    }
    Ok(())
}
