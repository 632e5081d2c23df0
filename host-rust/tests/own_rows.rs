//! Rows painted side by side, each on its own words: what `paint_row` gives of each, row by row.

use coarse::{Answer, Canvas, CommandBucketer, OwnRow, Paint, Piece, RecordedFill, Segment, Setup};
use std::thread;

const THREADS: usize = 4;

/// Numbers that look random and are the same in every run.
struct Numbers(u32);

impl Numbers {
    fn below(&mut self, n: u32) -> u32 {
        self.0 = self.0.wrapping_mul(1_664_525).wrapping_add(1_013_904_223);
        (self.0 >> 8) % n
    }
}

/// A wall screen of 4,096 x 2,048 with 40 wide opaque panels, whose painting has begun.
fn wall() -> CommandBucketer {
    let mut screen = CommandBucketer::from_wh(4_096, 2_048, Setup::new(64, 64)).unwrap();
    let mut numbers = Numbers(2);
    for draw in 0..40 {
        let (row, first, width) = (
            numbers.below(384),
            numbers.below(400),
            300 + numbers.below(324),
        );
        let segments: Vec<_> = (row..row + 128)
            .map(|row| Segment::solid(row, first, first + width))
            .collect();
        let fill = RecordedFill {
            end: segments.len(),
            panel: 1 + draw % 8,
            ..RecordedFill::default()
        };
        screen
            .generate_fill(&[Paint::new(true, 7)], &segments, &fill)
            .unwrap();
    }
    screen.begin_painting().unwrap();
    screen
}

/// Every fourth row is one thread's: the pieces of each row, from the top.
fn by_threads<'a>(rows: impl ExactSizeIterator<Item = OwnRow<'a>>) -> Vec<Vec<Piece>> {
    let mut painted = vec![Vec::new(); rows.len()];
    let mut shares: [Vec<_>; THREADS] = Default::default();
    for (k, (row, pieces)) in rows.zip(&mut painted).enumerate() {
        assert_eq!(row.number(), k);
        shares[k % THREADS].push((row, pieces));
    }
    thread::scope(|threads| {
        for share in shares {
            threads.spawn(move || {
                let mut list = Vec::new();
                for (mut row, pieces) in share {
                    pieces.extend_from_slice(row.paint(&mut list).unwrap());
                    assert_eq!(row.paint(&mut list), Ok(&[][..]));
                }
            });
        }
    });
    painted
}

#[test]
fn a_wall_by_four_threads() {
    let mut by_row = wall();
    let each: Vec<Vec<Piece>> = (0..512)
        .map(|row| by_row.paint_row(row).unwrap().to_vec())
        .collect();
    assert!(each.concat().len() > 1_000);

    let mut by_threads_of_own = wall();
    let rows = by_threads_of_own.own_rows().unwrap();
    assert_eq!(by_threads(rows), each);
    assert_eq!(by_threads_of_own.depth_words(), by_row.depth_words());
    assert_eq!(by_threads_of_own.minima(), by_row.minima());
    for row in 0..512 {
        assert_eq!(by_threads_of_own.progress(row), by_row.progress(row));
    }

    let screen = wall();
    let mut canvas = screen.canvas().unwrap();
    assert_eq!(by_threads(canvas.own_rows(&screen).unwrap()), each);
    assert_eq!(canvas.depth_words(), by_row.depth_words());
    for row in 0..512 {
        assert_eq!(canvas.progress(&screen, row), by_row.progress(row));
    }
}

/// Rows by their own words and by their numbers, in turns: each goes on from where the row stands.
#[test]
fn in_turns() {
    let mut alone = wall();
    let mut screen = wall();
    assert!(screen.paint_step(3).unwrap().is_some());
    alone.paint_step(3).unwrap();
    let rest = screen
        .own_rows()
        .unwrap()
        .nth(3)
        .unwrap()
        .paint(&mut Vec::new())
        .unwrap()
        .to_vec();
    assert_eq!(rest, alone.paint_row(3).unwrap());
    assert_eq!(screen.depth_words(), alone.depth_words());
    assert_eq!(screen.paint_row(3).unwrap(), []);
    assert_eq!(screen.own_rows().unwrap().len(), 512);
    let last = screen.own_rows().unwrap().last().unwrap();
    assert_eq!(last.number(), 511);
    assert_eq!(last.depth_words(), [0; 32]);
}

#[test]
fn where_painting_has_not_begun() {
    let mut screen = CommandBucketer::from_wh(256, 8, Setup::new(1, 1)).unwrap();
    assert_eq!(screen.own_rows().err(), Some(Answer::Open));
    screen.begin_painting().unwrap();
    let mut canvas = Canvas::new(&screen).unwrap();
    assert_eq!(canvas.own_rows(&screen).unwrap().len(), 2);
    screen.begin_painting().unwrap();
    assert_eq!(canvas.own_rows(&screen).err(), Some(Answer::Open));
    for size in [(0, 8), (256, 0)] {
        let mut none = CommandBucketer::from_wh(size.0, size.1, Setup::new(1, 1)).unwrap();
        none.begin_painting().unwrap();
        for mut row in none.own_rows().unwrap() {
            assert_eq!(row.paint(&mut Vec::new()), Ok(&[][..]));
        }
    }
}
