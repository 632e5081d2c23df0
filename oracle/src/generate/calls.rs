//! Sequences of calls: building, painting by turns, runs, with edges and with calls that are refused in between.

use super::boxes::{across, axis, down, longest, loosened, Edge};
use super::crowded;
use super::damage::WORDS;
use super::draft::{solid, HALF, ONE};
use super::scenes::{any_pixmap, blend, bounds, new_list, viewport, OPACITIES};
use crate::calls::{answers, Call};
use crate::limits::{LAST_ID, MOST_ROOM, PANELS};
use crate::random::Random;
use crate::sizes::PIECE;
use crate::viewport::{snapped, Mode};
use crate::width::{Width, NO_WIDTHS};

const DEFAULT: [u32; 2] = [0, 3];

/// Words of a list for one piece, and for as many as a step of an edge gives.
pub(crate) const ONE_PIECE: u32 = PIECE as u32;
const PIECES: u32 = 8 * ONE_PIECE;

/// Words that a program which replays sequences has for the arenas of a screen.
const MOST_ROWS: u32 = 32;
const MOST_RENDER: u32 = 16_384;
const MOST_FILLS: u32 = 8_192;

/// So many sequences, the edges first, as a stream: those that have at most so many words with their answers.
pub fn stream(seed: u32, count: u32, most: u32) -> Vec<u8> {
    let mut random = Random::new(seed);
    let small = |calls: &[Call]| size(calls) <= most as usize;
    let mut all = edges();
    all.retain(|calls| small(calls));
    all.truncate(count as usize);
    while all.len() < count as usize {
        let calls = sequence(&mut random);
        if small(&calls) {
            all.push(calls);
        }
    }
    let words: Vec<Vec<u32>> = all
        .iter()
        .map(|calls| calls.iter().flat_map(Call::words).collect())
        .collect();
    crate::calls::stream(&words)
}

/// So many histories as a stream, those of the panels' edges first: a reset that is done, then building steps.
pub fn histories(seed: u32, count: u32) -> Vec<u8> {
    let mut random = Random::new(seed);
    let more = std::iter::repeat_with(|| sequence(&mut random));
    let all = panel_edges().into_iter().chain(more);
    let words: Vec<Vec<u32>> = all
        .filter_map(|calls| history(&calls))
        .take(count as usize)
        .map(|calls| calls.iter().flat_map(Call::words).collect())
        .collect();
    crate::calls::stream(&words)
}

/// The first reset of a sequence that is done, and the building steps up to the next; none where ids are skipped.
fn history(calls: &[Call]) -> Option<Vec<Call>> {
    let is_reset = |call: &Call| matches!(call, Call::Reset { .. });
    let done = |call: &Call| is_reset(call) && answers(std::slice::from_ref(call)) == [0];
    let (first, rest) = calls[calls.iter().position(done)?..].split_first()?;
    let next = rest.iter().position(is_reset).unwrap_or(rest.len());
    let own = &rest[..next];
    if own.iter().any(|call| matches!(call, Call::NextId(_))) {
        return None;
    }
    let builds = |call: &&Call| call.builds();
    let steps = own.iter().filter(builds);
    Some(std::iter::once(first).chain(steps).cloned().collect())
}

// Edges.

const OPAQUE: [u32; 4] = [1, 7, 0, 0];

pub(crate) fn reset(width: u32, height: u32, c: u32, d: u32) -> Call {
    Call::Reset {
        viewport: [0, 0, width, height],
        c,
        d,
        mode: Mode::Exact,
        width: 128,
    }
}

pub(crate) fn fill(segments: &[[u32; 5]]) -> Call {
    let end = u32::try_from(segments.len()).expect("few");
    Call::Fill {
        draw: [0, 0, end, 0, DEFAULT[0], DEFAULT[1], 0, 0],
        paints: vec![OPAQUE],
        segments: segments.to_vec(),
    }
}

pub(crate) fn alpha(row: u32, first: u32, end: u32) -> Call {
    fill(&[[1, row, first, end, 160]])
}

pub(crate) fn push() -> Call {
    Call::Push {
        mix: 0,
        compose: 3,
        opacity: HALF,
        mask: 0,
        flag: 0,
        clip: [0; 7],
        panel: 0,
    }
}

pub(super) fn destructive() -> Call {
    Call::Push {
        mix: 0,
        compose: 5,
        opacity: ONE,
        mask: 0,
        flag: 0,
        clip: [0; 7],
        panel: 0,
    }
}

pub(super) fn clipped(bounds: [u32; 4], start: u32, end: u32) -> Call {
    let [x0, y0, x1, y1] = bounds;
    Call::Push {
        mix: 0,
        compose: 3,
        opacity: ONE,
        mask: 0,
        flag: 1,
        clip: [x0, y0, x1, y1, start, end, 9],
        panel: 0,
    }
}

pub(crate) fn pop(segments: &[[u32; 5]]) -> Call {
    Call::Pop {
        segments: segments.to_vec(),
    }
}

pub(crate) fn filter(pixmap: impl Into<Option<u32>>, dest: [u32; 4]) -> Call {
    Call::Filter {
        pixmap: pixmap.into(),
        dest,
        source: [4, 32_768],
        count: 3,
        panel: 0,
    }
}

fn step(row: u32) -> Call {
    Call::Step { row, words: PIECES }
}

/// The step with this panel.
pub(crate) fn of(panel: u32, mut call: Call) -> Call {
    *call.panel().expect("a step with a panel") = panel;
    call
}

/// The same sequence, its steps of nine panels by turns.
pub(crate) fn panelled(mut calls: Vec<Call>) -> Vec<Call> {
    for (panel, own) in (1..=9)
        .cycle()
        .zip(calls.iter_mut().filter_map(Call::panel))
    {
        *own = panel;
    }
    calls
}

/// The same sequence with buckets of so many pixels.
fn at(mut calls: Vec<Call>, pixels: u32) -> Vec<Call> {
    for call in &mut calls {
        if let Call::Reset { width, .. } = call {
            *width = pixels;
        }
    }
    calls
}

/// Those at 128 pixels a bucket, the same at the other widths, viewports at one width after another, and what is made for the widths, for lists, for the minima, for
/// crowded rows and for the panels.
fn edges() -> Vec<Vec<Call>> {
    let others = [64, 256].map(|pixels| plain_edges().into_iter().map(move |e| at(e, pixels)));
    let turns = Width::ALL.into_iter().cycle().skip(1);
    let viewports = viewports().into_iter().zip(turns);
    let mut all = plain_edges();
    all.extend(others.into_iter().flatten());
    all.extend(viewports.map(|(calls, width)| at(calls, width.pixels())));
    all.extend(width_edges());
    all.extend(list_edges());
    all.extend(hidden_edges());
    all.extend(crowded::edges());
    all = all.into_iter().map(panelled).collect();
    all.extend(panel_edges());
    all
}

fn plain_edges() -> Vec<Vec<Call>> {
    let wide = [solid(0, 0, 64)];
    let mut all = vec![
        // A screen without rows; a pop with no layer open; painting it.
        vec![
            Call::Show,
            pop(&[]),
            fill(&wide),
            Call::Begin,
            step(0),
            Call::Show,
        ],
        // Resets refused by 2 and by 1 leave what was there.
        vec![
            reset(256, 8, 8, 8),
            fill(&wide),
            reset(255, 8, 8, 8),
            reset(4_100, 8, 8, 8),
            reset(256, 2_052, 8, 8),
            reset(256, 8, 0, 8),
            reset(256, 8, 8, 0),
            reset(256, 8, 1_025, 8),
            reset(256, 8, 8, 1_025),
            Call::Show,
            reset(0, 0, 1, 1),
            Call::Show,
        ],
        // A row exactly full of commands, and one over; a segment list that fits in part is refused whole.
        vec![
            reset(256, 8, 3, 8),
            alpha(0, 0, 4),
            alpha(0, 0, 4),
            alpha(0, 0, 4),
            alpha(0, 0, 4),
            alpha(1, 0, 4),
            Call::Show,
        ],
        vec![
            reset(256, 8, 2, 8),
            fill(&[solid(0, 0, 1), solid(0, 1, 2), solid(0, 2, 3)]),
            fill(&[solid(0, 0, 1), solid(0, 1, 2)]),
            Call::Show,
        ],
        // Depth fills exactly full, and one over; 10 before 11.
        vec![
            reset(256, 4, 8, 2),
            fill(&wide),
            fill(&wide),
            fill(&wide),
            alpha(0, 0, 4),
            Call::Show,
        ],
        vec![
            reset(256, 4, 1, 1),
            fill(&[solid(0, 0, 40)]),
            fill(&[solid(0, 0, 40)]),
            Call::Show,
        ],
        // The last id: fills, pops and filter fills take one; what draws nothing takes none.
        vec![
            reset(256, 8, 8, 8),
            push(),
            Call::NextId(LAST_ID),
            fill(&[]),
            fill(&[]),
            fill(&wide),
            pop(&[]),
            filter(5, [0, 0, 64, 8]),
            filter(None, [0, 0, 64, 8]),
            filter(5, [512, 0, 516, 8]),
            Call::Show,
        ],
        vec![
            reset(256, 8, 8, 8),
            push(),
            alpha(0, 0, 4),
            Call::NextId(LAST_ID),
            pop(&[]),
            pop(&[]),
            fill(&wide),
            Call::Show,
        ],
        // Nothing is touched by segments far outside, and an attribute is taken all the same.
        vec![
            reset(256, 8, 8, 8),
            fill(&[solid(0, 64, 65), solid(2, 0, 8), solid(8_191, 0, 8_192)]),
            alpha(8_191, 8_191, 8_192),
            Call::Show,
        ],
        // A solid across the whole scene, an alpha that is cut at both sides.
        vec![
            Call::Reset {
                viewport: [128, 4, 384, 12],
                c: 8,
                d: 8,
                mode: Mode::Exact,
                width: 128,
            },
            fill(&[solid(1, 0, 8_192), [1, 2, 0, 8_192, u32::MAX - 16 * 8_192]]),
            Call::Show,
        ],
        // Empty boxes: clips off the screen, of no width, of no height; a destructive one too.
        vec![
            reset(256, 8, 8, 8),
            clipped([512, 0, 516, 8], 0, 1),
            alpha(0, 0, 8),
            pop(&wide),
            clipped([8, 0, 8, 8], 0, 1),
            alpha(0, 0, 8),
            filter(5, [0, 0, 64, 8]),
            pop(&wide),
            clipped([0, 4, 256, 4], 0, 1),
            destructive(),
            alpha(1, 0, 8),
            pop(&[]),
            pop(&wide),
            Call::Show,
        ],
        // A closing clip is cut by the parent's box, not its own, and only in touched rows.
        vec![
            reset(256, 12, 8, 8),
            clipped([32, 0, 64, 8], 0, 3),
            fill(&[solid(0, 0, 64)]),
            pop(&[solid(0, 0, 64), [1, 1, 2, 60, 16], solid(2, 0, 64)]),
            Call::Show,
        ],
        // A list that the pop is lent: too short, out of order, a bad segment in and out of its range.
        vec![
            reset(256, 8, 8, 8),
            clipped([0, 0, 256, 8], 1, 3),
            alpha(0, 0, 4),
            pop(&[solid(0, 0, 4)]),
            pop(&[solid(0, 0, 4), solid(1, 0, 4), solid(0, 0, 4)]),
            pop(&[solid(0, 0, 4), solid(0, 4, 4), solid(1, 0, 4)]),
            pop(&[[9; 5], solid(0, 0, 4), solid(1, 0, 4), [9; 5]]),
            Call::Show,
        ],
        // Destructive pushes: every row at once, 10 where a row is full, 6 before 10.
        vec![
            reset(256, 8, 2, 8),
            destructive(),
            destructive(),
            destructive(),
            Call::Show,
            pop(&[]),
            Call::Show,
        ],
        // Filter fills: shifts on both sides of 0, rows of a box that ends inside a row.
        vec![
            Call::Reset {
                viewport: [32, 8, 288, 24],
                c: 8,
                d: 8,
                mode: Mode::Exact,
                width: 128,
            },
            filter(5, [0, 9, 64, 15]),
            Call::Filter {
                pixmap: Some(5),
                dest: [32_764, 32_768, 32_768, 32_768],
                source: [0, 0],
                count: 0,
                panel: 0,
            },
            Call::Filter {
                pixmap: Some(5),
                dest: [0, 0, 32_768, 32_768],
                source: [0, 0],
                count: 4_096,
                panel: 0,
            },
            Call::Filter {
                pixmap: Some(5),
                dest: [0, 0, 32_768, 32_768],
                source: [32_768, 32_768],
                count: 4_097,
                panel: 0,
            },
            Call::Filter {
                pixmap: Some(5),
                dest: [40, 10, 44, 11],
                source: [32_768, 0],
                count: 7,
                panel: 0,
            },
            Call::Show,
        ],
        // Pixmaps: the first and the last handle, and one too many; none, where the box is judged all the same.
        vec![
            reset(256, 8, 8, 8),
            filter(0, [0, 0, 64, 8]),
            filter((1 << 31) - 1, [0, 0, 64, 8]),
            filter(1 << 31, [0, 0, 64, 8]),
            filter(u32::MAX, [0, 0, 64, 8]),
            filter(None, [0, 0, 64, 8]),
            filter(None, [2, 0, 64, 8]),
            Call::Show,
        ],
        // Painting: not begun, a layer open, begun, past the end, out of room, ended by a step and by a writing run.
        vec![
            reset(256, 8, 8, 8),
            fill(&[solid(0, 10, 64)]),
            step(0),
            push(),
            alpha(0, 0, 64),
            Call::Begin,
            pop(&[]),
            Call::Begin,
            Call::Step {
                row: 0,
                words: ONE_PIECE - 1,
            },
            step(2),
            step(0),
            step(0),
            step(0),
            Call::Step { row: 0, words: 0 },
            step(0),
            step(0),
            step(0),
            step(1),
            Call::Show,
            filter(None, [0, 0, 4, 4]),
            step(0),
            Call::Begin,
            Call::Write {
                row: 0,
                id: 3,
                buckets: [0, 1],
                words: 2,
            },
            step(0),
            Call::Begin,
            Call::Unset {
                row: 0,
                tiles: [0, 64],
                words: 2,
            },
            step(0),
            Call::Show,
        ],
        // Runs: ranges the wrong way round, past tile 8,192, past the buffer, id 0, no room, no such row.
        vec![
            reset(512, 4, 8, 8),
            Call::Write {
                row: 0,
                id: 7,
                buckets: [1, 2],
                words: 2,
            },
            Call::Unset {
                row: 0,
                tiles: [10, 100],
                words: 4,
            },
            Call::Unset {
                row: 0,
                tiles: [10, 100],
                words: 3,
            },
            Call::Visible {
                row: 0,
                id: 7,
                tiles: [10, 100],
                words: 4,
            },
            Call::Visible {
                row: 0,
                id: 6,
                tiles: [10, 100],
                words: 5,
            },
            Call::Visible {
                row: 0,
                id: 0,
                tiles: [0, 8_192],
                words: 6,
            },
            Call::Visible {
                row: 0,
                id: 6,
                tiles: [0, 8_193],
                words: 6,
            },
            Call::Visible {
                row: 1,
                id: 6,
                tiles: [0, 8],
                words: 6,
            },
            Call::Unset {
                row: 0,
                tiles: [9, 8],
                words: 6,
            },
            Call::Unset {
                row: 0,
                tiles: [8, 8],
                words: 6,
            },
            Call::Write {
                row: 0,
                id: 0,
                buckets: [0, 1],
                words: 6,
            },
            Call::Write {
                row: 0,
                id: 1,
                buckets: [0, 5],
                words: 6,
            },
            Call::Write {
                row: 0,
                id: 1,
                buckets: [0, 4],
                words: 2,
            },
            Call::Write {
                row: 0,
                id: 1,
                buckets: [2, 1],
                words: 2,
            },
            Call::Write {
                row: 0,
                id: 1,
                buckets: [0, 4],
                words: 4,
            },
            Call::CanSkip {
                row: 0,
                tiles: [0, 8_192],
                id: 0,
            },
            Call::CanSkip {
                row: 0,
                tiles: [0, 8_193],
                id: 0,
            },
            Call::CanSkip {
                row: 0,
                tiles: [1, 0],
                id: 0,
            },
            Call::CanSkip {
                row: 1,
                tiles: [0, 1],
                id: 0,
            },
            Call::Show,
        ],
    ];
    all.push(layers());
    all.extend([attributes(), layer_attributes(), filter_paints()]);
    all.push(skips());
    all
}

/// A reset to a screen of so many pixels across and rows, with so many pixels a bucket.
pub(super) fn reset_at(pixels: u32, across: u32, rows: u32) -> Call {
    Call::Reset {
        viewport: [0, 0, across, 4 * rows],
        c: 16,
        d: 16,
        mode: Mode::Exact,
        width: pixels,
    }
}

/// What is made for the widths.
fn width_edges() -> Vec<Vec<Call>> {
    let mut all = no_widths();
    all.push(narrower_and_wider());
    for width in Width::ALL {
        all.extend(beside_a_bucket(width));
        all.push(widest(width));
        all.push(skips_at(width));
    }
    all
}

/// Numbers that are no width are refused by 2, also where 1 would refuse, and leave what was there.
fn no_widths() -> Vec<Vec<Call>> {
    let built = |pixels| vec![reset_at(pixels, 256, 1), fill(&[solid(0, 0, 64)])];
    let resets = |pixels: u32| {
        [
            (256, 8, 8, Mode::Exact),
            (256, 0, 8, Mode::Exact),
            (255, 8, 8, Mode::Exact),
            (255, 8, 1_025, Mode::Snapping),
        ]
        .map(|(across, c, d, mode)| Call::Reset {
            viewport: [0, 0, across, 4],
            c,
            d,
            mode,
            width: pixels,
        })
    };
    let of = |(width, none): (Width, &[u32])| {
        let refused = none.iter().flat_map(|&pixels| resets(pixels));
        let mut calls: Vec<Call> = built(width.pixels()).into_iter().chain(refused).collect();
        calls.extend([Call::Show, Call::Begin, step(0), Call::Show]);
        calls
    };
    Width::ALL
        .into_iter()
        .zip(NO_WIDTHS.chunks(5))
        .map(of)
        .collect()
}

/// One screen at one width after another: depth words, fills and runs are those of the last reset.
fn narrower_and_wider() -> Vec<Call> {
    let mut calls = Vec::new();
    for pixels in [128, 64, 256, 64, 128, 256, 256] {
        calls.extend([
            reset_at(pixels, 512, 1),
            fill(&[solid(0, 10, 128)]),
            fill(&[solid(0, 0, 70)]),
            Call::Begin,
            step(0),
            Call::Unset {
                row: 0,
                tiles: [5, 128],
                words: 6,
            },
            Call::Show,
        ]);
    }
    calls
}

/// Screens of one to three buckets, one tile less and one more; fills from and to the tiles beside buckets' edges; the last bucket written, and one
/// past it.
fn beside_a_bucket(width: Width) -> Vec<Vec<Call>> {
    let (pixels, w) = (width.pixels(), width.tiles());
    let screen = |across: u32| {
        let tiles = across / 4;
        let buckets = tiles.div_ceil(w);
        let mut calls = vec![reset_at(pixels, across, 2)];
        for (first, end) in [
            (0, tiles),
            (1, tiles),
            (w - 1, tiles),
            (w, w + 1),
            (0, w - 1),
            (0, w),
            (0, w + 1),
        ] {
            if first < end {
                calls.push(fill(&[solid(0, first, end), solid(1, 0, end)]));
            }
        }
        let write = |id, first, end, words| Call::Write {
            row: 1,
            id,
            buckets: [first, end],
            words,
        };
        let unset = |row, words| Call::Unset {
            row,
            tiles: [0, tiles + w],
            words,
        };
        calls.extend([Call::Show, Call::Begin]);
        calls.extend((0..9).map(|_| step(0)));
        calls.extend([
            unset(0, 6),
            write(5, buckets, buckets + 1, 2),
            write(5, buckets - 1, buckets, 2),
            unset(1, 6),
            write(6, 0, buckets, 4),
            Call::Visible {
                row: 1,
                id: 5,
                tiles: [0, 8_192],
                words: 6,
            },
            Call::Show,
        ]);
        calls
    };
    let sizes = (1..4).flat_map(|count| [pixels * count - 4, pixels * count, pixels * count + 4]);
    sizes.map(screen).collect()
}

/// The widest screen: every second bucket written, then what is left; fills over all of it.
fn widest(width: Width) -> Vec<Call> {
    let (pixels, w) = (width.pixels(), width.tiles());
    let buckets = 4_096 / pixels;
    let mut calls = vec![
        reset_at(pixels, 4_096, 1),
        fill(&[solid(0, 0, 1_024)]),
        fill(&[solid(0, 1, 1_023)]),
        fill(&[solid(0, w, 1_024 - w)]),
        Call::Begin,
    ];
    calls.extend((0..6).map(|_| step(0)));
    calls.extend([Call::Show, Call::Begin]);
    calls.extend((0..buckets).step_by(2).map(|bucket| Call::Write {
        row: 0,
        id: 2,
        buckets: [bucket, bucket + 1],
        words: 2,
    }));
    calls.extend([
        Call::Unset {
            row: 0,
            tiles: [w - 1, 1_024],
            words: buckets,
        },
        Call::Unset {
            row: 0,
            tiles: [w - 1, 1_024],
            words: buckets - 1,
        },
        Call::Visible {
            row: 0,
            id: 1,
            tiles: [0, 8_192],
            words: buckets,
        },
        Call::Write {
            row: 0,
            id: 3,
            buckets: [0, buckets + 1],
            words: buckets,
        },
        Call::Write {
            row: 0,
            id: 3,
            buckets: [0, buckets],
            words: buckets,
        },
        Call::Show,
    ]);
    calls
}

/// `can_skip` on both sides of a union of whole buckets.
fn skips_at(width: Width) -> Vec<Call> {
    let w = width.tiles();
    let mut calls = vec![
        reset_at(width.pixels(), 4 * 5 * w, 1),
        fill(&[solid(0, w - 1, 2 * w + 1)]),
        fill(&[solid(0, 3 * w, 4 * w)]),
        fill(&[solid(0, 1, w - 1)]),
    ];
    for tiles in [
        [0, w],
        [0, w + 1],
        [w - 1, w],
        [w, w + 1],
        [4 * w - 1, 4 * w],
        [4 * w, 4 * w + 1],
        [2 * w, 3 * w],
        [0, 8_192],
    ] {
        calls.extend([1, 2].map(|id| Call::CanSkip { row: 0, tiles, id }));
    }
    calls.push(Call::Show);
    calls
}

/// Questions of one sequence on a screen that has been built.
const QUESTIONS: usize = 36;

/// These questions of a row, so many to a sequence, each sequence after the same calls.
fn asked(before: &[Call], row: u32, questions: &[([u32; 2], u32)]) -> Vec<Vec<Call>> {
    let ask = |&([first, end], id): &([u32; 2], u32)| Call::Hidden {
        row,
        first,
        end,
        id,
    };
    let of = |own: &[_]| before.iter().cloned().chain(own.iter().map(ask)).collect();
    questions.chunks(QUESTIONS).map(of).collect()
}

/// What is made for the minima: rows of few and of most buckets at each width; empty ranges at every place, reversed ones, ranges at and past the end; ids
/// stored, beside these, 0 and the last word; after a reset, a begin, steps, writes, and writes that are refused.
fn hidden_edges() -> Vec<Vec<Call>> {
    let mut all = Vec::new();
    for width in Width::ALL {
        let most = 4_096 / width.pixels();
        for buckets in [0, 1, 2, 3, 5, most - 1, most] {
            all.extend(hidden_places(width, buckets));
            if buckets > 0 {
                all.extend(hidden_writes(width, buckets));
                all.extend(hidden_steps(width, buckets));
            }
        }
    }
    all
}

/// On a screen that is as a reset left it: the places of a row's buckets; no such row.
fn hidden_places(width: Width, buckets: u32) -> Vec<Vec<Call>> {
    let reset = [reset_at(width.pixels(), width.pixels() * buckets, 2)];
    let last = u32::MAX;
    let mut questions: Vec<_> = (0..=buckets + 1).map(|place| ([place, place], 0)).collect();
    questions.extend([
        ([0, buckets], 0),
        ([0, buckets], last),
        ([0, buckets + 1], 0),
        ([buckets, buckets + 1], 0),
        ([1, 0], 0),
        ([buckets + 1, buckets], 0),
        ([buckets, 0], 0),
        ([last, last], last),
        ([0, last], 0),
        ([last, 0], 0),
    ]);
    let mut all = asked(&reset, 1, &questions);
    let no_row = [2, last].map(|row| Call::Hidden {
        row,
        first: 0,
        end: 0,
        id: 0,
    });
    all.push([&reset[..], &no_row, &[Call::Show]].concat());
    all
}

/// The second of two rows written in three parts, the last bucket with the last word as its id; writes that write nothing change nothing.
fn hidden_writes(width: Width, buckets: u32) -> Vec<Vec<Call>> {
    let write = |id, first, end, words| Call::Write {
        row: 1,
        id,
        buckets: [first, end],
        words,
    };
    let last = u32::MAX;
    let (half, end) = (buckets.div_ceil(2), buckets - 1);
    let mut built = vec![reset_at(width.pixels(), width.pixels() * buckets - 4, 2)];
    built.extend([
        write(last, end, buckets, 2),
        write(7, 0, half, 2),
        write(3, 0, half, 2),
        write(3, 0, buckets + 1, 2),
        write(3, half, half, 2),
        write(3, half, end.max(half), 0),
    ]);
    let gap = [write(4, 0, buckets, 2)];
    let (above, shown) = (
        asked(&[], 0, &[([0, buckets], 0), ([end, buckets], 0)]),
        [Call::Show],
    );
    let stages = [
        &built[..],
        &shown,
        &gap,
        &shown,
        &above.concat(),
        &[Call::Begin],
        &shown,
    ]
    .concat();
    built.extend(gap);
    let mut questions = Vec::new();
    for range in [
        [0, buckets],
        [0, half],
        [half, buckets],
        [end, buckets],
        [0, end],
        [end / 2, half],
        [half.min(end), end],
        [0, 1],
    ] {
        for id in [0, 3, 4, 5, 6, 7, 8, last - 1, last] {
            questions.push((range, id));
        }
    }
    let mut all = asked(&built, 1, &questions);
    all.push(stages);
    all
}

/// Three depth fills over one another, asked before a begin and after each step, at the ids that they have and at those beside.
fn hidden_steps(width: Width, buckets: u32) -> Vec<Vec<Call>> {
    let (w, half) = (width.tiles(), buckets / 2);
    let tiles = buckets * w;
    let ask = |first, end, id| Call::Hidden {
        row: 0,
        first,
        end,
        id,
    };
    let mut calls = vec![
        reset_at(width.pixels(), width.pixels() * buckets, 1),
        fill(&[solid(0, 0, tiles)]),
        fill(&[solid(0, half * w, tiles)]),
        fill(&[solid(0, half * w, (half + 1) * w)]),
        ask(0, buckets, 0),
        Call::Begin,
    ];
    for _ in 0..4 {
        calls.extend([0, 1, 2, 3].map(|id| ask(half, half + 1, id)));
        calls.extend([0, 1].map(|id| ask(0, buckets, id)));
        calls.push(step(0));
    }
    let shown = [&calls[..8], &[step(0), Call::Show]].concat();
    vec![calls, shown]
}

/// Numbers that are no panel.
const NO_PANELS: [u32; 5] = [PANELS, PANELS + 1, 65_536, 1 << 31, u32::MAX];

/// What is made for the panels.
fn panel_edges() -> Vec<Vec<Call>> {
    let wide = [solid(0, 0, 64)];
    let (on, off) = ([0, 0, 64, 8], [512, 0, 516, 8]);
    let mut all = vec![
        // The last panel, and one more: 4 in place of 5, 8, 10 and 11.
        vec![
            reset(256, 8, 2, 1),
            of(255, fill(&[solid(0, 4, 8), solid(0, 0, 4)])),
            of(256, fill(&[solid(0, 4, 8), solid(0, 0, 4)])),
            of(255, fill(&wide)),
            of(254, fill(&wide)),
            of(256, fill(&wide)),
            of(253, alpha(0, 0, 4)),
            of(252, alpha(0, 0, 4)),
            of(251, alpha(0, 0, 4)),
            of(256, alpha(0, 0, 4)),
            Call::NextId(LAST_ID),
            of(250, fill(&[])),
            of(249, fill(&[])),
            of(256, fill(&[])),
            of(256, push()),
            of(248, push()),
            pop(&[]),
            of(256, filter(5, on)),
            of(255, filter(5, on)),
            Call::Show,
        ],
        // A filter fill that draws nothing is judged all the same, and takes no attribute; nor does a fill without segments.
        vec![
            reset(256, 8, 8, 8),
            of(1, fill(&[])),
            of(2, filter(None, on)),
            of(3, filter(5, off)),
            of(256, filter(None, on)),
            of(256, filter(5, off)),
            of(4, alpha(0, 0, 4)),
            of(5, fill(&[])),
            of(6, filter(5, on)),
            of(7, alpha(1, 0, 4)),
            Call::Show,
        ],
        // A layer in another: each closes with its own panel, and its piece has it.
        vec![
            reset(128, 4, 8, 4),
            of(1, push()),
            of(2, push()),
            of(3, alpha(0, 0, 4)),
            pop(&[]),
            pop(&[]),
            Call::Begin,
            small_step(),
            small_step(),
            small_step(),
            small_step(),
            small_step(),
            small_step(),
            small_step(),
            small_step(),
            Call::Show,
        ],
        // Depth fills that hide others of other panels.
        vec![
            reset(256, 4, 8, 4),
            of(0, fill(&wide)),
            of(255, fill(&[solid(0, 32, 64)])),
            of(128, alpha(0, 30, 34)),
            Call::Begin,
            small_step(),
            small_step(),
            small_step(),
            small_step(),
            Call::Show,
        ],
        // A reset closes what is open; a panel of before is nowhere.
        vec![
            reset(256, 8, 8, 8),
            of(5, push()),
            of(6, fill(&wide)),
            of(7, push()),
            reset(256, 8, 8, 8),
            pop(&[]),
            of(8, push()),
            of(9, alpha(1, 0, 4)),
            pop(&[]),
            Call::Show,
        ],
    ];
    all.extend(NO_PANELS.map(no_panel));
    all.push(deep_panels());
    all.extend(Width::ALL.map(|width| at(nested_panels(), width.pixels())));
    all
}

/// A step of row 0 into a list of one piece.
fn small_step() -> Call {
    Call::Step {
        row: 0,
        words: ONE_PIECE,
    }
}

/// A number that is no panel refuses each step by 4 and leaves what was there.
fn no_panel(panel: u32) -> Vec<Call> {
    let mut calls = vec![reset(256, 8, 8, 8), of(3, push()), of(4, alpha(0, 0, 8))];
    calls.extend([
        of(panel, fill(&[solid(0, 0, 64)])),
        of(panel, push()),
        of(panel, clipped([0, 0, 64, 8], 0, 1)),
        of(panel, filter(5, [0, 0, 64, 8])),
        Call::Show,
        of(255, filter(5, [0, 0, 64, 8])),
        pop(&[]),
        pop(&[]),
        Call::Show,
    ]);
    calls
}

/// 16 layers of 16 panels and a 17th, which a number that is no panel refuses before its depth does; each closes with its own.
fn deep_panels() -> Vec<Call> {
    let mut calls = vec![reset(64, 4, 64, 8)];
    calls.extend((0..16).map(|depth| of(240 + depth, push())));
    calls.extend([of(255, push()), of(256, push()), of(1, alpha(0, 0, 8))]);
    calls.extend((0..17).map(|_| pop(&[])));
    calls.extend([Call::Show, Call::Begin]);
    calls.extend((0..50).map(|_| small_step()));
    calls
}

/// Layers in layers of other panels, filter fills of panels of their own in them, depth fills that hide others; then all is painted.
fn nested_panels() -> Vec<Call> {
    let mut calls = vec![
        reset(512, 8, 16, 8),
        of(10, fill(&[solid(0, 0, 128), solid(1, 0, 128)])),
        of(20, fill(&[solid(0, 0, 64)])),
        of(30, push()),
        of(40, alpha(0, 60, 70)),
        of(50, clipped([0, 0, 400, 8], 0, 1)),
        of(60, filter(0, [128, 0, 300, 8])),
        of(70, destructive()),
        of(80, alpha(1, 10, 90)),
        pop(&[]),
        of(256, push()),
        pop(&[[1, 1, 0, 100, 160]]),
        of(90, filter(None, [0, 0, 64, 8])),
        pop(&[]),
        of(100, filter(7, [0, 4, 64, 8])),
        of(110, fill(&[solid(1, 0, 64)])),
        Call::Show,
        Call::Begin,
    ];
    for row in [0, 1] {
        calls.extend((0..16).map(|_| step(row)));
    }
    calls.push(Call::Show);
    calls
}

/// Words that a sequence of viewports has with its answers, unless one viewport alone has more.
const MOST_WORDS: usize = 380;

/// Viewports at the edges of the snapping mode, each reset in both modes. Where the snapping one is done, a fill that goes past the screen on
/// both sides, on its last row and on the next.
fn viewports() -> Vec<Vec<Call>> {
    let mut all: Vec<Vec<Call>> = Vec::new();
    for (viewport, good) in viewport_edges() {
        let mut calls = vec![
            sized(viewport, [4, 4], Mode::Exact, 128),
            sized(viewport, [4, 4], Mode::Snapping, 128),
        ];
        if good && fits(viewport, 4, 4) {
            let [left, _, right, bottom] = snapped(viewport).map(|edge| edge as u32 / 4);
            let (first, end) = (left.saturating_sub(1), (right + 1).min(8_192));
            let rows = bottom.saturating_sub(1)..=bottom.min(8_191);
            let list: Vec<_> = rows.map(|row| solid(row, first, end)).collect();
            calls.extend([fill(&list), Call::Show]);
        }
        match all.last_mut() {
            Some(last) if size(last) + size(&calls) <= MOST_WORDS => last.extend(calls),
            _ => all.push(calls),
        }
    }
    all
}

/// Each with whether it is good once snapped.
fn viewport_edges() -> Vec<Edge> {
    let higher = |(start, end, _)| (start, end, true);
    // 128 pixels are 32 rows, which a program has; one more is good, and not done.
    let rows = longest(128).into_iter().map(higher).collect();
    [across(4_096), down(axis(2_048)), down(rows)].concat()
}

/// The words of a sequence with its answers.
fn size(calls: &[Call]) -> usize {
    let words: usize = calls.iter().map(|call| call.words().len()).sum();
    words + answers(calls).len()
}

/// Whether a program has room for what a reset asks for.
fn fits(viewport: [u32; 4], c: u32, d: u32) -> bool {
    let [_, y0, _, y1] = snapped(viewport);
    let rows = y1.saturating_sub(y0) / 4;
    let room = |room: u32| u64::from(room.min(MOST_ROOM));
    rows <= MOST_ROWS.into()
        && rows * 4 * room(c) <= MOST_RENDER.into()
        && rows * 2 * room(d) <= MOST_FILLS.into()
}

/// A reset that asks for no more than a program has: otherwise for rows without room, which refuse it by 1 unless 2 does.
fn sized(viewport: [u32; 4], [c, d]: [u32; 2], mode: Mode, width: u32) -> Call {
    let (c, d) = if fits(viewport, c, d) { (c, d) } else { (0, 0) };
    Call::Reset {
        viewport,
        c,
        d,
        mode,
        width,
    }
}

/// 16 layers and a 17th, with fills in between, closed again.
fn layers() -> Vec<Call> {
    let mut calls = vec![reset(128, 8, 64, 8)];
    for depth in 0..17 {
        calls.push(if depth % 3 == 2 {
            clipped([0, 0, 124, 8], 0, 1)
        } else {
            push()
        });
        if depth % 5 == 0 {
            calls.push(alpha(depth % 2, 0, 16));
        }
    }
    calls.push(Call::Show);
    calls.extend((0..17).map(|_| pop(&[solid(1, 0, 32)])));
    calls.push(Call::Show);
    calls
}

/// The last paint attribute, and one more; a fill without segments needs none.
fn attributes() -> Vec<Call> {
    let mut calls = vec![reset(128, 4, 4, 4)];
    calls.extend((0..1_025).map(|_| fill(&[solid(8_000, 0, 1)])));
    calls.extend([fill(&[]), filter(5, [0, 0, 64, 8]), Call::Show]);
    calls
}

/// The last layer attribute, and one more.
fn layer_attributes() -> Vec<Call> {
    let mut calls = vec![reset(128, 4, 4, 4)];
    calls.extend((0..1_025).flat_map(|_| [push(), pop(&[])]));
    calls.push(Call::Show);
    calls
}

/// The last filter paint, and one more.
fn filter_paints() -> Vec<Call> {
    let mut calls = vec![reset(128, 4, 300, 4)];
    calls.extend((0..257).map(|_| filter(5, [0, 0, 64, 8])));
    calls.extend([alpha(0, 0, 1), Call::Show]);
    calls
}

/// `can_skip` on both sides of the union and of the largest id.
fn skips() -> Vec<Call> {
    let mut calls = vec![
        reset(1_024, 4, 8, 8),
        Call::CanSkip {
            row: 0,
            tiles: [0, 256],
            id: 0,
        },
        fill(&[solid(0, 64, 96)]),
        fill(&[solid(0, 128, 160)]),
    ];
    for (first, end) in [
        (0, 64),
        (0, 65),
        (63, 64),
        (64, 65),
        (159, 160),
        (160, 161),
        (96, 128),
        (100, 100),
        (64, 64),
        (160, 160),
    ] {
        calls.extend([0, 1, 2, 3].map(|id| Call::CanSkip {
            row: 0,
            tiles: [first, end],
            id,
        }));
    }
    calls
}

/// A list of fills with one paint: the words of its draws, and which of them are done.
fn fills(draws: &[[u32; 8]], range: [u32; 2], segments: &[[u32; 5]]) -> Call {
    Call::Fills {
        draws: draws.concat(),
        range,
        paints: vec![OPAQUE],
        segments: segments.to_vec(),
    }
}

/// The draw of segments from start to end, for a panel.
fn drawn(start: u32, end: u32, panel: u32) -> [u32; 8] {
    [0, start, end, 0, DEFAULT[0], DEFAULT[1], 0, panel]
}

/// Lists of fills: bad ranges, empty ranges while painting goes on, the first, a middle and the last draw refused, by what they are and by what is full.
fn list_edges() -> Vec<Vec<Call>> {
    let wide = [solid(0, 0, 64), solid(1, 8, 56), solid(1, 0, 8)];
    let good = [drawn(0, 2, 1), drawn(0, 1, 2), drawn(1, 2, 3)];
    let start = || reset(256, 8, 8, 8);
    let bad = [
        drawn(0, 1, 256),
        drawn(0, 4, 0),
        drawn(2, 1, 0),
        drawn(1, 3, 0),
        [256, 0, 1, 0, 0, 3, 0, 0],
        [0, 0, 1, 1, 0, 3, 0, 0],
        [0, 0, 1, 0, 16, 3, 0, 0],
        [0, 0, 1, 0, 0, 14, 0, 0],
        [0, 0, 1, 0, 0, 3, 1 << 31, 0],
    ];
    let mut all = Vec::new();
    for range in [
        [0, 0],
        [3, 3],
        [0, 3],
        [1, 2],
        [2, 1],
        [0, 4],
        [4, 4],
        [u32::MAX, u32::MAX],
        [0, u32::MAX],
    ] {
        all.push(vec![start(), fills(&good, range, &wide), Call::Show]);
        all.push(vec![
            start(),
            alpha(0, 0, 4),
            Call::Begin,
            step(0),
            fills(&good, range, &wide),
            step(0),
            Call::Show,
        ]);
    }
    for more in [1, 7] {
        let mut draws = good.concat();
        draws.truncate(16 + more);
        all.push(vec![
            start(),
            Call::Fills {
                draws,
                range: [0, 0],
                paints: vec![OPAQUE],
                segments: wide.to_vec(),
            },
            Call::Show,
        ]);
    }
    for refused in bad {
        for at in 0..3 {
            let mut draws = good;
            draws[at] = refused;
            all.push(vec![
                start(),
                fills(&draws, [0, 3], &wide),
                Call::Show,
                fills(&draws, [0, 3], &wide),
                Call::Show,
            ]);
        }
    }
    // Commands and depth fills of a row, and ids, are full at a draw behind others.
    let narrow = [solid(0, 1, 2), solid(0, 0, 64)];
    let few = [drawn(0, 1, 0), drawn(0, 1, 1), drawn(0, 1, 2)];
    let whole = [drawn(1, 2, 0), drawn(1, 2, 1), drawn(1, 2, 2)];
    for room in 1..4 {
        all.push(vec![
            reset(256, 4, room, 8),
            fills(&few, [0, 3], &narrow),
            Call::Show,
        ]);
        all.push(vec![
            reset(256, 4, 8, room),
            fills(&whole, [0, 3], &narrow),
            Call::Show,
        ]);
        all.push(vec![
            start(),
            Call::NextId(LAST_ID + 1 - room),
            fills(&few, [0, 3], &narrow),
            fills(&few, [1, 1], &narrow),
            Call::Show,
        ]);
    }
    // In a layer, and on a screen without rows.
    all.push(vec![
        start(),
        push(),
        fills(&good, [0, 3], &wide),
        pop(&[]),
        Call::Show,
    ]);
    all.push(vec![fills(&good, [0, 3], &wide), Call::Show]);
    all.push(vec![fills(&[], [0, 0], &[]), fills(&[], [0, 1], &[])]);
    all
}

// Random sequences.

/// What a sequence has on its screen so far, as far as it is known without doing it.
struct Sketch {
    /// The box that the screen holds.
    viewport: [u32; 4],
    /// Tiles of a bucket.
    width: u32,
    /// The clip range of each open layer, if all was done so far.
    open: Vec<Option<(u32, u32)>>,
    calls: Vec<Call>,
}

/// A width, each as often as the others; at times a number that is none.
fn any_width(random: &mut Random) -> u32 {
    if random.chance(3) {
        random.pick(&NO_WIDTHS)
    } else {
        random.pick(&Width::ALL).pixels()
    }
}

/// The sketch's screen is reset at a width, unless the number is none.
fn reset_done(sketch: &mut Sketch, viewport: [u32; 4], pixels: u32) {
    if let Some(width) = Width::of(pixels) {
        sketch.viewport = viewport;
        sketch.width = width.tiles();
        sketch.open.clear();
    }
}

/// A viewport of few rows that is one tile less than some buckets wide, just as wide, or one tile more.
fn wide_viewport(random: &mut Random) -> [u32; 4] {
    let pixels = random.pick(&Width::ALL).pixels();
    let most = if random.chance(25) { 4_096 } else { 1_280 };
    let across = pixels * random.from(1, most / pixels) + 4 * random.below(3) - 4;
    let x = 4 * random.pick(&[0, 0, 1, 17, 40]);
    let across = across.min(4_096);
    [x, 0, x + across, 4 * random.from(1, 3)]
}

fn sequence(random: &mut Random) -> Vec<Call> {
    if random.chance(15) {
        return panelled(crowded::sequence(random));
    }
    let viewport = if random.chance(35) {
        wide_viewport(random)
    } else {
        viewport(random)
    };
    let rows = (viewport[3] - viewport[1]) / 4;
    let room = |random: &mut Random, most: u32| {
        let room = random.pick(&[1, 2, 3, 4, 6, 8, 16, 64, 64, 64]);
        room.min(most / rows.max(1))
    };
    let (c, d) = (room(random, MOST_RENDER / 4), room(random, MOST_FILLS / 2));
    let d = if random.chance(30) {
        random.from(1, 3)
    } else {
        d
    };
    let mut sketch = Sketch {
        viewport,
        width: 32,
        open: Vec::new(),
        calls: Vec::new(),
    };
    if random.chance(6) {
        let call = edge_reset(&mut sketch, random);
        sketch.calls.push(call);
        sketch.viewport = viewport;
    }
    first_resets(&mut sketch, viewport, [c, d], random);
    if random.chance(3) {
        sketch.calls.push(Call::NextId(LAST_ID - random.below(4)));
    }
    for _ in 0..random.from(1, 3) {
        for _ in 0..random.from(1, 14) {
            build(&mut sketch, random);
        }
        if random.chance(30) {
            sketch.calls.push(Call::Show);
        }
        if random.chance(75) {
            while !sketch.open.is_empty() {
                close(&mut sketch, random);
            }
        }
        if sketch.open.is_empty() || random.chance(10) {
            paint(&mut sketch, random);
        }
    }
    sketch.calls.push(Call::Show);
    sketch.calls
}

/// A reset to this box; before it, at times, one with a number that is no width, or one at another width.
fn first_resets(sketch: &mut Sketch, held: [u32; 4], [c, d]: [u32; 2], random: &mut Random) {
    loop {
        let (viewport, mode) = given(held, random);
        let width = any_width(random);
        sketch.calls.push(Call::Reset {
            viewport,
            c,
            d,
            mode,
            width,
        });
        reset_done(sketch, held, width);
        if Width::of(width).is_some() && random.chance(95) {
            break;
        }
    }
}

/// The same box once more, often at another width.
fn again(sketch: &mut Sketch, random: &mut Random) -> Call {
    let held = sketch.viewport;
    let (viewport, mode) = given(held, random);
    let pixels = any_width(random);
    let call = sized(viewport, [4, 4], mode, pixels);
    if matches!(call, Call::Reset { c: 4, .. }) {
        reset_done(sketch, held, pixels);
    }
    call
}

fn build(sketch: &mut Sketch, random: &mut Random) {
    match random.below(104) {
        100 => {
            let call = again(sketch, random);
            sketch.calls.push(call);
        }
        0..46 => sketch.calls.push(any_fill(sketch, random)),
        46..55 => sketch.calls.push(any_fills(sketch, random)),
        55..70 => open(sketch, random),
        70..80 => close(sketch, random),
        80..92 => sketch.calls.push(any_filter(sketch, random)),
        92..98 => {
            let call = damaged(sketch, random);
            sketch.calls.push(call);
        }
        98 => {
            let call = damaged_reset(sketch, random);
            sketch.calls.push(call);
        }
        101.. => {
            let call = Call::Compact(any_row(sketch, random));
            sketch.calls.push(call);
        }
        _ => {
            let call = edge_reset(sketch, random);
            sketch.calls.push(call);
        }
    }
}

/// A viewport of which the screen holds this box: in a third of the cases for the snapping mode, and then mostly loosened.
fn given(held: [u32; 4], random: &mut Random) -> ([u32; 4], Mode) {
    if random.chance(67) {
        (held, Mode::Exact)
    } else if random.chance(15) {
        (held, Mode::Snapping)
    } else {
        (loosened(held, random), Mode::Snapping)
    }
}

/// A reset to a viewport at an edge of the snapping mode, or to one that snaps to the box there; in either mode.
fn edge_reset(sketch: &mut Sketch, random: &mut Random) -> Call {
    let mode = if random.chance(67) {
        Mode::Exact
    } else {
        Mode::Snapping
    };
    let viewport = if random.chance(40) {
        loosened(sketch.viewport, random)
    } else {
        let side = |random: &mut Random, most: u32| {
            let (start, end, _) = random.pick(&axis(most));
            (start, end)
        };
        let most = random.pick(&[128, 2_048]);
        let ((x0, x1), (y0, y1)) = match random.below(3) {
            0 => (side(random, 4_096), (1, 7)),
            1 => ((2, 5), side(random, most)),
            _ => (side(random, 4_096), side(random, most)),
        };
        [x0, y0, x1, y1]
    };
    let pixels = any_width(random);
    let call = sized(viewport, [4, 4], mode, pixels);
    if let (Some(held), Call::Reset { c: 4, .. }) = (mode.held(viewport), &call) {
        reset_done(sketch, held, pixels);
    }
    call
}

/// Segments for the screen's own buckets, at times for others.
fn any_list(sketch: &Sketch, random: &mut Random) -> Vec<[u32; 5]> {
    let width = if random.chance(75) {
        sketch.width
    } else {
        random.pick(&Width::ALL).tiles()
    };
    new_list(sketch.viewport, width, random)
}

/// A list of segments with, at times, others around the range that is read.
fn lent(sketch: &Sketch, random: &mut Random) -> (Vec<[u32; 5]>, (u32, u32)) {
    let own = any_list(sketch, random);
    let before = if random.chance(20) {
        any_list(sketch, random)
    } else {
        Vec::new()
    };
    let after = if random.chance(20) {
        any_list(sketch, random)
    } else {
        Vec::new()
    };
    let count = |list: &[[u32; 5]]| u32::try_from(list.len()).expect("few");
    let range = (count(&before), count(&before) + count(&own));
    ([before, own, after].concat(), range)
}

/// A panel: one of ten, any, or at times the first or the last; now and then a number that is none.
fn any_panel(random: &mut Random) -> u32 {
    match random.below(100) {
        0..45 => random.below(10),
        45..92 => random.below(PANELS),
        92..97 => random.pick(&[0, PANELS - 1]),
        97..99 => PANELS,
        _ => random.pick(&NO_PANELS),
    }
}

fn any_fill(sketch: &Sketch, random: &mut Random) -> Call {
    let (segments, (start, end)) = lent(sketch, random);
    let end = if random.chance(5) { start } else { end };
    let paints: Vec<[u32; 4]> = (0..random.from(1, 3))
        .map(|_| {
            [
                u32::from(random.chance(75)),
                random.below(9),
                random.word(),
                0,
            ]
        })
        .collect();
    let paint = random.below(u32::try_from(paints.len()).expect("few"));
    let (mix, compose) = blend(random, 85);
    let mask = if random.chance(10) {
        random.word() % (1 << 31)
    } else {
        0
    };
    Call::Fill {
        draw: [
            random.below(256) * random.below(2),
            start,
            end,
            paint,
            mix,
            compose,
            mask,
            any_panel(random),
        ],
        paints,
        segments,
    }
}

/// A list of fills over the same paints and segments, mostly of good draws; at times a bad draw, a bad range, or words that are no whole draws.
fn any_fills(sketch: &Sketch, random: &mut Random) -> Call {
    let Call::Fill {
        draw,
        paints,
        segments,
    } = any_fill(sketch, random)
    else {
        unreachable!()
    };
    let count = random.below(6);
    let mut draws = Vec::new();
    for _ in 0..count {
        let [_, start, end, ..] = draw;
        let from = random.from(start, end);
        let (mix, compose) = blend(random, 85);
        let mut own = [
            random.below(256) * random.below(2),
            from,
            random.from(from, end),
            random.below(u32::try_from(paints.len()).expect("few")),
            mix,
            compose,
            0,
            any_panel(random),
        ];
        if random.chance(4) {
            change(random, &mut own);
        }
        draws.extend(own);
    }
    let mut range = [0, count];
    if random.chance(20) {
        range = [random.below(count + 1), random.below(count + 2)];
    }
    if random.chance(3) {
        draws.push(0);
    }
    Call::Fills {
        draws,
        range,
        paints,
        segments,
    }
}

fn open(sketch: &mut Sketch, random: &mut Random) {
    let (mix, compose) = blend(random, 60);
    let opacity = random.pick(&OPACITIES);
    let mask = if random.chance(15) {
        random.from(1, (1 << 31) - 1)
    } else {
        0
    };
    let (flag, clip, range) = if random.chance(50) {
        let [x0, y0, x1, y1] = bounds(random, sketch.viewport, 4);
        let (start, end) = (random.below(3), 3 + random.below(3));
        (
            1,
            [x0, y0, x1, y1, start, end, random.below(256)],
            Some((start, end)),
        )
    } else {
        (0, [0; 7], None)
    };
    let panel = any_panel(random);
    if panel < PANELS {
        sketch.open.push(range);
    }
    sketch.calls.push(Call::Push {
        mix,
        compose,
        opacity,
        mask,
        flag,
        clip,
        panel,
    });
}

/// A pop, lent a list with room for its clip's range; at times one too many.
fn close(sketch: &mut Sketch, random: &mut Random) {
    let end = sketch.open.pop().flatten().map_or(0, |(_, end)| end);
    let mut segments = any_list(sketch, random);
    while segments.len() < end as usize {
        let row = segments
            .last()
            .map_or(0, |segment| (segment[1] + 1).min(8_191));
        segments.push(solid(row, 0, random.from(1, 300)));
    }
    sketch.calls.push(Call::Pop { segments });
}

fn any_filter(sketch: &Sketch, random: &mut Random) -> Call {
    let pixmap = any_pixmap(random);
    let dest = bounds(random, sketch.viewport, 1);
    let source = [0, 1].map(|_| random.pick(&[0, 1, 4, 100, 32_768]));
    Call::Filter {
        pixmap,
        dest,
        source,
        count: random.pick(&[0, 1, 3, 4_096]),
        panel: any_panel(random),
    }
}

/// A word at some bound, or near what was there.
fn other(random: &mut Random, word: u32) -> u32 {
    match random.below(4) {
        0 => word.wrapping_add(1),
        1 => word.wrapping_sub(1),
        2 => word.wrapping_add(4),
        _ => random.pick(&WORDS),
    }
}

fn change(random: &mut Random, words: &mut [u32]) {
    let at = random.below(u32::try_from(words.len()).expect("few")) as usize;
    words[at] = other(random, words[at]);
}

/// A building step with one word changed.
fn damaged(sketch: &mut Sketch, random: &mut Random) -> Call {
    match random.below(4) {
        0 | 1 => {
            let Call::Fill {
                mut draw,
                mut paints,
                mut segments,
            } = any_fill(sketch, random)
            else {
                unreachable!()
            };
            match random.below(4) {
                0 if !paints.is_empty() => change(random, &mut paints[0]),
                1 | 2 if !segments.is_empty() => {
                    let at = random.below(u32::try_from(segments.len()).expect("few")) as usize;
                    change(random, &mut segments[at]);
                }
                _ => change(random, &mut draw),
            }
            Call::Fill {
                draw,
                paints,
                segments,
            }
        }
        2 => {
            let mut words = [0, 3, ONE, 0, random.below(PANELS)];
            let mut clip = [0; 7];
            let flag = u32::from(random.chance(60));
            if flag == 1 {
                let [x0, y0, x1, y1] = bounds(random, sketch.viewport, 4);
                clip = [x0, y0, x1, y1, 0, 0, 0];
                change(random, &mut clip);
            } else {
                change(random, &mut words);
            }
            // A push that is done all the same stands open.
            sketch.open.push(if flag == 1 {
                Some((clip[4], clip[5].min(64)))
            } else {
                None
            });
            let [mix, compose, opacity, mask, panel] = words;
            Call::Push {
                mix,
                compose,
                opacity,
                mask,
                flag,
                clip,
                panel,
            }
        }
        _ => {
            let Call::Filter {
                pixmap,
                dest: [x0, y0, x1, y1],
                source: [x, y],
                count,
                panel,
            } = any_filter(sketch, random)
            else {
                unreachable!()
            };
            let mut words = [pixmap.unwrap_or(0), x0, y0, x1, y1, x, y, count, panel];
            change(random, &mut words);
            let [handle, x0, y0, x1, y1, x, y, count, panel] = words;
            Call::Filter {
                pixmap: pixmap.map(|_| handle),
                dest: [x0, y0, x1, y1],
                source: [x, y],
                count,
                panel,
            }
        }
    }
}

/// A reset with one word changed.
fn damaged_reset(sketch: &mut Sketch, random: &mut Random) -> Call {
    let ([x0, y0, x1, y1], mode) = given(sketch.viewport, random);
    let mut words = [x0, y0, x1, y1, 4, 4];
    change(random, &mut words);
    let [x0, y0, x1, y1, c, d] = words;
    // Known only as a guess: pops that come later may be refused.
    sketch.open.clear();
    sized([x0, y0, x1, y1], [c, d], mode, any_width(random))
}

/// A row, at times the one after the last.
fn any_row(sketch: &Sketch, random: &mut Random) -> u32 {
    let [_, y0, _, y1] = sketch.viewport;
    let rows = (y1 - y0) / 4;
    if random.chance(3) {
        rows
    } else {
        random.below(rows.max(1))
    }
}

/// Painting by turns, and runs in between.
fn paint(sketch: &mut Sketch, random: &mut Random) {
    let [x0, y0, x1, y1] = sketch.viewport;
    let (rows, tiles) = ((y1 - y0) / 4, (x1 - x0) / 4);
    if random.chance(97) {
        sketch.calls.push(Call::Begin);
    }
    let more = PIECES + ONE_PIECE;
    let words = random.pick(&[PIECES, PIECES, PIECES, more, ONE_PIECE + 1, ONE_PIECE, 0]);
    for _ in 0..random.from(1, 6 * rows.clamp(1, 8)) {
        let row = any_row(sketch, random);
        let range = |random: &mut Random, most: u32| {
            let (a, b) = (random.below(most + 1), random.below(most + 1));
            if random.chance(4) {
                [a.max(b), a.min(b)]
            } else {
                [a.min(b), a.max(b)]
            }
        };
        let id = random.below(12);
        let call = match random.below(100) {
            0..73 => Call::Step { row, words },
            73..76 => Call::Compact(row),
            76..88 => any_hidden(sketch, row, random),
            88..91 => Call::Unset {
                row,
                tiles: range(random, tiles + sketch.width + 8),
                words,
            },
            91..94 => Call::Visible {
                row,
                id,
                tiles: range(random, tiles + sketch.width + 8),
                words,
            },
            94..96 => Call::Write {
                row,
                id,
                buckets: range(random, tiles.div_ceil(sketch.width)),
                words,
            },
            _ => Call::CanSkip {
                row,
                tiles: range(random, tiles + sketch.width + 8),
                id,
            },
        };
        let ended = matches!(call, Call::Write { .. } | Call::Compact(_));
        sketch.calls.push(call);
        if ended && random.chance(70) {
            sketch.calls.push(Call::Begin);
        }
    }
}

/// A question of a row's buckets: any range, often of few, at times one that is empty, reversed, or past the end; of small ids, as the fills have, and of the last.
fn any_hidden(sketch: &Sketch, row: u32, random: &mut Random) -> Call {
    let [x0, _, x1, _] = sketch.viewport;
    let buckets = ((x1 - x0) / 4).div_ceil(sketch.width);
    let (a, b) = (random.below(buckets + 1), random.below(buckets + 1));
    let (first, end) = (a.min(b), a.max(b));
    let (first, end) = match random.below(20) {
        0 => (end, first),
        1 => (first, buckets + 1),
        2 => (first, first),
        3 => (0, buckets),
        4..10 => (first, (first + 1).min(buckets)),
        _ => (first, end),
    };
    let id = match random.below(20) {
        0 => u32::MAX,
        1 => 0,
        _ => random.below(12),
    };
    Call::Hidden {
        row,
        first,
        end,
        id,
    }
}

#[cfg(test)]
mod tests {
    use super::{fill, fits, hidden_edges, reset_at, sequence, sized, viewport_edges};
    use crate::calls::{answers, removed, sequences, stream, Call};
    use crate::generate::draft::solid;
    use crate::random::Random;
    use crate::viewport::Mode;
    use crate::width::{Width, NO_WIDTHS};

    fn words(calls: &[Call]) -> Vec<u32> {
        calls.iter().flat_map(Call::words).collect()
    }

    #[test]
    fn every_reset_has_its_number() {
        for (viewport, good) in viewport_edges() {
            let aligned = viewport.iter().all(|edge| edge % 4 == 0);
            for (mode, good) in [(Mode::Snapping, good), (Mode::Exact, good && aligned)] {
                let answer = match (good, fits(viewport, 4, 4)) {
                    (false, _) => 2,
                    (true, false) => 1,
                    (true, true) => 0,
                };
                let said = answers(&[sized(viewport, [4, 4], mode, 128)]);
                assert_eq!(said, [answer], "{viewport:?} {mode:?}");
            }
        }
    }

    #[test]
    fn a_third_of_the_resets_snap() {
        let mut random = Random::new(1);
        let (mut resets, mut snapping, mut loose, mut refused) = (0, 0, 0, 0);
        for call in (0..3_000).flat_map(|_| sequence(&mut random)) {
            let Call::Reset { viewport, mode, .. } = call else {
                continue;
            };
            let aligned = viewport.iter().all(|edge| edge % 4 == 0);
            resets += 1;
            snapping += u32::from(mode == Mode::Snapping);
            loose += u32::from(mode == Mode::Snapping && !aligned);
            refused += u32::from(mode == Mode::Exact && !aligned);
        }
        assert!((30..37).contains(&(100 * snapping / resets)), "{snapping}");
        assert!(2 * loose > snapping, "{loose} of {snapping}");
        assert!(refused > 100, "{refused}");
    }

    #[test]
    fn each_width_has_a_third_of_the_resets() {
        let mut random = Random::new(1);
        let (mut at, mut none, mut changed, mut wide) = ([0; 3], 0, 0, 0);
        for calls in (0..3_000).map(|_| sequence(&mut random)) {
            let mut before = None;
            for call in calls {
                let Call::Reset {
                    viewport, width, ..
                } = call
                else {
                    continue;
                };
                match Width::ALL.iter().position(|of| of.pixels() == width) {
                    Some(which) => at[which] += 1,
                    None => {
                        none += 1;
                        assert_eq!(answers(&[call]), [2]);
                        continue;
                    }
                }
                changed += u32::from(before.is_some_and(|before| before != width));
                wide += u32::from(width == 256 && viewport[2] >= viewport[0].saturating_add(512));
                before = Some(width);
            }
        }
        let all: u32 = at.iter().sum();
        for count in at {
            assert!((30..37).contains(&(100 * count / all)), "{at:?}");
        }
        assert!((1..6).contains(&(100 * none / all)), "{none} of {all}");
        assert!(changed > 200 && wide > 200, "{changed} {wide}");
    }

    /// What the minima are asked: yes, no and refused, each often, on rows of every number of buckets up to five, and of the most at each width.
    #[test]
    fn hidden_of_every_sort() {
        let mut random = Random::new(1);
        let mut met = [0; 3];
        let drawn = (0..4_000).map(|_| sequence(&mut random));
        for calls in hidden_edges().into_iter().chain(drawn) {
            let said = sequences(&stream(&[words(&calls)]));
            assert_eq!(words(&said[0]), words(&calls));
            for (at, call) in calls.iter().enumerate() {
                if matches!(call, Call::Hidden { .. }) {
                    let before = answers(&calls[..at]).len();
                    let own = &answers(&calls[..=at])[before..];
                    let which = match own {
                        [0, yes] => *yes as usize,
                        [12, 0] => 2,
                        _ => panic!("{own:?}"),
                    };
                    met[which] += 1;
                }
            }
        }
        assert!(met.iter().all(|&times| times > 1_000), "{met:?}");
    }

    /// Rows are compacted, refused and not, each often; of those that are done many lose commands.
    #[test]
    fn compacted_of_every_sort() {
        let mut random = Random::new(1);
        let (mut met, mut lost) = ([0; 14], 0);
        for calls in (0..3_000).map(|_| sequence(&mut random)) {
            let said = sequences(&stream(&[words(&calls)]));
            assert_eq!(words(&said[0]), words(&calls));
            lost += removed(&calls).iter().filter(|&&count| count > 0).count();
            for (at, call) in calls.iter().enumerate() {
                if matches!(call, Call::Compact(_)) {
                    let own = answers(&calls[..=at]);
                    met[*own.last().expect("its number") as usize] += 1;
                }
            }
        }
        assert!([0, 12, 13].iter().all(|&of| met[of] > 100), "{met:?}");
        assert!(lost > 500 && met[0] > 2 * lost, "{lost} of {met:?}");
    }

    /// Each step that has a panel is met with every panel and with numbers that are none; layers close in layers of other panels.
    #[test]
    fn panels_of_every_sort() {
        let mut random = Random::new(1);
        let (mut met, mut none) = ([[0; 256]; 3], [0; 3]);
        let mut inside_another = 0;
        for calls in (0..3_000).map(|_| sequence(&mut random)) {
            let mut open = Vec::new();
            for mut call in calls {
                let kind = match &call {
                    Call::Fill { .. } => 0,
                    Call::Push { .. } => 1,
                    Call::Filter { .. } => 2,
                    Call::Pop { .. } => {
                        let own = open.pop();
                        let other = |parent: &u32| own.is_some_and(|own| own != *parent);
                        inside_another += u32::from(open.last().is_some_and(other));
                        continue;
                    }
                    Call::Reset { .. } => {
                        open.clear();
                        continue;
                    }
                    _ => continue,
                };
                let panel = *call.panel().expect("a panel");
                match met[kind].get_mut(panel as usize) {
                    None => none[kind] += 1,
                    Some(times) => {
                        *times += 1;
                        if kind == 1 {
                            open.push(panel);
                        }
                    }
                }
            }
        }
        assert!(met.iter().flatten().all(|&times| times > 0));
        assert!(none.iter().all(|&times| times > 100), "{none:?}");
        assert!(inside_another > 1_000, "{inside_another}");
    }

    /// A number that is no width comes after 3 and before 1, and leaves the screen as it was.
    #[test]
    fn no_width_is_refused_by_2() {
        for pixels in NO_WIDTHS {
            for (c, viewport) in [(4, 256), (0, 256), (4, 255), (1_025, 255)] {
                let call = Call::Reset {
                    viewport: [0, 0, viewport, 8],
                    c,
                    d: 4,
                    mode: Mode::Exact,
                    width: pixels,
                };
                assert_eq!(answers(&[call]), [2], "{pixels}");
            }
            let built = [reset_at(64, 256, 1), fill(&[solid(0, 0, 64)])];
            let shown = answers(&[&built[..], &[Call::Show]].concat());
            let refused = reset_at(pixels, 128, 2);
            let after = answers(&[&built[..], &[refused, Call::Show]].concat());
            assert_eq!(after, [&shown[..2], &[2], &shown[2..]].concat());
        }
    }

    /// Without a mode a width is judged all the same; nothing is reset.
    #[test]
    fn a_width_beside_no_mode() {
        for (width, answer) in [(64, 4), (256, 4), (96, 2), (0, 2)] {
            let words = [9, 0, 0, 0, 256, 8, 0, 4, 2, width];
            let bytes: Vec<u8> = words.into_iter().flat_map(u32::to_le_bytes).collect();
            let calls = sequences(&bytes);
            assert_eq!(answers(&calls[0]), [answer]);
            assert_eq!(calls[0][0].words(), words[1..]);
        }
    }

    /// The depth arena follows the width: rows times buckets.
    #[test]
    fn the_depth_words_follow_the_width() {
        for width in Width::ALL {
            for across in [
                4, 60, 64, 68, 124, 128, 132, 252, 256, 260, 508, 512, 516, 4_096,
            ] {
                let size =
                    |rows| answers(&[reset_at(width.pixels(), across, rows), Call::Show]).len();
                let buckets = across.div_ceil(width.pixels()) as usize;
                let minima = match buckets {
                    0 => 0,
                    _ => 2 * buckets.next_power_of_two() - 1,
                };
                assert_eq!(size(3) - size(2), 8 + buckets + minima);
                let end = u32::try_from(buckets).expect("few");
                for (end, answer) in [(end, 0), (end + 1, 12)] {
                    let write = Call::Write {
                        row: 0,
                        id: 1,
                        buckets: [0, end],
                        words: 2,
                    };
                    let said = answers(&[reset_at(width.pixels(), across, 1), write]);
                    assert_eq!(said[1], answer, "{across} at {width:?}");
                }
            }
        }
    }
}
