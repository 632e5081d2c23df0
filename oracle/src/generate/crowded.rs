//! Sequences of calls that give room back in crowded rows: edges, and random ones in which rows fill up, are hidden and compacted, and building goes on.

use super::calls::{alpha, clipped, destructive, fill, filter, pop, push, reset_at, ONE_PIECE};
use super::draft::solid;
use crate::calls::Call;
use crate::random::Random;
use crate::viewport::Mode;
use crate::width::Width;

/// Rows of the screens of edges, and buckets of each.
const ROWS: u32 = 2;
const BUCKETS: u32 = 2;

/// A step with room for two pieces.
fn step(row: u32) -> Call {
    Call::Step {
        row,
        words: 2 * ONE_PIECE,
    }
}

fn edge_reset(width: Width) -> Call {
    reset_at(width.pixels(), width.pixels() * BUCKETS, ROWS)
}

/// An opaque fill of a range of buckets of row 0: a depth fill.
fn cover(width: Width, first: u32, end: u32) -> Call {
    fill(&[solid(0, first * width.tiles(), end * width.tiles())])
}

fn painted(steps: usize) -> Vec<Call> {
    [vec![Call::Begin], vec![step(0); steps]].concat()
}

/// Row 0 painted, compacted, and painted again; then more is built, and once more.
fn compacted(width: Width, built: &[Call], more: &[Call]) -> Vec<Call> {
    let stage = [painted(5), vec![Call::Compact(0)], painted(4)].concat();
    [
        &[edge_reset(width)][..],
        built,
        &stage,
        &[Call::Show],
        more,
        &stage,
        &[Call::Compact(0), Call::Show],
    ]
    .concat()
}

/// At each width: what is hidden whole, in part and not; buffers in buffers; a layer's fill that stays; equal ids; a full row; refusals.
pub(super) fn edges() -> Vec<Vec<Call>> {
    let mut all = vec![vec![Call::Compact(0), Call::Begin, Call::Show]];
    for width in Width::ALL {
        all.extend(hidden_edges(width));
        all.push(full(width));
        all.push(refusals(width));
    }
    all
}

fn hidden_edges(width: Width) -> Vec<Vec<Call>> {
    let w = width.tiles();
    let whole = || cover(width, 0, 2);
    let small = || alpha(0, 0, 4);
    let across = || alpha(0, w - 1, w + 1);
    let far = || alpha(0, 2 * w - 3, 2 * w);
    let clip = || clipped([0, 0, 8 * w, 4], 0, 1);
    let drawn = |own: Call| vec![push(), own, pop(&[])];
    let more = || [vec![across()], drawn(small())].concat();
    let built = [
        vec![],
        vec![small(), across(), far()],
        vec![small(), whole()],
        vec![whole(), small(), across()],
        [drawn(small()), vec![whole()]].concat(),
        [vec![push()], drawn(small()), vec![pop(&[]), whole()]].concat(),
        [
            vec![push(), far()],
            drawn(small()),
            vec![pop(&[]), cover(width, 0, 1)],
        ]
        .concat(),
        [drawn(small()), vec![cover(width, 0, 1)]].concat(),
        [drawn(small()), vec![cover(width, 1, 2)]].concat(),
        vec![across(), cover(width, 0, 1)],
        vec![across(), cover(width, 1, 2)],
        vec![across(), cover(width, 0, 1), cover(width, 1, 2)],
        vec![
            clip(),
            small(),
            pop(&[solid(0, 0, w)]),
            clip(),
            far(),
            pop(&[[1, 0, 0, w, 160]]),
            cover(width, 0, 1),
        ],
        vec![destructive(), pop(&[]), small(), destructive(), pop(&[])],
        vec![
            destructive(),
            pop(&[]),
            whole(),
            filter(5, [0, 0, 8 * w, 8]),
            whole(),
        ],
        // The same id in a command and in the bucket; one that is newer by one; one bucket that an older id was written over later.
        vec![
            Call::NextId(5),
            small(),
            Call::NextId(5),
            cover(width, 0, 1),
        ],
        vec![
            Call::NextId(4),
            small(),
            Call::NextId(5),
            cover(width, 0, 1),
        ],
        vec![
            Call::NextId(7),
            cover(width, 0, 1),
            Call::NextId(3),
            cover(width, 0, 1),
            Call::NextId(5),
            small(),
        ],
        vec![
            Call::NextId(3),
            cover(width, 0, 1),
            Call::NextId(7),
            cover(width, 0, 1),
            Call::NextId(5),
            small(),
        ],
    ];
    built
        .iter()
        .map(|built| compacted(width, built, &more()))
        .collect()
}

/// A row has as many commands as it has room for, all hidden; then as many more.
fn full(width: Width) -> Vec<Call> {
    let crowd = vec![alpha(0, 3, 9); 17];
    [
        &[edge_reset(width)][..],
        &crowd,
        &[cover(width, 0, 1), Call::Compact(0)],
        &crowd,
        &[Call::Compact(0), alpha(0, 3, 9), Call::Show],
        &painted(18),
    ]
    .concat()
}

/// No such row, before a layer that is open; done, painting has ended, refused it goes on.
fn refusals(width: Width) -> Vec<Call> {
    let rows = [ROWS, u32::MAX].map(Call::Compact);
    let built = [edge_reset(width), alpha(0, 0, 4), push()];
    [
        &built[..],
        &rows,
        &[Call::Compact(0), alpha(0, 0, 4), Call::Compact(0)],
        &[pop(&[]), Call::Begin, step(0)],
        &rows,
        &[step(0), Call::Compact(1), step(0), Call::Begin, step(0)],
        &[Call::Compact(0), step(0), Call::Compact(0), Call::Show],
    ]
    .concat()
}

/// Few rows of few buckets with little room: fills, layers and depth fills over them; painted, compacted, and built upon, some times over.
pub(super) fn sequence(random: &mut Random) -> Vec<Call> {
    let width = random.pick(&Width::ALL);
    let (rows, buckets) = (random.from(1, 2), random.from(1, 4));
    let tiles = buckets * width.tiles() - random.below(2) * random.below(5);
    let mut calls = vec![Call::Reset {
        viewport: [0, 0, 4 * tiles, 4 * rows],
        c: random.pick(&[6, 12, 20, 64, 64, 64]),
        d: random.from(4, 40),
        mode: Mode::Exact,
        width: width.pixels(),
    }];
    let mut open = Vec::new();
    for _ in 0..random.from(2, 4) {
        for _ in 0..random.from(3, 14) {
            calls.push(built(&mut open, [rows, tiles, width.tiles()], random));
        }
        while !open.is_empty() && random.chance(95) {
            calls.push(closed(&mut open, [rows, tiles], random));
        }
        for _ in 0..random.from(0, 2 * rows) {
            calls.push(cover_of([random.below(rows), tiles, width.tiles()], random));
        }
        if random.chance(50) {
            paint(&mut calls, rows, random);
        }
        for _ in 0..random.from(1, 3) {
            calls.push(Call::Compact(random.below(rows)));
        }
        if random.chance(50) {
            paint(&mut calls, rows, random);
        }
        if random.chance(25) {
            calls.push(Call::Show);
        }
    }
    calls.push(Call::Show);
    calls
}

/// A range of so many places, mostly a short one.
fn range(most: u32, random: &mut Random) -> [u32; 2] {
    let first = random.below(most);
    let end = if random.chance(70) {
        (first + random.from(1, 6)).min(most)
    } else {
        random.from(first + 1, most)
    };
    [first, end]
}

/// A segment of some of a row's tiles, solid or not.
fn segment([row, tiles]: [u32; 2], random: &mut Random) -> [u32; 5] {
    let [first, end] = range(tiles, random);
    let kind = random.below(2);
    [kind, row, first, end, 160 * kind]
}

/// An opaque fill of some whole buckets of a row, often of all.
fn cover_of([row, tiles, width]: [u32; 3], random: &mut Random) -> Call {
    let buckets = tiles.div_ceil(width);
    let [first, end] = if random.chance(50) {
        [0, buckets]
    } else {
        range(buckets, random)
    };
    fill(&[solid(row, first * width, (end * width).min(tiles))])
}

/// A small fill, a cover, a layer that begins or ends, a filter fill.
fn built(open: &mut Vec<bool>, [rows, tiles, width]: [u32; 3], random: &mut Random) -> Call {
    let row = random.below(rows);
    match random.below(100) {
        0..60 if !open.is_empty() || random.chance(60) => fill(&[segment([row, tiles], random)]),
        0..60 => cover_of([row, tiles, width], random),
        60..80 => {
            open.push(random.chance(50));
            match (open.last(), random.below(4)) {
                (Some(true), _) => clipped([0, 0, 4 * tiles, 4 * rows], 0, 1),
                (_, 0) => destructive(),
                _ => push(),
            }
        }
        80..97 => closed(open, [rows, tiles], random),
        _ => filter(5, [0, 0, 4 * random.from(1, tiles), 4 * rows]),
    }
}

/// A pop; of a clipped layer with one segment of its clip.
fn closed(open: &mut Vec<bool>, [rows, tiles]: [u32; 2], random: &mut Random) -> Call {
    if open.pop() == Some(true) {
        pop(&[segment([random.below(rows), tiles], random)])
    } else {
        pop(&[])
    }
}

fn paint(calls: &mut Vec<Call>, rows: u32, random: &mut Random) {
    calls.push(Call::Begin);
    for _ in 0..random.from(1, 16) {
        calls.push(step(random.below(rows)));
    }
}
