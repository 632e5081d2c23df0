//! Small good recordings of every sort: fills, layers, clips, filter layers, viewports anywhere.

use super::draft::{clipped, filter, layer, Draft, Range, HALF, ONE};
use crate::random::Random;

/// A layer nests at most so deep here; the limit itself is among the edges.
const DEPTH: u32 = 4;
/// Some opacities: 1.0 and its neighbours, NaN patterns, both zeros.
pub(crate) const OPACITIES: [u32; 10] = [
    ONE,
    ONE,
    HALF,
    ONE + 1,
    ONE - 1,
    0,
    0x8000_0000,
    0x7fc0_0000,
    0x7f80_0001,
    0xffff_ffff,
];

pub(crate) fn scene(random: &mut Random) -> Draft {
    if random.chance(25) {
        stack(random)
    } else {
        tree(random)
    }
}

/// Many wide fills on few rows: depth fills that hide one another and other fills.
fn stack(random: &mut Random) -> Draft {
    let width = random.pick(&[256, 260, 384, 500, 512, 1_020, 1_024]);
    let x = 4 * random.pick(&[0, 0, 3, 40]);
    let mut draft = Draft {
        viewport: [x, 0, x + width, 4 * random.from(1, 2)],
        ..Draft::default()
    };
    draft.paints = vec![[1, 1, 0, 0], [0, 2, 0, 0]];
    let count = random.from(3, 9);
    for _ in 0..count {
        let (left, right) = (x / 4, (x + width) / 4);
        let (a, b) = (
            place(random, left, right, 32),
            place(random, left, right, 32),
        );
        let (first, end) = (a.min(b), a.max(b).max(a.min(b) + 1));
        let row = random.below(2);
        let list = if random.chance(70) {
            [0, row, first, end, 0]
        } else {
            segment(random, row, first, end)
        };
        let range = draft.segments(&[list]);
        let number = draft.draw(range) as usize;
        draft.draws[number][3] = u32::from(random.chance(15));
        (draft.draws[number][4], draft.draws[number][5]) = blend(random, 92);
    }
    // At times the last draws stand in a layer.
    let cut = if random.chance(40) {
        random.from(0, count)
    } else {
        count
    };
    draft.nodes(&[[0, cut, u32::from(cut < count)], [cut, count, 0]]);
    if cut < count {
        draft.layer(layer((1, 2)));
    }
    draft.rooted((0, 1))
}

fn tree(random: &mut Random) -> Draft {
    let viewport = viewport(random);
    tree_on(viewport, random)
}

/// Fills, layers and filter layers on and around a box of multiples of 4.
pub(crate) fn tree_on(viewport: [u32; 4], random: &mut Random) -> Draft {
    let mut draft = Draft {
        viewport,
        ..Draft::default()
    };
    for _ in 0..random.from(1, 3) {
        let flag = u32::from(random.chance(75));
        draft
            .paints
            .push([flag, random.below(9), random.word(), random.below(9)]);
    }
    let root = run(&mut draft, random, 0);
    if random.chance(20) {
        // Out of reach: a run of nodes that no layer and no root names.
        run(&mut draft, random, DEPTH - 1);
    }
    if random.chance(5) {
        // A layer that reaches itself, out of reach.
        let number = u32::try_from(draft.layers.len()).expect("few layers") + 1;
        let own = draft.node((0, 0), number);
        draft.layer(layer(own));
    }
    draft.rooted(root)
}

pub(crate) fn viewport(random: &mut Random) -> [u32; 4] {
    let width = random.pick(&[
        4, 64, 124, 128, 132, 252, 256, 260, 384, 512, 516, 640, 1_024,
    ]);
    let height = 4 * random.pick(&[1, 2, 2, 3, 3, 4, 5, 6, 9]);
    let (width, height) = match random.below(40) {
        0 => (0, height),
        1 => (width, 0),
        2 => (4_096, 4),
        3 => (128, 128),
        _ => (width, height),
    };
    let (x, y) = match random.below(4) {
        0 => (4 * random.below(40), 4 * random.below(6)),
        1 => (32_768 - width, 32_768 - height),
        _ => (0, 0),
    };
    [x, y, x + width, y + height]
}

/// A run of one to three nodes, after what they hold.
fn run(draft: &mut Draft, random: &mut Random, depth: u32) -> Range {
    let mut nodes = Vec::new();
    for _ in 0..random.from(1, 3) {
        let draws = draws(draft, random);
        let layer = if random.chance(if depth < DEPTH { 55 - 12 * depth } else { 0 }) {
            a_layer(draft, random, depth)
        } else {
            0
        };
        nodes.push([draws.0, draws.1, layer]);
    }
    draft.nodes(&nodes)
}

/// A range of draws: new ones, or ones that are there.
fn draws(draft: &mut Draft, random: &mut Random) -> Range {
    let start = u32::try_from(draft.draws.len()).expect("few draws");
    if start > 0 && random.chance(20) {
        let (a, b) = (random.from(0, start), random.from(0, start));
        return (a.min(b), a.max(b));
    }
    let new = random.pick(&[0, 1, 1, 1, 2, 2, 3]);
    for _ in 0..new {
        let (from, to) = list(draft, random);
        let paint = random.below(u32::try_from(draft.paints.len()).expect("few paints"));
        let (mix, compose) = blend(random, 85);
        let mask = if random.chance(10) {
            random.word() % (1 << 31)
        } else {
            0
        };
        draft.draws.push([
            random.below(256) * random.below(2),
            from,
            to,
            paint,
            mix,
            compose,
            mask,
        ]);
    }
    (start, start + new)
}

/// The default in so many of a hundred cases.
pub(crate) fn blend(random: &mut Random, default: u32) -> (u32, u32) {
    if random.chance(default) {
        (0, 3)
    } else {
        (random.pick(&[0, 0, 0, 1, 15]), random.below(14))
    }
}

/// A segment list: new, or a part of one that is there.
fn list(draft: &mut Draft, random: &mut Random) -> Range {
    let count = u32::try_from(draft.segments.len()).expect("few segments");
    if count > 0 && random.chance(20) {
        let (a, b) = (random.from(0, count), random.from(0, count));
        let (start, end) = (a.min(b), a.max(b));
        if ordered(&draft.segments[start as usize..end as usize]) {
            return (start, end);
        }
    }
    if random.chance(5) {
        return (count, count);
    }
    let list = new_list(draft.viewport, 32, random);
    draft.segments(&list)
}

fn ordered(list: &[[u32; 5]]) -> bool {
    list.windows(2).all(|pair| {
        pair[0][1] < pair[1][1] || (pair[0][1] == pair[1][1] && pair[0][3] <= pair[1][2])
    })
}

/// One to five segments on and around the viewport, for buckets of so many tiles.
pub(crate) fn new_list(
    [x0, y0, x1, y1]: [u32; 4],
    width: u32,
    random: &mut Random,
) -> Vec<[u32; 5]> {
    let (left, right, top, bottom) = (x0 / 4, x1 / 4, y0 / 4, y1 / 4);
    let mut row = random.from(top.saturating_sub(1), (bottom + 1).max(top));
    let mut from = 0;
    let mut list = Vec::new();
    for _ in 0..random.pick(&[1, 1, 1, 2, 2, 3, 5]) {
        let (a, b) = (
            place(random, left, right, width),
            place(random, left, right, width),
        );
        let (first, end) = (a.min(b), (a.max(b)).max(a.min(b) + 1));
        // Touching the one before, at times.
        let first = if from > 0 && random.chance(30) {
            from
        } else {
            first.max(from)
        };
        if first < end && end <= 8_192 && row < 8_192 {
            list.push(segment(random, row, first, end));
            from = end;
        }
        if random.chance(60) {
            row += random.pick(&[1, 1, 1, 2]);
            from = 0;
        }
    }
    list
}

pub(crate) fn segment(random: &mut Random, row: u32, first: u32, end: u32) -> [u32; 5] {
    if random.chance(65) {
        return [0, row, first, end, 0];
    }
    let most = u32::MAX - 16 * (end - first);
    [
        1,
        row,
        first,
        end,
        if random.chance(10) {
            most
        } else {
            16 * random.below(500)
        },
    ]
}

/// A tile on or near the viewport, often at the edge of a bucket of so many tiles as seen from it.
pub(crate) fn place(random: &mut Random, left: u32, right: u32, width: u32) -> u32 {
    let buckets = (right - left) / width;
    let tile = match random.below(6) {
        0 => left,
        1 => right,
        2 => left + random.below(right - left + 1),
        3 => (left + random.below(right - left + 12)).saturating_sub(6),
        _ => (left + width * random.from(0, buckets + 1) + random.below(3)).saturating_sub(1),
    };
    tile.min(8_191)
}

/// A layer's number + 1: a new one, or now and then one that is there.
fn a_layer(draft: &mut Draft, random: &mut Random, depth: u32) -> u32 {
    let count = u32::try_from(draft.layers.len()).expect("few layers");
    if count > 0 && random.chance(12) {
        return random.from(1, count);
    }
    let is_filter = random.chance(30);
    let nodes = if is_filter {
        (0, u32::try_from(draft.nodes.len()).expect("few nodes"))
    } else {
        run(draft, random, depth + 1)
    };
    let mut words = layer(nodes);
    (words[3], words[4]) = blend(random, 60);
    words[5] = if random.chance(50) {
        ONE
    } else {
        random.pick(&OPACITIES)
    };
    words[6] = if random.chance(15) {
        random.from(1, (1 << 31) - 1)
    } else {
        0
    };
    if random.chance(if is_filter { 30 } else { 50 }) {
        let bounds = bounds(random, draft.viewport, 4);
        let list = list(draft, random);
        words = clipped(words, bounds, list, random.below(256));
    }
    if is_filter {
        let pixmap = any_pixmap(random);
        let dest = bounds(random, draft.viewport, 1);
        let source = [0, 1].map(|_| random.pick(&[0, 1, 4, 100, 32_768]));
        words = filter(words, pixmap, dest, source);
    }
    draft.layer(words)
}

/// None, the first pixmap, the last, or any other.
pub(crate) fn any_pixmap(random: &mut Random) -> Option<u32> {
    match random.below(20) {
        0..4 => None,
        4..8 => Some(0),
        8 => Some((1 << 31) - 1),
        _ => Some(random.below(1 << 31)),
    }
}

/// A box on or near the viewport: x in fours, y in steps. It may be empty, or off the viewport.
pub(crate) fn bounds(random: &mut Random, [x0, y0, x1, y1]: [u32; 4], step: u32) -> [u32; 4] {
    if random.chance(15) {
        return [x0, y0, x1, y1];
    }
    let (a, b) = (edge(random, x0, x1, 4), edge(random, x0, x1, 4));
    let (c, d) = (edge(random, y0, y1, step), edge(random, y0, y1, step));
    [a.min(b), c.min(d), a.max(b), c.max(d)]
}

fn edge(random: &mut Random, low: u32, high: u32, step: u32) -> u32 {
    let near = (low + random.below(high - low + 24))
        .saturating_sub(12)
        .min(32_768);
    let edge = random.pick(&[low, high, near, near, near]);
    edge - edge % step
}
