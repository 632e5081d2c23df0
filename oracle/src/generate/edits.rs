//! Pairs of recordings: a scene, and the same scene in which the segments outside one of its rows are exchanged.

use super::draft::{clipped, layer, solid, Draft, Range, CLIP_FLAG, CLIP_RANGE, HALF};
use super::scenes::{place, scene, segment};
use super::Made;
use crate::file::good_order;
use crate::limits::LAST_TILE;
use crate::random::Random;
use std::ops::RangeInclusive;

type Segment = [u32; 5];

/// A scene, the same one edited, and the row of the scene whose segments both have.
#[derive(Clone)]
pub struct Pair {
    pub row: u32,
    pub one: Draft,
    pub other: Draft,
}

/// So many pairs, the edges first.
pub fn pairs(seed: u32, count: u32) -> Vec<Pair> {
    let mut random = Random::new(seed);
    let mut all = edges();
    all.truncate(count as usize);
    while all.len() < count as usize {
        all.push(another(&mut random));
    }
    all
}

/// The same pairs, but where the row has a segment of a draw one such is moved by a tile on the edited side.
pub fn moved(seed: u32, count: u32) -> Vec<Pair> {
    let mut all = pairs(seed, count);
    all.iter_mut().for_each(move_one);
    all
}

/// A stream: each pair's two recordings, one after the other.
pub fn stream(pairs: &[Pair]) -> Vec<u8> {
    let made = |draft: &Draft| Made {
        name: String::new(),
        bytes: draft.bytes(),
    };
    let all: Vec<Made> = pairs
        .iter()
        .flat_map(|pair| [made(&pair.one), made(&pair.other)])
        .collect();
    super::stream(&all)
}

/// The screen's row of each pair, one to a line; `-` where it is not on the screen.
pub fn rows(pairs: &[Pair]) -> Vec<u8> {
    let line = |pair: &Pair| match pair.on_screen() {
        Some(row) => format!("{row}\n"),
        None => "-\n".into(),
    };
    pairs.iter().map(line).collect::<String>().into_bytes()
}

impl Pair {
    fn on_screen(&self) -> Option<u32> {
        let [_, top, _, bottom] = self.one.viewport.map(|edge| edge / 4);
        (top..bottom).contains(&self.row).then(|| self.row - top)
    }

    /// Whether the two are edits of one another outside the row: all is the same but where ranges stand, and each range holds equally many segments
    /// and in the row the same ones in the same order.
    #[cfg(test)]
    fn is_edited(&self) -> bool {
        let (one, other) = (&self.one, &self.other);
        let beside = |(a, b): (Range, Range)| {
            let (a, b) = (one.list(a), other.list(b));
            a.len() == b.len() && own(a, self.row).eq(own(b, self.row))
        };
        let placeless = |draft: &Draft| {
            let mut draft = draft.clone();
            for owner in owners(&draft) {
                *owner.range(&mut draft) = [0, 0];
            }
            draft.segments.clear();
            draft.words()
        };
        let ranges = |draft: &Draft| -> Vec<Range> {
            let owners = owners(draft);
            owners.iter().map(|owner| owner.of(draft)).collect()
        };
        placeless(one) == placeless(other) && ranges(one).into_iter().zip(ranges(other)).all(beside)
    }
}

#[cfg(test)]
fn own(list: &[Segment], row: u32) -> impl Iterator<Item = &Segment> {
    list.iter().filter(move |segment| segment[1] == row)
}

/// What has a range of segments: a draw, or a layer with a clip.
#[derive(Clone, Copy)]
enum Owner {
    Draw(usize),
    Clip(usize),
}

impl Owner {
    fn range(self, draft: &mut Draft) -> &mut [u32; 2] {
        let words = match self {
            Self::Draw(i) => &mut draft.draws[i][1..3],
            Self::Clip(i) => &mut draft.layers[i][CLIP_RANGE..CLIP_RANGE + 2],
        };
        words.try_into().expect("two words")
    }

    fn of(self, draft: &Draft) -> Range {
        match self {
            Self::Draw(i) => (draft.draws[i][1], draft.draws[i][2]),
            Self::Clip(i) => (draft.layers[i][CLIP_RANGE], draft.layers[i][CLIP_RANGE + 1]),
        }
    }

    fn is_clip(self) -> bool {
        matches!(self, Self::Clip(_))
    }
}

fn owners(draft: &Draft) -> Vec<Owner> {
    let clips = (0..draft.layers.len()).filter(|&i| draft.layers[i][CLIP_FLAG] == 1);
    let draws = (0..draft.draws.len()).map(Owner::Draw);
    draws.chain(clips.map(Owner::Clip)).collect()
}

impl Draft {
    fn list(&self, (start, end): Range) -> &[Segment] {
        &self.segments[start as usize..end as usize]
    }
}

// Random pairs.

fn another(random: &mut Random) -> Pair {
    let mut one = scene(random);
    let row = a_row(&one, random);
    let row = if random.chance(10) {
        let row = clip_row(&one, random).unwrap_or(row);
        // Draws have none of this row's segments.
        one = relaid(&one, &(row..=row), Owner::is_clip, random);
        row
    } else {
        row
    };
    if random.chance(4) {
        crowd(&mut one, row, random);
    }
    let kept = if random.chance(10) {
        row.saturating_sub(1)..=(row + 1).min(LAST_TILE - 1)
    } else {
        row..=row
    };
    let other = if random.chance(35) {
        in_place(&one, &kept, random)
    } else {
        relaid(&one, &kept, |_| true, random)
    };
    Pair { row, one, other }
}

/// After all else one segment of another row of the screen is drawn again and again: some rows are full then, on either side or on one.
fn crowd(draft: &mut Draft, row: u32, random: &mut Random) {
    let [left, top, right, bottom] = draft.viewport.map(|edge| edge / 4);
    if left == right || top == bottom {
        return;
    }
    let other = random.from(top, bottom - 1);
    if other == row {
        return;
    }
    let range = draft.segments(&[alpha(other, left, left + 1)]);
    let draw = draft.draw(range);
    let [start, end] = draft.root;
    let mut nodes = draft.nodes[start as usize..end as usize].to_vec();
    nodes.extend(vec![[draw, draw + 1, 0]; random.from(56, 66) as usize]);
    let (start, end) = draft.nodes(&nodes);
    draft.root = [start, end];
}

/// Most often a row of the screen that has segments, else one on the screen, at its edge, or of any segment.
fn a_row(draft: &Draft, random: &mut Random) -> u32 {
    let [_, top, _, bottom] = draft.viewport.map(|edge| edge / 4);
    let rows = || draft.segments.iter().map(|segment| segment[1]);
    let seen: Vec<u32> = rows().filter(|row| (top..bottom).contains(row)).collect();
    let all: Vec<u32> = rows().collect();
    let edge = |random: &mut Random| {
        random
            .from(top.saturating_sub(1), bottom)
            .min(LAST_TILE - 1)
    };
    match random.below(10) {
        0 => edge(random),
        1 if !all.is_empty() => random.pick(&all),
        2..4 if top < bottom => random.from(top, bottom - 1),
        _ if !seen.is_empty() => random.pick(&seen),
        _ => edge(random),
    }
}

/// A row of a clip's segments.
fn clip_row(draft: &Draft, random: &mut Random) -> Option<u32> {
    let clips = owners(draft).into_iter().filter(|owner| owner.is_clip());
    let rows: Vec<u32> = clips
        .flat_map(|owner| draft.list(owner.of(draft)))
        .map(|segment| segment[1])
        .collect();
    (!rows.is_empty()).then(|| random.pick(&rows))
}

/// Each range anew, in any order, with segments between that are in no range. Whose owner keeps has the same segments in the kept rows.
fn relaid(
    one: &Draft,
    kept: &RangeInclusive<u32>,
    keeps: impl Fn(Owner) -> bool,
    random: &mut Random,
) -> Draft {
    let mut other = one.clone();
    other.segments.clear();
    let mut owners = owners(one);
    for i in (1..owners.len()).rev() {
        let with = random.below(u32::try_from(i).expect("few") + 1) as usize;
        owners.swap(i, with);
    }
    for owner in owners {
        if random.chance(30) {
            let count = random.from(1, 3) as usize;
            let between = some(count, &(0..=LAST_TILE - 1), one.viewport, random);
            other.segments(&between);
        }
        let list = exchanged(one, one.list(owner.of(one)), kept, keeps(owner), random);
        let (start, end) = other.segments(&list);
        *owner.range(&mut other) = [start, end];
    }
    other
}

/// As many segments, outside the kept rows others.
fn exchanged(
    one: &Draft,
    list: &[Segment],
    kept: &RangeInclusive<u32>,
    keeps: bool,
    random: &mut Random,
) -> Vec<Segment> {
    let own: Vec<Segment> = list
        .iter()
        .filter(|segment| keeps && kept.contains(&segment[1]))
        .copied()
        .collect();
    let others = list.len() - own.len();
    let (low, high) = (*kept.start(), *kept.end());
    if keeps && random.chance(15) {
        return list.to_vec();
    }
    let before = if low == 0 {
        0
    } else if high == LAST_TILE - 1 {
        others
    } else if random.chance(40) {
        // As many of them above the rows as there were.
        let above = list.iter().filter(|segment| segment[1] < low).count();
        above.min(others)
    } else {
        random.from(0, u32::try_from(others).expect("few")) as usize
    };
    let viewport = one.viewport;
    let mut all = some(before, &(0..=low.saturating_sub(1)), viewport, random);
    all.extend(own);
    let below = (high + 1).min(LAST_TILE - 1)..=LAST_TILE - 1;
    all.extend(some(others - before, &below, viewport, random));
    all
}

/// So many segments in order, in some of these rows: near the screen's, or at times anywhere.
fn some(
    count: usize,
    rows: &RangeInclusive<u32>,
    viewport: [u32; 4],
    random: &mut Random,
) -> Vec<Segment> {
    let [left, top, right, bottom] = viewport.map(|edge| edge / 4);
    let within = |row: u32| row.clamp(*rows.start(), *rows.end());
    let near = (within(top.saturating_sub(1)), within(bottom));
    let mut chosen: Vec<u32> = (0..count)
        .map(|_| match random.below(10) {
            0 => random.from(*rows.start(), *rows.end()),
            1 => *rows.start(),
            2 => *rows.end(),
            _ => random.from(near.0, near.1),
        })
        .collect();
    chosen.sort_unstable();
    let mut list = Vec::new();
    for of_row in chosen.chunk_by(|a, b| a == b) {
        let row = of_row[0];
        let mut places: Vec<u32> = (0..2 * of_row.len())
            .map(|_| place(random, left, right, 32))
            .collect();
        places.sort_unstable();
        let mut tiles = Vec::new();
        let mut from = 0;
        for pair in places.chunks(2) {
            let first = pair[0].max(from);
            from = pair[1].max(first + 1);
            tiles.push((first, from));
        }
        if from > LAST_TILE {
            tiles = (0..)
                .map(|tile| (tile, tile + 1))
                .take(of_row.len())
                .collect();
        }
        for (first, end) in tiles {
            list.push(segment(random, row, first, end));
        }
    }
    list
}

/// Every segment where it stands, so that ranges have in common what they had. Outside the kept rows it may be shorter and of the other kind; the rows
/// above them move together, and so do those below.
fn in_place(one: &Draft, kept: &RangeInclusive<u32>, random: &mut Random) -> Draft {
    let mut other = one.clone();
    let rows = || one.segments.iter().map(|segment| segment[1]);
    let (low, high) = (*kept.start(), *kept.end());
    let shift = |rows: Vec<u32>, least: u32, most: u32, random: &mut Random| {
        let (Some(&first), Some(&last)) = (rows.iter().min(), rows.iter().max()) else {
            return 0;
        };
        let (up, down) = ((first - least).min(4), (most - last).min(4));
        i64::from(random.from(0, up + down)) - i64::from(up)
    };
    let above: Vec<u32> = rows().filter(|&row| row < low).collect();
    let below: Vec<u32> = rows().filter(|&row| row > high).collect();
    let above = shift(above, 0, low.saturating_sub(1), random);
    let below = shift(below, high + 1, LAST_TILE - 1, random);
    for own in &mut other.segments {
        let [_, row, mut first, mut end, _] = *own;
        if kept.contains(&row) || random.chance(20) && above == 0 && below == 0 {
            continue;
        }
        let by = if row < low { above } else { below };
        let row = u32::try_from(i64::from(row) + by).expect("a row");
        if random.chance(50) {
            first += random.below((end - first).min(40));
            end -= random.below((end - first).min(40));
        }
        *own = segment(random, row, first, end);
    }
    other
}

/// Moves a segment of a draw in the row by a tile, on the edited side.
fn move_one(pair: &mut Pair) {
    let draft = &mut pair.other;
    let places: Vec<u32> = draft
        .draws
        .iter()
        .flat_map(|draw| draw[1]..draw[2])
        .collect();
    for at in places.into_iter().map(|at| at as usize) {
        let [kind, row, first, end, alpha] = draft.segments[at];
        if row != pair.row {
            continue;
        }
        let later = (end < LAST_TILE).then_some([kind, row, first + 1, end + 1, alpha]);
        let earlier = (first > 0).then(|| [kind, row, first - 1, end - 1, alpha]);
        for to in [later, earlier].into_iter().flatten() {
            draft.segments[at] = to;
            if good_order(draft) {
                return;
            }
        }
        draft.segments[at] = [kind, row, first, end, alpha];
    }
}

// Edges.

const CORNERS: [[u32; 2]; 3] = [[0, 0], [40, 16], [32_768 - 256, 32_768 - 16]];

fn alpha(row: u32, first: u32, end: u32) -> Segment {
    [1, row, first, end, 160]
}

/// A screen of four rows of 64 tiles at a corner. Draws of these lists, the last in a layer whose clip has the list `clip`; rows and tiles of all
/// segments are counted from the corner.
fn page(corner: [u32; 2], draws: &[&[Segment]], clip: &[Segment]) -> Draft {
    let [x, y] = corner;
    let mut draft = Draft::new(0, 0);
    draft.viewport = [x, y, x + 256, y + 16];
    let placed = |list: &[Segment]| -> Vec<Segment> {
        list.iter()
            .map(|&[kind, row, first, end, alpha]| {
                [kind, row + y / 4, first + x / 4, end + x / 4, alpha]
            })
            .collect()
    };
    for list in draws {
        let range = draft.segments(&placed(list));
        draft.draw(range);
    }
    let last = u32::try_from(draws.len()).expect("few");
    let clip = draft.segments(&placed(clip));
    draft.nodes(&[[0, last - 1, 1], [last - 1, last, 0]]);
    let mut half = layer((1, 2));
    half[5] = HALF;
    draft.layer(clipped(half, draft.viewport, clip, 3));
    draft.rooted((0, 1))
}

/// The same with these segments before all others.
fn behind(draft: &Draft, list: &[Segment]) -> Draft {
    let mut draft = draft.clone();
    let by = u32::try_from(list.len()).expect("few");
    draft.segments.splice(0..0, list.iter().copied());
    for owner in owners(&draft) {
        for place in owner.range(&mut draft) {
            *place += by;
        }
    }
    draft
}

fn edges() -> Vec<Pair> {
    let mut all: Vec<Pair> = CORNERS.into_iter().flat_map(pages).collect();
    all.extend([full(64), full(65)]);
    all
}

fn pages(corner: [u32; 2]) -> Vec<Pair> {
    let top = corner[1] / 4;
    let page = |draws: &[&[Segment]], clip: &[Segment]| page(corner, draws, clip);
    let at = |row: u32, one: &Draft, other: &Draft| Pair {
        row: top + row,
        one: one.clone(),
        other: other.clone(),
    };
    let own = solid(1, 0, 64);
    let mut all = Vec::new();
    // No segment in the row.
    all.push(at(
        1,
        &page(
            &[&[solid(0, 0, 64)], &[solid(2, 0, 64)]],
            &[solid(3, 0, 64)],
        ),
        &page(&[&[solid(2, 3, 40)], &[alpha(0, 0, 9)]], &[alpha(0, 5, 8)]),
    ));
    // All in the row: their places alone differ.
    let one = page(&[&[own], &[alpha(1, 3, 9), solid(1, 9, 50)]], &[own]);
    all.push(at(
        1,
        &one,
        &behind(&one, &[solid(7, 3, 9), solid(1, 2, 3)]),
    ));
    // Ranges of one, in the row and outside it.
    all.push(at(
        1,
        &page(&[&[own], &[solid(0, 3, 9)], &[alpha(1, 2, 5)]], &[own]),
        &page(&[&[own], &[alpha(2, 0, 64)], &[alpha(1, 2, 5)]], &[own]),
    ));
    // A clip with segments in the row alone, over draws that have them above and below.
    let clip = [alpha(1, 4, 60)];
    all.push(at(
        1,
        &page(&[&[solid(0, 0, 64), own], &[own, solid(2, 1, 7)]], &clip),
        &page(&[&[own, solid(3, 0, 32)], &[alpha(0, 9, 10), own]], &clip),
    ));
    // The row is of the clip alone.
    all.push(at(
        1,
        &page(&[&[solid(0, 0, 64)], &[solid(2, 1, 7)]], &clip),
        &page(&[&[solid(3, 0, 32)], &[alpha(0, 9, 10)]], &clip),
    ));
    // Every row but the last is the same; the first, one between, or the last alone is asked about.
    let rows = [solid(0, 0, 40), own, alpha(2, 7, 8)];
    let one = page(&[&[rows[0], rows[1], rows[2], own_last()], &rows], &rows);
    let other = page(
        &[&[rows[0], rows[1], rows[2], alpha(3, 9, 13)], &rows],
        &rows,
    );
    all.extend([0, 1, 2].map(|row| at(row, &one, &other)));
    // The first and the last row of the screen.
    let lists = [
        [solid(0, 0, 64), alpha(1, 5, 6), own_last()],
        [solid(0, 0, 64), solid(2, 5, 64), own_last()],
    ];
    let [one, other] = lists.map(|list| page(&[&list, &list], &list));
    all.extend([0, 3].map(|row| at(row, &one, &other)));
    // Rows just off the screen.
    if top > 0 {
        let mut pair = at(0, &one, &behind(&one, &[own]));
        pair.row -= 1;
        all.push(pair);
    }
    if top + 4 < LAST_TILE {
        all.push(at(4, &one, &other));
    }
    all
}

fn own_last() -> Segment {
    solid(3, 0, 64)
}

/// Row 0 has so many commands on one side and none on the other; its neighbour is asked about.
fn full(count: u32) -> Pair {
    let made = |row: u32| {
        let mut draft = Draft::new(256, 8);
        let first = draft.segments(&[alpha(row, 0, 9)]);
        let second = draft.segments(&[solid(1, 0, 50)]);
        draft.draw(first);
        draft.draw(second);
        let mut nodes = vec![[0, 1, 0]; count as usize];
        nodes.push([1, 2, 0]);
        let root = draft.nodes(&nodes);
        draft.rooted(root)
    };
    Pair {
        row: 1,
        one: made(0),
        other: made(9),
    }
}

#[cfg(test)]
mod tests {
    use super::{edges, move_one, moved, pairs, rows, stream};
    use crate::edited::compare;
    use crate::file::{self, judged};
    use crate::print::rowdump;
    use crate::viewport::Mode;
    use crate::walk::Player;
    use crate::width::Width;
    use std::fmt::Write;

    fn dump(pairs: &[super::Pair]) -> String {
        let mut player = Player::new(Mode::Exact, 1);
        let mut out = String::new();
        for (i, bytes) in file::stream(&stream(pairs)).into_iter().enumerate() {
            write!(out, "recording {i}\n{}", rowdump(&mut player, bytes, false)).expect("text");
        }
        out
    }

    #[test]
    fn each_pair_is_edited_and_good() {
        for pair in [3, 18].into_iter().flat_map(|seed| pairs(seed, 3_000)) {
            assert!(pair.is_edited());
            for draft in [&pair.one, &pair.other] {
                assert!(judged(&draft.bytes(), Mode::Exact, Width::of(128)).is_ok());
            }
        }
    }

    #[test]
    fn the_relation_is_not_of_all() {
        let mut unlike = 0;
        for mut pair in pairs(3, 300) {
            let before = pair.other.segments.clone();
            move_one(&mut pair);
            if before != pair.other.segments {
                assert!(!pair.is_edited());
                unlike += 1;
            }
        }
        assert!(unlike > 100);
    }

    #[test]
    fn rows_stay_and_a_moved_segment_is_seen() {
        let lines = |pairs: &[super::Pair]| String::from_utf8(rows(pairs)).expect("text");
        let all = pairs(5, 500);
        let report = compare(&lines(&all), &dump(&all));
        assert!(report.agreed(), "{}", report.text());
        let all = moved(5, 500);
        assert!(!compare(&lines(&all), &dump(&all)).agreed());
    }

    #[test]
    fn edges_come_first() {
        let count = u32::try_from(edges().len()).expect("few");
        let lines = String::from_utf8(rows(&pairs(1, count))).expect("text");
        assert_eq!(lines.matches('-').count(), 4);
    }
}
