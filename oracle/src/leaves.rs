//! Questions to the leaves of the Rust (splitting, runs, the depth summary) with its own answers.

use crate::limits::{LAST_ID, LAST_TILE};
use crate::random::Random;
use crate::screen::{Part, Range};
use crate::width::{Depth, Width, NO_WIDTHS};
use std::fmt::Write;

/// The most buckets that a question has, at every width.
const MOST_BUCKETS: u32 = 32;

/// What doesn't depend on a bucket's width is asked without one.
enum Question {
    /// With pixels a bucket, which may be no width.
    Split(u32, Range),
    Unset(Width, Vec<u32>, Range),
    Visible(Width, Vec<u32>, u32, Range),
    Writing(Vec<u32>, u32, Range),
    CanSkip(Vec<(Range, u32)>, Range, u32),
}

/// Every edge, then random questions up to `count` in all: as little-endian words.
pub fn binary(seed: u32, count: u32) -> Vec<u8> {
    questions(seed, count)
        .iter()
        .flat_map(case_words)
        .flat_map(u32::to_le_bytes)
        .collect()
}

/// The same to read, one case to a line.
pub fn text(seed: u32, count: u32) -> Vec<u8> {
    questions(seed, count)
        .iter()
        .map(case_text)
        .collect::<String>()
        .into_bytes()
}

fn questions(seed: u32, count: u32) -> Vec<Question> {
    let mut all = edges();
    let mut random = Random::new(seed);
    while all.len() < count as usize {
        all.push(any_question(&mut random));
    }
    all
}

// Answers.

/// None where a split is refused.
fn split(pixels: u32, range: Range) -> Option<Vec<Part>> {
    Width::of(pixels).map(|width| width.split(range))
}

fn unset(width: Width, words: &[u32], range: Range) -> Vec<Range> {
    Depth::of(width, words).unset(range)
}

fn visible(width: Width, words: &[u32], id: u32, range: Range) -> Vec<Range> {
    Depth::of(width, words).visible(range, id)
}

/// An answer that must be the same at each width.
fn at_each<T: PartialEq + std::fmt::Debug>(of: impl Fn(Width) -> T) -> T {
    let [first, second, third] = Width::ALL.map(of);
    assert_eq!(first, second);
    assert_eq!(first, third);
    first
}

/// The runs as buckets, and the words afterwards.
fn writing(words: &[u32], id: u32, range: Range) -> (Vec<Range>, Vec<u32>) {
    at_each(|width| {
        let mut depth = Depth::of(width, words);
        (depth.write(range, id), depth.words().to_vec())
    })
}

fn can_skip(included: &[(Range, u32)], range: Range, id: u32) -> bool {
    at_each(|width| width.can_skip(included, range, id))
}

// Writing them out.

/// A list after its length.
fn counted<T>(list: &[T], each: impl Fn(&T) -> Vec<u32>) -> Vec<u32> {
    let count = u32::try_from(list.len()).expect("a short list");
    std::iter::once(count)
        .chain(list.iter().flat_map(each))
        .collect()
}

fn case_words(question: &Question) -> Vec<u32> {
    let pair = |&(first, end): &Range| vec![first, end];
    let word = |&word: &u32| vec![word];
    match question {
        &Question::Split(pixels, range) => {
            let part = |&(kind, (first, end)): &Part| vec![kind.into(), first, end];
            let parts = split(pixels, range);
            let parts = parts.map_or(vec![u32::MAX], |parts| counted(&parts, part));
            [vec![1, pixels, range.0, range.1], parts].concat()
        }
        Question::Unset(width, words, range) => [
            vec![2, width.pixels()],
            counted(words, word),
            pair(range),
            counted(&unset(*width, words, *range), pair),
        ]
        .concat(),
        Question::Visible(width, words, id, range) => [
            vec![3, width.pixels()],
            counted(words, word),
            vec![*id],
            pair(range),
            counted(&visible(*width, words, *id, *range), pair),
        ]
        .concat(),
        Question::Writing(words, id, range) => {
            let (runs, after) = writing(words, *id, *range);
            [
                vec![4],
                counted(words, word),
                vec![*id],
                pair(range),
                counted(&runs, pair),
                after,
            ]
            .concat()
        }
        Question::CanSkip(included, range, id) => {
            let spans = counted(included, |&((first, end), id)| vec![first, end, id]);
            [
                vec![5],
                spans,
                pair(range),
                vec![*id, can_skip(included, *range, *id).into()],
            ]
            .concat()
        }
    }
}

fn case_text(question: &Question) -> String {
    let ranges = |list: &[Range]| {
        list.iter()
            .map(|(first, end)| format!(" {first}-{end}"))
            .collect::<String>()
    };
    let mut out = String::new();
    match question {
        &Question::Split(pixels, (first, end)) => {
            write!(out, "split at {pixels} {first}-{end}:").expect("text");
            match split(pixels, (first, end)) {
                None => write!(out, " refused").expect("text"),
                Some(parts) => {
                    for (kind, (first, end)) in parts {
                        let kind = if kind { "buckets" } else { "regular" };
                        write!(out, " {kind} {first}-{end}").expect("text");
                    }
                }
            }
        }
        Question::Unset(width, words, range) => {
            let runs = unset(*width, words, *range);
            write!(
                out,
                "unset at {} {words:?} {}-{}:{}",
                width.pixels(),
                range.0,
                range.1,
                ranges(&runs)
            )
            .expect("text");
        }
        Question::Visible(width, words, id, range) => {
            let runs = visible(*width, words, *id, *range);
            write!(
                out,
                "visible at {} {words:?} id {id} {}-{}:{}",
                width.pixels(),
                range.0,
                range.1,
                ranges(&runs)
            )
            .expect("text");
        }
        Question::Writing(words, id, range) => {
            let (runs, after) = writing(words, *id, *range);
            write!(
                out,
                "writing {words:?} id {id} {}-{}:{} then {after:?}",
                range.0,
                range.1,
                ranges(&runs)
            )
            .expect("text");
        }
        Question::CanSkip(included, range, id) => {
            let yes = can_skip(included, *range, *id);
            write!(
                out,
                "can_skip {included:?} {}-{} id {id}: {}",
                range.0,
                range.1,
                u8::from(yes)
            )
            .expect("text");
        }
    }
    out + "\n"
}

// The edges.

fn edges() -> Vec<Question> {
    let mut all = Vec::new();
    for width in Width::ALL {
        split_edges(width, &mut all);
        run_edges(width, &mut all);
    }
    let known = [(0, 0), (10, 100), (0, 64), (0, LAST_TILE)];
    for pixels in NO_WIDTHS {
        all.extend(known.map(|range| Question::Split(pixels, range)));
    }
    writing_edges(&mut all);
    skip_edges(&mut all);
    all
}

/// Each pair of places around buckets' edges, empty spans too.
fn split_edges(width: Width, all: &mut Vec<Question>) {
    let (w, last) = (width.tiles(), LAST_TILE - width.tiles());
    let mut places = vec![
        0,
        1,
        5,
        10,
        w - 1,
        w,
        w + 1,
        w + 8,
        2 * w - 1,
        2 * w,
        2 * w + 1,
        3 * w,
        100,
        last - 1,
        last,
        last + 1,
        LAST_TILE - 1,
        LAST_TILE,
    ];
    places.sort_unstable();
    for (i, &first) in places.iter().enumerate() {
        let ends = places[i..].iter();
        all.extend(ends.map(|&end| Question::Split(width.pixels(), (first, end))));
    }
}

/// All open, all closed, alternating, only the first or the last one open or closed; 0 is open.
fn patterns(b: u32) -> Vec<Vec<u32>> {
    let make = |closed: &dyn Fn(u32) -> bool| {
        (0..b)
            .map(|i| if closed(i) { 7 } else { 0 })
            .collect::<Vec<u32>>()
    };
    let mut all = vec![
        make(&|_| false),
        make(&|_| true),
        make(&|i| i % 2 == 0),
        make(&|i| i % 2 == 1),
        make(&|i| i == 0),
        make(&|i| i + 1 == b),
        make(&|i| i != 0),
        make(&|i| i + 1 != b),
    ];
    all.sort();
    all.dedup();
    all
}

/// Spans around the edges of b buckets of w tiles and past them, none of width 0.
fn spans(w: u32, b: u32) -> Vec<Range> {
    let last = w * b;
    let mut all = vec![
        (0, 1),
        (0, w - 1),
        (0, w),
        (0, w + 1),
        (w - 1, w + 1),
        (10, 100),
        (0, last),
        (0, last + 1),
        (last, last + 1),
        (0, LAST_TILE),
    ];
    all.push((LAST_TILE - 1, LAST_TILE));
    if b > 0 {
        all.extend([
            (last - 1, last),
            (last - 1, last + 1),
            (last - w, last),
            (last.saturating_sub(w + 1), last + w - 1),
        ]);
    }
    all.retain(|(first, end)| first < end);
    all.sort_unstable();
    all.dedup();
    all
}

fn run_edges(width: Width, all: &mut Vec<Question>) {
    let unset = |words: &[u32], range| Question::Unset(width, words.to_vec(), range);
    let visible = |words: &[u32], id, range| Question::Visible(width, words.to_vec(), id, range);
    // The rules' known points, at 128.
    let known = [0, 7, 0, 0];
    all.push(unset(&known, (10, 100)));
    all.extend([6, 7].map(|id| visible(&known, id, (10, 100))));
    for b in [0, 1, 2, 4, MOST_BUCKETS] {
        let spans = spans(width.tiles(), b);
        for words in patterns(b) {
            all.extend(spans.iter().map(|&range| unset(&words, range)));
        }
        // Words one below, equal to and one above the id, and none.
        let mixed: Vec<u32> = (0..b).map(|i| [7, 8, 6, 0][i as usize % 4]).collect();
        let rising: Vec<u32> = (1..=b).collect();
        for words in [mixed, rising, vec![7; b as usize]] {
            for id in [6, 7, 8] {
                all.extend(spans.iter().map(|&range| visible(&words, id, range)));
            }
        }
        for id in [0, 1, LAST_ID, u32::MAX] {
            let (ones, lasts) = (vec![1; b as usize], vec![LAST_ID; b as usize]);
            all.extend([ones, lasts].map(|words| visible(&words, id, (0, LAST_TILE))));
        }
    }
}

fn writing_edges(all: &mut Vec<Question>) {
    for b in [0, 1, 2, 4, MOST_BUCKETS] {
        let mut ranges = vec![
            (0, b),
            (0, b / 2),
            (b / 2, b),
            (0, 0),
            (b, b),
            (b / 3, b - b / 3),
            (b.saturating_sub(1), b),
        ];
        ranges.sort_unstable();
        ranges.dedup();
        for words in patterns(b) {
            for &range in &ranges {
                all.push(Question::Writing(
                    words.clone(),
                    if range.0 == 0 { 9 } else { 3 },
                    range,
                ));
            }
        }
        all.push(Question::Writing(vec![0; b as usize], 1, (0, b)));
        all.push(Question::Writing(vec![0; b as usize], LAST_ID, (0, b)));
    }
}

/// No depth fill, one, several; spans that touch the union's ends or pass them by one; ids around the largest.
fn skip_edges(all: &mut Vec<Question>) {
    let states = [
        vec![],
        vec![((32, 96), 5)],
        vec![((0, 32), 5)],
        vec![((64, 96), 2), ((32, 64), 5), ((64, 96), 3)],
        vec![((0, 32), 5), ((8_160, 8_192), 4)],
    ];
    for included in states {
        let (first, end) = match included[..] {
            [] => (32, 96),
            [..] => (
                included.iter().map(|i| i.0 .0).min().unwrap_or(0),
                included.iter().map(|i| i.0 .1).max().unwrap_or(0),
            ),
        };
        let mut ranges: Vec<Range> = vec![
            (0, LAST_TILE),
            (first, end),
            (first, first + 1),
            (end - 1, end),
            (0, first + 1),
        ];
        ranges.extend((first > 0).then_some((0, first)));
        ranges.extend((first > 0).then(|| (first - 1, first)));
        ranges.extend((end < LAST_TILE).then_some((end, LAST_TILE)));
        ranges.extend((end < LAST_TILE).then_some((end, end + 1)));
        ranges.extend((end < LAST_TILE).then_some((end - 1, end + 1)));
        ranges.sort_unstable();
        ranges.dedup();
        for range in ranges {
            all.extend([0, 1, 4, 5, 6].map(|id| Question::CanSkip(included.clone(), range, id)));
        }
    }
}

// Random questions.

fn any_question(random: &mut Random) -> Question {
    let width = random.pick(&Width::ALL);
    let w = width.tiles();
    match random.below(5) {
        0 => {
            let (a, b) = (place(random, w), place(random, w));
            let pixels = if random.chance(2) {
                random.pick(&NO_WIDTHS)
            } else {
                width.pixels()
            };
            Question::Split(pixels, (a.min(b), a.max(b)))
        }
        1 => Question::Unset(width, any_words(random, 50), any_span(random, w)),
        2 => {
            let words = any_words(random, 20);
            let id = near(random, &words);
            Question::Visible(width, words, id, any_span(random, w))
        }
        3 => {
            let words = any_words(random, 50);
            let b = u32::try_from(words.len()).expect("few buckets");
            let (first, end) = (random.from(0, b), random.from(0, b));
            Question::Writing(
                words,
                random.from(1, LAST_ID),
                (first.min(end), first.max(end)),
            )
        }
        _ => {
            let included: Vec<(Range, u32)> = (0..random.below(5))
                .map(|_| (bucket_span(random, w), random.from(1, 9)))
                .collect();
            Question::CanSkip(included, any_span(random, w), random.below(11))
        }
    }
}

/// A tile, often near the edge of a bucket of w tiles.
fn place(random: &mut Random, w: u32) -> u32 {
    let most = if random.chance(80) {
        34
    } else {
        LAST_TILE / w + 1
    };
    let near = w * random.below(most);
    let tile = match random.below(4) {
        0 => near,
        1 => near.saturating_sub(1),
        2 => near + 1,
        _ => near + random.below(w),
    };
    tile.min(LAST_TILE)
}

/// A span of one tile or more.
fn any_span(random: &mut Random, w: u32) -> Range {
    let (a, b) = (place(random, w).min(LAST_TILE - 1), place(random, w));
    (a.min(b), (a + 1).max(b))
}

/// What a depth fill covers.
fn bucket_span(random: &mut Random, w: u32) -> Range {
    let first = random.below(MOST_BUCKETS);
    (w * first, w * random.from(first + 1, MOST_BUCKETS))
}

/// Words of some buckets, so many of a hundred 0.
fn any_words(random: &mut Random, open: u32) -> Vec<u32> {
    let ids = if random.chance(70) { 9 } else { LAST_ID };
    let count = random.from(0, MOST_BUCKETS);
    (0..count)
        .map(|_| {
            if random.chance(open) {
                0
            } else {
                random.from(1, ids)
            }
        })
        .collect()
}

/// An id at one of the words, or one beside it.
fn near(random: &mut Random, words: &[u32]) -> u32 {
    match words {
        [] => random.below(9),
        words => (random.pick(words) + random.below(3)).saturating_sub(1),
    }
}

#[cfg(test)]
mod tests {
    use super::{can_skip, questions, split, unset, visible, writing, Question};
    use crate::width::Width;

    /// A span of width 0 gives no run anywhere, on the buffer and past it; an empty range of buckets neither.
    #[test]
    fn width_0_gives_no_run() {
        for words in [
            vec![],
            vec![0; 4],
            vec![7; 4],
            vec![0, 7, 0, 7],
            vec![7, 0, 0, 7],
        ] {
            for tile in 0..=8_192 {
                for width in Width::ALL {
                    assert!(unset(width, &words, (tile, tile)).is_empty());
                    assert!(visible(width, &words, 7, (tile, tile)).is_empty());
                    let parts = split(width.pixels(), (tile, tile));
                    assert_eq!(parts, Some(vec![(false, (tile, tile))]));
                }
            }
            for bucket in 0..=u32::try_from(words.len()).expect("few") {
                assert_eq!(
                    writing(&words, 9, (bucket, bucket)),
                    (vec![], words.clone())
                );
            }
        }
    }

    /// `can_skip` of a span of width 0 is no exception: no inside the union, yes at its ends and outside.
    #[test]
    fn width_0_may_be_skipped_by_the_same_rule() {
        let included = [((32, 96), 5)];
        for tile in 0..=200 {
            assert_eq!(
                can_skip(&included, (tile, tile), 4),
                tile <= 32 || tile >= 96
            );
        }
    }

    /// The rules' known points, and the same at the other widths.
    #[test]
    fn known_points() {
        let (regular, buckets) = (
            |first, end| (false, (first, end)),
            |first, end| (true, (first, end)),
        );
        for (pixels, range, parts) in [
            (
                128,
                (10, 100),
                vec![regular(10, 32), buckets(1, 3), regular(96, 100)],
            ),
            (128, (10, 40), vec![regular(10, 40)]),
            (128, (0, 64), vec![buckets(0, 2)]),
            (128, (32, 64), vec![buckets(1, 2)]),
            (128, (5, 5), vec![regular(5, 5)]),
            (
                64,
                (10, 100),
                vec![regular(10, 16), buckets(1, 6), regular(96, 100)],
            ),
            (
                64,
                (10, 40),
                vec![regular(10, 16), buckets(1, 2), regular(32, 40)],
            ),
            (64, (0, 64), vec![buckets(0, 4)]),
            (64, (1, 31), vec![regular(1, 31)]),
            (64, (16, 32), vec![buckets(1, 2)]),
            (256, (10, 100), vec![regular(10, 100)]),
            (256, (0, 64), vec![buckets(0, 1)]),
            (256, (1, 127), vec![regular(1, 127)]),
            (
                256,
                (63, 129),
                vec![regular(63, 64), buckets(1, 2), regular(128, 129)],
            ),
        ] {
            assert_eq!(split(pixels, range), Some(parts), "{pixels} {range:?}");
        }
        let words = [0, 7, 0, 0];
        for (width, at_6) in [
            (Width::Of64, vec![(10, 16), (32, 64)]),
            (Width::Of128, vec![(10, 32), (64, 100)]),
            (Width::Of256, vec![(10, 64)]),
        ] {
            let past = 100.min(4 * width.tiles());
            assert_eq!(unset(width, &words, (10, 100)), at_6);
            assert_eq!(visible(width, &words, 6, (10, 100)), at_6);
            assert_eq!(visible(width, &words, 7, (10, 100)), [(10, past)]);
        }
    }

    /// Each width is asked, and numbers that are none are.
    #[test]
    fn every_width_is_met() {
        let all = questions(1, 20_000);
        let splits = |pixels| {
            let at = |q: &&Question| matches!(q, Question::Split(of, _) if *of == pixels);
            all.iter().filter(at).count()
        };
        let lists: Vec<usize> = Width::ALL.map(|width| splits(width.pixels())).into();
        assert!(lists.iter().all(|&count| count > 800), "{lists:?}");
        for pixels in super::NO_WIDTHS {
            assert!(splits(pixels) > 3);
            assert_eq!(split(pixels, (0, 64)), None);
        }
    }

    /// Both accounts agree in every case that is made.
    #[test]
    fn the_accounts_agree() {
        let words = super::binary(2, 12_000);
        assert!(words.len().is_multiple_of(4));
    }
}
