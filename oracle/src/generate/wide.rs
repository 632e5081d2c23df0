//! Recordings for the widths of a depth bucket: screens of whole buckets, one tile less and one tile more; solid segments that begin and end at and
//! beside multiples of each width; opaque fills over one another.

use super::damage;
use super::draft::{layer, solid, Draft, HALF};
use super::scenes::{blend, place, segment, tree_on};
use super::Made;
use crate::limits::{LAST_TILE, WIDEST};
use crate::random::Random;
use crate::width::Width;

/// A recording and its numbers at each width, from the narrowest.
pub(super) type Edge = (Made, [u32; 3]);

fn edge(name: &str, draft: &Draft, answers: [u32; 3]) -> Edge {
    (made(&format!("wide edge: {name}"), draft), answers)
}

fn made(name: &str, draft: &Draft) -> Made {
    Made {
        name: name.into(),
        bytes: draft.bytes(),
    }
}

pub(super) fn edges() -> Vec<Edge> {
    let mut all = Vec::new();
    for width in Width::ALL {
        let pixels = width.pixels();
        for count in [1, 2, 3, 5, WIDEST / pixels] {
            for across in [pixels * count - 4, pixels * count, pixels * count + 4] {
                let name = format!("buckets of {pixels} on {across} pixels");
                let answer = if across <= WIDEST { 0 } else { 2 };
                let draft = beside(width, [0, 0, across, 32]);
                all.push(edge(&name, &draft, [answer; 3]));
            }
        }
        // Buckets are counted from the screen's left edge, wherever it lies.
        for x in [4, 20, 124, 1_000, 32_768 - 3 * pixels - 4] {
            let name = format!("buckets of {pixels} from {x}");
            let draft = beside(width, [x, 8, x + 3 * pixels + 4, 40]);
            all.push(edge(&name, &draft, [0; 3]));
        }
        all.extend(full(width));
    }
    all.extend([layered(), narrowing(false), narrowing(true), none()]);
    all
}

/// Every pair of places beside the first buckets' edges and the screen's, eight rows of them and as many draws as it takes.
fn beside(width: Width, viewport: [u32; 4]) -> Draft {
    let [x0, y0, x1, _] = viewport.map(|edge| edge / 4);
    let (w, tiles) = (width.tiles(), x1 - x0);
    let whole = tiles / w * w;
    let firsts = [0, 1, w - 1, w, w + 1, 2 * w, whole.saturating_sub(w)];
    let ends = [
        w - 1,
        w,
        w + 1,
        2 * w - 1,
        2 * w,
        2 * w + 1,
        whole,
        tiles - 1,
        tiles,
        tiles + 1,
    ];
    let pairs: Vec<(u32, u32)> = firsts
        .into_iter()
        .flat_map(|first| ends.map(|end| (x0 + first, (x0 + end).min(LAST_TILE))))
        .filter(|(first, end)| first < end)
        .collect();
    let mut draft = Draft::new(0, 0);
    draft.viewport = viewport;
    let rows = |(row, &(first, end)): (u32, &(u32, u32))| solid(row, first, end);
    for eight in pairs.chunks(8) {
        let list: Vec<_> = (y0..).zip(eight).map(rows).collect();
        let range = draft.segments(&list);
        draft.draw(range);
    }
    rooted_in_one(draft)
}

/// With every draw in one node.
fn rooted_in_one(mut draft: Draft) -> Draft {
    let count = u32::try_from(draft.draws.len()).expect("few");
    let root = draft.node((0, count), 0);
    draft.rooted(root)
}

/// A row full of fills of one bucket, and one fill more: depth fills where a bucket fits in, commands at the other widths; and with an edge piece.
fn full(width: Width) -> Vec<Edge> {
    let w = width.tiles();
    let fills = |count: u32, first: u32, end: u32| {
        let mut draft = Draft::new(512, 4);
        let list = draft.segments(&[solid(0, first, end)]);
        draft.draw(list);
        let nodes = draft.nodes(&vec![[0, 1, 0]; count as usize]);
        draft.rooted(nodes)
    };
    let more = |first: u32, end: u32| {
        Width::ALL.map(|of| {
            let of = of.tiles();
            let aligned = first.is_multiple_of(of) && end.is_multiple_of(of);
            if aligned {
                11
            } else {
                10
            }
        })
    };
    vec![
        edge(&format!("64 fills of {w} tiles"), &fills(64, 0, w), [0; 3]),
        edge(
            &format!("65 fills of {w} tiles"),
            &fills(65, 0, w),
            more(0, w),
        ),
        edge(
            &format!("64 fills from tile {}", w - 1),
            &fills(64, w - 1, 2 * w),
            [0; 3],
        ),
        edge(
            &format!("65 fills from tile {}", w - 1),
            &fills(65, w - 1, 2 * w),
            more(w - 1, 2 * w),
        ),
    ]
}

/// A row of the widest screen under sixteen opaque fills, each a bucket's half narrower than the one before or, the other way round, wider.
fn narrowing(wider: bool) -> Edge {
    let mut draft = Draft::new(WIDEST, 8);
    let mut steps: Vec<u32> = (0..16).map(|i| 8 * i).collect();
    if wider {
        steps.reverse();
    }
    for by in steps {
        let list = [
            solid(0, by, 1_024 - by),
            solid(1, by + 1, 512),
            solid(1, 512 + by, 1_024),
        ];
        let range = draft.segments(&list);
        draft.draw(range);
    }
    let name = if wider { "wider" } else { "narrower" };
    let draft = rooted_in_one(draft);
    edge(&format!("fills, each {name}"), &draft, [0; 3])
}

/// The same segments before, inside and after a layer, and once more by a paint that isn't opaque: only those outside are split.
fn layered() -> Edge {
    let mut draft = Draft::new(1_024, 12);
    draft.paints.push([0, 7, 0, 0]);
    let ends = [15, 16, 17, 31, 32, 33, 63, 64, 65, 127, 128, 129];
    for end in ends {
        let rows: Vec<_> = (0..3).map(|row| solid(row, 0, end + 64 * row)).collect();
        let range = draft.segments(&rows);
        draft.draw(range);
    }
    let count = u32::try_from(ends.len()).expect("few");
    for draw in 0..4 {
        let mut again = draft.draws[draw];
        again[3] = 1;
        draft.draws.push(again);
    }
    let mut half = layer((3, 4));
    half[5] = HALF;
    draft.layer(half);
    draft.nodes(&[[0, 6, 1], [count, count + 4, 0], [6, count, 0], [2, 9, 0]]);
    edge("beside a layer", &draft.rooted((0, 3)), [0; 3])
}

/// A screen without columns has no bucket.
fn none() -> Edge {
    let mut draft = Draft::new(0, 8);
    let list = draft.segments(&[solid(0, 0, 64)]);
    draft.draw(list);
    edge("no column", &rooted_in_one(draft), [0; 3])
}

/// Six in ten are fills over one another, a quarter any scene on such a screen, the rest damaged.
pub(crate) fn another(random: &mut Random) -> Made {
    match random.below(100) {
        0..60 => made("wide stack", &stack(random)),
        60..85 => made("wide scene", &tree_on(viewport(random), random)),
        _ => {
            let draft = if random.chance(70) {
                stack(random)
            } else {
                tree_on(viewport(random), random)
            };
            damage::damaged_of(draft, random)
        }
    }
}

/// One tile less than some buckets of a width, just as wide, or one tile more; few rows for the most part, at most 32.
fn viewport(random: &mut Random) -> [u32; 4] {
    let pixels = random.pick(&Width::ALL).pixels();
    let most = match random.below(10) {
        0 | 1 => WIDEST,
        2..5 => 2_048,
        _ => 1_024,
    };
    let count = random.from(1, most / pixels);
    let across = (pixels * count + 4 * random.below(3) - 4).min(WIDEST);
    let height = 4 * random.pick(&[1, 1, 2, 2, 3, 4, 8, 32]);
    let (x, y) = match random.below(4) {
        0 => (4 * random.below(70), 4 * random.below(6)),
        1 => (32_768 - across, 32_768 - height),
        _ => (0, 0),
    };
    [x, y, x + across, y + height]
}

/// Fills for buckets of one width or of all, most of them opaque, some in a layer that later fills hide.
fn stack(random: &mut Random) -> Draft {
    let mut draft = Draft {
        viewport: viewport(random),
        ..Draft::default()
    };
    draft.paints = vec![[1, 1, 0, 0], [0, 2, 0, 0]];
    let [left, top, right, bottom] = draft.viewport.map(|edge| edge / 4);
    let only = random.pick(&Width::ALL);
    let mixed = random.chance(50);
    let count = random.from(3, 14);
    for _ in 0..count {
        let width = if mixed {
            random.pick(&Width::ALL)
        } else {
            only
        };
        let mut list = Vec::new();
        let from = random.from(top, bottom - 1);
        for row in from..bottom.min(from + random.from(1, 4)) {
            let mut places = [(); 4].map(|()| place(random, left, right, width.tiles()));
            places.sort_unstable();
            let [a, b, c, d] = places;
            let two = random.chance(25) && a < b && c < d;
            let ranges = if two {
                vec![(a, b), (c, d)]
            } else {
                vec![(a, d)]
            };
            for (first, end) in ranges.into_iter().filter(|(first, end)| first < end) {
                list.push(if random.chance(80) {
                    solid(row, first, end)
                } else {
                    segment(random, row, first, end)
                });
            }
        }
        let range = draft.segments(&list);
        let number = draft.draw(range) as usize;
        draft.draws[number][3] = u32::from(random.chance(12));
        (draft.draws[number][4], draft.draws[number][5]) = blend(random, 94);
    }
    // At times draws of the middle stand in a layer.
    let (a, b) = (random.from(0, count), random.from(0, count));
    let inside = if random.chance(50) {
        (a.min(b), a.max(b))
    } else {
        (count, count)
    };
    draft.nodes(&[
        [0, inside.0, u32::from(inside.0 < inside.1)],
        [inside.1, count, 0],
        [inside.0, inside.1, 0],
    ]);
    if inside.0 < inside.1 {
        let mut words = layer((2, 3));
        (words[3], words[4]) = blend(random, 70);
        draft.layer(words);
    }
    draft.rooted((0, 2))
}

#[cfg(test)]
mod tests {
    use super::{another, edges};
    use crate::print::{rowdump, rowlist};
    use crate::random::Random;
    use crate::viewport::Mode;
    use crate::walk::Player;
    use crate::width::{Width, NO_WIDTHS};

    fn number(text: &str) -> u32 {
        let refused = text.strip_prefix("refused ");
        refused.map_or(0, |number| number.trim().parse().expect("a number"))
    }

    #[test]
    fn every_wide_edge_has_its_numbers() {
        for (i, width) in Width::ALL.into_iter().enumerate() {
            let mut player = Player::new(Mode::Exact, 1).at(width.pixels());
            for (made, answers) in edges() {
                let said = number(&rowdump(&mut player, &made.bytes, true));
                assert_eq!(said, answers[i], "{} at {width:?}", made.name);
            }
        }
    }

    /// A number that is no width refuses all but bad form.
    #[test]
    fn no_width_refuses_by_2_after_3() {
        let mut random = Random::new(1);
        let good = Player::new(Mode::Exact, 1);
        let some: Vec<_> = (0..40).map(|_| another(&mut random)).collect();
        for pixels in NO_WIDTHS {
            let mut player = Player::new(Mode::Exact, 1).at(pixels);
            for made in &some {
                let form = good.judged(&made.bytes).err() == Some(3);
                let said = number(&rowlist(&mut player, &made.bytes));
                assert_eq!(said, if form { 3 } else { 2 }, "{} {pixels}", made.name);
            }
            let long = vec![0; 65_540];
            assert_eq!(number(&rowlist(&mut player, &long)), 3);
        }
    }

    /// The worked example at the other widths.
    #[test]
    fn the_worked_example() {
        let bytes = crate::generate::edges::worked().bytes();
        let rest = "row 1 depth 0 render 4\nB 0 64\nP 0 8 - 1\nL 0 64 - 0\nE\n";
        for (pixels, first) in [
            (
                64,
                "rows 2 buckets 4 ids 3\nrow 0 depth 1 render 1\nD 1 4 0\nP 10 16 - 0\n",
            ),
            (
                128,
                "rows 2 buckets 2 ids 3\nrow 0 depth 1 render 1\nD 1 2 0\nP 10 32 - 0\n",
            ),
            (
                256,
                "rows 2 buckets 1 ids 3\nrow 0 depth 0 render 1\nP 10 64 - 0\n",
            ),
        ] {
            let mut player = Player::new(Mode::Exact, 1).at(pixels);
            assert_eq!(rowlist(&mut player, &bytes), format!("{first}{rest}"));
        }
    }

    /// Both accounts agree, and each width sees what the others don't.
    #[test]
    fn the_accounts_agree() {
        let mut random = Random::new(3);
        let all: Vec<_> = (0..1_500).map(|_| another(&mut random)).collect();
        let dumps = Width::ALL.map(|width| {
            let mut player = Player::new(Mode::Exact, 1).at(width.pixels());
            let dump = |made: &crate::generate::Made| rowdump(&mut player, &made.bytes, true);
            all.iter().map(dump).collect::<Vec<String>>()
        });
        let differ = |a: usize, b: usize| {
            let pairs = dumps[a].iter().zip(&dumps[b]);
            pairs.filter(|(one, other)| one != other).count()
        };
        for (a, b) in [(0, 1), (1, 2), (0, 2)] {
            assert!(differ(a, b) > 800, "{a} {b}: {}", differ(a, b));
        }
        for texts in &dumps {
            let fills = texts.iter().filter(|text| text.contains("\nD ")).count();
            assert!(fills > 600, "{fills}");
        }
    }
}
