//! Recordings that meet each reason of `why` at its edges, with tiles to ask about and what must be said of them.

use super::draft::{clipped, filter, layer, solid, Draft, HALF};
use super::edges::{nest, worked};
use super::Made;
use std::ops::Range;

pub(crate) struct Case {
    pub(super) made: Made,
    /// Row, tile, and in short what must be said of the draws, then of the layers. Only the test reads the words.
    pub(super) asked: Vec<(u32, u32, String)>,
}

fn case(name: &str, draft: &Draft, asked: &[(u32, u32, &str)]) -> Case {
    let owned = |&(row, tile, said): &(u32, u32, &str)| (row, tile, said.to_string());
    said(name, draft, asked.iter().map(owned).collect())
}

fn said(name: &str, draft: &Draft, asked: Vec<(u32, u32, String)>) -> Case {
    let (name, bytes) = (format!("why: {name}"), draft.bytes());
    Case {
        made: Made { name, bytes },
        asked,
    }
}

pub(crate) fn cases() -> Vec<Case> {
    let mut all = vec![
        case(
            "worked example",
            &worked(),
            &[
                (0, 9, "-, - | untouched"),
                (0, 10, "shown 0, - | untouched"),
                (0, 63, "shown 0, - | untouched"),
                (1, 7, "-, shown 0 | shown 1"),
                (1, 8, "-, - | shown 0"),
            ],
        ),
        walked_twice(),
        last_corner(),
    ];
    all.extend(cuts());
    all.extend(touches());
    all.extend(hidden());
    all.extend(filters());
    all.extend(deep());
    all
}

/// The same solid on each of these rows.
fn band(rows: Range<u32>, first: u32, end: u32) -> Vec<[u32; 5]> {
    rows.map(|row| solid(row, first, end)).collect()
}

/// Each list as a draw of its own, one after another in the root.
fn draws(draft: &mut Draft, lists: &[&[[u32; 5]]]) {
    for list in lists {
        let range = draft.segments(list);
        draft.draw(range);
    }
}

/// A draw walked before a layer and in it, and all of it once more.
fn walked_twice() -> Case {
    let mut draft = Draft::new(256, 8);
    draws(&mut draft, &[&[solid(0, 0, 8)]]);
    draft.nodes(&[[0, 1, 0], [0, 1, 1], [0, 1, 1]]);
    draft.layer(layer((0, 1)));
    case(
        "everything twice",
        &draft.rooted((1, 3)),
        &[
            (
                0,
                7,
                "shown 0, shown 1, shown 3, shown 4 | shown 2, shown 5",
            ),
            (0, 8, "-, -, -, - | shown 0, shown 1"),
            (1, 7, "-, -, -, - | untouched, untouched"),
        ],
    )
}

fn last_corner() -> Case {
    let mut draft = Draft::new(0, 0);
    draft.viewport = [32_512, 32_760, 32_768, 32_768];
    draws(
        &mut draft,
        &[&[solid(8_191, 8_150, 8_160)], &[solid(8_191, 8_160, 8_192)]],
    );
    draft.nodes(&[[0, 2, 0]]);
    case(
        "the scene's last corner",
        &draft.rooted((0, 1)),
        &[
            (1, 21, "-, - |"),
            (1, 22, "shown 0, - |"),
            (1, 31, "shown 0, - |"),
            (1, 32, "-, shown 0 |"),
            (1, 63, "-, shown 0 |"),
            (0, 63, "-, - |"),
        ],
    )
}

/// Reasons 2 and 3: boxes in force, of parents, moved, empty.
fn cuts() -> Vec<Case> {
    // A clip of tiles 4 to 16 on row 1, whose own segments are the whole screen; then a draw after it.
    let mut draft = Draft::new(256, 12);
    let clip = draft.segments(&band(0..3, 0, 64));
    draws(&mut draft, &[&band(0..3, 0, 20), &[solid(1, 0, 20)]]);
    draft.nodes(&[[0, 1, 0], [0, 0, 1], [1, 2, 0]]);
    draft.layer(clipped(layer((0, 1)), [16, 4, 64, 8], clip, 0));
    let in_force = case(
        "cut by the clip box in force",
        &draft.rooted((1, 3)),
        &[
            (1, 3, "cut, shown 1 | shown 0"),
            (1, 4, "shown 0, shown 2 | shown 1"),
            (1, 15, "shown 0, shown 2 | shown 1"),
            (1, 16, "cut, shown 1 | shown 0"),
            (1, 19, "cut, shown 1 | shown 0"),
            (1, 20, "-, - | shown 0"),
            (1, 63, "-, - | shown 0"),
            (0, 4, "cut, - | untouched"),
            (2, 15, "cut, - | untouched"),
            (2, 20, "-, - | untouched"),
        ],
    );
    // From outside: a clip of tiles 4 to 16 on rows 0 and 1, a wider clip of segments 0 to 32, a layer without a clip.
    let mut draft = Draft::new(256, 12);
    let outer = draft.segments(&band(0..3, 0, 64));
    let inner = draft.segments(&band(0..3, 0, 32));
    let fill = draft.segments(&[solid(0, 0, 32), solid(2, 0, 32)]);
    draft.draw(fill);
    draft.draw(fill);
    draft.nodes(&[[1, 2, 0], [0, 1, 1], [0, 0, 2], [0, 0, 3]]);
    draft.layer(layer((0, 1)));
    draft.layer(clipped(layer((1, 2)), [0, 0, 128, 12], inner, 0));
    draft.layer(clipped(layer((2, 3)), [16, 0, 64, 8], outer, 0));
    let parents = case(
        "cut by a parent's box",
        &draft.rooted((3, 4)),
        &[
            (0, 3, "cut, cut | cut, cut, shown 0"),
            (0, 4, "shown 0, shown 1 | shown 2, shown 3, shown 4"),
            (0, 15, "shown 0, shown 1 | shown 2, shown 3, shown 4"),
            (0, 16, "cut, cut | cut, cut, shown 0"),
            (0, 31, "cut, cut | cut, cut, shown 0"),
            (0, 32, "-, - | cut, -, shown 0"),
            (1, 4, "-, - | untouched, untouched, untouched"),
            (2, 4, "cut, cut | cut, cut, untouched"),
        ],
    );
    // Nothing is left of a box that is empty on an axis or on both.
    let empty = |bounds: [u32; 4]| {
        let mut draft = Draft::new(256, 8);
        let clip = draft.segments(&band(0..2, 0, 64));
        draws(&mut draft, &[&[solid(0, 0, 9)], &[solid(0, 0, 40)]]);
        draft.nodes(&[[1, 2, 0], [0, 1, 1], [0, 0, 2]]);
        draft.layer(layer((0, 1)));
        draft.layer(clipped(layer((1, 2)), bounds, clip, 0));
        case(
            &format!("clip box {bounds:?}"),
            &draft.rooted((2, 3)),
            &[
                (0, 0, "cut, cut | cut, untouched"),
                (0, 8, "cut, cut | cut, untouched"),
                (0, 9, "-, cut | cut, untouched"),
                (1, 2, "-, - | cut, untouched"),
            ],
        )
    };
    vec![
        in_force,
        parents,
        elsewhere(),
        empty([8, 8, 8, 8]),
        empty([0, 4, 256, 4]),
        empty([8, 0, 8, 8]),
        empty([256, 0, 300, 8]),
    ]
}

/// A viewport that starts at tile 16 of row 2, with a clip box that starts before it.
fn elsewhere() -> Case {
    let mut draft = Draft::new(0, 0);
    draft.viewport = [64, 8, 320, 16];
    draws(
        &mut draft,
        &[
            &[solid(2, 10, 90)],
            &[[1, 2, 0, 17, 0]],
            &[solid(3, 40, 60)],
            &[solid(3, 48, 80)],
            &[solid(2, 0, 100), solid(3, 0, 100)],
        ],
    );
    let clip = draft.segments(&[solid(2, 16, 20)]);
    draft.nodes(&[[4, 5, 0], [0, 4, 1]]);
    draft.layer(clipped(layer((0, 1)), [0, 0, 96, 12], clip, 0));
    case(
        "a viewport elsewhere",
        &draft.rooted((1, 2)),
        &[
            (0, 0, "shown 0, shown 1, -, -, shown 2 | shown 3"),
            (0, 1, "shown 0, -, -, -, shown 1 | shown 2"),
            (0, 3, "shown 0, -, -, -, shown 1 | shown 2"),
            (0, 4, "shown 0, -, -, -, shown 1 | -"),
            (0, 7, "shown 0, -, -, -, shown 1 | -"),
            (0, 8, "shown 0, -, -, -, cut | -"),
            (1, 24, "-, -, shown 0, -, cut | -"),
            (1, 32, "-, -, hidden 3, shown 0, cut | -"),
            (1, 43, "-, -, hidden 3, shown 0, cut | -"),
            (1, 44, "-, -, -, shown 0, cut | -"),
            (1, 63, "-, -, -, shown 0, cut | -"),
        ],
    )
}

/// Reason 4: destructive pushes, and layers that nothing reached.
fn touches() -> Vec<Case> {
    // A clip on tiles 0 to 8 of three rows with this box and nothing in it, inside a layer without a clip.
    let pushed = |name: &str, compose: u32, bounds: [u32; 4], asked: &[(u32, u32, &str)]| {
        let mut draft = Draft::new(256, 12);
        let clip = draft.segments(&band(0..3, 0, 8));
        let mut words = clipped(layer((0, 0)), bounds, clip, 0);
        words[4] = compose;
        draft.layer(words);
        draft.nodes(&[[0, 0, 1], [0, 0, 2]]);
        draft.layer(layer((0, 1)));
        case(name, &draft.rooted((1, 2)), asked)
    };
    let nowhere = [(1, 7, "| untouched, untouched"), (1, 8, "| -, untouched")];
    let mut all = vec![
        pushed(
            "a destructive push touches the rows of its box",
            0,
            [0, 4, 16, 8],
            &[
                (1, 7, "| shown 0, shown 1"),
                (1, 8, "| -, shown 0"),
                (1, 63, "| -, shown 0"),
                (0, 7, "| untouched, untouched"),
                (2, 7, "| untouched, untouched"),
                (0, 8, "| -, untouched"),
            ],
        ),
        pushed("a push that isn't destructive", 9, [0, 4, 16, 8], &nowhere),
        pushed("a destructive push, no width", 0, [0, 4, 0, 8], &nowhere),
        pushed("a destructive push, no height", 0, [0, 4, 16, 4], &nowhere),
    ];
    // A destructive layer without a clip has its parent's box.
    let mut draft = Draft::new(256, 12);
    let clip = draft.segments(&band(0..3, 0, 64));
    let mut words = layer((0, 0));
    words[4] = 1;
    draft.layer(words);
    draft.nodes(&[[0, 0, 1], [0, 0, 2]]);
    draft.layer(clipped(layer((0, 1)), [0, 4, 32, 8], clip, 0));
    all.push(case(
        "a destructive push in a clip",
        &draft.rooted((1, 2)),
        &[
            (1, 7, "| shown 0, shown 1"),
            (1, 8, "| cut, shown 0"),
            (0, 7, "| cut, untouched"),
        ],
    ));
    // One empty, one whose draw is cut away, one without clip segments.
    let mut draft = Draft::new(256, 8);
    let clip = draft.segments(&band(0..2, 0, 64));
    draws(&mut draft, &[&[solid(0, 4, 9)], &[solid(0, 0, 4)]]);
    draft.nodes(&[[0, 1, 0], [1, 2, 0], [0, 0, 1], [0, 0, 2], [0, 0, 3]]);
    draft.layer(layer((0, 0)));
    draft.layer(clipped(layer((0, 1)), [0, 0, 16, 4], clip, 0));
    draft.layer(clipped(layer((1, 2)), [0, 0, 64, 4], (0, 0), 0));
    all.push(case(
        "untouched layers",
        &draft.rooted((2, 5)),
        &[
            (0, 0, "-, shown 0 | untouched, untouched, -"),
            (0, 3, "-, shown 0 | untouched, untouched, -"),
            (0, 4, "cut, - | untouched, untouched, -"),
            (1, 4, "-, - | untouched, untouched, -"),
        ],
    ));
    all
}

/// Reasons 5 and 6.
fn hidden() -> Vec<Case> {
    let mut all = Vec::new();
    let mut flat = |name: &str, width: u32, lists: &[&[[u32; 5]]], asked: &[(u32, u32, &str)]| {
        let mut draft = Draft::new(width, 8);
        draws(&mut draft, lists);
        let count = u32::try_from(lists.len()).expect("few");
        let node = draft.node((0, count), 0);
        all.push(case(name, &draft.rooted(node), asked));
    };
    flat(
        "hidden in one bucket and shown in the next",
        256,
        &[&[solid(0, 20, 50)], &[solid(0, 0, 40)], &[[1, 0, 0, 64, 0]]],
        &[
            (0, 19, "-, shown 0, shown 1 |"),
            (0, 20, "hidden 1, shown 0, shown 1 |"),
            (0, 31, "hidden 1, shown 0, shown 1 |"),
            (0, 32, "shown 0, shown 1, shown 2 |"),
            (0, 39, "shown 0, shown 1, shown 2 |"),
            (0, 40, "shown 0, -, shown 1 |"),
            (0, 50, "-, -, shown 0 |"),
            (1, 20, "-, -, - |"),
        ],
    );
    flat(
        "a bucket and a tile before it",
        384,
        &[&[[1, 0, 0, 96, 0]], &[solid(0, 31, 64)]],
        &[
            (0, 31, "shown 0, shown 1 |"),
            (0, 32, "hidden 1, shown 0 |"),
            (0, 63, "hidden 1, shown 0 |"),
            (0, 64, "shown 0, - |"),
        ],
    );
    flat(
        "the newest of three, empty draws before and after",
        256,
        &[
            &[],
            &[solid(0, 0, 32)],
            &[solid(0, 0, 64)],
            &[solid(0, 0, 32)],
            &[],
            &[solid(0, 5, 6)],
        ],
        &[
            (0, 5, "hidden 2, hidden 2, shown 0, shown 1 |"),
            (0, 6, "hidden 2, hidden 2, shown 0, - |"),
            (0, 32, "-, shown 0, -, - |"),
        ],
    );
    flat(
        "a last bucket partly off the screen",
        260,
        &[&[solid(0, 0, 65)], &[solid(0, 0, 96)]],
        &[
            (0, 63, "hidden 1, shown 0 |"),
            (0, 64, "shown 0, shown 1 |"),
        ],
    );
    flat(
        "the widest screen",
        4_096,
        &[&[solid(0, 0, 1_024)], &[solid(0, 0, 1_024)]],
        &[
            (0, 0, "hidden 1, shown 0 |"),
            (0, 1_023, "hidden 1, shown 0 |"),
        ],
    );
    all.push(closed_before());
    all.push(not_hiding());
    all
}

/// An empty layer, a layer and a clip of tiles 0 to 4, all before the draw that hides: the earlier reasons come first.
fn closed_before() -> Case {
    let mut draft = Draft::new(256, 4);
    let clip = draft.segments(&[solid(0, 0, 4)]);
    draws(&mut draft, &[&[solid(0, 0, 8)], &[solid(0, 0, 32)]]);
    draft.nodes(&[[0, 1, 0], [0, 0, 1], [0, 0, 2], [0, 0, 3], [1, 2, 0]]);
    draft.layer(layer((0, 0)));
    draft.layer(layer((0, 1)));
    draft.layer(clipped(layer((0, 1)), [0, 0, 16, 4], clip, 0));
    case(
        "layers closed before a depth fill",
        &draft.rooted((1, 5)),
        &[
            (
                0,
                3,
                "hidden 2, hidden 2, shown 0 | untouched, hidden 2, hidden 2",
            ),
            (0, 4, "hidden 2, cut, shown 0 | untouched, hidden 2, -"),
            (0, 8, "-, -, shown 0 | untouched, hidden 2, -"),
            (0, 32, "-, -, - | untouched, shown 0, -"),
        ],
    )
}

/// One draw over eight buckets, and over each a newer one that falls short of hiding it.
fn not_hiding() -> Case {
    let mut draft = Draft::new(1_024, 4);
    draft.paints.push([0, 7, 0, 0]);
    draws(
        &mut draft,
        &[
            &[solid(0, 0, 256)],
            &[[1, 0, 0, 32, 0]],
            &[solid(0, 32, 64)],
            &[solid(0, 64, 96)],
            &[solid(0, 96, 128)],
            &[solid(0, 128, 144), solid(0, 144, 160)],
            &[solid(0, 161, 192)],
            &[solid(0, 192, 223)],
            &[solid(0, 224, 256)],
        ],
    );
    draft.draws[2][3] = 1;
    draft.draws[3][4] = 1;
    draft.draws[4][6] = 1;
    draft.nodes(&[[0, 8, 1], [8, 9, 0]]);
    draft.layer(layer((1, 2)));
    // The layer is shown over the whole row.
    let over = |newer: Option<usize>| {
        let of = |draw: usize| match draw {
            0 => "shown 0",
            _ if Some(draw) == newer => "shown 1",
            _ => "-",
        };
        let draws: Vec<&str> = (0..9).map(of).collect();
        let last = if newer.is_some() { 2 } else { 1 };
        format!("{} | shown {last}", draws.join(", "))
    };
    let asked = [
        (0, Some(1)),
        (31, Some(1)),
        (32, Some(2)),
        (64, Some(3)),
        (96, Some(4)),
        (128, Some(5)),
        (144, Some(5)),
        (160, None),
        (161, Some(6)),
        (222, Some(7)),
        (223, None),
        (224, Some(8)),
    ];
    let asked = asked.map(|(tile, newer)| (0, tile, over(newer)));
    said("what doesn't hide", &draft.rooted((0, 1)), asked.into())
}

/// Filter fills: dest boxes with free y, cut ones, none, and with buffers.
fn filters() -> Vec<Case> {
    let one = |name: &str, viewport: [u32; 4], words: [u32; 22], asked: &[(u32, u32, &str)]| {
        let mut draft = Draft::new(0, 0);
        draft.viewport = viewport;
        draft.segments(&[solid(1, 0, 8)]);
        draft.layer(words);
        let node = draft.node((0, 0), 1);
        case(name, &draft.rooted(node), asked)
    };
    let plain = layer((0, 0));
    let mut half = plain;
    half[5] = HALF;
    let screen = [0, 0, 256, 16];
    let mut all = vec![
        one(
            "picture 0 from line 3 to line 9",
            screen,
            filter(plain, 0, [8, 3, 64, 9], [0, 0]),
            &[
                (0, 1, "- |"),
                (0, 2, "shown 0 |"),
                (1, 15, "shown 0 |"),
                (1, 16, "- |"),
                (2, 15, "shown 0 |"),
                (3, 2, "- |"),
            ],
        ),
        one(
            "a filter fill of one row",
            screen,
            filter(plain, 3, [8, 4, 64, 8], [0, 0]),
            &[(0, 2, "- |"), (1, 2, "shown 0 |"), (2, 2, "- |")],
        ),
        one(
            "a filter fill in a viewport elsewhere",
            [16, 8, 272, 24],
            filter(plain, 0, [0, 5, 32, 13], [0, 0]),
            &[
                (0, 0, "shown 0 |"),
                (0, 3, "shown 0 |"),
                (0, 4, "- |"),
                (1, 3, "shown 0 |"),
                (2, 0, "- |"),
            ],
        ),
        one(
            "a filter layer without a picture",
            screen,
            filter(plain, None, [0, 0, 64, 16], [0, 0]),
            &[(0, 0, "|")],
        ),
        one(
            "a filter fill off the screen",
            screen,
            filter(plain, 0, [256, 0, 300, 16], [0, 0]),
            &[(0, 63, "|")],
        ),
        one(
            "a filter layer with a buffer",
            screen,
            filter(half, 0, [0, 4, 64, 8], [0, 0]),
            &[
                (1, 15, "shown 0 | shown 1"),
                (1, 16, "- | shown 0"),
                (0, 15, "- | untouched"),
            ],
        ),
        one(
            "a filter layer with a buffer and without a picture",
            screen,
            filter(half, None, [0, 4, 64, 8], [0, 0]),
            &[(1, 0, "| untouched")],
        ),
        one(
            "a filter layer with a clip",
            screen,
            filter(
                clipped(plain, [16, 4, 32, 8], (0, 1), 0),
                0,
                [0, 0, 64, 16],
                [0, 0],
            ),
            &[
                (1, 3, "cut | shown 0"),
                (1, 4, "shown 0 | shown 1"),
                (1, 7, "shown 0 | shown 1"),
                (1, 8, "cut | -"),
                (1, 16, "- | -"),
                (0, 4, "cut | -"),
            ],
        ),
    ];
    // In a layer with a clip box: one that it cuts, one that misses it, and a draw that hides at the end.
    let mut draft = Draft::new(256, 16);
    draws(&mut draft, &[&[solid(1, 0, 32)]]);
    draft.layer(filter(plain, 0, [0, 2, 64, 14], [0, 0]));
    draft.layer(filter(plain, 0, [64, 0, 128, 16], [0, 0]));
    draft.nodes(&[[0, 0, 1], [0, 0, 2], [0, 0, 3], [0, 1, 0]]);
    draft.layer(clipped(layer((0, 2)), [16, 4, 32, 12], (0, 0), 0));
    all.push(case(
        "a filter fill in a clip",
        &draft.rooted((2, 4)),
        &[
            (0, 4, "cut, - | -"),
            (1, 3, "cut, shown 0 | -"),
            (1, 4, "hidden 1, shown 0 | -"),
            (1, 16, "-, shown 0 | -"),
            (2, 4, "shown 0, - | -"),
            (2, 7, "shown 0, - | -"),
            (2, 8, "cut, - | -"),
            (3, 4, "cut, - | -"),
        ],
    ));
    all
}

/// Sixteen layers.
fn deep() -> Vec<Case> {
    let places = |from: usize, to: usize| (from..to).map(|place| format!("shown {place}"));
    let line = |draw: &str, layers: Vec<String>| format!("{draw} | {}", layers.join(", "));
    let untouched = vec!["untouched".to_string(); 16];
    let plain = said(
        "layers nested 16 deep",
        &nest(16, layer),
        vec![
            (0, 0, line("shown 0", places(1, 17).collect())),
            (0, 63, line("shown 0", places(1, 17).collect())),
            (1, 0, line("-", untouched)),
        ],
    );
    // From outside, each clip box starts a tile further right: the innermost at tile 15, its parent at 14.
    let mut draft = Draft::new(256, 8);
    let clip = draft.segments(&band(0..2, 0, 64));
    draws(&mut draft, &[&[solid(0, 0, 64)]]);
    let mut node = draft.node((0, 1), 0);
    for level in (0..16).rev() {
        let number = draft.layer(clipped(layer(node), [4 * level, 0, 256, 8], clip, 0));
        node = draft.node((0, 0), number);
    }
    let cut = |n: usize| {
        let cut = std::iter::repeat_n("cut".to_string(), n);
        cut.chain(places(0, 16 - n)).collect()
    };
    let narrowing = said(
        "16 clip boxes, each a tile narrower",
        &draft.rooted(node),
        vec![
            (0, 15, line("shown 0", places(1, 17).collect())),
            (0, 14, line("cut", cut(0))),
            (0, 13, line("cut", cut(1))),
            (0, 0, line("cut", cut(14))),
        ],
    );
    vec![plain, narrowing]
}

#[cfg(test)]
mod tests {
    use super::super::snapped::loosened_file;
    use super::cases;
    use crate::questions::{Answerer, Question};
    use crate::random::Random;
    use crate::viewport::Mode;
    use crate::walk::Player;

    /// The lines of `why` in short. Every attribute of a file is of panel 0.
    fn short(lines: &str) -> String {
        let reason = |line: &str| {
            let (_, reason) = line.split_once(": ").expect("a reason");
            let panels = reason.strip_suffix(", panel 0").expect("a panel");
            panels.replace(" of panel 0", "")
        };
        let of = |kind: &str| {
            let lines = lines.lines().filter_map(|line| line.strip_prefix(kind));
            let reasons = lines.map(|line| match &reason(line)[..] {
                "no segment covers the tile" => "-".into(),
                "cut away by a clip box" => "cut".into(),
                "row never touched by the closing layer" => "untouched".into(),
                other => other
                    .replace("hidden by a newer depth fill, attribute", "hidden")
                    .replace("shown, place", "shown"),
            });
            reasons.collect::<Vec<String>>().join(", ")
        };
        format!("{} | {}", of("draw"), of("layer")).trim().into()
    }

    #[test]
    fn every_tile_has_its_reasons() {
        has_its_reasons(Mode::Exact, |bytes| bytes);
    }

    /// A viewport that snaps to the one there changes nothing.
    #[test]
    fn every_tile_of_a_snapped_box_has_its_reasons() {
        let mut random = Random::new(1);
        has_its_reasons(Mode::Snapping, |bytes| loosened_file(&bytes, &mut random));
    }

    fn has_its_reasons(mode: Mode, mut file: impl FnMut(Vec<u8>) -> Vec<u8>) {
        let mut answerer = Answerer::new(Player::new(mode, 1));
        for case in cases() {
            let bytes = &file(case.made.bytes)[..];
            for (row, tile, said) in case.asked {
                let lines = answerer.all(Question { row, tile, bytes });
                assert_eq!(
                    short(&lines),
                    said,
                    "{} at row {row} tile {tile}",
                    case.made.name
                );
            }
        }
        assert!(answerer.disagreements.is_empty());
    }
}
