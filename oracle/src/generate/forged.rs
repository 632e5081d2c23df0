//! Sequences that end in a call on a forged screen. No Rust answers these: the rules and the calls' definitions do.

use super::calls::{alpha, fill, filter, panelled, push, reset, ONE_PIECE};
use super::draft::solid;
use crate::calls::Call;
use crate::limits::PANELS;
use crate::sizes::{LAYER_ATTR, OPEN_LAYER, PAINT_ATTR};

/// What is forged: a word of a table, or a table lent one word short; and how a reader calls it.
struct Forging {
    name: String,
    words: Vec<u32>,
}

const TABLES: [&str; 12] = [
    "screen",
    "render",
    "depth fills",
    "depth",
    "rows",
    "painting",
    "layers",
    "paint attributes",
    "layer attributes",
    "opacities",
    "filter paints",
    "minima",
];
const NUMBERS: [&str; 15] = [
    "viewport x0",
    "viewport y0",
    "viewport x1",
    "viewport y1",
    "clip x0",
    "clip y0",
    "clip x1",
    "clip y1",
    "C",
    "D",
    "next id",
    "paint attributes",
    "layer attributes",
    "filter paints",
    "open layers",
];

fn forgings() -> Vec<Forging> {
    let mut all = Vec::new();
    let mut set = |table: u32, place: u32, word: u32, what: &str| {
        all.push(Forging {
            name: format!("{what} is {word}"),
            words: vec![14, 0, 13, table, place, word],
        });
    };
    for (number, word) in [
        (0, 2),
        (2, 258),
        (2, 4_100),
        (3, 2_052),
        (1, 12),
        (3, 32_772),
        (8, 0),
        (8, 1_025),
        (9, 0),
        (9, 1_025),
        (4, 2),
        (6, 260),
        (7, 12),
        (10, 0),
        (10, 1_048_578),
        (11, 1_025),
        (12, 1_025),
        (13, 257),
        (14, 17),
    ] {
        set(0, number, word, NUMBERS[number as usize]);
    }
    for (place, word, what) in [
        (0, 9, "row 0's render count"),
        (1, 9, "row 0's depth fill count"),
        (2, 65, "row 0's summary's first tile"),
        (3, 8_193, "row 0's summary's end"),
        (4, 1_048_577, "row 0's largest id"),
        (5, 2, "row 0's levels"),
        (54, 9, "row 1's render count"),
        (55, 9, "row 1's depth fill count"),
        (59, 2, "row 1's levels"),
        (60, 8, "the place of row 1's PushBuf"),
        (61, 7, "the tag that row 1's pop will store"),
        (62, 65_536, "the span that row 1's pop will store"),
    ] {
        set(4, place, word, what);
    }
    for (place, word, what) in [
        (0, 16, "the layer's mix"),
        (1, 14, "the layer's compose"),
        (2, 2_147_483_648, "the layer's mask"),
        (3, 2, "the layer's clip flag"),
        (8, 1, "the layer's segment start"),
        (10, 256, "the layer's thread"),
        (13, 260, "the layer's box's x1"),
        (14, 12, "the layer's box's y1"),
    ] {
        set(6, place, word, what);
    }
    for (place, word, what) in [
        (0, 9, "row 0's first tag"),
        (0, 0, "row 0's first tag"),
        (1, 262_145, "row 0's first span"),
        (2, u32::MAX, "row 0's first alpha index"),
        (3, 1_024, "row 0's first attribute"),
        (32, 1, "the tag of row 1's PushBuf"),
    ] {
        set(1, place, word, what);
    }
    for (place, word, what) in [
        (0, 65_536, "row 0's depth fill's buckets"),
        (0, 3, "row 0's depth fill's buckets"),
        (1, 9, "row 0's depth fill's attribute"),
    ] {
        set(2, place, word, what);
    }
    for (place, word, what) in [(0, 99, "row 0's steps"), (1, 17, "row 0's nesting")] {
        set(5, place, word, what);
    }
    for (place, word, what) in [
        (0, 0, "row 0's least"),
        (0, u32::MAX, "row 0's least"),
        (1, u32::MAX, "the minimum of row 0's first bucket"),
        (2, 0, "the minimum of row 0's last bucket"),
        (3, u32::MAX, "row 1's least"),
    ] {
        set(11, place, word, what);
    }
    for (place, word) in [(4, 0), (4, 1_048_577)] {
        set(7, place, word, "the first paint attribute's id");
    }
    // The panel is a record's last word.
    let last = |record: usize, words: usize| u32::try_from(words * (record + 1) - 1).expect("few");
    for (table, place, what) in [
        (6, last(0, OPEN_LAYER), "the layer's panel"),
        (7, last(0, PAINT_ATTR), "the first paint attribute's panel"),
        (7, last(1, PAINT_ATTR), "the second paint attribute's panel"),
        (8, last(0, LAYER_ATTR), "the first layer attribute's panel"),
    ] {
        for panel in [PANELS - 1, PANELS, u32::MAX] {
            set(table, place, panel, what);
        }
    }
    for table in 1..12 {
        all.push(Forging {
            name: format!("{} lent one word short", TABLES[table as usize]),
            words: vec![14, table, 13, 99, 0, 0],
        });
    }
    all.push(Forging {
        name: "nothing".into(),
        words: vec![14, 0, 13, 99, 0, 0],
    });
    all
}

/// The screen that is forged: depth fills and a command on row 0, a layer open with a command on row 1.
fn built() -> Vec<Call> {
    panelled(vec![
        reset(256, 8, 8, 8),
        fill(&[solid(0, 0, 64)]),
        alpha(0, 0, 4),
        push(),
        alpha(1, 0, 16),
    ])
}

/// Four calls on it with the layer open, eleven with the layer closed and painting begun: among them a step that takes a depth fill, one that takes a
/// command, one that takes the layer's closing fill, then the question to the minima, once the row's depth fill is painted, and last both rows compacted.
fn calls() -> Vec<(Vec<Call>, Call)> {
    let pop = || Call::Pop {
        segments: Vec::new(),
    };
    let painting = || [built(), vec![pop(), Call::Begin]].concat();
    let destructive = Call::Push {
        mix: 0,
        compose: 5,
        opacity: 0,
        mask: 0,
        flag: 0,
        clip: [0; 7],
        panel: 5,
    };
    let step = |row| Call::Step {
        row,
        words: 2 * ONE_PIECE,
    };
    let both = [[1, 0, 8, 12, 160], [1, 1, 8, 12, 160]];
    vec![
        (built(), fill(&both)),
        (built(), destructive),
        (built(), pop()),
        (built(), filter(5, [0, 0, 64, 8])),
        (painting(), Call::Begin),
        (painting(), step(0)),
        ([painting(), vec![step(0)]].concat(), step(0)),
        (
            painting(),
            Call::Unset {
                row: 0,
                tiles: [0, 64],
                words: 8,
            },
        ),
        (
            painting(),
            Call::Visible {
                row: 0,
                id: 5,
                tiles: [0, 64],
                words: 8,
            },
        ),
        (
            painting(),
            Call::Write {
                row: 0,
                id: 7,
                buckets: [0, 1],
                words: 8,
            },
        ),
        (
            painting(),
            Call::CanSkip {
                row: 0,
                tiles: [0, 64],
                id: 1,
            },
        ),
        ([painting(), vec![step(1), step(1)]].concat(), step(1)),
        (
            [painting(), vec![step(0)]].concat(),
            Call::Hidden {
                row: 0,
                first: 0,
                end: 2,
                id: 0,
            },
        ),
        (painting(), Call::Compact(0)),
        (painting(), Call::Compact(1)),
    ]
}

/// Each sequence after the place of its forged answer and its length.
pub fn words() -> Vec<u8> {
    let mut out: Vec<u32> = Vec::new();
    for forging in forgings() {
        for (before, call) in calls() {
            let place = u32::try_from(crate::calls::answers(&before).len() + 3).expect("few");
            let sequence = [
                before.iter().flat_map(Call::words).collect(),
                forging.words.clone(),
                vec![15],
                call.words(),
                vec![15],
            ]
            .concat();
            out.extend([place, u32::try_from(sequence.len()).expect("short")]);
            out.extend(sequence);
        }
    }
    out.into_iter().flat_map(u32::to_le_bytes).collect()
}

/// What is forged, one to a line.
pub fn names() -> Vec<u8> {
    forgings()
        .into_iter()
        .map(|forging| forging.name + "\n")
        .collect::<String>()
        .into_bytes()
}
