//! Both sides of every edge: what is just accepted, and what is just refused, with the number it must have.

use super::draft::{
    bytes, clipped, filter, layer, solid, Draft, Range, CLIP_BOX, CLIP_FLAG, DEST, HALF, ONE,
    PIXMAP, SOURCE,
};
use super::Made;

#[derive(Clone)]
pub(crate) struct Edge {
    pub(super) made: Made,
    /// The answer's number, 0 for done.
    pub(super) answer: u32,
}

pub(super) fn edge(name: &str, answer: u32, bytes: Vec<u8>) -> Edge {
    Edge {
        made: Made {
            name: format!("edge: {name}"),
            bytes,
        },
        answer,
    }
}

/// The small ones.
pub(crate) fn edges() -> Vec<Edge> {
    [
        vec![edge("worked example", 0, worked().bytes())],
        form(),
        viewports(),
        records(),
        orders(),
        deep(),
        full_rows(),
        full_depth(),
        places(),
    ]
    .concat()
}

/// Those with many words or many steps.
pub(crate) fn heavy() -> Vec<Edge> {
    [counts(), full_attrs()].concat()
}

/// Recordings that use up all ids, and one id more.
pub(crate) fn ids() -> Vec<Edge> {
    let all = |extra: u32| {
        let mut draft = Draft::new(256, 8);
        for _ in 0..1_024 {
            draft.draw((0, 0));
        }
        for _ in 0..1_024 {
            draft.node((0, 1_024), 0);
        }
        let (_, end) = draft.node((0, extra), 0);
        draft.rooted((0, end)).bytes()
    };
    vec![
        edge("all ids taken", 0, all(0)),
        edge("one id too many", 8, all(1)),
    ]
}

/// The worked example.
pub(super) fn worked() -> Draft {
    let mut draft = Draft::new(256, 8);
    let first = draft.segments(&[solid(0, 10, 64)]);
    let second = draft.segments(&[solid(1, 0, 8)]);
    draft.draw(first);
    draft.draw(second);
    draft.nodes(&[[0, 1, 1], [1, 2, 0]]);
    let mut half = layer((1, 2));
    half[5] = HALF;
    draft.layer(half);
    draft.rooted((0, 1))
}

/// Answer 3: the file isn't exactly its sections.
fn form() -> Vec<Edge> {
    let words = worked().words();
    let whole = worked().bytes();
    let mut all = vec![
        edge("no byte", 3, Vec::new()),
        edge("one word", 3, bytes(&[1])),
        edge("a word too many", 3, bytes(&[&words[..], &[0]].concat())),
        edge("a word too few", 3, bytes(&words[..words.len() - 1])),
        edge("a byte too many", 3, [&whole[..], &[0]].concat()),
        edge("a byte too few", 3, whole[..whole.len() - 1].to_vec()),
    ];
    // Every section may be empty but the viewport and the root.
    let empty = Draft {
        viewport: [0, 0, 64, 4],
        ..Draft::default()
    };
    all.push(edge("empty sections", 0, empty.bytes()));
    for section in 0..7 {
        let at = worked().place(section, 0, 0) - 1;
        for count in [0, words[at] + 1, 4_097, 1 << 30, 1 << 31, u32::MAX] {
            let mut changed = words.clone();
            changed[at] = count;
            all.push(edge(
                &format!("section {section} says {count}"),
                3,
                bytes(&changed),
            ));
        }
    }
    // A second viewport or root with its words is no good form either.
    let viewport = [&[2], &words[1..5], &words[1..5], &words[5..]].concat();
    let root = [&words[..words.len() - 3], &[2, 0, 1, 0, 1]].concat();
    all.push(edge("two viewports", 3, bytes(&viewport)));
    all.push(edge("two roots", 3, bytes(&root)));
    // 3 before 2.
    let mut bad = words;
    bad[1] = 1;
    all.push(edge(
        "bad viewport and a word too few",
        3,
        bytes(&bad[..bad.len() - 1]),
    ));
    all
}

/// Answer 2.
fn viewports() -> Vec<Edge> {
    let mut all = Vec::new();
    for (viewport, answer) in [
        ([0, 0, 0, 0], 0),
        ([0, 0, 256, 0], 0),
        ([0, 0, 0, 8], 0),
        ([256, 8, 256, 8], 0),
        ([260, 0, 256, 8], 2),
        ([0, 12, 256, 8], 2),
        ([2, 0, 256, 8], 2),
        ([0, 1, 256, 8], 2),
        ([0, 0, 254, 8], 2),
        ([0, 0, 256, 9], 2),
        ([0, 0, 4_096, 8], 0),
        ([0, 0, 4_100, 8], 2),
        ([28_672, 0, 32_768, 8], 0),
        ([28_668, 0, 32_768, 8], 2),
        ([32_768, 32_768, 32_768, 32_768], 0),
        ([32_512, 0, 32_768, 8], 0),
        ([32_516, 0, 32_772, 8], 2),
        ([0, 32_760, 256, 32_768], 0),
        ([0, 32_764, 256, 32_772], 2),
        ([0, 0, 256, 128], 0),
        ([0, 0, 256, 132], 2),
        ([0, 0, 256, 2_048], 2),
        ([0, 0, 256, 2_052], 2),
        ([32_640, 32_640, 32_768, 32_768], 0),
        ([65_536, 0, 65_792, 8], 2),
        ([0, 65_536, 256, 65_544], 2),
        ([0, 0, 65_792, 8], 2),
        ([4_294_967_292, 0, 256, 8], 2),
        ([0, 4_294_967_292, 256, 8], 2),
        ([0, 0, 1 << 31, 8], 2),
    ] {
        let draft = Draft {
            viewport,
            ..worked()
        };
        all.push(edge(
            &format!("viewport {viewport:?}"),
            answer,
            draft.bytes(),
        ));
    }
    // 2 before 4 and 5: 33 rows and a bad paint.
    let mut draft = Draft {
        viewport: [0, 0, 256, 132],
        ..worked()
    };
    draft.paints[0][0] = 2;
    all.push(edge("33 rows and a bad record", 2, draft.bytes()));
    all
}

/// Records of every kind, all good: a clipped layer, a plain one and two filter layers, some of it out of reach.
fn base() -> Draft {
    let mut draft = Draft::new(256, 16);
    draft.paints.push([0, 3, 5, 6]);
    let one = draft.segments(&[solid(0, 10, 70), [1, 1, 4, 30, 160]]);
    let two = draft.segments(&[solid(1, 0, 8), solid(2, 8, 20)]);
    draft.draw(one);
    draft.draw(two);
    draft.draws[1][3] = 1;
    draft.nodes(&[[0, 1, 1], [1, 2, 2], [0, 2, 3], [0, 0, 4]]);
    let inner = clipped(layer((1, 2)), [8, 0, 100, 12], two, 3);
    draft.layer(inner);
    draft.layer(layer((0, 0)));
    draft.layer(filter(layer((0, 1)), 9, [4, 3, 80, 14], [2, 1]));
    draft.layer(filter(
        clipped(layer((0, 0)), [0, 0, 64, 16], one, 255),
        5,
        [0, 0, 64, 16],
        [0, 0],
    ));
    // The third node is out of reach of the root, the fourth is reached by it below.
    draft.rooted((0, 1))
}

/// Sections by number.
const PAINTS: usize = 1;
const SEGMENTS: usize = 2;
const DRAWS: usize = 3;
const LAYERS: usize = 4;
const NODES: usize = 5;
const ROOT: usize = 6;

/// Answer 4: each field at its bound and just past it.
fn records() -> Vec<Edge> {
    let handle = 1 << 31;
    let (regular, plain, filter, clipped_filter) = (0, 1, 2, 3);
    let alpha = u32::MAX - 16 * 26;
    let mut changes: Vec<(usize, usize, usize, u32, u32)> = vec![
        (PAINTS, 1, 0, 1, 0),
        (PAINTS, 1, 0, 2, 4),
        (PAINTS, 0, 1, handle - 1, 0),
        (PAINTS, 0, 1, handle, 4),
        (PAINTS, 0, 2, u32::MAX, 0),
        (PAINTS, 0, 3, handle, 0),
        (SEGMENTS, 1, 0, 2, 4),
        (SEGMENTS, 1, 0, 0, 4),
        (SEGMENTS, 3, 1, 8_191, 0),
        (SEGMENTS, 3, 1, 8_192, 4),
        (SEGMENTS, 3, 1, u32::MAX, 4),
        (SEGMENTS, 0, 2, 69, 0),
        (SEGMENTS, 0, 2, 70, 4),
        (SEGMENTS, 0, 2, 71, 4),
        (SEGMENTS, 0, 3, 8_192, 0),
        (SEGMENTS, 0, 3, 8_193, 4),
        (SEGMENTS, 0, 3, 65_600, 4),
        (SEGMENTS, 0, 4, 1, 4),
        (SEGMENTS, 1, 4, 0, 0),
        (SEGMENTS, 1, 4, alpha, 0),
        (SEGMENTS, 1, 4, alpha + 1, 4),
        (SEGMENTS, 1, 4, u32::MAX, 4),
        (DRAWS, 0, 0, 255, 0),
        (DRAWS, 0, 0, 256, 4),
        (DRAWS, 1, 1, 4, 0),
        (DRAWS, 1, 1, 5, 4),
        (DRAWS, 1, 2, 5, 4),
        (DRAWS, 0, 2, 0, 0),
        (DRAWS, 1, 2, 1, 4),
        (DRAWS, 0, 3, 1, 0),
        (DRAWS, 0, 3, 2, 4),
        (DRAWS, 0, 4, 15, 0),
        (DRAWS, 0, 4, 16, 4),
        (DRAWS, 0, 5, 13, 0),
        (DRAWS, 0, 5, 14, 4),
        (DRAWS, 0, 6, handle - 1, 0),
        (DRAWS, 0, 6, handle, 4),
        (LAYERS, plain, 0, 1, 0),
        (LAYERS, plain, 0, 2, 4),
        (LAYERS, regular, 1, 2, 0),
        (LAYERS, regular, 1, 3, 4),
        (LAYERS, filter, 2, 4, 0),
        (LAYERS, filter, 2, 5, 4),
        (LAYERS, regular, 3, 15, 0),
        (LAYERS, regular, 3, 16, 4),
        (LAYERS, regular, 4, 13, 0),
        (LAYERS, regular, 4, 14, 4),
        (LAYERS, regular, 5, u32::MAX, 0),
        (LAYERS, regular, 6, handle - 1, 0),
        (LAYERS, regular, 6, handle, 4),
        (LAYERS, plain, CLIP_FLAG, 1, 0),
        (LAYERS, plain, CLIP_FLAG, 2, 4),
        (LAYERS, regular, CLIP_FLAG, 0, 4),
        (LAYERS, regular, CLIP_BOX, 100, 0),
        (LAYERS, regular, CLIP_BOX, 104, 4),
        (LAYERS, regular, CLIP_BOX, 10, 4),
        (LAYERS, regular, CLIP_BOX + 1, 12, 0),
        (LAYERS, regular, CLIP_BOX + 1, 16, 4),
        (LAYERS, regular, CLIP_BOX + 1, 2, 4),
        (LAYERS, regular, CLIP_BOX + 2, 32_768, 0),
        (LAYERS, regular, CLIP_BOX + 2, 32_772, 4),
        (LAYERS, regular, CLIP_BOX + 2, 65_544, 4),
        (LAYERS, regular, CLIP_BOX + 2, 101, 4),
        (LAYERS, regular, CLIP_BOX + 3, 32_768, 0),
        (LAYERS, regular, CLIP_BOX + 3, 32_772, 4),
        (LAYERS, regular, CLIP_BOX + 3, 13, 4),
        (LAYERS, regular, 12, 4, 0),
        (LAYERS, regular, 12, 5, 4),
        (LAYERS, regular, 13, 5, 4),
        (LAYERS, regular, 14, 255, 0),
        (LAYERS, regular, 14, 256, 4),
        (LAYERS, clipped_filter, 14, 256, 4),
        (LAYERS, filter, PIXMAP, handle, 0),
        (LAYERS, filter, PIXMAP, handle + 1, 4),
        (LAYERS, filter, PIXMAP, u32::MAX, 4),
        (LAYERS, filter, PIXMAP, 0, 0),
        (LAYERS, filter, PIXMAP, 1, 0),
        (LAYERS, plain, PIXMAP, 1, 4),
        (LAYERS, filter, DEST, 80, 0),
        (LAYERS, filter, DEST, 84, 4),
        (LAYERS, filter, DEST, 6, 4),
        (LAYERS, filter, DEST + 1, 14, 0),
        (LAYERS, filter, DEST + 1, 15, 4),
        (LAYERS, filter, DEST + 2, 32_768, 0),
        (LAYERS, filter, DEST + 2, 32_772, 4),
        (LAYERS, filter, DEST + 2, 82, 4),
        (LAYERS, filter, DEST + 3, 32_768, 0),
        (LAYERS, filter, DEST + 3, 32_769, 4),
        (LAYERS, filter, SOURCE, 32_768, 0),
        (LAYERS, filter, SOURCE, 32_769, 4),
        (LAYERS, filter, SOURCE + 1, 32_768, 0),
        (LAYERS, filter, SOURCE + 1, 32_769, 4),
        (NODES, 0, 0, 1, 0),
        (NODES, 0, 0, 2, 4),
        (NODES, 3, 1, 2, 0),
        (NODES, 3, 1, 3, 4),
        (NODES, 3, 2, 5, 4),
        (ROOT, 0, 0, 1, 0),
        (ROOT, 0, 0, 2, 4),
        (ROOT, 0, 1, 4, 0),
        (ROOT, 0, 1, 5, 4),
        (ROOT, 0, 1, 0, 0),
    ];
    // Fields of an absent clip and of a regular layer's filter are 0.
    changes.extend((CLIP_BOX..PIXMAP).map(|field| (LAYERS, plain, field, 4, 4)));
    changes.extend((PIXMAP..22).map(|field| (LAYERS, regular, field, 4, 4)));
    let change = |(section, record, field, word, answer): (usize, usize, usize, u32, u32)| {
        let mut words = base().words();
        words[base().place(section, record, field)] = word;
        edge(
            &format!("section {section} record {record} field {field} is {word}"),
            answer,
            bytes(&words),
        )
    };
    let mut all: Vec<Edge> = changes.into_iter().map(change).collect();
    all.push(edge("every kind of record", 0, base().bytes()));
    all.push(edge("all of it reached", 0, base().rooted((0, 4)).bytes()));
    all.push(edge(
        "root empty at the end",
        0,
        base().rooted((4, 4)).bytes(),
    ));
    // That there is no pixmap does not excuse the box or the source.
    for (place, word) in [(DEST, 2), (SOURCE, 32_769)] {
        let mut draft = base();
        (draft.layers[2][PIXMAP], draft.layers[2][place]) = (0, word);
        all.push(edge(
            &format!("no pixmap, and field {place} is {word}"),
            4,
            draft.bytes(),
        ));
    }
    // Ranges at the end of their sections.
    let mut draft = base();
    (draft.draws[0][1], draft.draws[0][2]) = (4, 4);
    (draft.nodes[0][0], draft.nodes[0][1]) = (2, 2);
    (draft.layers[0][1], draft.layers[0][2]) = (4, 4);
    (draft.layers[0][12], draft.layers[0][13]) = (4, 4);
    all.push(edge("empty ranges at the ends", 0, draft.bytes()));
    all
}

/// Answer 5.
fn orders() -> Vec<Edge> {
    let lists: [(&str, Vec<[u32; 5]>, u32); 10] = [
        ("touching", vec![solid(0, 0, 8), solid(0, 8, 16)], 0),
        (
            "overlapping by one",
            vec![solid(0, 0, 8), solid(0, 7, 16)],
            5,
        ),
        ("the same twice", vec![solid(0, 0, 8), solid(0, 0, 8)], 5),
        (
            "from right to left",
            vec![solid(0, 8, 16), solid(0, 0, 8)],
            5,
        ),
        ("the next row", vec![solid(0, 8, 16), solid(1, 0, 8)], 0),
        ("a row before", vec![solid(1, 0, 8), solid(0, 8, 16)], 5),
        ("inside another", vec![solid(0, 0, 16), solid(0, 4, 8)], 5),
        (
            "alpha touching",
            vec![[1, 0, 0, 8, 16], [1, 0, 8, 16, 0]],
            0,
        ),
        (
            "alpha overlapping",
            vec![[1, 0, 0, 8, 16], solid(0, 7, 16)],
            5,
        ),
        (
            "only the last pair",
            vec![
                solid(0, 0, 8),
                solid(0, 8, 16),
                solid(1, 4, 9),
                solid(1, 8, 12),
            ],
            5,
        ),
    ];
    let mut all = Vec::new();
    for (name, list, answer) in &lists {
        let mut draft = Draft::new(256, 8);
        let range = draft.segments(list);
        let number = draft.draw(range);
        let node = draft.node((number, number + 1), 0);
        all.push(edge(
            &format!("draw's list {name}"),
            *answer,
            draft.rooted(node).bytes(),
        ));
        all.push(edge(
            &format!("clip's list {name}"),
            *answer,
            in_clip(list, false).bytes(),
        ));
    }
    all.push(edge(
        "clip of a filter layer out of order",
        5,
        in_clip(&lists[1].1, true).bytes(),
    ));
    // The section has no order of its own, and ranges may be shared.
    let mut draft = Draft::new(256, 8);
    draft.segments(&[solid(1, 0, 8), solid(0, 8, 40), solid(0, 4, 9)]);
    for range in [(0, 1), (1, 2), (2, 3), (1, 2)] {
        draft.draw(range);
    }
    let node = draft.node((0, 4), 0);
    all.push(edge(
        "three lists in no order",
        0,
        draft.clone().rooted(node).bytes(),
    ));
    draft.draw((1, 3));
    all.push(edge(
        "out of reach and out of order",
        5,
        draft.clone().rooted(node).bytes(),
    ));
    draft.draws[0][3] = 9;
    all.push(edge("4 before 5", 4, draft.rooted(node).bytes()));
    // 5 before 6.
    let mut draft = in_clip(&lists[1].1, false);
    draft.nodes[1][2] = 1;
    draft.layers[0][2] = 2;
    all.push(edge("5 before 6", 5, draft.bytes()));
    all
}

/// A layer clipped by the list, with a draw in it.
fn in_clip(list: &[[u32; 5]], is_filter: bool) -> Draft {
    let mut draft = Draft::new(256, 8);
    let clip = draft.segments(list);
    let fill = draft.segments(&[solid(0, 0, 20), solid(1, 0, 20)]);
    draft.draw(fill);
    draft.nodes(&[[0, 0, 1], [0, 1, 0]]);
    let mut words = clipped(layer((1, 2)), [0, 0, 256, 8], clip, 1);
    if is_filter {
        words = filter(words, 1, [0, 0, 64, 8], [0, 0]);
    }
    draft.layer(words);
    draft.rooted((0, 1))
}

/// Layers nested so deep, a draw in the innermost; `innermost` stands in its place.
pub(super) fn nest(depth: u32, innermost: impl Fn(Range) -> [u32; 22]) -> Draft {
    let mut draft = Draft::new(256, 8);
    let list = draft.segments(&[solid(0, 0, 64)]);
    draft.draw(list);
    let mut node = draft.node((0, 1), 0);
    for level in 0..depth {
        let number = draft.layer(if level == 0 {
            innermost(node)
        } else {
            layer(node)
        });
        node = draft.node((0, 0), number);
    }
    draft.rooted(node)
}

/// Answer 6.
fn deep() -> Vec<Edge> {
    let destructive = |nodes| {
        let mut words = layer(nodes);
        words[4] = 1;
        words
    };
    let placed = |nodes| filter(layer(nodes), 4, [0, 0, 64, 8], [0, 0]);
    let buffered = |nodes| {
        let mut words = placed(nodes);
        words[5] = HALF;
        words
    };
    let empty = |nodes| clipped(layer(nodes), [8, 8, 8, 8], (0, 0), 0);
    let mut all = vec![
        edge("16 layers", 0, nest(16, layer).bytes()),
        edge("17 layers", 6, nest(17, layer).bytes()),
        edge(
            "16 layers, the last destructive",
            0,
            nest(16, destructive).bytes(),
        ),
        edge(
            "17 layers, the last destructive",
            6,
            nest(17, destructive).bytes(),
        ),
        edge("16 layers, the last empty", 0, nest(16, empty).bytes()),
        edge("17 layers, the last empty", 6, nest(17, empty).bytes()),
        edge("a filter layer in 16", 0, nest(17, placed).bytes()),
        edge(
            "a filter layer with a buffer in 15",
            0,
            nest(16, buffered).bytes(),
        ),
        edge(
            "a filter layer with a buffer in 16",
            6,
            nest(17, buffered).bytes(),
        ),
    ];
    // A layer that reaches itself, at once, by another, or out of reach.
    let cycle = |root: Range| {
        let mut draft = Draft::new(256, 8);
        draft.nodes(&[[0, 0, 1], [0, 0, 2], [0, 0, 3], [0, 0, 0]]);
        draft.layer(layer((0, 1)));
        draft.layer(layer((2, 3)));
        draft.layer(layer((1, 2)));
        draft.rooted(root).bytes()
    };
    all.push(edge("a layer in itself", 6, cycle((0, 1))));
    all.push(edge("two layers in each other", 6, cycle((1, 2))));
    all.push(edge("a cycle out of reach", 0, cycle((3, 4))));
    // A filter layer's nodes aren't walked.
    let mut draft = Draft::new(256, 8);
    let own = draft.node((0, 0), 1);
    draft.layer(filter(layer(own), 4, [0, 0, 64, 8], [0, 0]));
    all.push(edge(
        "a filter layer in itself",
        0,
        draft.rooted(own).bytes(),
    ));
    // 6 before 10: the 17th push would give a full row its 65th command.
    let mut draft = nest(17, destructive);
    let number = many(&mut draft, 0, 48);
    draft.nodes[1] = [number, number + 1, 1];
    all.push(edge("6 before 10", 6, draft.bytes()));
    all
}

/// A draw of n one-tile segments that become commands of one row.
fn many(draft: &mut Draft, row: u32, n: u32) -> u32 {
    let list: Vec<[u32; 5]> = (0..n).map(|i| solid(row, i, i + 1)).collect();
    let range = draft.segments(&list);
    draft.draw(range)
}

/// Answer 10.
fn full_rows() -> Vec<Edge> {
    let plain = |n: u32, row: u32| {
        let mut draft = Draft::new(512, 8);
        many(&mut draft, row, n);
        let node = draft.node((0, 1), 0);
        draft.rooted(node).bytes()
    };
    // One by one, so that the 65th step is the refused one.
    let singly = |n: u32| {
        let mut draft = Draft::new(512, 8);
        many(&mut draft, 1, 1);
        let nodes = draft.nodes(&vec![[0, 1, 0]; n as usize]);
        draft.rooted(nodes).bytes()
    };
    // Inside a layer: its PushBuf, closing LayerFill and PopBuf count.
    let layered = |n: u32, change: &dyn Fn(&mut Draft)| {
        let mut draft = Draft::new(512, 8);
        many(&mut draft, 0, n);
        draft.nodes(&[[0, 1, 0], [0, 0, 1]]);
        draft.layer(layer((0, 1)));
        change(&mut draft);
        draft.rooted((1, 2)).bytes()
    };
    let clip = |parts: u32| {
        move |draft: &mut Draft| {
            let list: Vec<[u32; 5]> = (0..parts)
                .map(|i| [1, 0, 2 * i, 2 * i + 1, 16 * i])
                .collect();
            let range = draft.segments(&list);
            draft.layers[0] = clipped(draft.layers[0], [0, 0, 512, 4], range, 0);
        }
    };
    // A destructive push gives every row of its box a PushBuf.
    let destructive = |before: u32, row: u32| {
        let mut draft = Draft::new(512, 8);
        many(&mut draft, row, before);
        draft.nodes(&[[0, 1, 1], [0, 0, 0]]);
        let mut words = clipped(layer((1, 2)), [0, 0, 512, 4], (0, 0), 0);
        words[4] = 0;
        draft.layer(words);
        draft.rooted((0, 1)).bytes()
    };
    let filters = |n: u32| {
        let mut draft = Draft::new(512, 8);
        let nodes = draft.nodes(&vec![[0, 0, 1]; n as usize]);
        draft.layer(filter(layer((0, 0)), 3, [0, 5, 64, 7], [9, 9]));
        draft.rooted(nodes).bytes()
    };
    let nothing = |_: &mut Draft| {};
    vec![
        edge("64 commands by one draw", 0, plain(64, 0)),
        edge("65 commands by one draw", 10, plain(65, 0)),
        edge("64 commands on the last row", 0, plain(64, 1)),
        edge("65 commands on the last row", 10, plain(65, 1)),
        edge("65 commands off the screen", 0, plain(65, 2)),
        edge("64 draws on a row", 0, singly(64)),
        edge("65 draws on a row", 10, singly(65)),
        edge("61 in a layer", 0, layered(61, &nothing)),
        edge("62 in a layer", 10, layered(62, &nothing)),
        edge("63 in a layer", 10, layered(63, &nothing)),
        edge("64 in a layer", 10, layered(64, &nothing)),
        edge("54 in a clip of 8", 0, layered(54, &clip(8))),
        edge("54 in a clip of 9", 10, layered(54, &clip(9))),
        edge("62 in a clip of none", 0, layered(62, &clip(0))),
        edge("63 in a clip of none", 10, layered(63, &clip(0))),
        edge("62, then a destructive layer", 0, destructive(62, 0)),
        edge("63, then a destructive layer", 10, destructive(63, 0)),
        edge("64, then a destructive layer", 10, destructive(64, 0)),
        edge(
            "64 on another row, then a destructive layer",
            0,
            destructive(64, 1),
        ),
        edge("64 filter fills", 0, filters(64)),
        edge("65 filter fills", 10, filters(65)),
    ]
}

/// Answer 11.
fn full_depth() -> Vec<Edge> {
    let fills = |n: u32, first: u32, end: u32| {
        let mut draft = Draft::new(512, 8);
        let list = draft.segments(&[solid(1, first, end)]);
        draft.draw(list);
        let nodes = draft.nodes(&vec![[0, 1, 0]; n as usize]);
        draft.rooted(nodes).bytes()
    };
    // 63 or 64 depth fills of row 0, then one draw of so many more on row 0 and commands on row 1.
    let last = |depth: u32, commands: u32| {
        let mut draft = Draft::new(512, 8);
        let list = draft.segments(&[solid(0, 0, 32)]);
        draft.draw(list);
        let mut rows = vec![solid(0, 32, 64)];
        rows.extend((0..commands).map(|i| solid(1, i, i + 1)));
        let list = draft.segments(&rows);
        draft.draw(list);
        let mut nodes = vec![[0, 1, 0]; depth as usize];
        nodes.push([1, 2, 0]);
        let nodes = draft.nodes(&nodes);
        draft.rooted(nodes).bytes()
    };
    vec![
        edge("64 depth fills", 0, fills(64, 0, 32)),
        edge("65 depth fills", 11, fills(65, 0, 32)),
        edge("64 depth fills of several buckets", 0, fills(64, 32, 128)),
        edge("65 depth fills of several buckets", 11, fills(65, 32, 128)),
        edge(
            "64 depth fills with an edge piece each",
            0,
            fills(64, 31, 96),
        ),
        edge(
            "65 depth fills with an edge piece each: 10 before 11",
            10,
            fills(65, 31, 96),
        ),
        edge(
            "64 depth fills and 64 commands in the last step",
            0,
            last(63, 64),
        ),
        edge(
            "65 depth fills and 64 commands in the last step",
            11,
            last(64, 64),
        ),
        edge(
            "65 depth fills and 65 commands in the last step",
            10,
            last(64, 65),
        ),
    ]
}

/// The edge of the scene, left cuts, shifts of each sign.
fn places() -> Vec<Edge> {
    let mut all = Vec::new();
    let mut draft = Draft::new(256, 8);
    draft.viewport = [32_512, 32_760, 32_768, 32_768];
    let most = u32::MAX - 16 * 72;
    let list = draft.segments(&[solid(8_190, 8_100, 8_192), [1, 8_191, 8_120, 8_192, most]]);
    draft.draw(list);
    let number = draft.layer(filter(
        layer((0, 0)),
        2,
        [32_508, 32_755, 32_768, 32_768],
        [0, 32_768],
    ));
    let node = draft.node((0, 1), number);
    all.push(edge(
        "the scene's last corner",
        0,
        draft.rooted(node).bytes(),
    ));
    for (name, dest, source) in [
        ("left and up", [64, 9, 128, 15], [0, 0]),
        ("right and down", [0, 0, 64, 4], [32_768, 32_768]),
        ("left and down", [128, 0, 256, 16], [4, 3]),
        ("right and up", [0, 7, 4, 8], [1, 2]),
        ("not at all", [8, 5, 16, 6], [8, 5]),
        ("the farthest left", [32_768, 0, 32_768, 8], [0, 0]),
        ("an empty dest box", [8, 4, 8, 12], [0, 0]),
        ("a dest box of one line", [0, 3, 256, 4], [0, 0]),
        (
            "a dest box that ends a line into a row",
            [0, 3, 256, 5],
            [0, 0],
        ),
        ("a dest box off the screen", [256, 0, 300, 16], [0, 0]),
    ] {
        for viewport in [[0, 0, 256, 16], [16, 4, 272, 20]] {
            let mut draft = Draft {
                viewport,
                ..Draft::new(0, 0)
            };
            let node = draft.node((0, 0), 1);
            draft.layer(filter(layer((0, 0)), 2, dest, source));
            all.push(edge(
                &format!("shifted {name} in {viewport:?}"),
                0,
                draft.rooted(node).bytes(),
            ));
        }
    }
    // Opacities that are and aren't 1.0, and the other reasons for a buffer.
    for (name, field, word) in [
        ("1.0", 5, ONE),
        ("just above 1.0", 5, ONE + 1),
        ("just below 1.0", 5, ONE - 1),
        ("quiet NaN", 5, 0x7fc0_0000),
        ("another NaN", 5, 0x7f80_0001),
        ("negative NaN", 5, u32::MAX),
        ("0", 5, 0),
        ("-0", 5, 1 << 31),
        ("infinite", 5, 0x7f80_0000),
        ("mixed", 3, 1),
        ("composed", 4, 2),
        ("masked", 6, 1),
        ("clipped", CLIP_FLAG, 1),
    ] {
        for pixmap in [None, Some(0), Some(8)] {
            let mut draft = Draft::new(256, 8);
            let node = draft.node((0, 0), 1);
            let mut words = filter(layer((0, 0)), pixmap, [0, 0, 64, 8], [0, 0]);
            words[field] = word;
            draft.layer(words);
            all.push(edge(
                &format!("filter layer {name}, pixmap {pixmap:?}"),
                0,
                draft.rooted(node).bytes(),
            ));
        }
    }
    all.extend(blends());
    all
}

/// Every compose code on a layer over two rows of which one is drawn, with and without a clip.
fn blends() -> Vec<Edge> {
    let mut all = Vec::new();
    for compose in 0..14 {
        for with_clip in [false, true] {
            let mut draft = Draft::new(256, 12);
            let fill = draft.segments(&[solid(0, 0, 40)]);
            let clip = draft.segments(&[
                solid(0, 0, 8),
                [1, 0, 8, 20, 32],
                solid(1, 4, 50),
                solid(2, 0, 9),
            ]);
            draft.draw(fill);
            draft.nodes(&[[0, 1, 0], [0, 0, 1]]);
            let mut words = layer((0, 1));
            words[4] = compose;
            draft.layer(if with_clip {
                clipped(words, [16, 0, 160, 8], clip, 9)
            } else {
                words
            });
            let name = format!(
                "compose {compose}{}",
                if with_clip { " in a clip" } else { "" }
            );
            all.push(edge(&name, 0, draft.rooted((1, 2)).bytes()));
        }
    }
    all
}

/// Answer 3 at the largest counts and the largest file.
fn counts() -> Vec<Edge> {
    let with = |paints: usize, draws: usize, nodes: usize| {
        let mut draft = Draft::new(256, 8);
        draft.paints = vec![[1, 7, 0, 0]; paints];
        draft.draws = vec![[0, 0, 0, 0, 0, 3, 0]; draws];
        draft.nodes = vec![[0, 0, 0]; nodes];
        draft
            .rooted((0, u32::try_from(nodes).expect("few")))
            .bytes()
    };
    vec![
        edge("4,096 nodes", 0, with(1, 0, 4_096)),
        edge("4,097 nodes", 3, with(1, 0, 4_097)),
        edge("65,536 bytes", 0, with(1_019, 1, 4_096)),
        edge("65,540 bytes", 3, with(1_021, 0, 4_096)),
        edge("65,537 bytes", 3, [with(1_019, 1, 4_096), vec![0]].concat()),
    ]
}

/// Answer 9.
fn full_attrs() -> Vec<Edge> {
    // 32 draws, all cut away, walked 32 times, and so many more.
    let paints = |more: u32, row: u32, commands: u32| {
        let mut draft = Draft::new(256, 8);
        let away = draft.segments(&[solid(9, 0, 8)]);
        for _ in 0..32 {
            draft.draw(away);
        }
        many(&mut draft, row, commands);
        let mut nodes = vec![[0, 32, 0]; 32];
        nodes.push([32, 32 + more, 0]);
        let nodes = draft.nodes(&nodes);
        draft.rooted(nodes).bytes()
    };
    // A layer of 32 empty layers, walked 31 times: 1,023 pops; and so many more.
    let layers = |more: usize| {
        let mut draft = Draft::new(256, 8);
        let inner = draft.layer(layer((0, 0)));
        let run = draft.nodes(&[[0, 0, inner]; 32]);
        let outer = draft.layer(layer(run));
        let mut nodes = vec![[0, 0, outer]; 31];
        nodes.extend(vec![[0, 0, inner]; more]);
        let nodes = draft.nodes(&nodes);
        draft.rooted(nodes).bytes()
    };
    // Eight filter layers, each on its own row, walked 32 times; and so many more, on a ninth row or off the screen.
    let filters = |more: usize, top: u32| {
        let mut draft = Draft::new(256, 36);
        for row in 0..8 {
            draft.layer(filter(
                layer((0, 0)),
                1,
                [0, 4 * row, 64, 4 * row + 4],
                [0, 0],
            ));
        }
        let last = draft.layer(filter(layer((0, 0)), 1, [0, top, 64, top + 4], [0, 0]));
        let eight: Vec<[u32; 3]> = (1..9).map(|number| [0, 0, number]).collect();
        let mut nodes = eight.repeat(32);
        nodes.extend(vec![[0, 0, last]; more]);
        let nodes = draft.nodes(&nodes);
        draft.rooted(nodes).bytes()
    };
    vec![
        edge("1,024 paint attributes", 0, paints(0, 0, 1)),
        edge("1,025 paint attributes", 9, paints(1, 0, 1)),
        edge(
            "1,025 paint attributes, the last off the screen",
            9,
            paints(1, 9, 1),
        ),
        edge(
            "1,025 paint attributes and 65 commands: 9 before 10",
            9,
            paints(1, 0, 65),
        ),
        edge("1,024 layer attributes", 0, layers(1)),
        edge("1,025 layer attributes", 9, layers(2)),
        edge("256 filter paints", 0, filters(0, 32)),
        edge("257 filter paints", 9, filters(1, 32)),
        edge(
            "256 filter paints and one off the screen",
            0,
            filters(1, 64),
        ),
    ]
}

#[cfg(test)]
mod tests {
    use super::{edges, heavy, ids};
    use crate::viewport::Mode;
    use crate::walk::Player;

    #[test]
    fn every_edge_has_its_number() {
        let mut player = Player::new(Mode::Exact, 1);
        for edge in [edges(), heavy(), ids()].concat() {
            let answer = player.play(&edge.made.bytes).err().unwrap_or(0);
            assert_eq!(answer, edge.answer, "{}", edge.made.name);
        }
    }
}
