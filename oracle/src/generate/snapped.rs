//! Recordings for the snapping mode: viewports at its edges, then scenes on panels whose sides are no multiples of 4.

use super::boxes::{across, axis, down, longest, loosened};
use super::damage;
use super::draft::{clipped, filter, layer, solid, Draft};
use super::edges::{self, edge, worked, Edge};
use super::scenes::{scene, tree_on};
use super::Made;
use crate::random::Random;
use crate::viewport::Mode;

/// Widths of panels, most of them no multiples of 4.
const WIDTHS: [u32; 14] = [
    1_366, 1_366, 1_366, 1_365, 1_367, 1_364, 1_050, 1_080, 854, 683, 2_049, 127, 129, 4_090,
];

/// With the numbers that they have in snapping mode. `rowlist` takes 32 rows, 128 pixels.
pub(crate) fn edges() -> Vec<Edge> {
    let too_high = |(start, end, _)| (start, end, false);
    let sides = [
        ([0, 0, 1_366, 8], true),
        ([0, 0, 1_366, 768], false),
        ([1, 1, 1_367, 128], true),
        ([3, 3, 1_369, 129], false),
        ([7, 7, 5, 5], true),
        ([5, 5, 3, 3], true),
        ([7, 9, 5, 3], false),
        ([1, 2, 4_093, 127], true),
        ([3, 3, 4_096, 128], true),
        ([28_673, 32_643, 32_765, 32_766], true),
        ([32_771, 32_771, 32_765, 32_765], true),
        ([32_769, 32_769, 32_769, 32_769], false),
        ([u32::MAX; 4], false),
        ([0, 0, u32::MAX, u32::MAX], false),
    ];
    let all = [
        sides.to_vec(),
        across(4_096),
        down(axis(128)),
        down(longest(2_048).into_iter().map(too_high).collect()),
    ];
    all.concat()
        .into_iter()
        .map(|(viewport, good)| {
            let answer = if good { 0 } else { 2 };
            let name = format!("snapped viewport {viewport:?}");
            edge(&name, answer, drawn(viewport).bytes())
        })
        .collect()
}

/// Fills that go past the snapped box on each side, one of them in a layer clipped to it, and a filter layer over it.
fn drawn(viewport: [u32; 4]) -> Draft {
    let Some(held) = Mode::Snapping.held(viewport) else {
        return Draft {
            viewport,
            ..worked()
        };
    };
    let [left, top, right, bottom] = held.map(|edge| edge / 4);
    let (first, end) = (left.saturating_sub(1), (right + 1).min(8_192));
    let mut rows = vec![top.saturating_sub(1), top, bottom.saturating_sub(1), bottom];
    rows.sort_unstable();
    rows.dedup();
    rows.retain(|&row| row < 8_192);
    let mut draft = Draft::new(0, 0);
    draft.viewport = viewport;
    let solids: Vec<_> = rows.iter().map(|&row| solid(row, first, end)).collect();
    let alphas: Vec<_> = rows.iter().map(|&row| [1, row, first, end, 160]).collect();
    let (solids, alphas) = (draft.segments(&solids), draft.segments(&alphas));
    draft.draw(solids);
    draft.draw(alphas);
    draft.nodes(&[[1, 2, 0], [0, 1, 1], [0, 0, 2]]);
    draft.layer(clipped(layer((0, 1)), held, solids, 3));
    draft.layer(filter(layer((0, 0)), 5, held, [4, 8]));
    draft.rooted((1, 3))
}

/// Three in ten on a panel, half of them any scene, some the edges of the exact mode, the rest damaged.
pub(crate) fn another(random: &mut Random) -> Made {
    match random.below(100) {
        0..30 => made("snapped panel", &panel(random)),
        30..78 => made("snapped scene", &loose(random)),
        78..82 => edge_of_another(random),
        _ => {
            let draft = if random.chance(40) {
                panel(random)
            } else {
                loose(random)
            };
            damage::damaged_of(draft, random)
        }
    }
}

fn made(name: &str, draft: &Draft) -> Made {
    Made {
        name: name.into(),
        bytes: draft.bytes(),
    }
}

/// An edge that is none of the viewport's, its viewport loosened.
fn edge_of_another(random: &mut Random) -> Made {
    let mut all = edges::edges();
    all.retain(|edge| ![2, 3].contains(&edge.answer));
    let which = random.below(u32::try_from(all.len()).expect("few"));
    let Made { name, bytes } = all.swap_remove(which as usize).made;
    Made {
        name: format!("snapped {name}"),
        bytes: loosened_file(&bytes, random),
    }
}

/// A scene whose viewport snaps to the one that it was made for.
fn loose(random: &mut Random) -> Draft {
    let mut draft = scene(random);
    draft.viewport = loosened(draft.viewport, random);
    draft
}

/// A panel anywhere, of few rows for the most part.
fn panel(random: &mut Random) -> Draft {
    let width = random.pick(&WIDTHS);
    let height = match random.below(20) {
        0 => 768,
        1 => random.from(122, 131),
        2..5 => random.from(30, 121),
        _ => random.from(1, 30),
    };
    let (x, y) = match random.below(4) {
        0 => (0, 0),
        1 => (32_768 - width, 32_768 - height),
        _ => (random.below(600), random.below(90)),
    };
    // Up to one pixel past the scene.
    let moved = |random: &mut Random, at: u32| (at + random.below(5)).saturating_sub(3);
    let (x, y) = (moved(random, x), moved(random, y));
    let viewport = [x, y, x + width, y + height];
    let held = Mode::Snapping.held(viewport);
    let mut draft = tree_on(held.unwrap_or([0, 0, 1_368, 32]), random);
    draft.viewport = viewport;
    draft
}

/// A file with good form, its viewport loosened.
pub(super) fn loosened_file(bytes: &[u8], random: &mut Random) -> Vec<u8> {
    let edge = |at: usize| {
        let word = bytes[4 * at..].first_chunk().expect("a viewport");
        u32::from_le_bytes(*word)
    };
    let viewport = loosened([1, 2, 3, 4].map(edge), random);
    let viewport = viewport.map(u32::to_le_bytes);
    [&bytes[..4], viewport.as_flattened(), &bytes[20..]].concat()
}

#[cfg(test)]
mod tests {
    use super::{edges, loosened_file};
    use crate::generate::scenes::scene;
    use crate::print::rowdump;
    use crate::random::Random;
    use crate::viewport::Mode;
    use crate::walk::Player;

    #[test]
    fn every_snapped_edge_has_its_number() {
        let mut player = Player::new(Mode::Snapping, 1);
        for edge in edges() {
            let text = rowdump(&mut player, &edge.made.bytes, true);
            let refused = text.strip_prefix("refused ");
            let answer = refused.map_or(0, |number| number.trim().parse().expect("a number"));
            assert_eq!(answer, edge.answer, "{}", edge.made.name);
        }
    }

    #[test]
    fn the_exact_mode_keeps_refusing() {
        let mut exact = Player::new(Mode::Exact, 1);
        let mut snapping = Player::new(Mode::Snapping, 1);
        for edge in edges() {
            let bytes = &edge.made.bytes[..];
            let aligned = (4..20).step_by(4).all(|at| bytes[at] % 4 == 0);
            let text = rowdump(&mut exact, bytes, true);
            if aligned {
                assert_eq!(
                    text,
                    rowdump(&mut snapping, bytes, true),
                    "{}",
                    edge.made.name
                );
            } else {
                assert_eq!(text, "refused 2\n", "{}", edge.made.name);
            }
        }
    }

    #[test]
    fn a_loosened_scene_is_the_scene_itself() {
        let mut random = Random::new(1);
        let mut exact = Player::new(Mode::Exact, 1);
        let mut snapping = Player::new(Mode::Snapping, 1);
        for _ in 0..300 {
            let bytes = scene(&mut random).bytes();
            let loose = loosened_file(&bytes, &mut random);
            let text = rowdump(&mut exact, &bytes, true);
            assert_eq!(text, rowdump(&mut snapping, &bytes, true));
            assert_eq!(text, rowdump(&mut snapping, &loose, true));
        }
    }
}
