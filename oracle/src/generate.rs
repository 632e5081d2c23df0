//! Makes recordings, good and bad, the same for the same seed.

mod boxes;
pub mod calls;
pub mod coloured;
mod crowded;
mod damage;
pub mod draft;
mod edges;
pub mod edits;
pub mod files;
pub mod forged;
pub mod questions;
mod reasons;
mod scenes;
mod snapped;
mod wide;

use crate::random::Random;
use crate::viewport::Mode;

/// A recording's bytes, and what it was made for.
#[derive(Clone)]
pub struct Made {
    pub name: String,
    pub bytes: Vec<u8>,
}

/// So many recordings: of the kinds `all`, `snapped` and `wide` the edges first, then a mixture.
pub fn recordings(seed: u32, count: u32, kind: &str) -> Option<Vec<Made>> {
    let mut random = Random::new(seed);
    let mut all = fixed(kind)?;
    if is_endless(kind) {
        all.truncate(count as usize);
        while all.len() < count as usize {
            all.push(another(&mut random, kind));
        }
    }
    Some(all)
}

/// The list that a kind is or begins with.
fn fixed(kind: &str) -> Option<Vec<Made>> {
    let edges = match kind {
        "all" | "edges" => edges::edges(),
        "heavy" => edges::heavy(),
        "ids" => edges::ids(),
        "snapped" => snapped::edges(),
        "wide" => return Some(wide::edges().into_iter().map(|(made, _)| made).collect()),
        "scenes" | "damaged" => Vec::new(),
        _ => return None,
    };
    Some(edges.into_iter().map(|edge| edge.made).collect())
}

/// Whether a kind goes on after its list.
fn is_endless(kind: &str) -> bool {
    ["all", "scenes", "damaged", "snapped", "wide"].contains(&kind)
}

/// The mode that a kind's viewports are made for.
fn mode(kind: &str) -> Mode {
    match kind {
        "snapped" => Mode::Snapping,
        _ => Mode::Exact,
    }
}

fn another(random: &mut Random, kind: &str) -> Made {
    let scene = match kind {
        "snapped" => return snapped::another(random),
        "wide" => return wide::another(random),
        "scenes" => true,
        "damaged" => false,
        _ => random.chance(60),
    };
    if scene {
        good(random)
    } else {
        damage::damaged(random)
    }
}

fn good(random: &mut Random) -> Made {
    Made {
        name: "scene".into(),
        bytes: scenes::scene(random).bytes(),
    }
}

/// A stream: each recording after its length.
pub fn stream(made: &[Made]) -> Vec<u8> {
    let length = |made: &Made| {
        u32::try_from(made.bytes.len())
            .expect("a short recording")
            .to_le_bytes()
    };
    made.iter()
        .flat_map(|made| length(made).into_iter().chain(made.bytes.iter().copied()))
        .collect()
}

/// The names, one to a line.
pub fn names(made: &[Made]) -> Vec<u8> {
    made.iter()
        .map(|made| made.name.clone() + "\n")
        .collect::<String>()
        .into_bytes()
}
