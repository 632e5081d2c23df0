//! Makes questions for `why` and for `tilelist`: recordings with rows and tiles at the edges of what they hold.

use super::boxes::loosened;
use super::draft::{solid, Draft};
use super::snapped::loosened_file;
use super::{another, fixed, is_endless, mode, reasons, scenes, Made};
use crate::editions::Edition;
use crate::file::{self, Recording};
use crate::random::Random;
use crate::scene::Scene;
use crate::viewport::Mode;
use crate::walk::Player;
use crate::why::{self, Reason};
use crate::width::Width;
use vello_common::geometry::RectU16;

/// Questions to a hand-made recording beside its own.
const HAND_MADE: usize = 24;

/// A stream of so many questions, fewer where the kind is a fixed list: of the kinds `all` and `snapped` first the recordings made for the reasons,
/// their viewports loosened for the latter, then those of the kind, each with several questions.
/// The places are at and beside the edges of buckets of this width.
pub fn stream(seed: u32, count: u32, kind: &str, width: Width) -> Option<Vec<u8>> {
    made(seed, count, kind, width, None)
}

/// The same for lists without rows: of a recording that only a full row refuses several tiles are asked, and there are screens of up to 512 rows, files of up
/// to 4,096 draws and rows in which a draw stands some hundred times.
/// Of edition two each draw and each layer has a panel.
pub fn lists(seed: u32, count: u32, kind: &str, width: Width, edition: Edition) -> Option<Vec<u8>> {
    made(seed, count, kind, width, Some(edition))
}

fn made(
    seed: u32,
    count: u32,
    kind: &str,
    width: Width,
    lists: Option<Edition>,
) -> Option<Vec<u8>> {
    let mode = mode(kind);
    let player = Player::new(mode, 1).at(width.pixels());
    let mut maker = Maker {
        random: Random::new(seed),
        lists,
        player: if lists.is_some() {
            player.roomy()
        } else {
            player
        },
        left: count,
        out: Vec::new(),
    };
    let fixed = fixed(kind)?;
    if ["all", "snapped"].contains(&kind) {
        for mut case in reasons::cases() {
            if mode == Mode::Snapping {
                case.made.bytes = loosened_file(&case.made.bytes, &mut maker.random);
            }
            let own = case.asked.iter().map(|&(row, tile, _)| (row, tile));
            maker.ask(&case.made, own.collect(), HAND_MADE);
        }
    }
    for made in &fixed {
        maker.ask(made, Vec::new(), several(made));
    }
    while is_endless(kind) && maker.left > 0 {
        let made = if kind != "damaged" && maker.random.chance(25) {
            with_fills(&mut maker.random, mode, width.tiles())
        } else if lists.is_some() && maker.random.chance(40) {
            grown(&mut maker.random, mode)
        } else {
            another(&mut maker.random, kind)
        };
        maker.ask(&made, Vec::new(), several(&made));
    }
    Some(maker.out)
}

/// Three to eight questions, fewer to a larger recording.
fn several(made: &Made) -> usize {
    (8_192 / made.bytes.len().max(1)).clamp(3, 8)
}

/// A scene with wide opaque fills, for buckets of so many tiles, put between the nodes of its root, so that layers and filter fills are hidden too.
fn with_fills(random: &mut Random, mode: Mode, width: u32) -> Made {
    let mut draft = scenes::scene(random);
    let [x0, y0, x1, y1] = draft.viewport;
    let (left, buckets) = (x0 / 4, (x1 - x0) / 4 / width);
    let paint = u32::try_from(draft.paints.len()).expect("few paints");
    draft.paints.push([1, 0, 0, 0]);
    let root = draft.nodes[draft.root[0] as usize..draft.root[1] as usize].to_vec();
    let mut nodes = Vec::new();
    for node in root {
        nodes.push(node);
        if random.chance(60) {
            let row = random.from(y0 / 4, y1 / 4).min(8_191);
            let from = random.below(buckets + 1);
            let first = left + width * from;
            let end =
                left + width * random.from(from, buckets) + random.pick(&[0, 1, width - 1, width]);
            let (first, end) = (first.saturating_sub(random.below(2)), end.min(8_192));
            let list = (row..8_192.min(row + random.from(1, 3)))
                .filter(|_| first < end)
                .map(|row| solid(row, first, end));
            nodes.push(fill(&mut draft, &list.collect::<Vec<_>>(), paint));
        }
    }
    let root = draft.nodes(&nodes);
    if mode == Mode::Snapping {
        draft.viewport = loosened(draft.viewport, random);
    }
    Made {
        name: "scene with fills".into(),
        bytes: draft.rooted(root).bytes(),
    }
}

/// A scene that has no place in the usual rows: on a screen of more of them, in a longer file, or with some node again and again.
fn grown(random: &mut Random, mode: Mode) -> Made {
    let mut draft = scenes::scene(random);
    let count = |n: usize| u32::try_from(n).expect("few");
    let name = match random.below(4) {
        0 => {
            let [_, y0, _, y1] = draft.viewport;
            let most = 8_192.min(y0 / 4 + 512);
            draft.viewport[3] = 4 * random.from(y1.div_ceil(4).min(most), most);
            "tall scene"
        }
        1 => {
            let more = 4_096 - draft.draws.len().max(draft.segments.len());
            let more = random.below(count(more)) as usize;
            draft.segments.extend(vec![solid(0, 0, 1); more]);
            draft.draws.extend(vec![[0; 7]; more]);
            "long scene"
        }
        _ => {
            let [from, end] = draft.root;
            let mut nodes = draft.nodes[from as usize..end as usize].to_vec();
            if !nodes.is_empty() {
                let at = random.below(count(nodes.len())) as usize;
                let times = random.pick(&[62, 64, 66, 130, 600, 1_030]) as usize;
                nodes.splice(at..at, vec![nodes[at]; times]);
            }
            let root = draft.nodes(&nodes);
            draft = draft.rooted(root);
            "crowded scene"
        }
    };
    if mode == Mode::Snapping {
        draft.viewport = loosened(draft.viewport, random);
    }
    Made {
        name: name.into(),
        bytes: draft.bytes(),
    }
}

/// A file of edition one as one of edition two, with some panel in each draw and layer; before words of bad form the head alone is put.
fn with_panels(random: &mut Random, bytes: &[u8]) -> Vec<u8> {
    let Some(mut draft) = file::sections(bytes, Edition::One) else {
        return [&super::draft::bytes(Edition::Two.head()), bytes].concat();
    };
    let mut panels = |n: usize| (0..n).map(|_| random.below(256)).collect();
    draft.draw_panels = panels(draft.draws.len());
    draft.layer_panels = panels(draft.layers.len());
    super::draft::bytes(&draft.words_in(Edition::Two))
}

/// A node that holds one new draw.
fn fill(draft: &mut Draft, list: &[[u32; 5]], paint: u32) -> [u32; 3] {
    let range = draft.segments(list);
    let number = draft.draw(range);
    draft.draws[number as usize][3] = paint;
    [number, number + 1, 0]
}

/// A row and a tile, which may be off the screen.
type Place = (u32, u32);

struct Maker {
    random: Random,
    /// The edition of the files, for lists; for reasons it is the first.
    lists: Option<Edition>,
    player: Player,
    left: u32,
    out: Vec<u8>,
}

impl Maker {
    /// These questions and so many more; a refused recording is asked about once.
    fn ask(&mut self, made: &Made, mut places: Vec<Place>, more: usize) {
        let judged = if self.lists.is_some() {
            self.player.judged_long(&made.bytes)
        } else {
            self.player.judged(&made.bytes)
        };
        let played = judged.and_then(|scene| {
            self.player.play_scene(&scene)?;
            Ok(scene)
        });
        let Ok(scene) = played else {
            let far = self.random.pick(&FAR);
            places.push((self.random.pick(&[0, 1, far]), self.random.below(9)));
            return self.put(made, &places);
        };
        let (width, mode) = (self.player.width(), self.player.mode());
        let recording = file::judged_for(&made.bytes, Edition::One, mode);
        let recording = recording.expect("an accepted recording");
        let edges = Edges::of(&recording, scene.viewport, width);
        for _ in 0..more {
            let place = edges.place(&mut self.random, &scene);
            if !places.contains(&place) {
                places.push(place);
            }
        }
        self.put(made, &places);
    }

    /// Questions to a recording, as long as some are left.
    fn put(&mut self, made: &Made, places: &[Place]) {
        let bytes = match self.lists {
            Some(Edition::Two) => with_panels(&mut self.random, &made.bytes),
            _ => made.bytes.clone(),
        };
        for &(row, tile) in places {
            if self.left > 0 {
                self.left -= 1;
                let length = u32::try_from(bytes.len()).expect("a short recording");
                let head = [length, row, tile].map(u32::to_le_bytes);
                self.out.extend(head.as_flattened());
                self.out.extend(&bytes);
            }
        }
    }
}

/// Numbers past the screen, some of them such that four times or 65,536 times the number wraps.
const FAR: [u32; 7] = [512, 1_024, 8_192, 65_536, 1 << 30, 1 << 31, u32::MAX];

/// Where something begins or ends on the screen, in its own rows and tiles.
struct Edges {
    width: Width,
    rows: u32,
    tiles: u32,
    /// Row, first tile and end tile of the segments that meet the screen.
    segments: Vec<[u32; 3]>,
    at_rows: Vec<u32>,
    at_tiles: Vec<u32>,
}

impl Edges {
    /// Of a recording whose screen holds this box, in buckets of this width.
    fn of(recording: &Recording, held: RectU16, width: Width) -> Self {
        let [x0, y0, x1, y1] = [held.x0, held.y0, held.x1, held.y1].map(u32::from);
        let (rows, tiles) = ((y1 - y0) / 4, (x1 - x0) / 4);
        let across = |tile: u32| tile.saturating_sub(x0 / 4).min(tiles);
        let down = |row: u32| row.saturating_sub(y0 / 4).min(rows);
        let segments: Vec<[u32; 3]> = recording
            .segments
            .iter()
            .filter(|[_, row, ..]| y0 / 4 <= *row && *row < y1 / 4)
            .map(|&[_, row, first, end, _]| [down(row), across(first), across(end)])
            .collect();
        let mut at_rows = vec![0, rows];
        let mut at_tiles = vec![0, tiles];
        at_tiles.extend((0..tiles).step_by(width.tiles() as usize));
        for &[row, first, end] in &segments {
            at_rows.extend([row, row + 1]);
            at_tiles.extend([first, end]);
        }
        // Clip boxes and dest boxes, whose y are free; those that are absent stand at 0.
        for layer in &recording.layers {
            for bounds in [&layer[8..12], &layer[16..20]] {
                at_tiles.extend([across(bounds[0] / 4), across(bounds[2] / 4)]);
                at_rows.extend([down(bounds[1] / 4), down(bounds[3].div_ceil(4))]);
            }
        }
        Self {
            width,
            rows,
            tiles,
            segments,
            at_rows,
            at_tiles,
        }
    }

    /// At some edge; in half the cases, of four such places one where most is covered; at times off the screen.
    fn place(&self, random: &mut Random, scene: &Scene) -> Place {
        if self.rows == 0 || self.tiles == 0 || random.chance(4) {
            return self.off(random);
        }
        let tries = random.pick(&[1, 4]);
        let places = (0..tries).map(|_| self.on(random)).collect::<Vec<_>>();
        let covered = |&(row, tile): &Place| {
            let reasons = why::reasons(scene, self.width, row, tile).expect("on the screen");
            let covered = reasons
                .iter()
                .filter(|&(_, _, reason)| reason != Reason::Uncovered);
            covered.count()
        };
        places.into_iter().max_by_key(covered).expect("a place")
    }

    fn on(&self, random: &mut Random) -> Place {
        let edge = |random: &mut Random, of: &[u32], count: u32| {
            // Just before an edge or just after it.
            random
                .pick(of)
                .saturating_sub(random.below(2))
                .min(count - 1)
        };
        match random.below(8) {
            0 => (random.below(self.rows), random.below(self.tiles)),
            1..4 => (
                edge(random, &self.at_rows, self.rows),
                edge(random, &self.at_tiles, self.tiles),
            ),
            _ if self.segments.is_empty() => (
                random.below(self.rows),
                edge(random, &self.at_tiles, self.tiles),
            ),
            4 => {
                let [row, first, end] = random.pick(&self.segments);
                (row, random.from(first, end).min(self.tiles - 1))
            }
            5 => {
                let [row, first, end] = random.pick(&self.segments);
                (row, edge(random, &[first, end], self.tiles))
            }
            _ => {
                let [row, ..] = random.pick(&self.segments);
                (row, edge(random, &self.at_tiles, self.tiles))
            }
        }
    }

    /// Just off the screen, or far off.
    fn off(&self, random: &mut Random) -> Place {
        let row = random.below(self.rows.max(1));
        let tile = random.below(self.tiles.max(1));
        let far = random.pick(&FAR);
        match random.below(5) {
            0 => (self.rows, tile),
            1 => (row, self.tiles),
            2 => (row, self.tiles.max(far)),
            3 => (self.rows.max(far), tile),
            _ => (self.rows, self.tiles),
        }
    }
}

#[cfg(test)]
mod tests {
    use super::stream;
    use crate::questions::{self, Answerer};
    use crate::viewport::Mode;
    use crate::walk::Player;
    use crate::width::Width;

    #[test]
    fn many_questions_meet_every_reason() {
        for width in Width::ALL {
            for (kind, mode) in [("all", Mode::Exact), ("snapped", Mode::Snapping)] {
                meet_every_reason(kind, mode, width);
            }
        }
    }

    fn meet_every_reason(kind: &str, mode: Mode, width: Width) {
        let bytes = stream(1, 4_000, kind, width).expect("a kind");
        let questions = questions::stream(&bytes);
        assert_eq!(questions.len(), 4_000);
        let mut answerer = Answerer::new(Player::new(mode, 1).at(width.pixels()));
        let answers: Vec<String> = questions.into_iter().map(|q| answerer.all(q)).collect();
        assert_eq!(answerer.disagreements, Vec::<String>::new());
        for (kind, reason) in [
            ("draw", "no segment covers the tile"),
            ("draw", "cut away by a clip box"),
            ("draw", "hidden by a newer depth fill"),
            ("draw", "shown, place 3"),
            ("layer", "no segment covers the tile"),
            ("layer", "cut away by a clip box"),
            ("layer", "row never touched by the closing layer"),
            ("layer", "hidden by a newer depth fill"),
            ("layer", "shown, place 3"),
            ("refused", " 12"),
        ] {
            let met = |line: &str| line.starts_with(kind) && line.contains(reason);
            assert!(
                answers.iter().any(|lines| lines.lines().any(met)),
                "{kind} {reason}"
            );
        }
    }

    #[test]
    fn a_fixed_kind_ends_and_another_is_none() {
        let edges = stream(1, 100_000, "edges", Width::Of128).expect("a kind");
        let count = questions::stream(&edges).len();
        assert!(count > 363 && count < 100_000);
        assert!(stream(1, 10, "other", Width::Of128).is_none());
    }
}
