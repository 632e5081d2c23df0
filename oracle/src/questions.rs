//! Questions why a tile shows what it shows: their stream, the text of their answers, and the Rust's own painting beside them.

use crate::file;
use crate::painting::row_pieces;
use crate::panels::Panels;
use crate::walk::Player;
use crate::why::{reasons, Kind, Reason, Reasons};
use std::collections::BTreeMap;
use std::fmt::{Display, Formatter, Write};

/// A recording's bytes, and the row and tile that are asked about.
#[derive(Debug, Clone, Copy, PartialEq, Eq)]
pub struct Question<'a> {
    pub row: u32,
    pub tile: u32,
    pub bytes: &'a [u8],
}

/// A stream's questions: length in bytes, row, tile, the file. The last may be cut short; an incomplete head is none.
pub fn stream(mut bytes: &[u8]) -> Vec<Question<'_>> {
    let mut questions = Vec::new();
    while let Some((head, rest)) = bytes.split_first_chunk::<12>() {
        let [length, row, tile] =
            [0, 4, 8].map(|at| u32::from_le_bytes(*head[at..].first_chunk().expect("four bytes")));
        let (recording, rest) = file::split(length, rest);
        questions.push(Question {
            row,
            tile,
            bytes: recording,
        });
        bytes = rest;
    }
    questions
}

/// How often each reason and each refusal was given.
#[derive(Default)]
pub struct Tally {
    questions: usize,
    /// By the reason's place in the order, its words, and the kind of attribute.
    reasons: BTreeMap<(u8, &'static str, Kind), usize>,
    refused: BTreeMap<u32, usize>,
}

/// Answers questions one after another, counts what was said, and keeps what the Rust's painting contradicts.
pub struct Answerer {
    player: Player,
    pub tally: Tally,
    pub disagreements: Vec<String>,
}

impl Answerer {
    pub fn new(player: Player) -> Self {
        Self {
            player,
            tally: Tally::default(),
            disagreements: Vec::new(),
        }
    }

    /// The line for one attribute.
    pub fn one(&mut self, question: Question, kind: Kind, number: u32) -> String {
        match self.answer(question) {
            Err(refused) => refused,
            Ok(reasons) => {
                let reason = reasons.of(kind, number);
                self.tally.count(kind, reason);
                reason.text(self.player.panels(), kind, number) + "\n"
            }
        }
    }

    /// The lines for every attribute.
    pub fn all(&mut self, question: Question) -> String {
        let reasons = match self.answer(question) {
            Err(refused) => return refused,
            Ok(reasons) => reasons,
        };
        let mut out = String::new();
        for (kind, number, reason) in reasons.iter() {
            self.tally.count(kind, reason);
            let asked = u32::try_from(number).expect("few");
            let text = reason.text(self.player.panels(), kind, asked);
            writeln!(out, "{kind} {number}: {text}").expect("a line");
        }
        out
    }

    /// The reasons, or the line that refuses.
    fn answer(&mut self, question: Question) -> Result<Reasons, String> {
        let number = self.tally.questions;
        self.tally.questions += 1;
        match judged(&mut self.player, question) {
            Ok((reasons, None)) => Ok(reasons),
            Ok((reasons, Some(how))) => {
                let Question { row, tile, .. } = question;
                self.disagreements.push(format!(
                    "disagree question {number} row {row} tile {tile}: {how}"
                ));
                Ok(reasons)
            }
            Err(refusal) => {
                *self.tally.refused.entry(refusal).or_default() += 1;
                Err(format!("refused {refusal}\n"))
            }
        }
    }
}

/// The reasons and how they contradict the Rust's painting, if they do; or the recording's own number, then 12.
fn judged(player: &mut Player, question: Question) -> Result<(Reasons, Option<String>), u32> {
    let Question { row, tile, bytes } = question;
    player.play(bytes)?;
    let scene = player.judged(bytes).expect("an accepted recording");
    let reasons = reasons(&scene, player.width(), row, tile)?;
    let how = contradiction(&reasons, player, row, tile);
    Ok((reasons, how))
}

/// A place of a tile's list, and the attribute there.
type Placed = (usize, Kind, usize);

/// The tile's list as the Rust paints it on the player's screen must be what is shown, in the order of places, and there are no other attributes.
fn contradiction(reasons: &Reasons, player: &Player, row: u32, tile: u32) -> Option<String> {
    let (screen, width, panels) = (player.screen(), player.width(), player.panels());
    let counts = (reasons.draws.len(), reasons.layers.len());
    let [paints, layers, _] = screen.counts();
    let made = (paints, layers);
    if counts != made {
        return Some(format!("attributes {counts:?}, made {made:?}"));
    }
    let painted: Vec<Placed> = row_pieces(screen, width, panels, row as usize)
        .iter()
        .filter(|piece| u32::from(piece.first) <= tile && tile < u32::from(piece.end))
        .enumerate()
        .map(|(place, piece)| {
            let kind = if piece.layer { Kind::Layer } else { Kind::Draw };
            (place, kind, piece.attribute as usize)
        })
        .collect();
    let mut shown: Vec<Placed> = Vec::new();
    let mut hiders = Vec::new();
    for (kind, number, reason) in reasons.iter() {
        match reason {
            Reason::Shown(place) => shown.push((place, kind, number)),
            Reason::Hidden(by) => hiders.push(by),
            _ => {}
        }
    }
    shown.sort_unstable_by_key(|&(place, ..)| place);
    if shown != painted {
        return Some(format!("shown {shown:?}, painted {painted:?}"));
    }
    // What hides is itself the first that is painted.
    let first = |by: &usize| painted.first() == Some(&(0, Kind::Draw, *by));
    let other = hiders.into_iter().find(|by| !first(by))?;
    Some(format!("hidden by {other}, painted {painted:?}"))
}

impl Reason {
    /// Its text for the asked attribute, which ends in that one's panel if there is such an attribute. What hides has a panel of its own.
    fn text(self, panels: &Panels, kind: Kind, number: u32) -> String {
        let (_, words) = self.words();
        let words = match self {
            Self::Unknown => return words.into(),
            Self::Hidden(by) => {
                let other = panels.of(false, u32::try_from(by).expect("few"));
                format!("{words}, attribute {by} of panel {other}")
            }
            Self::Shown(place) => format!("{words}, place {place}"),
            Self::Uncovered | Self::CutAway | Self::Untouched => words.into(),
        };
        format!("{words}, panel {}", panels.of(kind == Kind::Layer, number))
    }

    /// Its place in the order, and its words.
    fn words(self) -> (u8, &'static str) {
        match self {
            Self::Unknown => (1, "unknown attribute"),
            Self::Uncovered => (2, "no segment covers the tile"),
            Self::CutAway => (3, "cut away by a clip box"),
            Self::Untouched => (4, "row never touched by the closing layer"),
            Self::Hidden(_) => (5, "hidden by a newer depth fill"),
            Self::Shown(_) => (6, "shown"),
        }
    }
}

impl Display for Kind {
    fn fmt(&self, out: &mut Formatter) -> std::fmt::Result {
        out.write_str(match self {
            Self::Draw => "draw",
            Self::Layer => "layer",
        })
    }
}

impl Tally {
    fn count(&mut self, kind: Kind, reason: Reason) {
        let (order, words) = reason.words();
        *self.reasons.entry((order, words, kind)).or_default() += 1;
    }
}

impl Display for Tally {
    fn fmt(&self, out: &mut Formatter) -> std::fmt::Result {
        let reasons: usize = self.reasons.values().sum();
        writeln!(out, "questions {} reasons {reasons}", self.questions)?;
        for ((_, words, kind), times) in &self.reasons {
            writeln!(out, "{times} {kind}: {words}")?;
        }
        for (number, times) in &self.refused {
            writeln!(out, "{times} refused {number}")?;
        }
        Ok(())
    }
}

#[cfg(test)]
mod tests {
    use super::{contradiction, stream, Answerer, Question};
    use crate::generate::draft::{clipped, filter, layer, solid, Draft, HALF};
    use crate::scene::scene;
    use crate::viewport::Mode;
    use crate::walk::Player;
    use crate::why::{reasons, Kind, Reason, Reasons};
    use crate::width::{Width, NO_WIDTHS};

    /// A draw over tiles 10 to 64 of row 0, hidden on tiles 32 to 64 by the next; a layer over row 1, a clip on tiles 0 to 8 that cuts its draw to
    /// 0 to 4. Before them an empty draw and a filter fill.
    fn recording() -> Draft {
        let mut draft = Draft::new(256, 8);
        let first = draft.segments(&[solid(0, 10, 64)]);
        let second = draft.segments(&[solid(0, 32, 64)]);
        let third = draft.segments(&[solid(1, 0, 8)]);
        for range in [(0, 0), first, second, third] {
            draft.draw(range);
        }
        draft.nodes(&[[3, 4, 0], [0, 1, 1], [1, 3, 2], [0, 0, 3]]);
        draft.layer(filter(layer((0, 0)), 0, [0, 0, 8, 4], [0, 0]));
        let mut half = layer((0, 1));
        half[5] = HALF;
        draft.layer(half);
        draft.layer(clipped(layer((0, 1)), [0, 4, 16, 8], third, 0));
        draft.rooted((1, 4))
    }

    fn answerer() -> Answerer {
        Answerer::new(Player::new(Mode::Exact, 1))
    }

    fn one(bytes: &[u8], row: u32, tile: u32, kind: Kind, number: u32) -> String {
        answerer().one(Question { row, tile, bytes }, kind, number)
    }

    fn all(bytes: &[u8], row: u32, tile: u32) -> String {
        answerer().all(Question { row, tile, bytes })
    }

    #[test]
    fn every_attribute_has_a_line() {
        let lines = "draw 0: no segment covers the tile, panel 0\n\
             draw 1: no segment covers the tile, panel 0\n\
             draw 2: no segment covers the tile, panel 0\n\
             draw 3: shown, place 0, panel 0\n\
             draw 4: cut away by a clip box, panel 0\n\
             layer 0: shown, place 1, panel 0\n\
             layer 1: shown, place 2, panel 0\n";
        assert_eq!(all(&recording().bytes(), 1, 7), lines);
        let empty = Draft::new(256, 8).rooted((0, 0)).bytes();
        assert_eq!(all(&empty, 0, 0), "");
    }

    #[test]
    fn one_line_for_each_reason() {
        let bytes = &recording().bytes()[..];
        for (row, tile, kind, number, line) in [
            (0, 0, Kind::Draw, 0, "shown, place 0"),
            (0, 2, Kind::Draw, 0, "no segment covers the tile"),
            (0, 31, Kind::Draw, 1, "shown, place 0"),
            (
                0,
                32,
                Kind::Draw,
                1,
                "hidden by a newer depth fill, attribute 2 of panel 0",
            ),
            (0, 32, Kind::Draw, 2, "shown, place 0"),
            (1, 3, Kind::Draw, 4, "shown, place 2"),
            (1, 4, Kind::Draw, 4, "cut away by a clip box"),
            (0, 0, Kind::Draw, 5, "unknown attribute"),
            (0, 0, Kind::Draw, u32::MAX, "unknown attribute"),
            (
                0,
                0,
                Kind::Layer,
                0,
                "row never touched by the closing layer",
            ),
            (0, 0, Kind::Layer, 1, "no segment covers the tile"),
            (1, 3, Kind::Layer, 1, "shown, place 3"),
            (0, 0, Kind::Layer, 2, "unknown attribute"),
        ] {
            let said = one(bytes, row, tile, kind, number);
            let panel = match line {
                "unknown attribute" => "",
                _ => ", panel 0",
            };
            assert_eq!(
                said,
                format!("{line}{panel}\n"),
                "row {row} tile {tile} {kind} {number}"
            );
        }
    }

    /// The same recording with panels: the asked attribute's, and before it that of what hides.
    #[test]
    fn a_reason_ends_in_its_panel() {
        let mut draft = recording();
        draft.draw_panels = vec![10, 11, 12, 255];
        draft.layer_panels = vec![20, 21, 22];
        let scene = scene(&draft, Mode::Exact);
        let mut player = Player::new(Mode::Exact, 1);
        player.play_scene(&scene).expect("accepted");
        for (row, tile, kind, number, line) in [
            (0, 0, Kind::Draw, 0, "shown, place 0, panel 20"),
            (0, 2, Kind::Draw, 0, "no segment covers the tile, panel 20"),
            (0, 31, Kind::Draw, 1, "shown, place 0, panel 11"),
            (
                0,
                32,
                Kind::Draw,
                1,
                "hidden by a newer depth fill, attribute 2 of panel 12, panel 11",
            ),
            (1, 3, Kind::Draw, 3, "shown, place 0, panel 255"),
            (1, 4, Kind::Draw, 4, "cut away by a clip box, panel 255"),
            (
                0,
                0,
                Kind::Layer,
                0,
                "row never touched by the closing layer, panel 21",
            ),
            (1, 3, Kind::Layer, 1, "shown, place 3, panel 22"),
            (0, 0, Kind::Layer, 2, "unknown attribute"),
        ] {
            let reasons = reasons(&scene, Width::Of128, row, tile).expect("on the screen");
            let said = reasons.of(kind, number).text(player.panels(), kind, number);
            assert_eq!(said, line, "row {row} tile {tile} {kind} {number}");
        }
    }

    /// Three draws over one another: where the newest covers a whole bucket of the width the others are hidden.
    #[test]
    fn a_bucket_is_as_wide_as_chosen() {
        let mut draft = Draft::new(520, 4);
        let lists = [solid(0, 0, 130), solid(0, 10, 100), solid(0, 15, 128)];
        for segment in lists {
            let range = draft.segments(&[segment]);
            draft.draw(range);
        }
        let root = draft.node((0, 3), 0);
        let bytes = draft.rooted(root).bytes();
        let hidden = "hidden by a newer depth fill, attribute";
        for (pixels, tile, lines) in [
            (64, 9, ["shown, place 0", "-", "-"]),
            (64, 10, ["shown, place 0", "shown, place 1", "-"]),
            (
                64,
                15,
                ["shown, place 0", "shown, place 1", "shown, place 2"],
            ),
            (64, 16, ["by 2", "by 2", "shown, place 0"]),
            (64, 127, ["by 2", "-", "shown, place 0"]),
            (64, 128, ["shown, place 0", "-", "-"]),
            (
                128,
                31,
                ["shown, place 0", "shown, place 1", "shown, place 2"],
            ),
            (128, 32, ["by 2", "by 2", "shown, place 0"]),
            (128, 127, ["by 2", "-", "shown, place 0"]),
            (
                256,
                63,
                ["shown, place 0", "shown, place 1", "shown, place 2"],
            ),
            (256, 64, ["by 2", "by 2", "shown, place 0"]),
            (256, 127, ["by 2", "-", "shown, place 0"]),
            (256, 129, ["shown, place 0", "-", "-"]),
        ] {
            let mut answerer = Answerer::new(Player::new(Mode::Exact, 1).at(pixels));
            let said = |line: &str| match line {
                "-" => "no segment covers the tile, panel 0".to_string(),
                "by 2" => format!("{hidden} 2 of panel 0, panel 0"),
                other => format!("{other}, panel 0"),
            };
            let own: String = (0..)
                .zip(lines)
                .map(|(n, line): (u32, &str)| format!("draw {n}: {}\n", said(line)))
                .collect();
            let bytes = &bytes[..];
            let all = answerer.all(Question {
                row: 0,
                tile,
                bytes,
            });
            assert_eq!(all, own, "tile {tile} at {pixels}");
            assert!(answerer.disagreements.is_empty());
        }
    }

    /// A number that is no width is refused by 2, after 3 and before 12.
    #[test]
    fn refused_at_no_width() {
        let bytes = recording().bytes();
        for pixels in NO_WIDTHS {
            let mut answerer = Answerer::new(Player::new(Mode::Exact, 1).at(pixels));
            for (bytes, number) in [(&bytes[..], 2), (&bytes[4..], 3)] {
                for row in [0, 99] {
                    let question = Question {
                        row,
                        tile: 0,
                        bytes,
                    };
                    assert_eq!(answerer.all(question), format!("refused {number}\n"));
                }
            }
        }
    }

    #[test]
    fn refused_by_its_own_number_then_by_12() {
        let good = recording();
        let mut viewport = recording();
        viewport.viewport[3] = 132;
        let mut record = recording();
        record.paints[0][0] = 2;
        let mut order = recording();
        order.segments[1] = solid(0, 9, 11);
        order.draws[0][2] = 2;
        let mut deep = recording();
        deep.layers[1][1..3].copy_from_slice(&[2, 3]);
        let short = &good.bytes()[4..];
        for (bytes, answer) in [
            (short, 3),
            (&viewport.bytes(), 2),
            (&record.bytes(), 4),
            (&order.bytes(), 5),
            (&deep.bytes(), 6),
            (&good.bytes(), 12),
        ] {
            for (row, tile) in [(2, 0), (0, 64), (2, 64), (1 << 30, 0), (0, u32::MAX)] {
                let line = format!("refused {answer}\n");
                assert_eq!(all(bytes, row, tile), line);
                assert_eq!(one(bytes, row, tile, Kind::Draw, 99), line);
            }
        }
        assert!(all(&good.bytes(), 1, 63).starts_with("draw 0: "));
        for viewport in [[0, 0, 0, 8], [0, 0, 256, 0]] {
            let bytes = Draft {
                viewport,
                ..recording()
            }
            .bytes();
            assert_eq!(all(&bytes, 0, 0), "refused 12\n");
        }
    }

    #[test]
    fn a_stream_may_end_anywhere() {
        let words = |words: [u32; 3]| words.map(u32::to_le_bytes).concat();
        let bytes = [words([2, 5, 6]), vec![8, 9], words([3, 1, 0]), vec![7]].concat();
        let question = |row, tile, bytes| Question { row, tile, bytes };
        let (first, second) = (question(5, 6, &[8, 9][..]), question(1, 0, &[7][..]));
        assert_eq!(stream(&bytes), [first, second]);
        assert_eq!(stream(&bytes[..26]), [first, question(1, 0, &[])]);
        assert_eq!(stream(&bytes[..25]), [first]);
        assert_eq!(stream(&bytes[..11]), []);
    }

    #[test]
    fn the_painting_contradicts_what_is_false() {
        let mut player = Player::new(Mode::Exact, 1);
        let bytes = recording().bytes();
        player.play(&bytes).expect("accepted");
        let (no, untouched) = (Reason::Uncovered, Reason::Untouched);
        let (by, shown) = (Reason::Hidden, Reason::Shown);
        let layers = vec![untouched, no];
        let agrees = |draws: &[Reason]| {
            let (draws, layers) = (draws.to_vec(), layers.clone());
            contradiction(&Reasons { draws, layers }, &player, 0, 32).is_none()
        };
        assert!(agrees(&[no, by(2), shown(0), no, no]));
        assert!(!agrees(&[no, by(1), shown(0), no, no]));
        assert!(!agrees(&[no, shown(0), shown(1), no, no]));
        assert!(!agrees(&[no, by(2), shown(1), no, no]));
        assert!(!agrees(&[no, by(2), no, no, no]));
        assert!(!agrees(&[no, by(2), shown(0), no]));
    }
}
