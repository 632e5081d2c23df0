//! Lists of a tile, from the account in words, and the Rust's own painting beside them, in rows with the most room that they can have.

use crate::limits::{FULL_DEPTH, FULL_ROW, MOST_ROWS, ROOM};
use crate::painting::{row_pieces, Piece};
use crate::print::piece_line;
use crate::questions::Question;
use crate::walk::Player;
use crate::why::list;
use std::collections::BTreeMap;
use std::fmt::{Display, Formatter};

/// What lists were held against, and how often each refusal was given.
#[derive(Default)]
pub struct Tally {
    questions: usize,
    entries: usize,
    /// Beside a painting in rows with room for 64 commands and 64 depth fills, on at most 32 rows.
    usual: usize,
    /// Beside one with room for 1,024 alone.
    roomy: usize,
    /// Of recordings that a full row refuses there too.
    alone: usize,
    refused: BTreeMap<u32, usize>,
}

/// Lists one after another, and keeps what the Rust's painting contradicts.
pub struct Lister {
    player: Player,
    pub tally: Tally,
    pub disagreements: Vec<String>,
}

impl Lister {
    pub fn new(player: Player) -> Self {
        Self {
            player: player.roomy(),
            tally: Tally::default(),
            disagreements: Vec::new(),
        }
    }

    /// A line for each entry, oldest first, or the line that refuses.
    pub fn list(&mut self, question: Question) -> String {
        let number = self.tally.questions;
        self.tally.questions += 1;
        let listed = self.listed(question);
        if let Err(how) = self.beside(question, &listed) {
            let Question { row, tile, .. } = question;
            self.disagreements.push(format!(
                "disagree question {number} row {row} tile {tile}: {how}"
            ));
        }
        match listed {
            Ok(pieces) => {
                self.tally.entries += pieces.len();
                pieces.iter().map(|piece| piece_line(piece, true)).collect()
            }
            Err(refusal) => {
                *self.tally.refused.entry(refusal).or_default() += 1;
                format!("refused {refusal}\n")
            }
        }
    }

    fn listed(&self, Question { row, tile, bytes }: Question) -> Result<Vec<Piece>, u32> {
        let scene = self.player.judged_long(bytes)?;
        list(
            &scene,
            self.player.width(),
            row,
            tile,
            self.player.first_id(),
        )
    }

    /// How the Rust's painting of the row contradicts a list, or its walk a refusal. A row that is full there says nothing of what comes after.
    fn beside(
        &mut self,
        Question { row, tile, bytes }: Question,
        listed: &Result<Vec<Piece>, u32>,
    ) -> Result<(), String> {
        let Ok(scene) = self.player.judged_long(bytes) else {
            return Ok(());
        };
        let played = self.player.play_scene(&scene).err();
        let pieces = match (played, listed) {
            (Some(FULL_ROW | FULL_DEPTH), _) => {
                self.tally.alone += 1;
                return Ok(());
            }
            (Some(number), Err(own)) if number == *own => return Ok(()),
            (None, Ok(pieces)) => pieces,
            (None, Err(12)) => return Ok(()),
            (played, _) => return Err(format!("the walk was refused by {played:?}")),
        };
        let screen = self.player.screen();
        let small = screen.fullest().iter().all(|&count| count <= ROOM);
        if small && screen.rows() <= MOST_ROWS as usize {
            self.tally.usual += 1;
        } else {
            self.tally.roomy += 1;
        }
        let (width, panels) = (self.player.width(), self.player.panels());
        let painted: Vec<Piece> = row_pieces(screen, width, panels, row as usize)
            .iter()
            .filter(|piece| u32::from(piece.first) <= tile && tile < u32::from(piece.end))
            .map(|piece| cut_to(piece, tile))
            .collect();
        if *pieces == painted {
            Ok(())
        } else {
            Err(format!("listed {pieces:?}, painted {painted:?}"))
        }
    }
}

/// What a tile receives of a piece: its alpha index goes up by 16 a tile.
fn cut_to(piece: &Piece, tile: u32) -> Piece {
    let first = u16::try_from(tile).expect("on the screen");
    let before = 16 * u32::from(first - piece.first);
    Piece {
        first,
        end: first + 1,
        alpha: piece.alpha.map(|index| index + before),
        ..*piece
    }
}

impl Display for Tally {
    fn fmt(&self, out: &mut Formatter) -> std::fmt::Result {
        writeln!(out, "questions {} entries {}", self.questions, self.entries)?;
        writeln!(out, "{} beside a painting with room for 64", self.usual)?;
        writeln!(out, "{} beside one with room for 1,024 alone", self.roomy)?;
        writeln!(
            out,
            "{} of a recording whose rows are full there too",
            self.alone
        )?;
        for (number, times) in &self.refused {
            writeln!(out, "{times} refused {number}")?;
        }
        Ok(())
    }
}

#[cfg(test)]
mod tests {
    use super::Lister;
    use crate::generate::draft::{clipped, layer, solid, Draft};
    use crate::questions::Question;
    use crate::viewport::Mode;
    use crate::walk::Player;

    fn all(draft: &Draft, row: u32, tile: u32) -> String {
        let mut lister = Lister::new(Player::new(Mode::Exact, 1));
        let bytes = &draft.bytes()[..];
        let text = lister.list(Question { row, tile, bytes });
        assert_eq!(lister.disagreements, Vec::<String>::new());
        text
    }

    /// Two draws of which the second hides on tiles 32 to 64; then a layer with a clip over tiles 4 to 40.
    fn recording() -> Draft {
        let mut draft = Draft::new(256, 8);
        let first = draft.segments(&[[1, 0, 2, 50, 160]]);
        let second = draft.segments(&[solid(0, 32, 64)]);
        let clip = draft.segments(&[[1, 0, 4, 40, 0]]);
        draft.draw(first);
        draft.draw(second);
        draft.nodes(&[[0, 1, 0], [0, 2, 0], [0, 0, 1]]);
        draft.layer(clipped(layer((0, 1)), [0, 0, 256, 8], clip, 0));
        draft.rooted((0, 3))
    }

    #[test]
    fn a_tile_is_listed_in_order() {
        let draft = recording();
        assert_eq!(
            all(&draft, 0, 3),
            "p 0 3 4 176 0 0\np 1 3 4 176 0 0\np 3 3 4 176 1 0\n"
        );
        assert_eq!(
            all(&draft, 0, 33),
            "p 2 33 34 - 0 0\np 3 33 34 656 1 0\nl 0 33 34 464 1 0\n"
        );
        assert_eq!(all(&draft, 1, 3), "");
        for (row, tile) in [(2, 0), (0, 64), (u32::MAX, u32::MAX)] {
            assert_eq!(all(&draft, row, tile), "refused 12\n");
        }
    }

    /// A row takes 64 commands elsewhere; a layer in itself is refused by 6 behind them.
    #[test]
    fn no_row_is_full() {
        let mut draft = Draft::new(64, 4);
        let range = draft.segments(&[[1, 0, 0, 4, 0]]);
        draft.draw(range);
        draft.nodes(&[[0, 1, 0]; 65]);
        let mut draft = draft.rooted((0, 65));
        assert_eq!(all(&draft, 0, 0).lines().count(), 65);
        let around = draft.nodes(&[[0, 0, 1]]);
        draft.layer(layer(around));
        draft.root[1] = 66;
        assert_eq!(all(&draft, 0, 0), "refused 6\n");
    }

    /// 1,024 attributes are listed; one more is 9.
    #[test]
    fn attributes_are_counted() {
        let mut draft = Draft::new(64, 4);
        let range = draft.segments(&[[1, 0, 0, 4, 0]]);
        draft.draw(range);
        draft.nodes(&[[0, 1, 0]; 1_025]);
        let mut draft = draft.rooted((0, 1_024));
        assert_eq!(all(&draft, 0, 0).lines().count(), 1_024);
        draft.root[1] += 1;
        assert_eq!(all(&draft, 0, 0), "refused 9\n");
    }

    /// A screen of more than 32 rows, and a file of more than 65,536 bytes.
    #[test]
    fn tall_and_long_files_are_taken() {
        let mut draft = recording();
        draft.viewport[3] = 2_048;
        assert_eq!(all(&draft, 511, 0), "");
        assert_eq!(all(&draft, 512, 0), "refused 12\n");
        draft.segments.extend([solid(0, 0, 1); 4_000]);
        assert!(draft.bytes().len() > 65_536);
        assert_eq!(all(&draft, 0, 3).lines().count(), 3);
    }
}
