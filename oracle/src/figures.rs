//! What the depth stage saves of recordings, in whole numbers: what is asked for and what is hidden by the account in words alone, what is painted by the Rust's
//! own pieces, commands and depth fills by its rows.

use crate::painting::pieces;
use crate::walk::Player;
use crate::why;

/// A list of recordings has no more.
const MOST_RECORDINGS: usize = 65_536;

/// Of a recording, or of many.
#[derive(Debug, Clone, Copy, PartialEq, Eq, Default)]
struct Figures {
    /// Tiles: each entry of plain draw order, at each tile.
    asked: usize,
    painted: usize,
    hidden: usize,
    commands: usize,
    fills: usize,
    refused: usize,
}

impl Figures {
    fn add(&mut self, other: Self) {
        self.asked += other.asked;
        self.painted += other.painted;
        self.hidden += other.hidden;
        self.commands += other.commands;
        self.fills += other.fills;
        self.refused += other.refused;
    }

    fn text(self) -> String {
        let Self {
            asked,
            painted,
            hidden,
            commands,
            fills,
            refused,
        } = self;
        format!(
            "asked {asked} painted {painted} hidden {hidden} commands {commands} fills {fills} refused {refused}\n"
        )
    }
}

/// Counts recordings one after another, and keeps in which of them tiles are lost or counted twice.
pub struct Counter {
    player: Player,
    pub disagreements: Vec<String>,
}

impl Counter {
    pub fn new(player: Player) -> Self {
        Self {
            player,
            disagreements: Vec::new(),
        }
    }

    /// A line for each recording, then one for all of them.
    pub fn text(&mut self, recordings: &[&[u8]]) -> String {
        if recordings.len() > MOST_RECORDINGS {
            return "refused 4\n".into();
        }
        let mut total = Figures::default();
        let mut out = String::new();
        for (i, bytes) in recordings.iter().enumerate() {
            let figures = self.figures(bytes);
            if figures.asked != figures.painted + figures.hidden {
                let line = figures.text();
                self.disagreements
                    .push(format!("disagree recording {i} {}", line.trim_end()));
            }
            total.add(figures);
            out += &format!("recording {i} {}", figures.text());
        }
        out + "total " + &total.text()
    }

    fn figures(&mut self, bytes: &[u8]) -> Figures {
        let refused = Figures {
            refused: 1,
            ..Figures::default()
        };
        let Ok(scene) = self.player.judged(bytes) else {
            return refused;
        };
        if self.player.play_scene(&scene).is_err() {
            return refused;
        }
        let (screen, width) = (self.player.screen(), self.player.width());
        let tiles = |piece: &crate::painting::Piece| usize::from(piece.end - piece.first);
        let painted = pieces(screen, width, self.player.panels());
        let (asked, hidden) = why::counted(&scene, width);
        let rows = || (0..screen.rows()).map(|row| screen.row(row));
        Figures {
            asked,
            painted: painted.iter().flatten().map(tiles).sum(),
            hidden,
            commands: rows().map(|row| row.commands.len()).sum(),
            fills: rows().map(|row| row.fills.len()).sum(),
            refused: 0,
        }
    }
}

#[cfg(test)]
mod tests {
    use super::{Counter, MOST_RECORDINGS};
    use crate::generate::draft::{clipped, filter, layer, solid, Draft};
    use crate::viewport::Mode;
    use crate::walk::Player;

    fn text(recordings: &[&[u8]]) -> String {
        let mut counter = Counter::new(Player::new(Mode::Exact, 1));
        let text = counter.text(recordings);
        assert_eq!(counter.disagreements, Vec::<String>::new());
        text
    }

    /// What stands before the line of all recordings, without the recording's number.
    fn one(draft: Draft) -> String {
        let text = text(&[&draft.bytes()]);
        let line = text.lines().next().expect("a line");
        line.strip_prefix("recording 0 ").expect("its line").into()
    }

    /// Draws of these segments, each by itself, one after the other.
    fn drawn(width: u32, height: u32, segments: &[[u32; 5]]) -> Draft {
        let mut draft = Draft::new(width, height);
        for segment in segments {
            let range = draft.segments(&[*segment]);
            draft.draw(range);
        }
        let count = u32::try_from(segments.len()).expect("few");
        let root = draft.node((0, count), 0);
        draft.rooted(root)
    }

    /// The worked example of docs/RULES.md: 54 and 8 tiles of two draws, and a layer without a clip, which closes over the 64 tiles of the row that it is seen in.
    fn worked() -> Draft {
        let mut draft = drawn(256, 8, &[solid(0, 10, 64), solid(1, 0, 8)]);
        let inner = draft.nodes(&[[1, 2, 0]]);
        let number = draft.layer(layer(inner));
        let root = draft.nodes(&[[0, 1, number]]);
        draft.rooted(root)
    }

    #[test]
    fn the_worked_example_is_counted() {
        assert_eq!(
            one(worked()),
            "asked 126 painted 126 hidden 0 commands 5 fills 1 refused 0"
        );
    }

    /// By hand, at 32 tiles a bucket.
    #[test]
    fn hidden_tiles_are_those_under_whole_buckets() {
        for (segments, counts) in [
            // A part of a bucket hides nothing; a bucket with parts beside it hides the bucket.
            (
                [solid(0, 0, 128), solid(0, 36, 60)],
                "asked 152 painted 152 hidden 0",
            ),
            (
                [solid(0, 0, 128), solid(0, 20, 70)],
                "asked 178 painted 146 hidden 32",
            ),
            // The same tiles twice: the older ones' bucket is hidden, their other tiles are not.
            (
                [solid(0, 20, 70), solid(0, 20, 70)],
                "asked 100 painted 68 hidden 32",
            ),
            // What is newer is not hidden, nor is what has alphas ever hiding.
            (
                [solid(0, 0, 128), [1, 0, 40, 60, 0]],
                "asked 148 painted 148 hidden 0",
            ),
            (
                [solid(0, 0, 128), [1, 0, 0, 128, 0]],
                "asked 256 painted 256 hidden 0",
            ),
        ] {
            let line = one(drawn(512, 4, &segments));
            assert!(line.starts_with(counts), "{segments:?}: {line}");
        }
    }

    /// A segment is asked for on the screen alone, a closing where its row was touched, a filter over its rows.
    #[test]
    fn what_is_cut_away_is_not_asked_for() {
        assert_eq!(
            one(drawn(64, 4, &[solid(0, 10, 40), solid(1, 0, 8)])),
            "asked 6 painted 6 hidden 0 commands 1 fills 0 refused 0"
        );

        let mut draft = Draft::new(256, 8);
        let clip = draft.segments(&[solid(0, 4, 40), solid(1, 4, 40)]);
        let below = draft.segments(&[solid(0, 0, 8)]);
        draft.draw(below);
        let inner = draft.nodes(&[[0, 1, 0]]);
        let number = draft.layer(clipped(layer(inner), [0, 0, 64, 8], clip, 0));
        let root = draft.nodes(&[[0, 0, number]]);
        // Eight tiles of the draw, and in its row alone the clip's 36.
        assert!(one(draft.rooted(root)).starts_with("asked 44 painted 44 hidden 0"));

        let mut draft = Draft::new(256, 8);
        let number = draft.layer(filter(layer((0, 0)), 5, [0, 0, 128, 8], [0, 0]));
        let root = draft.nodes(&[[0, 0, number]]);
        assert!(one(draft.rooted(root)).starts_with("asked 64 painted 64 hidden 0"));
    }

    /// A refused recording adds to its own column alone, and the last line has all of them.
    #[test]
    fn recordings_are_added_up() {
        assert_eq!(
            text(&[]),
            "total asked 0 painted 0 hidden 0 commands 0 fills 0 refused 0\n"
        );
        let worked = worked().bytes();
        assert_eq!(
            text(&[&worked, &[1, 2, 3], &worked]),
            "recording 0 asked 126 painted 126 hidden 0 commands 5 fills 1 refused 0\n\
             recording 1 asked 0 painted 0 hidden 0 commands 0 fills 0 refused 1\n\
             recording 2 asked 126 painted 126 hidden 0 commands 5 fills 1 refused 0\n\
             total asked 252 painted 252 hidden 0 commands 10 fills 2 refused 1\n"
        );
    }

    #[test]
    fn too_many_recordings_are_refused() {
        let mut list = vec![&[][..]; MOST_RECORDINGS];
        assert!(text(&list)
            .ends_with("\ntotal asked 0 painted 0 hidden 0 commands 0 fills 0 refused 65536\n"));
        list.push(&[]);
        assert_eq!(text(&list), "refused 4\n");
    }
}
