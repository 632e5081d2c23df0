//! Room back in a crowded row, written from the rules in words. The original has no such call: what is left is worked out here by single removals, and the row of the
//! original then has those of its own commands that are left.

use crate::random::Random;
use crate::screen::{Command, DepthFill, Range, Screen};

/// What hides a row's fills: the newest id of each of its buckets, of so many tiles each, and the ids of the paint and of the layer attributes.
pub(crate) struct Hiding {
    newest: Vec<u32>,
    width: u32,
    ids: [Vec<u32>; 2],
}

impl Hiding {
    /// On a row of the screen, with so many buckets of so many tiles.
    pub(crate) fn of(screen: &dyn Screen, row: usize, buckets: u32, width: u32) -> Self {
        let paints: Vec<u32> = screen.paint_attrs().iter().map(|attr| attr.id).collect();
        let layers = screen.layer_attrs().iter().map(|attr| attr.id).collect();
        Self {
            newest: newest(&screen.row(row).fills, &paints, buckets),
            width,
            ids: [paints, layers],
        }
    }

    /// Whether no tile of these is visible for the id of a paint attribute, or a layer attribute: its bucket is not there, or holds a greater id.
    pub(crate) fn hides(&self, layer: bool, attribute: u32, (first, end): Range) -> bool {
        let id = self.ids[usize::from(layer)][attribute as usize];
        let newest = |tile: u32| self.newest.get((tile / self.width) as usize);
        (first..end).all(|tile| newest(tile).is_none_or(|&newest| newest > id))
    }
}

/// The id of the last depth fill that covers each of so many buckets; 0 where none does.
fn newest(fills: &[DepthFill], ids: &[u32], buckets: u32) -> Vec<u32> {
    let of = |bucket: u32| {
        let covers = |fill: &&DepthFill| fill.buckets.0 <= bucket && bucket < fill.buckets.1;
        let last = fills.iter().rev().find(covers);
        last.map_or(0, |fill| ids[fill.attribute as usize])
    };
    (0..buckets).map(of).collect()
}

/// The single removals that commands allow: the place of each hidden fill with 1, that of each PushBuf directly followed by a PopBuf with 2.
fn removals(commands: &[(usize, Command)], hiding: &Hiding) -> Vec<(usize, usize)> {
    let next = |place: usize| commands.get(place + 1).map(|(_, next)| *next);
    let allowed = |(place, (_, command)): (usize, &(usize, Command))| match *command {
        Command::Fill(fill) if hiding.hides(fill.layer, fill.attribute, fill.tiles) => {
            Some((place, 1))
        }
        Command::Push(_) if next(place) == Some(Command::Pop) => Some((place, 2)),
        _ => None,
    };
    commands.iter().enumerate().filter_map(allowed).collect()
}

/// The places of the commands that are left when single removals, any of those that there are, have been made until there is none.
pub(crate) fn left(commands: &[Command], hiding: &Hiding, random: &mut Random) -> Vec<usize> {
    let mut left: Vec<(usize, Command)> = commands.iter().copied().enumerate().collect();
    loop {
        let removals = removals(&left, hiding);
        if removals.is_empty() {
            return left.into_iter().map(|(place, _)| place).collect();
        }
        let (place, count) = random.pick(&removals);
        left.drain(place..place + count);
    }
}

#[cfg(test)]
mod tests {
    use super::{left, newest, Hiding};
    use crate::random::Random;
    use crate::screen::Command::{Pop, Push};
    use crate::screen::{Command, DepthFill, Fill, Range};

    const FAR: Command = Push(Some((0, 64)));

    /// A fill of a paint attribute, whose id is one more.
    fn paint(attribute: u32, tiles: Range) -> Command {
        Command::Fill(Fill {
            layer: false,
            tiles,
            alpha: None,
            attribute,
        })
    }

    fn layer(attribute: u32, tiles: Range) -> Command {
        Command::Fill(Fill {
            layer: true,
            tiles,
            alpha: Some(160),
            attribute,
        })
    }

    /// Two buckets of 32 tiles that hold 5 and 3; paint attributes of the ids from 1 on, layer attributes of those from 11 on.
    fn hiding() -> Hiding {
        Hiding {
            newest: vec![5, 3],
            width: 32,
            ids: [(1..10).collect(), (11..20).collect()],
        }
    }

    #[test]
    fn what_is_left_by_hand() {
        let hidden = paint(1, (0, 64));
        let stays = layer(0, (0, 4));
        let cases: [(&[Command], &[usize]); 12] = [
            (&[], &[]),
            (&[FAR, hidden, Pop], &[]),
            (&[Push(None), FAR, Pop, Pop], &[]),
            (&[FAR, hidden, stays, Pop], &[0, 2, 3]),
            (&[FAR, FAR, hidden, Pop, stays, Pop], &[0, 4, 5]),
            (&[paint(3, (0, 32)), paint(3, (0, 33))], &[1]),
            (&[paint(4, (0, 32)), paint(3, (31, 32))], &[0]),
            (&[paint(2, (32, 64)), paint(1, (32, 64))], &[0]),
            (&[paint(8, (9, 9)), paint(8, (64, 70))], &[]),
            (&[paint(8, (63, 70)), Push(None), Pop], &[0]),
            (&[FAR, paint(8, (0, 1)), Pop, FAR, Pop], &[0, 1, 2]),
            (&[hidden, hidden, hidden], &[]),
        ];
        for (commands, places) in cases {
            for seed in 0..20 {
                let own = left(commands, &hiding(), &mut Random::new(seed));
                assert_eq!(own, places, "{commands:?}");
            }
        }
    }

    /// The last one that covers a bucket, whatever the ids.
    #[test]
    fn the_newest_ids() {
        let fill = |attribute, buckets| DepthFill { buckets, attribute };
        let fills = [fill(0, (0, 3)), fill(1, (1, 2)), fill(2, (1, 2))];
        assert_eq!(newest(&fills, &[7, 9, 8], 4), [7, 8, 7, 0]);
        assert_eq!(newest(&fills[..2], &[7, 9, 8], 4), [7, 9, 7, 0]);
    }
}
