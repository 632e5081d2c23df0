//! Recordings composited in colours by the port, by the original and in plain draw order: every tile of every screen has to come to the same.

mod port;

use oracle::colours::{Log, Rgba};
use oracle::composited::{accounts, Accounts};
use oracle::generate::{coloured, Made};
use oracle::plain::{Closing, Met, Picture};
use oracle::print;
use oracle::random::Random;
use oracle::viewport::Mode;
use oracle::walk::Player;
use port::Following;

const USAGE: &str = "usage: colours [--width N] [--break first|second|box|pieces] SEED COUNT";

const WIDTHS: [u32; 3] = [64, 128, 256];

/// What is composited, and how. With something broken the accounts have to come apart.
struct Setting {
    colours: (Rgba, Log),
    closing: Closing,
    following: Following,
}

impl Setting {
    fn lawful() -> Self {
        Self {
            colours: (Rgba, Log::LAWFUL),
            closing: Closing::OwnRows,
            following: Following::Nesting,
        }
    }

    /// One with this broken.
    fn broken(what: &str) -> Self {
        let mut setting = Self::lawful();
        match what {
            "first" => setting.colours.1.forgets = false,
            "second" => setting.colours.1.is_gentle = false,
            "box" => setting.closing = Closing::AllRows,
            "pieces" => setting.following = Following::Pieces,
            _ => usage(),
        }
        setting
    }
}

fn main() {
    let mut words: Vec<String> = std::env::args().skip(1).collect();
    let setting =
        option(&mut words, "--break").map_or_else(Setting::lawful, |what| Setting::broken(&what));
    let widths = match option(&mut words, "--width") {
        Some(width) => vec![number(&width)],
        None => WIDTHS.to_vec(),
    };
    let (seed, count) = match &words[..] {
        [seed, count] => (number(seed), number(count)),
        _ => usage(),
    };
    if widths.iter().any(|width| !WIDTHS.contains(width)) {
        usage();
    }
    let mut tally = Tally::default();
    for (i, (made, mode)) in (0..count).zip(coloured::recordings(seed)) {
        for &width in &widths {
            if let Err(how) = tally.take(&setting, seed, i, &made, mode, width) {
                println!("{how}");
                std::process::exit(1);
            }
        }
    }
    print!("{}", tally.text());
}

#[derive(Default)]
struct Tally {
    accepted: usize,
    refused: usize,
    snapping: usize,
    met: Met,
    turns: usize,
}

impl Tally {
    /// A recording at a width: how the accounts differ, if they do.
    fn take(
        &mut self,
        setting: &Setting,
        seed: u32,
        i: u32,
        made: &Made,
        mode: Mode,
        width: u32,
    ) -> Result<(), String> {
        let where_at = format!(
            "seed {seed}, recording {i} ({}), {width} pixels, {mode:?}",
            made.name
        );
        let colours = &setting.colours;
        let mut player = Player::new(mode, 1).at(width);
        let told = accounts(&mut player, &made.bytes, colours, setting.closing);
        let screen = port::screen(&made.bytes, mode, width);
        let (told, screen) = match (told, screen) {
            (Ok(told), Ok(screen)) => (told, screen),
            (Err(number), Err(answer)) if number == answer.number() => {
                self.refused += 1;
                return Ok(());
            }
            (told, screen) => {
                let (original, port) = (told.err(), screen.err());
                return Err(format!(
                    "{where_at}: the original answers {original:?}, the port {port:?}"
                ));
            }
        };
        let mut random = Random::new(seed ^ i);
        let painted = port::painted(
            &screen,
            &told.recording.paints,
            &told.hiding,
            colours,
            setting.following,
            &mut random,
        )
        .map_err(|answer| format!("{where_at}: painting answers {answer:?}"))?;
        let Accounts {
            recording,
            plain,
            original,
            met,
            ..
        } = told;
        let others = [
            ("the original's commands", &original),
            ("the port by steps", &painted.steps),
            ("the port by commands", &painted.commands),
        ];
        for (whose, other) in others {
            if let Some(how) = difference(&plain, other) {
                let text = print::recording(&recording);
                return Err(format!(
                    "{where_at}: plain order and {whose}: {how}\n{text}"
                ));
            }
        }
        self.accepted += 1;
        self.snapping += usize::from(mode == Mode::Snapping);
        self.turns += painted.turns;
        self.met.add(met);
        Ok(())
    }

    fn text(&self) -> String {
        let Met {
            tiles,
            hiding,
            gentle,
            destructive,
            outside,
            deepest,
        } = self.met;
        let lines = [
            (
                self.accepted,
                "recordings at a width composited, all tiles the same",
            ),
            (self.snapping, "of them read in the snapping mode"),
            (self.refused, "refused, by the same number"),
            (tiles, "tiles"),
            (self.turns, "painting steps"),
            (hiding, "fills of a tile that hide what was there"),
            (
                gentle,
                "closings of a blank tile by a blend that is not destructive",
            ),
            (destructive, "closings of a blank tile by one that is"),
            (
                outside,
                "tiles of a clip outside the rows of its layer's box, under such a blend",
            ),
            (deepest, "layers open at most"),
        ];
        lines
            .iter()
            .map(|(count, what)| format!("{count} {what}\n"))
            .collect()
    }
}

/// Where two pictures, or their attributes, differ first.
fn difference<B: PartialEq + std::fmt::Debug>(
    one: &Picture<B>,
    other: &Picture<B>,
) -> Option<String> {
    if one.paints != other.paints {
        return Some(format!("paints {:?}\nand {:?}", one.paints, other.paints));
    }
    if one.layers != other.layers {
        return Some(format!("layers {:?}\nand {:?}", one.layers, other.layers));
    }
    if one.rows.len() != other.rows.len() {
        return Some(format!("{} and {} rows", one.rows.len(), other.rows.len()));
    }
    for (row, (one, other)) in one.rows.iter().zip(&other.rows).enumerate() {
        if one.len() != other.len() {
            return Some(format!(
                "row {row}: {} and {} tiles",
                one.len(),
                other.len()
            ));
        }
        for (tile, (one, other)) in one.iter().zip(other).enumerate() {
            if one != other {
                return Some(format!("row {row} tile {tile}: {one:?} and {other:?}"));
            }
        }
    }
    None
}

/// Takes `NAME WORD` out of the arguments.
fn option(words: &mut Vec<String>, name: &str) -> Option<String> {
    let at = words.iter().position(|word| word == name)?;
    if at + 1 == words.len() {
        usage();
    }
    words.remove(at);
    Some(words.remove(at))
}

fn number(word: &str) -> u32 {
    word.parse().unwrap_or_else(|_| usage())
}

fn usage() -> ! {
    eprintln!("{USAGE}");
    std::process::exit(2);
}
