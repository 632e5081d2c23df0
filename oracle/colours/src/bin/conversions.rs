//! Files of both editions converted by the linked port and by the oracle's own converter: answers and bytes have to be the same, each file has to come back as it
//! was, and the port has to bucket and paint a file and what it was converted to alike.

use coarse::{
    to_edition_one, to_edition_two, Answer, CommandBucketer, Edition, LayerFillAttrs, Mode,
    PaintFillAttrs, Piece, Setup,
};
use oracle::editions::{self, converted};
use oracle::generate::{files, Made};
use oracle::viewport;
use std::collections::BTreeMap;

const USAGE: &str = "usage: conversions SEED COUNT";

/// The modes, as the port and as the oracle have them.
const MODES: [(Mode, viewport::Mode); 2] = [
    (Mode::Exact, viewport::Mode::Exact),
    (Mode::Snapping, viewport::Mode::Snapping),
];

/// What the port leaves of a recording: attributes, then each row's pieces.
#[derive(PartialEq)]
struct Painted {
    paints: Vec<PaintFillAttrs>,
    /// The opacity by its bits, since a NaN is not itself.
    layers: Vec<(u32, LayerFillAttrs)>,
    rows: Vec<Vec<Piece>>,
}

/// How often there was each answer, what came back, and what was accepted as a recording.
#[derive(Default)]
struct Tally {
    answers: BTreeMap<(&'static str, u32), u32>,
    back: u32,
    painted: u32,
}

fn main() {
    let words: Vec<String> = std::env::args().skip(1).collect();
    let [seed, count] = &words[..] else { usage() };
    let mut tally = Tally::default();
    for from in [editions::Edition::One, editions::Edition::Two] {
        for (i, made) in files::files(number(seed), number(count), from)
            .iter()
            .enumerate()
        {
            for mode in MODES {
                if let Err(how) = tally.take(made, from, mode) {
                    println!("file {i}, '{}', {from:?}, {:?}: {how}", made.name, mode.0);
                    std::process::exit(1);
                }
            }
        }
    }
    for ((to, answer), count) in &tally.answers {
        println!("{count} {to}, answer {answer}");
    }
    println!("{} came back as they were", tally.back);
    println!(
        "{} bucketed and painted alike in both editions",
        tally.painted
    );
}

impl Tally {
    fn take(
        &mut self,
        made: &Made,
        from: editions::Edition,
        (mode, own): (Mode, viewport::Mode),
    ) -> Result<(), String> {
        let told = converted(&made.bytes, from, own);
        let name = match from {
            editions::Edition::One => "to edition two",
            editions::Edition::Two => "to edition one",
        };
        *self
            .answers
            .entry((name, told.as_ref().err().copied().unwrap_or(0)))
            .or_default() += 1;
        // The port takes words; what is none, or too long for a file, is the reader's to refuse.
        let Some(file) = words_of(&made.bytes) else {
            return if told == Err(3) {
                Ok(())
            } else {
                Err("no words are taken".into())
            };
        };
        let given = port(&file, from, mode);
        let wanted = match &told {
            Ok(bytes) => Ok(words_of(bytes).ok_or("words are no words")?),
            Err(number) => Err(*number),
        };
        if given.as_ref().map_err(|answer| answer.number())
            != wanted.as_ref().map_err(|number| *number)
        {
            return Err(format!(
                "the port answers {:?}, the oracle {:?}",
                given.map_or_else(Answer::number, |_| 0),
                wanted.map_or_else(|number| number, |_| 0)
            ));
        }
        let Ok(other) = given else { return Ok(()) };
        if port(&other, from.other(), mode).as_ref() != Ok(&file) {
            return Err("it does not come back".into());
        }
        self.back += 1;
        let (first, second) = (
            painted(&file, from, mode),
            painted(&other, from.other(), mode),
        );
        if first != second {
            return Err("it is not bucketed alike".into());
        }
        self.painted += u32::from(first.is_ok());
        Ok(())
    }
}

fn words_of(bytes: &[u8]) -> Option<Vec<u32>> {
    let words = bytes.chunks_exact(4);
    let whole = words.remainder().is_empty() && bytes.len() <= 1_048_576;
    whole.then(|| {
        words
            .map(|word| u32::from_le_bytes([word[0], word[1], word[2], word[3]]))
            .collect()
    })
}

fn port(file: &[u32], from: editions::Edition, mode: Mode) -> Result<Vec<u32>, Answer> {
    match from {
        editions::Edition::One => to_edition_two(file, mode),
        editions::Edition::Two => to_edition_one(file, mode),
    }
}

fn painted(file: &[u32], edition: editions::Edition, mode: Mode) -> Result<Painted, Answer> {
    let edition = match edition {
        editions::Edition::One => Edition::One,
        editions::Edition::Two => Edition::Two,
    };
    let setup = match mode {
        Mode::Snapping => Setup::snapping(64, 64),
        _ => Setup::new(64, 64),
    };
    let mut screen = CommandBucketer::from_wh(0, 0, setup)?;
    screen.bucket_commands(edition, file)?;
    screen.begin_painting()?;
    let rows = (0..screen.rows().len())
        .map(|row| screen.paint_row(row).map(<[Piece]>::to_vec))
        .collect::<Result<_, _>>()?;
    Ok(Painted {
        paints: screen.paint_attrs().collect(),
        layers: screen
            .layer_attrs()
            .map(|mut attrs| {
                let bits = attrs.opacity.to_bits();
                attrs.opacity = 0.0;
                (bits, attrs)
            })
            .collect(),
        rows,
    })
}

/// Decimal digits alone.
fn number(word: &str) -> u32 {
    let digits = word.bytes().all(|byte| byte.is_ascii_digit());
    word.parse()
        .ok()
        .filter(|_| digits)
        .unwrap_or_else(|| usage())
}

fn usage() -> ! {
    eprintln!("{USAGE}");
    std::process::exit(2);
}
