//! Answers of the original Rust, to hold the definitions and the port against.

use oracle::editions::{self, Edition};
use oracle::figures::Counter;
use oracle::lists::Lister;
use oracle::questions::{self, Answerer, Question};
use oracle::viewport::Mode;
use oracle::why::Kind;
use oracle::width::Width;
use oracle::{calls, edited, file, generate, leaves, print, walk};
use std::collections::BTreeMap;
use std::io::{Read, Write};

const USAGE: &str = "usage: oracle rowlist [--snap] [--width N] [--edition N] [--first-id N] < FILE
       oracle rowdump [--snap] [--width N] [--edition N] [--panels] [--first-id N] < STREAM
       oracle lines [--snap] [--width N] [--edition N] [--first-id N] < STREAM
       oracle figures [--snap] [--width N] [--edition N] [--first-id N] < STREAM
       oracle generate SEED COUNT [all|edges|scenes|damaged|snapped|wide|heavy|ids] > STREAM
       oracle names SEED COUNT [KIND]
       oracle edits [--rows|--moved] SEED COUNT > STREAM
       oracle edited ROWS < DUMP
       oracle why [--snap] [--width N] [--edition N] [--first-id N] [--tally] ROW TILE [draw|layer N] < FILE
       oracle why [--snap] [--width N] [--edition N] [--first-id N] [--tally] --stream < QUESTIONS
       oracle questions [--width N] SEED COUNT [KIND] > QUESTIONS
       oracle questions [--width N] [--edition N] --lists SEED COUNT [KIND] > QUESTIONS
       oracle tilelist [--snap] [--width N] [--edition N] [--first-id N] [--tally] ROW TILE < FILE
       oracle tilelist [--snap] [--width N] [--edition N] [--first-id N] [--tally] --stream < QUESTIONS
       oracle editions [--snap] new|old < FILE > FILE
       oracle editions [--snap] [--tally] --stream new|old < STREAM > STREAM
       oracle files SEED COUNT new|old > STREAM
       oracle leaves [--text] [SEED [COUNT]]
       oracle calls SEED COUNT [MOST] > CALLS
       oracle answers < CALLS
       oracle removed < CALLS
       oracle histories SEED COUNT > CALLS
       oracle told < CALLS
       oracle forged [--text]";

fn main() {
    let mut words: Vec<String> = std::env::args().skip(1).collect();
    let first_id = option(&mut words, "--first-id").unwrap_or(1);
    let mode = mode(&mut words);
    let width = width(&mut words);
    let edition = edition(&mut words);
    let panels = panels(&mut words);
    let mut player = walk::Player::new(mode, first_id).at(width).told(edition);
    let words: Vec<&str> = words.iter().map(String::as_str).collect();
    let mut agreed = true;
    let out = match words[..] {
        ["why", ..] => {
            let (out, answerer) = why(player, &words[1..]);
            agreed = answerer.disagreements.is_empty();
            out
        }
        ["tilelist", ..] => {
            let (out, lister) = tile_lists(player, &words[1..]);
            agreed = lister.disagreements.is_empty();
            out
        }
        ["questions", ref given @ ..] => asked(given, width, edition),
        ["rowlist"] => print::rowlist(&mut player, &input()).into_bytes(),
        ["rowdump"] => dump(|bytes| print::rowdump(&mut player, bytes, panels)),
        ["figures"] => {
            let mut counter = Counter::new(player);
            let text = counter.text(&file::stream(&input()));
            for line in &counter.disagreements {
                eprintln!("{line}");
            }
            agreed = counter.disagreements.is_empty();
            text.into_bytes()
        }
        ["generate", seed, count] => generate::stream(&made(seed, count, "all")),
        ["generate", seed, count, kind] => generate::stream(&made(seed, count, kind)),
        ["names", seed, count] => generate::names(&made(seed, count, "all")),
        ["names", seed, count, kind] => generate::names(&made(seed, count, kind)),
        ["edits", seed, count] => {
            generate::edits::stream(&generate::edits::pairs(number(seed), number(count)))
        }
        ["edits", "--rows", seed, count] => {
            generate::edits::rows(&generate::edits::pairs(number(seed), number(count)))
        }
        ["edits", "--moved", seed, count] => {
            generate::edits::stream(&generate::edits::moved(number(seed), number(count)))
        }
        ["edited", rows] => {
            let report = compared(rows);
            agreed = report.agreed();
            report.text().into_bytes()
        }
        ["editions", ref given @ ..] => converted(given, mode),
        ["files", seed, count, to] => generate::stream(&generate::files::files(
            number(seed),
            number(count),
            before(to),
        )),
        ["leaves", ..] => leaves_of(&words[1..]),
        ["calls", seed, count] => generate::calls::stream(number(seed), number(count), u32::MAX),
        ["calls", seed, count, most] => {
            generate::calls::stream(number(seed), number(count), number(most))
        }
        ["forged"] => generate::forged::words(),
        ["forged", "--text"] => generate::forged::names(),
        ["answers"] => calls::stream(
            &calls::sequences(&input())
                .iter()
                .map(|calls| calls::answers(calls))
                .collect::<Vec<_>>(),
        ),
        ["removed"] => {
            let all = calls::sequences(&input());
            let removed: Vec<usize> = all.iter().flat_map(|calls| calls::removed(calls)).collect();
            let some = removed.iter().filter(|&&count| count > 0).count();
            let (done, all) = (removed.len(), removed.iter().sum::<usize>());
            format!("compactings {done}, that removed commands {some}, commands {all}\n").into()
        }
        ["histories", seed, count] => generate::calls::histories(number(seed), number(count)),
        ["told"] => {
            let told = |(i, calls): (usize, &Vec<calls::Call>)| {
                format!("sequence {i}\n{}", calls::told(calls))
            };
            let all = calls::sequences(&input());
            all.iter().enumerate().map(told).collect::<String>().into()
        }
        ["lines"] => dump(|bytes| print::rowlist(&mut player, bytes)),
        _ => usage(),
    };
    std::io::stdout().write_all(&out).expect("standard output");
    if !agreed {
        std::process::exit(1);
    }
}

/// Takes `--snap` out of the arguments of a command that reads recordings.
fn mode(words: &mut Vec<String>) -> Mode {
    if flag(
        words,
        "--snap",
        &[
            "rowlist", "rowdump", "lines", "why", "tilelist", "figures", "editions",
        ],
    ) {
        Mode::Snapping
    } else {
        Mode::Exact
    }
}

/// Takes `--panels` out of the arguments of `rowdump`.
fn panels(words: &mut Vec<String>) -> bool {
    flag(words, "--panels", &["rowdump"])
}

/// Takes a word out of the arguments of one of these commands: whether it was there.
fn flag(words: &mut Vec<String>, name: &str, commands: &[&str]) -> bool {
    let all = words.len();
    if words
        .first()
        .is_some_and(|word| commands.contains(&&word[..]))
    {
        words.retain(|word| word != name);
    }
    words.len() < all
}

/// Takes `--width N` out of the arguments of a command that reads recordings or asks about them: pixels a bucket.
fn width(words: &mut Vec<String>) -> u32 {
    let takes = [
        "rowlist",
        "rowdump",
        "lines",
        "why",
        "tilelist",
        "figures",
        "questions",
    ];
    last(words, "--width", &takes, 128)
}

/// Takes `--edition N` out of the arguments of a command that reads recordings.
fn edition(words: &mut Vec<String>) -> u32 {
    let takes = [
        "rowlist",
        "rowdump",
        "lines",
        "why",
        "tilelist",
        "figures",
        "questions",
    ];
    last(words, "--edition", &takes, 1)
}

/// Takes `NAME NUMBER` out of the arguments of one of these commands. Of several the last counts.
fn last(words: &mut Vec<String>, name: &str, commands: &[&str], without: u32) -> u32 {
    let mut number = without;
    if words
        .first()
        .is_some_and(|word| commands.contains(&&word[..]))
    {
        while let Some(given) = option(words, name) {
            number = given;
        }
    }
    number
}

/// The edition of the files that are to be made new or old.
fn before(to: &str) -> Edition {
    match to {
        "new" => Edition::One,
        "old" => Edition::Two,
        _ => usage(),
    }
}

/// A file as one of the other edition, or a stream of files; refused, a file is a line on standard error and the status 1. The tally goes to standard error.
fn converted(words: &[&str], mode: Mode) -> Vec<u8> {
    let tally = words.contains(&"--tally");
    let words: Vec<&str> = words
        .iter()
        .copied()
        .filter(|word| *word != "--tally")
        .collect();
    match words[..] {
        [to] if !tally => {
            editions::converted(&input(), before(to), mode).unwrap_or_else(|number| {
                eprintln!("refused {number}");
                std::process::exit(1);
            })
        }
        ["--stream", to] => {
            let bytes = input();
            let out = editions::stream(&file::stream(&bytes), before(to), mode);
            if tally {
                let mut counts = BTreeMap::new();
                for said in editions::answers(&out) {
                    *counts.entry(said.err().unwrap_or(0)).or_insert(0) += 1;
                }
                for (number, count) in counts {
                    eprintln!("{count} answer {number}");
                }
            }
            out
        }
        _ => usage(),
    }
}

fn usage() -> ! {
    eprintln!("{USAGE}");
    std::process::exit(2);
}

/// The answers to one question or to a stream of them; disagreements and the tally go to standard error.
fn why(player: walk::Player, words: &[&str]) -> (Vec<u8>, Answerer) {
    let tally = words.contains(&"--tally");
    let words: Vec<&str> = words
        .iter()
        .copied()
        .filter(|word| *word != "--tally")
        .collect();
    let mut answerer = Answerer::new(player);
    let out = match words[..] {
        ["--stream"] => {
            let mut out = String::new();
            for (k, question) in questions::stream(&input()).into_iter().enumerate() {
                out += &format!("question {k}\n{}", answerer.all(question));
            }
            out
        }
        [row, tile, ref attribute @ ..] => {
            let (row, tile) = (number(row), number(tile));
            let attribute = match attribute {
                [] => None,
                ["draw", n] => Some((Kind::Draw, number(n))),
                ["layer", n] => Some((Kind::Layer, number(n))),
                _ => usage(),
            };
            let bytes = &input()[..];
            let question = Question { row, tile, bytes };
            match attribute {
                None => answerer.all(question),
                Some((kind, n)) => answerer.one(question, kind, n),
            }
        }
        _ => usage(),
    };
    for line in &answerer.disagreements {
        eprintln!("{line}");
    }
    if tally {
        eprint!("{}", answerer.tally);
    }
    (out.into_bytes(), answerer)
}

/// The pairs of a dump compared, their rows in a file. What differs goes to standard error.
fn compared(rows: &str) -> edited::Report {
    let rows = std::fs::read_to_string(rows).unwrap_or_else(|why| {
        eprintln!("oracle: {rows}: {why}");
        std::process::exit(2);
    });
    let report = edited::compare(&rows, &String::from_utf8_lossy(&input()));
    for line in &report.complaints {
        eprintln!("{line}");
    }
    report
}

/// Questions for `why`, or with `--lists` for `tilelist`.
fn asked(words: &[&str], width: u32, edition: u32) -> Vec<u8> {
    let (lists, words) = match words {
        ["--lists", words @ ..] => (true, words),
        _ => (false, words),
    };
    let (seed, count, kind) = match *words {
        [seed, count] => (seed, count, "all"),
        [seed, count, kind] => (seed, count, kind),
        _ => usage(),
    };
    let (seed, count) = (number(seed), number(count));
    let width = Width::of(width).unwrap_or_else(|| usage());
    let made = match (lists, Edition::of(edition)) {
        (true, Some(edition)) => generate::questions::lists(seed, count, kind, width, edition),
        (false, Some(Edition::One)) => generate::questions::stream(seed, count, kind, width),
        _ => usage(),
    };
    made.unwrap_or_else(|| no_kind(kind))
}

/// The list of a tile or those of a stream; disagreements and the tally go to standard error.
fn tile_lists(player: walk::Player, words: &[&str]) -> (Vec<u8>, Lister) {
    let tally = words.contains(&"--tally");
    let words: Vec<&str> = words
        .iter()
        .copied()
        .filter(|word| *word != "--tally")
        .collect();
    let mut lister = Lister::new(player);
    let out = match words[..] {
        ["--stream"] => {
            let mut out = String::new();
            for (k, question) in questions::stream(&input()).into_iter().enumerate() {
                out += &format!("list {k}\n{}", lister.list(question));
            }
            out
        }
        [row, tile] => {
            let (row, tile) = (number(row), number(tile));
            let bytes = &input()[..];
            lister.list(Question { row, tile, bytes })
        }
        _ => usage(),
    };
    for line in &lister.disagreements {
        eprintln!("{line}");
    }
    if tally {
        eprint!("{}", lister.tally);
    }
    (out.into_bytes(), lister)
}

fn made(seed: &str, count: &str, kind: &str) -> Vec<generate::Made> {
    generate::recordings(number(seed), number(count), kind).unwrap_or_else(|| no_kind(kind))
}

fn no_kind(kind: &str) -> ! {
    eprintln!("oracle: no kind '{kind}'\n{USAGE}");
    std::process::exit(2);
}

/// Binary or readable, with seed 1 and 6,000 cases unless told otherwise.
fn leaves_of(words: &[&str]) -> Vec<u8> {
    let plain = words.first() == Some(&"--text");
    let numbers: Vec<u32> = words[usize::from(plain)..]
        .iter()
        .map(|word| number(word))
        .collect();
    let (seed, count) = (
        numbers.first().copied().unwrap_or(1),
        numbers.get(1).copied().unwrap_or(6_000),
    );
    if plain {
        leaves::text(seed, count)
    } else {
        leaves::binary(seed, count)
    }
}

/// Takes `NAME NUMBER` out of the arguments.
fn option(words: &mut Vec<String>, name: &str) -> Option<u32> {
    let at = words.iter().position(|word| word == name)?;
    words.remove(at);
    let value = if at < words.len() {
        words.remove(at)
    } else {
        String::new()
    };
    Some(number(&value))
}

/// Decimal digits alone.
fn number(word: &str) -> u32 {
    let digits = word.bytes().all(|byte| byte.is_ascii_digit());
    word.parse().ok().filter(|_| digits).unwrap_or_else(|| {
        eprintln!("oracle: '{word}' is no number\n{USAGE}");
        std::process::exit(2);
    })
}

fn input() -> Vec<u8> {
    let mut bytes = Vec::new();
    std::io::stdin()
        .read_to_end(&mut bytes)
        .expect("standard input");
    bytes
}

/// Each recording of the stream under its number.
fn dump(mut text: impl FnMut(&[u8]) -> String) -> Vec<u8> {
    let mut out = String::new();
    for (i, bytes) in file::stream(&input()).into_iter().enumerate() {
        out += &format!("recording {i}\n{}", text(bytes));
    }
    out.into_bytes()
}
