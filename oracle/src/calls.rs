//! Sequences of calls on one screen, answered by the Rust: building steps, painting by turns, runs. README.md has their words.

use crate::compacted::{self, Hiding};
use crate::file::{good_blend, good_box, good_dest, good_segment, in_order};
use crate::limits::{
    self, BAD_ARENA, BAD_ORDER, BAD_RECORD, BAD_RUN, BAD_VIEWPORT, HANDLES, LAST_PIXEL, LAST_TILE,
    MOST_RECORDS, MOST_ROOM, NO_LAYER, NO_ROOM, OPEN, THREADS,
};
use crate::painting::{row_pieces, Piece};
use crate::panels::{draws, good_panel, Panels};
use crate::print;
use crate::random::Random;
use crate::rules::{self, Ledger};
use crate::scene::{blend, draw, mask, paint, rect, strip};
use crate::screen::{Command, Range, Screen};
use crate::sizes::{LAYER_ATTR, PAINT_ATTR, PIECE};
use crate::viewport::{must_hold, Mode};
use crate::width::{Depth, Width};
use std::sync::Arc;
use vello_common::encode::EncodedPaint;
use vello_common::filter::FilterLayerPlacement;
use vello_common::geometry::RectU16;
use vello_common::paint::ImageSource;
use vello_common::pixmap::Pixmap;
use vello_common::record::{LayerClip, LayerProps};

/// What a list holds before a call.
pub(crate) const MARK: u32 = 0xa5a5_a5a5;

/// A call with its arguments.
#[derive(Clone)]
pub enum Call {
    Reset {
        viewport: [u32; 4],
        c: u32,
        d: u32,
        mode: Mode,
        /// Pixels a bucket.
        width: u32,
    },
    /// A reset whose mode word is none, as its words.
    NoMode([u32; 8]),
    Fill {
        /// The panel comes last.
        draw: [u32; 8],
        paints: Vec<[u32; 4]>,
        segments: Vec<[u32; 5]>,
    },
    /// A list of fills: the words of its draws, eight a draw, and which of them are done.
    Fills {
        draws: Vec<u32>,
        range: [u32; 2],
        paints: Vec<[u32; 4]>,
        segments: Vec<[u32; 5]>,
    },
    Push {
        mix: u32,
        compose: u32,
        opacity: u32,
        mask: u32,
        flag: u32,
        clip: [u32; 7],
        panel: u32,
    },
    Pop {
        segments: Vec<[u32; 5]>,
    },
    Filter {
        pixmap: Option<u32>,
        dest: [u32; 4],
        source: [u32; 2],
        count: u32,
        panel: u32,
    },
    Begin,
    Step {
        row: u32,
        words: u32,
    },
    Unset {
        row: u32,
        tiles: [u32; 2],
        words: u32,
    },
    Visible {
        row: u32,
        id: u32,
        tiles: [u32; 2],
        words: u32,
    },
    Write {
        row: u32,
        id: u32,
        buckets: [u32; 2],
        words: u32,
    },
    CanSkip {
        row: u32,
        tiles: [u32; 2],
        id: u32,
    },
    NextId(u32),
    Show,
    Hidden {
        row: u32,
        first: u32,
        end: u32,
        id: u32,
    },
    Compact(u32),
}

fn list<const N: usize>(records: &[[u32; N]]) -> Vec<u32> {
    std::iter::once(u32::try_from(records.len()).expect("few"))
        .chain(records.iter().flatten().copied())
        .collect()
}

impl Call {
    pub(crate) fn words(&self) -> Vec<u32> {
        match self {
            Self::Reset {
                viewport,
                c,
                d,
                mode,
                width,
            } => [&[0], &viewport[..], &[*c, *d, mode.word(), *width]].concat(),
            Self::NoMode(words) => [&[0], &words[..]].concat(),
            Self::Fill {
                draw,
                paints,
                segments,
            } => [&[1], &draw[..], &list(paints), &list(segments)].concat(),
            Self::Fills {
                draws,
                range,
                paints,
                segments,
            } => {
                let count = u32::try_from(draws.len()).expect("few");
                let own = [&[16], &range[..], &[count], draws].concat();
                [own, list(paints), list(segments)].concat()
            }
            Self::Push {
                mix,
                compose,
                opacity,
                mask,
                flag,
                clip,
                panel,
            } => {
                let own = [2, *mix, *compose, *opacity, *mask, *flag];
                [&own, &clip[..], &[*panel]].concat()
            }
            Self::Pop { segments } => [vec![3], list(segments)].concat(),
            Self::Filter {
                pixmap,
                dest,
                source,
                count,
                panel,
            } => {
                let choice = [u32::from(pixmap.is_some()), pixmap.unwrap_or(0)];
                [&[4], &choice[..], &dest[..], &source[..], &[*count, *panel]].concat()
            }
            Self::Begin => vec![5],
            Self::Step { row, words } => vec![6, *row, *words],
            Self::Unset { row, tiles, words } => vec![7, *row, tiles[0], tiles[1], *words],
            Self::Visible {
                row,
                id,
                tiles,
                words,
            } => vec![8, *row, *id, tiles[0], tiles[1], *words],
            Self::Write {
                row,
                id,
                buckets,
                words,
            } => vec![9, *row, *id, buckets[0], buckets[1], *words],
            Self::CanSkip { row, tiles, id } => vec![10, *row, tiles[0], tiles[1], *id],
            Self::NextId(id) => vec![11, *id],
            Self::Show => vec![12],
            Self::Hidden {
                row,
                first,
                end,
                id,
            } => vec![17, *row, *first, *end, *id],
            Self::Compact(row) => vec![18, *row],
        }
    }

    /// Whether it is a building step.
    pub(crate) fn builds(&self) -> bool {
        use Call::{Fill, Filter, Pop, Push};
        matches!(self, Fill { .. } | Push { .. } | Pop { .. } | Filter { .. })
    }

    /// The panel of a call that has one.
    pub(crate) fn panel(&mut self) -> Option<&mut u32> {
        match self {
            Self::Fill {
                draw: [.., panel], ..
            }
            | Self::Push { panel, .. }
            | Self::Filter { panel, .. } => Some(panel),
            _ => None,
        }
    }

    /// The next call of a sequence.
    fn read(rest: &mut &[u32]) -> Option<Self> {
        let [kind] = take(rest)?;
        Some(match kind {
            0 => {
                let words @ [x0, y0, x1, y1, c, d, mode, width] = take(rest)?;
                match Mode::of(mode) {
                    None => Self::NoMode(words),
                    Some(mode) => Self::Reset {
                        viewport: [x0, y0, x1, y1],
                        c,
                        d,
                        mode,
                        width,
                    },
                }
            }
            1 => Self::Fill {
                draw: take(rest)?,
                paints: records(rest)?,
                segments: records(rest)?,
            },
            2 => {
                let [mix, compose, opacity, mask, flag] = take(rest)?;
                let clip = take(rest)?;
                let [panel] = take(rest)?;
                Self::Push {
                    mix,
                    compose,
                    opacity,
                    mask,
                    flag,
                    clip,
                    panel,
                }
            }
            3 => Self::Pop {
                segments: records(rest)?,
            },
            4 => {
                let [flag, handle, x0, y0, x1, y1, x, y, count, panel] = take(rest)?;
                Self::Filter {
                    pixmap: (flag != 0).then_some(handle),
                    dest: [x0, y0, x1, y1],
                    source: [x, y],
                    count,
                    panel,
                }
            }
            5 => Self::Begin,
            6 => {
                let [row, words] = take(rest)?;
                Self::Step { row, words }
            }
            7 => {
                let [row, first, end, words] = take(rest)?;
                Self::Unset {
                    row,
                    tiles: [first, end],
                    words,
                }
            }
            8 => {
                let [row, id, first, end, words] = take(rest)?;
                Self::Visible {
                    row,
                    id,
                    tiles: [first, end],
                    words,
                }
            }
            9 => {
                let [row, id, first, end, words] = take(rest)?;
                Self::Write {
                    row,
                    id,
                    buckets: [first, end],
                    words,
                }
            }
            10 => {
                let [row, first, end, id] = take(rest)?;
                Self::CanSkip {
                    row,
                    tiles: [first, end],
                    id,
                }
            }
            11 => {
                let [id] = take(rest)?;
                Self::NextId(id)
            }
            12 => Self::Show,
            16 => {
                let range = take(rest)?;
                let draws = records::<1>(rest)?.concat();
                Self::Fills {
                    draws,
                    range,
                    paints: records(rest)?,
                    segments: records(rest)?,
                }
            }
            17 => {
                let [row, first, end, id] = take(rest)?;
                Self::Hidden {
                    row,
                    first,
                    end,
                    id,
                }
            }
            18 => {
                let [row] = take(rest)?;
                Self::Compact(row)
            }
            _ => return None,
        })
    }
}

fn take<const N: usize>(rest: &mut &[u32]) -> Option<[u32; N]> {
    let (words, more) = rest.split_first_chunk::<N>()?;
    *rest = more;
    Some(*words)
}

fn records<const N: usize>(rest: &mut &[u32]) -> Option<Vec<[u32; N]>> {
    let [count] = take(rest)?;
    (0..count).map(|_| take(rest)).collect()
}

/// The sequences of a stream, each after its length in words.
pub fn sequences(bytes: &[u8]) -> Vec<Vec<Call>> {
    let words: Vec<u32> = bytes
        .chunks_exact(4)
        .map(|b| u32::from_le_bytes([b[0], b[1], b[2], b[3]]))
        .collect();
    let mut rest = &words[..];
    let mut all = Vec::new();
    while let Some([length]) = take(&mut rest) {
        let (mut sequence, more) = rest.split_at(length as usize);
        let mut calls = Vec::new();
        while !sequence.is_empty() {
            calls.push(Call::read(&mut sequence).expect("a call"));
        }
        all.push(calls);
        rest = more;
    }
    all
}

/// A stream: each list of words after its length.
pub fn stream(lists: &[Vec<u32>]) -> Vec<u8> {
    lists
        .iter()
        .flat_map(|words| [&[u32::try_from(words.len()).expect("short")], &words[..]].concat())
        .flat_map(u32::to_le_bytes)
        .collect()
}

/// What a sequence answers, on a screen without rows at first.
pub fn answers(calls: &[Call]) -> Vec<u32> {
    let mut sequence = Sequence::new();
    let answer = |call| sequence.answer(call);
    calls.iter().flat_map(answer).collect()
}

/// Of each compacting of a sequence that is done, how many commands it takes out.
pub fn removed(calls: &[Call]) -> Vec<usize> {
    let mut sequence = Sequence::new();
    for call in calls {
        sequence.answer(call);
    }
    sequence.removed
}

/// The number of each step of a history after its reset, then the attributes and pieces that it leaves, with their panels.
pub fn told(calls: &[Call]) -> String {
    let mut sequence = Sequence::new();
    let mut number = |call| format!(" {}", sequence.answer(call)[0]);
    let numbers: Vec<String> = calls.iter().map(&mut number).collect();
    let numbers = numbers[1..].concat();
    let Sequence {
        screen,
        width,
        panels,
        ..
    } = sequence;
    format!("answers{numbers}\n") + &print::detail(&*screen, width, &panels, true)
}

/// Where the painting of a row stands.
struct Painter {
    depth: Depth,
    steps: usize,
    nesting: u32,
}

/// Where a sequence of calls stands on its screen.
struct Sequence {
    screen: Box<dyn Screen>,
    width: Width,
    /// The viewport as the last reset had it, and the box that the screen holds.
    given: RectU16,
    held: RectU16,
    c: usize,
    d: usize,
    /// What was done since the reset: a step that passes a limit is undone by doing these again.
    done: Vec<Call>,
    ledger: Ledger,
    panels: Panels,
    begun: bool,
    painters: Vec<Painter>,
    /// In which order single removals are made.
    random: Random,
    /// How many commands each compacting took out that was done.
    removed: Vec<usize>,
    /// Whether an id was set to one that is not new, so that a later depth fill may hide less than one before it.
    lowered: bool,
}

impl Sequence {
    fn new() -> Self {
        let (width, empty) = (Width::Of128, rect([0; 4]));
        Self {
            screen: width.screen(empty),
            width,
            given: empty,
            held: empty,
            c: 1,
            d: 1,
            done: Vec::new(),
            ledger: Ledger::new(empty, width.tiles()),
            panels: Panels::default(),
            begun: false,
            painters: Vec::new(),
            random: Random::new(1),
            removed: Vec::new(),
            lowered: false,
        }
    }

    fn answer(&mut self, call: &Call) -> Vec<u32> {
        match call {
            Call::Reset {
                viewport,
                c,
                d,
                mode,
                width,
            } => vec![self.reset(*viewport, *c, *d, *mode, *width)],
            // Without a mode there is no viewport to judge, but there is a width.
            Call::NoMode([.., width]) => {
                let good = Width::of(*width).is_some();
                vec![if good { BAD_RECORD } else { BAD_VIEWPORT }]
            }
            Call::Fill { .. } | Call::Push { .. } | Call::Pop { .. } | Call::Filter { .. } => {
                vec![self.build(call)]
            }
            Call::Fills {
                draws,
                range,
                paints,
                segments,
            } => self.fills(draws, *range, paints, segments),
            Call::NextId(id) => {
                self.lowered |= *id < self.screen.next_id();
                self.screen.set_next_id(*id);
                self.done.push(call.clone());
                vec![0]
            }
            Call::Begin => vec![self.begin()],
            Call::Step { row, words } => self.step(*row, *words),
            Call::Unset { row, tiles, words } => {
                self.runs(*row, *tiles, *words, |depth, tiles| depth.unset(tiles))
            }
            Call::Visible {
                row,
                id,
                tiles,
                words,
            } => self.runs(*row, *tiles, *words, |depth, tiles| {
                depth.visible(tiles, *id)
            }),
            Call::Write {
                row,
                id,
                buckets,
                words,
            } => self.write(*row, *id, *buckets, *words),
            Call::CanSkip { row, tiles, id } => self.can_skip(*row, *tiles, *id),
            Call::Show => {
                let compacts = |call: &Call| matches!(call, Call::Compact(_));
                if !self.lowered && self.done.iter().any(compacts) {
                    self.must_paint_the_same();
                }
                [vec![0], self.show()].concat()
            }
            Call::Hidden {
                row,
                first,
                end,
                id,
            } => self.is_hidden(*row, (*first, *end), *id),
            Call::Compact(row) => vec![self.compact(*row)],
        }
    }

    fn reset(&mut self, viewport: [u32; 4], c: u32, d: u32, mode: Mode, width: u32) -> u32 {
        let (Some(held), Some(width)) = (mode.held(viewport), Width::of(width)) else {
            return BAD_VIEWPORT;
        };
        if ![c, d].iter().all(|room| (1..=MOST_ROOM).contains(room)) {
            return BAD_ARENA;
        }
        (self.given, self.held) = (rect(viewport), rect(held));
        (self.c, self.d) = (c as usize, d as usize);
        if width == self.width {
            self.screen.reset(self.given);
        } else {
            self.screen = width.screen(self.given);
            self.width = width;
        }
        must_hold(&*self.screen, self.held);
        self.done.clear();
        self.lowered = false;
        self.ledger = Ledger::new(self.held, width.tiles());
        self.panels.clear();
        self.begun = false;
        self.blank();
        0
    }

    /// Every row at its first step, its depth words 0.
    fn blank(&mut self) {
        let blank = |_| Painter {
            depth: Depth::new(self.width, self.screen.width()),
            steps: 0,
            nesting: 0,
        };
        self.painters = (0..self.screen.rows()).map(blank).collect();
    }

    /// A building step: judged by the rules, done by the Rust, undone if a limit is passed. The own accounts of rows and panels must agree.
    fn build(&mut self, call: &Call) -> u32 {
        let inputs = self.judge(call);
        if inputs != 0 {
            return inputs;
        }
        let ledger = self.ledger.clone();
        self.perform(call);
        let answer = match limits::within(&*self.screen, self.c, self.d) {
            Ok(()) => {
                self.done.push(call.clone());
                self.account(call);
                self.begun = false;
                0
            }
            Err(limit) => {
                self.screen.reset(self.given);
                for call in self.done.clone() {
                    self.perform(&call);
                }
                self.ledger = ledger;
                limit
            }
        };
        self.ledger.must_agree(&*self.screen);
        self.panels.must_agree(&*self.screen);
        answer
    }

    /// One fill after the other, up to the first that is refused; how many are done. 4 for words that are no whole draws or for a bad range of them.
    fn fills(
        &mut self,
        draws: &[u32],
        [start, end]: [u32; 2],
        paints: &[[u32; 4]],
        segments: &[[u32; 5]],
    ) -> Vec<u32> {
        let (draws, rest) = draws.as_chunks::<8>();
        let (true, Some(draws)) = (rest.is_empty(), draws.get(start as usize..end as usize)) else {
            return vec![BAD_RECORD, 0];
        };
        for (done, draw) in (0..).zip(draws) {
            let answer = self.build(&Call::Fill {
                draw: *draw,
                paints: paints.to_vec(),
                segments: segments.to_vec(),
            });
            if answer != 0 {
                return vec![answer, done];
            }
        }
        vec![0, end - start]
    }

    /// A step that was done, in the account of panels. The box that fills are cut to is the same before and after a filter fill.
    fn account(&mut self, call: &Call) {
        match call {
            Call::Fill {
                draw: [_, start, end, .., panel],
                ..
            } => self.panels.fill(*panel, (end - start) as usize),
            Call::Push { panel, .. } => self.panels.push(*panel),
            Call::Pop { .. } => self.panels.pop(),
            Call::Filter {
                pixmap,
                dest,
                panel,
                ..
            } => {
                let origin = (self.held.x0, self.held.y0);
                let drawn = pixmap.is_some() && draws(rect(*dest), origin, self.screen.clip_box());
                self.panels.filter(*panel, drawn);
            }
            _ => {}
        }
    }

    /// 4, 5 or 7 for what a step is given.
    fn judge(&self, call: &Call) -> u32 {
        match call {
            Call::Fill {
                draw: [thread, start, end, paint, mix, compose, mask, panel],
                paints,
                segments,
            } => {
                let good_paint = paints
                    .get(*paint as usize)
                    .is_some_and(|&[flag, handle, _, _]| flag <= 1 && handle < HANDLES);
                let good = *thread < THREADS
                    && paints.len() <= MOST_RECORDS as usize
                    && good_paint
                    && good_blend(*mix, *compose)
                    && *mask < HANDLES
                    && good_panel(*panel);
                if good {
                    judge_list(segments, *start, *end)
                } else {
                    BAD_RECORD
                }
            }
            Call::Push {
                mix,
                compose,
                mask,
                flag,
                clip: [x0, y0, x1, y1, start, end, thread],
                panel,
                ..
            } => {
                let clipped = *flag == 0
                    || (good_box([*x0, *y0, *x1, *y1]) && start <= end && *thread < THREADS);
                let good =
                    good_blend(*mix, *compose) && *mask < HANDLES && clipped && good_panel(*panel);
                if good {
                    0
                } else {
                    BAD_RECORD
                }
            }
            Call::Pop { segments } => match self.screen.innermost_clip() {
                None => NO_LAYER,
                Some(None) => 0,
                Some(Some(range)) => judge_list(
                    segments,
                    u32::try_from(range.start).expect("a word"),
                    u32::try_from(range.end).expect("a word"),
                ),
            },
            Call::Filter {
                pixmap,
                dest,
                source,
                count,
                panel,
            } => {
                let good = pixmap.is_none_or(|handle| handle < HANDLES)
                    && good_dest(*dest)
                    && source.iter().all(|edge| *edge <= LAST_PIXEL)
                    && *count <= MOST_RECORDS
                    && good_panel(*panel);
                if good {
                    0
                } else {
                    BAD_RECORD
                }
            }
            _ => 0,
        }
    }

    fn perform(&mut self, call: &Call) {
        match call {
            Call::Fill {
                draw: [words @ .., _],
                paints,
                segments,
            } => {
                let fill = draw(words);
                let paints: Vec<EncodedPaint> = paints.iter().map(paint).collect();
                let strips: Vec<_> = segments[fill.strip_range.clone()]
                    .iter()
                    .map(strip)
                    .collect();
                self.ledger.fill(&*self.screen, &fill, &strips, &paints);
                let origin = (self.held.x0, self.held.y0);
                self.screen.fill(&fill, origin, &strips, &paints);
            }
            Call::Push {
                mix,
                compose,
                opacity,
                mask: handle,
                flag,
                clip: [x0, y0, x1, y1, start, end, thread],
                ..
            } => {
                let clip = || LayerClip {
                    bbox: rect([*x0, *y0, *x1, *y1]),
                    strip_range: *start as usize..*end as usize,
                    thread_idx: u8::try_from(*thread).expect("judged"),
                };
                self.screen.push(&LayerProps {
                    blend_mode: blend(*mix, *compose),
                    opacity: f32::from_bits(*opacity),
                    mask: mask(*handle),
                    clip_path: (*flag == 1).then(clip),
                });
            }
            Call::Pop { segments } => {
                // What no clip reads is not judged, and need not be a segment.
                let range = self.screen.innermost_clip().flatten().unwrap_or(0..0);
                let read = |(i, segment): (usize, &[u32; 5])| {
                    if range.contains(&i) {
                        strip(segment)
                    } else {
                        strip(&[0; 5])
                    }
                };
                let strips: Vec<_> = segments.iter().enumerate().map(read).collect();
                self.screen.pop(&strips);
            }
            // Without a pixmap the original's walk makes no such call: nothing is drawn.
            Call::Filter {
                pixmap: Some(handle),
                dest,
                source: [x, y],
                count,
                ..
            } => {
                let source = (
                    u16::try_from(*x).expect("judged"),
                    u16::try_from(*y).expect("judged"),
                );
                let placement = FilterLayerPlacement {
                    dest: rect(*dest),
                    source,
                };
                self.screen
                    .filter(Arc::new(Pixmap::of(*handle)), placement, *count as usize);
            }
            Call::NextId(id) => self.screen.set_next_id(*id),
            Call::Compact(row) => self.close_up(*row as usize),
            _ => {}
        }
    }

    /// 12 for no such row, then 13 with a layer open. Done, it ends painting.
    fn compact(&mut self, row: u32) -> u32 {
        let at = row as usize;
        if at >= self.screen.rows() {
            return BAD_RUN;
        }
        if self.screen.open_layers() > 0 {
            return OPEN;
        }
        let hiding = self.hiding(at);
        self.ledger.compact(at, &hiding);
        let (before, count) = (self.pieces(at), self.screen.row(at).commands.len());
        let call = Call::Compact(row);
        self.perform(&call);
        assert_eq!(self.pieces(at), before, "row {row}");
        self.removed
            .push(count - self.screen.row(at).commands.len());
        self.done.push(call);
        self.begun = false;
        self.ledger.must_agree(&*self.screen);
        0
    }

    fn pieces(&self, row: usize) -> Vec<Piece> {
        row_pieces(&*self.screen, self.width, &self.panels, row)
    }

    /// The row without what nothing will ever show. Removals in another order must leave the same.
    fn close_up(&mut self, row: usize) {
        let hiding = self.hiding(row);
        let commands = self.screen.row(row).commands;
        let places = compacted::left(&commands, &hiding, &mut self.random);
        let again = compacted::left(&commands, &hiding, &mut self.random);
        assert_eq!(places, again, "{commands:?}");
        self.screen.keep(row, &places);
    }

    fn hiding(&self, row: usize) -> Hiding {
        let tiles = self.width.tiles();
        let buckets = rules::buckets(u32::from(self.screen.width()) / 4, tiles);
        Hiding::of(&*self.screen, row, buckets, tiles)
    }

    /// Every row must paint as it does on a screen on which the same was built and nothing compacted.
    fn must_paint_the_same(&mut self) {
        let pieces = |own: &Self| -> Vec<Vec<Piece>> {
            let rows = 0..own.screen.rows();
            rows.map(|row| own.pieces(row)).collect()
        };
        let compacted = pieces(self);
        let whole = self.width.screen(self.given);
        let screen = std::mem::replace(&mut self.screen, whole);
        let ledger = self.ledger.clone();
        let done = self.done.clone();
        let builds = done.iter().filter(|call| !matches!(call, Call::Compact(_)));
        builds.for_each(|call| self.perform(call));
        assert_eq!(compacted, pieces(self), "compacted, and whole");
        (self.screen, self.ledger) = (screen, ledger);
    }

    fn begin(&mut self) -> u32 {
        if self.screen.open_layers() > 0 {
            return OPEN;
        }
        self.blank();
        self.begun = true;
        0
    }

    fn step(&mut self, row: u32, words: u32) -> Vec<u32> {
        let Some(painter) = self.painters.get(row as usize) else {
            return refused(BAD_RUN, 2, words);
        };
        if !self.begun {
            return refused(OPEN, 2, words);
        }
        let state = self.screen.row(row as usize);
        let fills = state.fills.len();
        let mut depth = painter.depth.clone();
        let mut nesting = painter.nesting;
        let mut pieces: Vec<[u32; PIECE]> = Vec::new();
        if painter.steps < fills {
            let fill = state.fills[fills - 1 - painter.steps];
            let id = self.screen.paint_attrs()[fill.attribute as usize].id;
            for run in depth.write(fill.buckets, id) {
                let (first, end) = self.width.tiles_of(run);
                let panel = self.panels.of(false, fill.attribute);
                pieces.push([1, fill.attribute, first, end, 0, 0, panel]);
            }
        } else if let Some(command) = state.commands.get(painter.steps - fills) {
            match *command {
                Command::Fill(fill) => {
                    let at = fill.attribute as usize;
                    let id = if fill.layer {
                        self.screen.layer_attrs()[at].id
                    } else {
                        self.screen.paint_attrs()[at].id
                    };
                    let panel = self.panels.of(fill.layer, fill.attribute);
                    let tag = 1 + 2 * u32::from(fill.layer) + u32::from(fill.alpha.is_some());
                    for (first, end) in depth.visible(fill.tiles, id) {
                        let moved = fill.alpha.map(|alpha| alpha + 16 * (first - fill.tiles.0));
                        let alpha = moved.unwrap_or(0);
                        pieces.push([tag, fill.attribute, first, end, alpha, nesting, panel]);
                    }
                }
                Command::Push(_) => nesting += 1,
                Command::Pop => nesting -= 1,
            }
        } else {
            return [vec![0, 1, 0], listed::<PIECE>(&[], words)].concat();
        }
        if pieces.len() > words as usize / PIECE {
            return refused(NO_ROOM, 2, words);
        }
        let steps = painter.steps + 1;
        self.painters[row as usize] = Painter {
            depth,
            steps,
            nesting,
        };
        [
            vec![0, 0, u32::try_from(pieces.len()).expect("few")],
            listed(&pieces, words),
        ]
        .concat()
    }

    fn runs(
        &self,
        row: u32,
        [first, end]: [u32; 2],
        words: u32,
        of: impl Fn(&Depth, Range) -> Vec<Range>,
    ) -> Vec<u32> {
        let Some(painter) = self.painters.get(row as usize) else {
            return refused(BAD_RUN, 1, words);
        };
        if first > end || end > LAST_TILE {
            return refused(BAD_RUN, 1, words);
        }
        let runs = of(&painter.depth, (first, end));
        if runs.len() > words as usize / 2 {
            return refused(NO_ROOM, 1, words);
        }
        ranges(&runs, words)
    }

    fn write(&mut self, row: u32, id: u32, [first, end]: [u32; 2], words: u32) -> Vec<u32> {
        let Some(painter) = self.painters.get_mut(row as usize) else {
            return refused(BAD_RUN, 1, words);
        };
        if first > end || end as usize > painter.depth.words().len() || id == 0 {
            return refused(BAD_RUN, 1, words);
        }
        let mut depth = painter.depth.clone();
        let runs = depth.write((first, end), id);
        if runs.len() > words as usize / 2 {
            return refused(NO_ROOM, 1, words);
        }
        painter.depth = depth;
        self.begun = false;
        ranges(&runs, words)
    }

    fn can_skip(&self, row: u32, [first, end]: [u32; 2], id: u32) -> Vec<u32> {
        let row = row as usize;
        if row >= self.screen.rows() || first > end || end > LAST_TILE {
            return vec![BAD_RUN, 0];
        }
        let says = self.screen.can_skip(row, (first, end), id);
        let own = self.ledger.can_skip(row, (first, end), id);
        assert_eq!(says, own, "can_skip {first} {end} {id} of row {row}");
        vec![0, says.into()]
    }

    fn is_hidden(&self, row: u32, (first, end): Range, id: u32) -> Vec<u32> {
        match self.painters.get(row as usize) {
            Some(painter) if first <= end && end as usize <= painter.depth.words().len() => {
                vec![0, painter.depth.is_hidden((first, end), id).into()]
            }
            _ => vec![BAD_RUN, 0],
        }
    }

    /// The screen's numbers, each row's words, the attributes.
    fn show(&self) -> Vec<u32> {
        let screen = &self.screen;
        let count = |n: usize| u32::try_from(n).expect("few");
        let mut out = vec![screen.next_id()];
        out.extend(screen.counts().map(count));
        out.extend([count(screen.open_layers()), self.begun.into()]);
        let clip = screen.clip_box();
        out.extend([clip.x0, clip.y0, clip.x1, clip.y1].map(u32::from));
        for (i, painter) in self.painters.iter().enumerate() {
            let row = screen.row(i);
            out.extend([count(row.commands.len()), count(row.fills.len())]);
            out.extend(row.summary);
            out.push(count(row.levels));
            out.extend(row.commands.iter().flat_map(command_words));
            for fill in &row.fills {
                out.extend([packed(fill.buckets), fill.attribute]);
            }
            out.extend(painter.depth.words());
            out.extend(painter.depth.minima());
            out.extend([count(painter.steps), painter.nesting]);
        }
        for (i, attr) in (0..).zip(screen.paint_attrs()) {
            let ([mix, compose], [x, y]) = (attr.blend, attr.origin);
            let (mask, id, thread) = (attr.mask, attr.id, attr.thread);
            let panel = self.panels.of(false, i);
            let words: [u32; PAINT_ATTR] =
                [attr.paint, mix, compose, mask, id, thread, x, y, panel];
            out.extend(words);
        }
        for (i, attr) in (0..).zip(screen.layer_attrs()) {
            let [mix, compose] = attr.blend;
            let (mask, id, thread) = (attr.mask, attr.id, attr.thread);
            let panel = self.panels.of(true, i);
            let words: [u32; LAYER_ATTR] = [mix, compose, mask, id, thread, attr.opacity, panel];
            out.extend(words);
        }
        for EncodedPaint::Image(image) in screen.filter_paints() {
            let ImageSource::Pixmap(pixmap) = &image.source;
            let shift = image.transform.shift;
            let signed = |by: f64| [u32::from(by < 0.0), by.abs() as u32];
            out.extend([0, u32::from(!image.may_have_transparency), 0, pixmap.handle]);
            out.extend([signed(shift.x), signed(shift.y)].concat());
        }
        out
    }
}

/// 4 for a range or a segment in it, then 5 for their order.
fn judge_list(segments: &[[u32; 5]], start: u32, end: u32) -> u32 {
    let Some(own) = segments.get(start as usize..end as usize) else {
        return BAD_RECORD;
    };
    if !own.iter().all(good_segment) {
        return BAD_RECORD;
    }
    if own.windows(2).all(in_order) {
        0
    } else {
        BAD_ORDER
    }
}

/// The records, and marks after them.
fn listed<const N: usize>(records: &[[u32; N]], words: u32) -> Vec<u32> {
    let mut list = records.concat();
    list.resize(words as usize, MARK);
    list
}

/// A refusal: its number, so many zeros, and the list as it was.
fn refused(number: u32, zeros: usize, words: u32) -> Vec<u32> {
    [vec![number], vec![0; zeros], listed::<1>(&[], words)].concat()
}

/// How many runs, and the list of them.
fn ranges(runs: &[Range], words: u32) -> Vec<u32> {
    let pairs: Vec<[u32; 2]> = runs.iter().map(|&(first, end)| [first, end]).collect();
    let count = u32::try_from(pairs.len()).expect("few");
    [vec![0, count], listed(&pairs, words)].concat()
}

/// First and end in one word.
fn packed((first, end): Range) -> u32 {
    first << 16 | end
}

/// A command's four words.
fn command_words(command: &Command) -> [u32; 4] {
    match *command {
        Command::Fill(fill) => [
            1 + 2 * u32::from(fill.layer) + u32::from(fill.alpha.is_some()),
            packed(fill.tiles),
            fill.alpha.unwrap_or(0),
            fill.attribute,
        ],
        Command::Push(None) => [5, 0, 0, 0],
        Command::Push(Some(union)) => [6, packed(union), 0, 0],
        Command::Pop => [7, 0, 0, 0],
    }
}
