//! What is recorded is what is drawn by direct calls, panels too, and a record is refused where the recording would be.

use coarse::{
    to_edition_one, to_edition_two, Answer, Attribute, BlendMode, CommandBucketer, Edition,
    FilterLayerPlacement, LayerClip, LayerProps, Mode, Paint, Reason, RecordedFill, Recorder, Rect,
    RenderCmd, Segment, Setup,
};

const SETUP: Setup = Setup {
    c: 1024,
    d: 1024,
    mode: Mode::Exact,
    width: coarse::Width::W128,
};

/// Numbers that look random, the same on every run.
struct Numbers(u64);

impl Numbers {
    fn below(&mut self, end: u32) -> u32 {
        self.0 = self
            .0
            .wrapping_mul(6_364_136_223_846_793_005)
            .wrapping_add(1);
        ((self.0 >> 33) % u64::from(end)) as u32
    }

    /// Segments of some rows, in order.
    fn segments(&mut self) -> Vec<Segment> {
        let mut list = Vec::new();
        let mut row = self.below(4);
        while row < 10 && list.len() < 12 {
            let mut at = self.below(30);
            for _ in 0..self.below(3) {
                let end = at + 1 + self.below(90);
                list.push(if self.below(2) == 0 {
                    Segment::solid(row, at, end)
                } else {
                    Segment::alpha(row, at, end, 16 * self.below(100))
                });
                at = end + self.below(20);
            }
            row += 1 + self.below(3);
        }
        list
    }

    fn blend(&mut self) -> BlendMode {
        match self.below(4) {
            0 => BlendMode {
                mix: self.below(16),
                compose: self.below(14),
            },
            _ => BlendMode::default(),
        }
    }
}

/// The same drawn twice: by direct calls, and recorded.
struct Both {
    screen: CommandBucketer,
    recorder: Recorder,
    paints: Vec<Paint>,
    segments: Vec<Segment>,
    /// One fill or layer in so many has a panel that may be another than 0; with 0 none has.
    one_in: u32,
    has_panels: bool,
}

impl Both {
    fn new(viewport: Rect, one_in: u32) -> Self {
        Self {
            screen: CommandBucketer::new(viewport, SETUP).unwrap(),
            recorder: Recorder::new(viewport),
            paints: Vec::new(),
            segments: Vec::new(),
            one_in,
            has_panels: false,
        }
    }

    fn panel(&mut self, numbers: &mut Numbers) -> u32 {
        let panel = match self.one_in {
            0 => 0,
            one_in if numbers.below(one_in) > 0 => 0,
            _ => numbers.below(256),
        };
        self.has_panels |= panel != 0;
        panel
    }

    fn list(&mut self, segments: &[Segment]) -> std::ops::Range<usize> {
        self.segments.extend_from_slice(segments);
        self.recorder.segments(segments).unwrap()
    }

    fn props(&mut self, numbers: &mut Numbers) -> LayerProps {
        let clip = (numbers.below(2) == 0).then(|| {
            let segments = numbers.segments();
            let range = self.list(&segments);
            let (x0, y0) = (4 * numbers.below(20), 4 * numbers.below(4));
            LayerClip {
                bbox: Rect::new(
                    x0,
                    y0,
                    x0 + 4 * numbers.below(80),
                    y0 + 4 * numbers.below(9),
                ),
                start: range.start as u32,
                end: range.end as u32,
                thread_idx: numbers.below(256),
            }
        });
        LayerProps {
            blend_mode: numbers.blend(),
            opacity: [1.0, 0.5, f32::from_bits(0x7fc0_0001)][numbers.below(3) as usize],
            mask: numbers.below(2) * 7,
            clip,
            panel: self.panel(numbers),
        }
    }

    fn draw(&mut self, numbers: &mut Numbers) {
        let segments = numbers.segments();
        let range = self.list(&segments);
        let fill = RecordedFill {
            thread_idx: numbers.below(256),
            start: range.start,
            end: range.end,
            paint: numbers.below(self.paints.len() as u32),
            blend_mode: numbers.blend(),
            mask: numbers.below(2) * 5,
            panel: self.panel(numbers),
        };
        self.recorder.draw(&fill).unwrap();
        self.screen
            .generate_fill(&self.paints, &self.segments, &fill)
            .unwrap();
    }

    fn filter(&mut self, numbers: &mut Numbers) {
        let props = if numbers.below(3) == 0 {
            LayerProps {
                panel: self.panel(numbers),
                ..LayerProps::default()
            }
        } else {
            self.props(numbers)
        };
        let pixmap = (numbers.below(3) > 0).then(|| numbers.below(1 << 31));
        let (x0, y0) = (4 * numbers.below(30), numbers.below(20));
        let placement = FilterLayerPlacement {
            dest: Rect::new(x0, y0, x0 + 4 * numbers.below(40), y0 + numbers.below(30)),
            source_x: numbers.below(50),
            source_y: numbers.below(50),
        };
        self.recorder
            .filter_layer(&props, pixmap, &placement)
            .unwrap();
        let layered = LayerProps { panel: 0, ..props } != LayerProps::default();
        if layered {
            self.screen.push_layer(&props).unwrap();
        }
        let paints = self.paints.len() as u32;
        self.screen
            .generate_filter_layer_fill(pixmap, &placement, paints, props.panel)
            .unwrap();
        if layered {
            self.screen.pop_layer(&self.segments).unwrap();
        }
    }

    /// Some records, layers in layers among them.
    fn scene(&mut self, numbers: &mut Numbers, depth: u32) {
        for _ in 0..1 + numbers.below(5) {
            match numbers.below(6) {
                0 if depth > 0 => {
                    let props = self.props(numbers);
                    self.recorder.push_layer(&props).unwrap();
                    self.screen.push_layer(&props).unwrap();
                    self.scene(numbers, depth - 1);
                    self.recorder.pop_layer().unwrap();
                    self.screen.pop_layer(&self.segments).unwrap();
                }
                1 => self.filter(numbers),
                _ => self.draw(numbers),
            }
        }
    }
}

fn commands(screen: &CommandBucketer) -> Vec<Vec<RenderCmd>> {
    screen
        .rows()
        .map(|row| row.render_cmds().collect())
        .collect()
}

/// All that is stored, and all pieces.
fn told(screen: &mut CommandBucketer) -> String {
    screen.begin_painting().unwrap();
    let mut told = format!("{:?}", commands(screen));
    for row in screen.rows() {
        told += &format!("{:?}", row.depth_cmds().collect::<Vec<_>>());
    }
    told += &format!("{:?}", screen.paint_attrs().collect::<Vec<_>>());
    for attrs in screen.layer_attrs() {
        told += &format!("{attrs:?} {:x}", attrs.opacity.to_bits());
    }
    told += &format!("{:?}", screen.filter_paints().collect::<Vec<_>>());
    for row in 0..screen.rows().len() {
        told += &format!("{:?}", screen.paint_row(row).unwrap());
    }
    told
}

/// In edition two every recording; in edition one those without panels, whose words the conversions make of those of edition two, and back.
#[test]
fn a_recording_is_the_direct_calls() {
    let mut numbers = Numbers(7);
    let (mut layers, mut filters, mut kept, mut lost) = (0, 0, 0, 0);
    for viewport in [Rect::new(0, 0, 512, 48), Rect::new(20, 8, 404, 40)] {
        for scene in 0..150 {
            let mut both = Both::new(viewport, [0, 1, 9][scene % 3]);
            for i in 0..3 {
                let paint = Paint::new(i % 2 == 0, i);
                both.paints.push(paint);
                assert_eq!(both.recorder.paint(paint), Ok(i));
            }
            both.scene(&mut numbers, 4);
            both.scene(&mut numbers, 2);
            let words = both.recorder.words(Edition::Two).unwrap();
            let mut screen = CommandBucketer::from_wh(4, 4, SETUP).unwrap();
            screen.bucket_commands(Edition::Two, &words).unwrap();
            let direct = told(&mut both.screen);
            assert_eq!(told(&mut screen), direct);
            layers += screen.layer_attrs().len();
            filters += screen.filter_paints().len();

            let one = both.recorder.words(Edition::One);
            assert_eq!(to_edition_one(&words, Mode::Exact), one);
            if both.has_panels {
                assert_eq!(one, Err(Answer::HasPanels));
                lost += 1;
            } else {
                let one = one.unwrap();
                assert_eq!(to_edition_two(&one, Mode::Exact), Ok(words));
                screen.bucket_commands(Edition::One, &one).unwrap();
                assert_eq!(told(&mut screen), direct);
                kept += 1;
            }
        }
    }
    assert!(layers > 300 && filters > 100, "{layers} {filters}");
    assert!(kept >= 100 && lost >= 100, "{kept} {lost}");
}

#[test]
fn why_of_what_was_drawn() {
    let mut recorder = Recorder::new(Rect::new(0, 0, 512, 8));
    let paint = recorder.paint(Paint::new(true, 1)).unwrap();
    let list = recorder
        .segments(&[Segment::solid(0, 0, 128), Segment::solid(0, 20, 70)])
        .unwrap();
    let fill = |start, panel| RecordedFill {
        start,
        end: start + 1,
        paint,
        panel,
        ..RecordedFill::default()
    };
    let layer = LayerProps {
        panel: 9,
        ..LayerProps::default()
    };
    assert_eq!(recorder.draw(&fill(list.start, 3)), Ok(0));
    assert_eq!(recorder.draw(&fill(list.start + 1, 4)), Ok(1));
    assert_eq!(recorder.push_layer(&layer), Ok(0));
    assert_eq!(recorder.open_layers(), 1);
    assert_eq!(recorder.words(Edition::Two), Err(Answer::Open));
    recorder.pop_layer().unwrap();
    let words = recorder.words(Edition::Two).unwrap();
    let mut screen = CommandBucketer::from_wh(4, 4, SETUP).unwrap();
    let mut why = |row, tile, attribute| screen.why(Edition::Two, &words, row, tile, attribute);
    assert_eq!(
        why(0, 40, Attribute::Draw(0)),
        Ok(Reason::HiddenBy {
            attribute: 1,
            hider_panel: 4,
            panel: 3
        })
    );
    assert_eq!(
        why(0, 25, Attribute::Draw(1)),
        Ok(Reason::ShownAt { place: 1, panel: 4 })
    );
    assert_eq!(
        why(1, 0, Attribute::Draw(0)),
        Ok(Reason::NoSegment { panel: 3 })
    );
    assert_eq!(
        why(0, 0, Attribute::Layer(0)),
        Ok(Reason::RowUntouched { panel: 9 })
    );
    assert_eq!(why(2, 0, Attribute::Draw(0)), Err(Answer::BadRun));
    // The same recorder again, with nothing in it.
    recorder.clear(Rect::new(0, 0, 4, 4));
    assert_eq!(
        recorder.words(Edition::One).unwrap(),
        [1, 0, 0, 4, 4, 0, 0, 0, 0, 0, 1, 0, 0]
    );
    assert_eq!(
        recorder.words(Edition::Two).unwrap(),
        [1, 2, 1, 0, 0, 4, 4, 0, 0, 0, 0, 0, 1, 0, 0]
    );
}

/// A layer with a draw in it and a filter layer, of these panels.
fn with_panels(draw: u32, layer: u32, filter: u32) -> Recorder {
    let mut recorder = Recorder::new(Rect::new(0, 0, 512, 4));
    recorder.paint(Paint::new(true, 1)).unwrap();
    recorder.segments(&[Segment::solid(0, 0, 128)]).unwrap();
    let group = LayerProps {
        mask: 4,
        clip: Some(LayerClip {
            bbox: Rect::new(0, 0, 64, 4),
            start: 0,
            end: 1,
            thread_idx: 5,
        }),
        panel: layer,
        ..LayerProps::default()
    };
    recorder.push_layer(&group).unwrap();
    let fill = RecordedFill {
        thread_idx: 6,
        end: 1,
        mask: 2,
        panel: draw,
        ..RecordedFill::default()
    };
    recorder.draw(&fill).unwrap();
    recorder.pop_layer().unwrap();
    let props = LayerProps {
        panel: filter,
        ..LayerProps::default()
    };
    let placement = FilterLayerPlacement {
        dest: Rect::new(8, 3, 24, 9),
        source_x: 2,
        source_y: 1,
    };
    recorder.filter_layer(&props, Some(11), &placement).unwrap();
    recorder
}

/// Word for word; and what edition one is refused by, an open layer first.
#[test]
fn editions() {
    let two = [
        1,
        2,
        1,
        0,
        0,
        512,
        4,
        1,
        1,
        1,
        0,
        0,
        1,
        0,
        0,
        0,
        128,
        0,
        1,
        6,
        0,
        1,
        0,
        0,
        3,
        2,
        9,
        2,
        0,
        0,
        1,
        0,
        3,
        0x3f80_0000,
        4,
        1,
        0,
        0,
        64,
        4,
        0,
        1,
        5,
        0,
        0,
        0,
        0,
        0,
        0,
        0,
        7,
        1,
        0,
        0,
        0,
        3,
        0x3f80_0000,
        0,
        0,
        0,
        0,
        0,
        0,
        0,
        0,
        0,
        12,
        8,
        3,
        24,
        9,
        2,
        1,
        8,
        3,
        0,
        1,
        0,
        0,
        0,
        1,
        1,
        1,
        2,
        1,
        1,
        3,
    ];
    let one = [
        1,
        0,
        0,
        512,
        4,
        1,
        1,
        1,
        0,
        0,
        1,
        0,
        0,
        0,
        128,
        0,
        1,
        6,
        0,
        1,
        0,
        0,
        3,
        2,
        2,
        0,
        0,
        1,
        0,
        3,
        0x3f80_0000,
        4,
        1,
        0,
        0,
        64,
        4,
        0,
        1,
        5,
        0,
        0,
        0,
        0,
        0,
        0,
        0,
        1,
        0,
        0,
        0,
        3,
        0x3f80_0000,
        0,
        0,
        0,
        0,
        0,
        0,
        0,
        0,
        0,
        12,
        8,
        3,
        24,
        9,
        2,
        1,
        3,
        0,
        1,
        0,
        0,
        0,
        1,
        1,
        1,
        2,
        1,
        1,
        3,
    ];
    let all = with_panels(9, 7, 8);
    assert_eq!(all.words(Edition::Two).unwrap(), two);
    let none = with_panels(0, 0, 0);
    assert_eq!(none.words(Edition::One).unwrap(), one);
    assert_eq!(to_edition_two(&one, Mode::Exact), none.words(Edition::Two));
    for (draw, layer, filter) in [(9, 7, 8), (1, 0, 0), (0, 1, 0), (0, 0, 255)] {
        let mut recorder = with_panels(draw, layer, filter);
        assert_eq!(recorder.words(Edition::One), Err(Answer::HasPanels));
        recorder.push_layer(&LayerProps::default()).unwrap();
        assert_eq!(recorder.words(Edition::One), Err(Answer::Open));
        assert_eq!(recorder.words(Edition::Two), Err(Answer::Open));
        recorder.pop_layer().unwrap();
        assert_eq!(recorder.words(Edition::One), Err(Answer::HasPanels));
        assert!(recorder.words(Edition::Two).is_ok());
        // Nothing is lost where what had the panel is gone.
        recorder.clear(Rect::new(0, 0, 4, 4));
        assert!(recorder.words(Edition::One).is_ok());
    }
}

/// Two paints, three segments of which two are in order, a draw and a layer.
fn small() -> Recorder {
    let mut recorder = Recorder::new(Rect::new(0, 0, 64, 8));
    recorder.paint(Paint::new(true, 1)).unwrap();
    recorder.paint(Paint::new(false, 2)).unwrap();
    recorder.segments(&SEGMENTS).unwrap();
    recorder.draw(&FILL).unwrap();
    recorder.push_layer(&props()).unwrap();
    recorder.pop_layer().unwrap();
    recorder
}

const SEGMENTS: [Segment; 3] = [
    Segment::solid(0, 0, 4),
    Segment::alpha(1, 2, 6, 32),
    Segment::solid(0, 8, 9),
];

const FILL: RecordedFill = RecordedFill {
    thread_idx: 0,
    start: 0,
    end: 2,
    paint: 1,
    blend_mode: BlendMode { mix: 0, compose: 3 },
    mask: 0,
    panel: 0,
};

fn props() -> LayerProps {
    LayerProps {
        clip: Some(LayerClip {
            bbox: Rect::new(0, 0, 16, 8),
            start: 0,
            end: 2,
            thread_idx: 0,
        }),
        ..LayerProps::default()
    }
}

/// What the recording call says of such words, of edition two.
fn judged(words: &[u32]) -> Answer {
    let mut screen = CommandBucketer::from_wh(4, 4, SETUP).unwrap();
    screen.bucket_commands(Edition::Two, words).unwrap_err()
}

/// A record, by the recorder with `record` and by the recording call with the words of the last record of a section changed: refused by both by the same
/// answer, and nothing is recorded.
fn refused<T: std::fmt::Debug + PartialEq>(
    answer: Answer,
    at: usize,
    changed: &[(usize, u32)],
    record: impl FnOnce(&mut Recorder) -> Result<T, Answer>,
) {
    let mut recorder = small();
    let words = recorder.words(Edition::Two).unwrap();
    assert_eq!(record(&mut recorder), Err(answer));
    assert_eq!(recorder.words(Edition::Two).unwrap(), words);
    let mut patched = words;
    for &(field, word) in changed {
        patched[at + field] = word;
    }
    assert_eq!(judged(&patched), answer, "{changed:?}");
}

/// The fields of a record that are other words than those of `small`.
type Changed = &'static [(usize, u32)];

/// Where the records stand among the words of `small`.
const PAINT: usize = 8 + 4;
const SEGMENT: usize = 17;
const DRAW: usize = 33;
const LAYER: usize = 42;

#[test]
fn refused_paints_and_segments() {
    let words = small().words(Edition::Two).unwrap();
    assert_eq!((words[7], words[16], words[32], words[41]), (2, 3, 1, 1));
    let bad = Answer::BadRecord;
    let paint = |opaque, handle| Paint {
        opaque,
        handle,
        shift_x: 0,
        shift_y: 0,
    };
    refused(bad, PAINT, &[(0, 2)], |r| r.paint(paint(2, 2)));
    refused(bad, PAINT, &[(1, 1 << 31)], |r| r.paint(paint(0, 1 << 31)));
    let segments: [(Changed, Segment); 7] = [
        (
            &[(0, 2)],
            Segment {
                kind: 2,
                ..SEGMENTS[0]
            },
        ),
        (&[(1, 8192)], Segment::solid(8192, 0, 4)),
        (&[(3, 0)], Segment::solid(0, 0, 0)),
        (&[(2, 5)], Segment::solid(0, 5, 4)),
        (&[(3, 8193)], Segment::solid(0, 0, 8193)),
        (
            &[(4, 1)],
            Segment {
                alpha: 1,
                ..SEGMENTS[0]
            },
        ),
        (
            &[(0, 1), (4, u32::MAX - 63)],
            Segment::alpha(0, 0, 4, u32::MAX - 63),
        ),
    ];
    for (changed, segment) in segments {
        refused(bad, SEGMENT, changed, |r| {
            r.segments(&[SEGMENTS[0], segment])
        });
    }
    // The largest alpha index that four tiles have.
    assert!(small()
        .segments(&[Segment::alpha(0, 0, 4, u32::MAX - 64)])
        .is_ok());
}

#[test]
fn refused_draws() {
    let fills: [(Answer, Changed, RecordedFill); 11] = [
        (
            Answer::BadRecord,
            &[(0, 256)],
            RecordedFill {
                thread_idx: 256,
                ..FILL
            },
        ),
        (
            Answer::BadRecord,
            &[(1, 3)],
            RecordedFill { start: 3, ..FILL },
        ),
        (
            Answer::BadRecord,
            &[(2, 4)],
            RecordedFill { end: 4, ..FILL },
        ),
        (
            Answer::BadRecord,
            &[(3, 2)],
            RecordedFill { paint: 2, ..FILL },
        ),
        (
            Answer::BadRecord,
            &[(4, 16)],
            RecordedFill {
                blend_mode: BlendMode {
                    mix: 16,
                    compose: 3,
                },
                ..FILL
            },
        ),
        (
            Answer::BadRecord,
            &[(5, 14)],
            RecordedFill {
                blend_mode: BlendMode {
                    mix: 0,
                    compose: 14,
                },
                ..FILL
            },
        ),
        (
            Answer::BadRecord,
            &[(6, 1 << 31)],
            RecordedFill {
                mask: 1 << 31,
                ..FILL
            },
        ),
        (
            Answer::BadRecord,
            &[(7, 256)],
            RecordedFill { panel: 256, ..FILL },
        ),
        (Answer::BadOrder, &[(2, 3)], RecordedFill { end: 3, ..FILL }),
        // Fields come before the order.
        (
            Answer::BadRecord,
            &[(2, 3), (7, 256)],
            RecordedFill {
                end: 3,
                panel: 256,
                ..FILL
            },
        ),
        (
            Answer::BadRecord,
            &[(2, 3), (3, 2)],
            RecordedFill {
                end: 3,
                paint: 2,
                ..FILL
            },
        ),
    ];
    for (answer, changed, fill) in fills {
        refused(answer, DRAW, changed, |r| r.draw(&fill));
    }
    let panel = RecordedFill { panel: 255, ..FILL };
    assert_eq!(small().draw(&panel), Ok(1));
}

#[test]
fn refused_layers() {
    let clip = props().clip.unwrap();
    let clips: [(Answer, Changed, LayerClip); 8] = [
        (
            Answer::BadRecord,
            &[(10, 18)],
            LayerClip {
                bbox: Rect::new(0, 0, 18, 8),
                ..clip
            },
        ),
        (
            Answer::BadRecord,
            &[(11, 6)],
            LayerClip {
                bbox: Rect::new(0, 0, 16, 6),
                ..clip
            },
        ),
        (
            Answer::BadRecord,
            &[(8, 20)],
            LayerClip {
                bbox: Rect::new(20, 0, 16, 8),
                ..clip
            },
        ),
        (
            Answer::BadRecord,
            &[(10, 32772)],
            LayerClip {
                bbox: Rect::new(0, 0, 32772, 8),
                ..clip
            },
        ),
        (
            Answer::BadRecord,
            &[(12, 3)],
            LayerClip { start: 3, ..clip },
        ),
        (Answer::BadRecord, &[(13, 4)], LayerClip { end: 4, ..clip }),
        (
            Answer::BadRecord,
            &[(14, 256)],
            LayerClip {
                thread_idx: 256,
                ..clip
            },
        ),
        (Answer::BadOrder, &[(13, 3)], LayerClip { end: 3, ..clip }),
    ];
    for (answer, changed, clip) in clips {
        let layer = LayerProps {
            clip: Some(clip),
            ..props()
        };
        refused(answer, LAYER, changed, |r| r.push_layer(&layer));
        refused(answer, LAYER, changed, |r| {
            r.filter_layer(&layer, None, &FilterLayerPlacement::default())
        });
    }
    let blend_mode = BlendMode {
        mix: 16,
        compose: 3,
    };
    refused(Answer::BadRecord, LAYER, &[(3, 16)], |r| {
        r.push_layer(&LayerProps {
            blend_mode,
            ..props()
        })
    });
    refused(Answer::BadRecord, LAYER, &[(6, 1 << 31)], |r| {
        r.push_layer(&LayerProps {
            mask: 1 << 31,
            ..props()
        })
    });
    let placement = FilterLayerPlacement {
        dest: Rect::new(0, 0, 8, 5),
        source_x: 0,
        source_y: 0,
    };
    let placements: [(Changed, Option<u32>, FilterLayerPlacement); 5] = [
        (&[(0, 1), (15, (1 << 31) + 1)], Some(1 << 31), placement),
        (
            &[(0, 1), (18, 6)],
            None,
            FilterLayerPlacement {
                dest: Rect::new(0, 0, 6, 5),
                ..placement
            },
        ),
        (
            &[(0, 1), (17, 1)],
            None,
            FilterLayerPlacement {
                dest: Rect::new(0, 6, 8, 5),
                ..placement
            },
        ),
        (
            &[(0, 1), (20, 32769)],
            None,
            FilterLayerPlacement {
                source_x: 32769,
                ..placement
            },
        ),
        (
            &[(0, 1), (21, 32769)],
            None,
            FilterLayerPlacement {
                source_y: 32769,
                ..placement
            },
        ),
    ];
    for (changed, pixmap, placement) in placements {
        refused(Answer::BadRecord, LAYER, changed, |r| {
            r.filter_layer(&props(), pixmap, &placement)
        });
    }
    let panel = |panel| LayerProps { panel, ..props() };
    refused(Answer::BadRecord, LAYER, &[(22, 256)], |r| {
        r.push_layer(&panel(256))
    });
    refused(Answer::BadRecord, LAYER, &[(0, 1), (22, 256)], |r| {
        r.filter_layer(&panel(256), None, &placement)
    });
    assert_eq!(small().push_layer(&panel(255)), Ok(1));
    assert_eq!(small().pop_layer(), Err(Answer::NoLayer));
}

#[test]
fn full_sections() {
    let mut recorder = small();
    let segments = [Segment::solid(0, 0, 4); 4096];
    assert_eq!(recorder.segments(&segments), Err(Answer::BadForm));
    assert_eq!(recorder.segments(&segments[3..]), Ok(3..4096));
    assert_eq!(recorder.segments(&[]), Ok(4096..4096));
    assert_eq!(recorder.segments(&segments[..1]), Err(Answer::BadForm));
    for place in 2..4096 {
        assert_eq!(recorder.paint(Paint::new(true, 0)), Ok(place));
    }
    assert_eq!(recorder.paint(Paint::new(true, 0)), Err(Answer::BadForm));
    for draw in 1..4096 {
        assert_eq!(recorder.draw(&FILL), Ok(draw));
    }
    assert_eq!(recorder.draw(&FILL), Err(Answer::BadForm));
    // A node for each layer: the first has a layer already, the second has draws.
    for layer in 1..4096 {
        assert_eq!(recorder.push_layer(&props()), Ok(layer));
        recorder.pop_layer().unwrap();
    }
    assert_eq!(recorder.push_layer(&props()), Err(Answer::BadForm));
    // So full it is a recording still, whose walk a screen refuses: the 1,025th draw finds no attribute and no room in its row, and attributes come first.
    assert_eq!(
        judged(&recorder.words(Edition::Two).unwrap()),
        Answer::FullAttrs
    );

    // Layers that have a node of draws each: the nodes are full before the layers, with 1, then two for each layer, then one.
    let mut recorder = small();
    for _ in 1..2048 {
        recorder.push_layer(&props()).unwrap();
        recorder.draw(&FILL).unwrap();
        recorder.pop_layer().unwrap();
    }
    assert_eq!(recorder.push_layer(&props()), Ok(2048));
    assert_eq!(recorder.draw(&FILL), Err(Answer::BadForm));
    assert_eq!(recorder.push_layer(&props()), Err(Answer::BadForm));
    recorder.pop_layer().unwrap();
    assert_eq!(recorder.draw(&FILL), Err(Answer::BadForm));
    assert_eq!(
        judged(&recorder.words(Edition::Two).unwrap()),
        Answer::FullRow
    );
}

#[test]
fn layers_that_are_too_deep() {
    let mut recorder = small();
    for layer in 1..=16 {
        assert_eq!(recorder.push_layer(&props()), Ok(layer));
    }
    assert_eq!(recorder.push_layer(&props()), Err(Answer::Deep));
    recorder.draw(&FILL).unwrap();
    for _ in 0..16 {
        recorder.pop_layer().unwrap();
    }
    let words = recorder.words(Edition::Two).unwrap();
    let mut screen = CommandBucketer::from_wh(4, 4, SETUP).unwrap();
    screen.bucket_commands(Edition::Two, &words).unwrap();
    assert_eq!(screen.layer_attrs().len(), 17);
}
