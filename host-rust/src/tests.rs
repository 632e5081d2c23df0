use super::*;
use crate::bucketer::{
    sizes, Tables, FILTER_PAINT, LAYER_ATTR, MOST_LAYERS, OPEN_LAYER, PAINT_ATTR,
};
use crate::figures::{FIGURES, MOST_RECORDINGS};
use crate::tile_list::MOST_ATTRS;

const SOLID: BlendMode = BlendMode { mix: 0, compose: 3 };

fn fill(start: usize, end: usize, paint: u32) -> RecordedFill {
    RecordedFill {
        start,
        end,
        paint,
        ..RecordedFill::default()
    }
}

/// All pieces of a row, in painting order.
fn painted(bucketer: &mut CommandBucketer, row: usize) -> Vec<Piece> {
    let mut all = Vec::new();
    while let Some(pieces) = bucketer.paint_step(row).unwrap() {
        all.extend_from_slice(pieces);
    }
    all
}

fn paint(attrs_idx: u32, first: u32, end: u32) -> Piece {
    Piece {
        tag: 1,
        attrs_idx,
        first,
        end,
        alpha: 0,
        nesting: 0,
        panel: 0,
    }
}

#[test]
fn known_points_of_the_split() {
    let regular = |first, end| DepthSegment::Regular(TileSpan { first, end });
    let opaque = |first, end| DepthSegment::Opaque(BucketRange { first, end });
    assert_eq!(
        split_opaque_span(10, 100, Width::W128),
        Ok(vec![regular(10, 32), opaque(1, 3), regular(96, 100)])
    );
    assert_eq!(
        split_opaque_span(10, 40, Width::W128),
        Ok(vec![regular(10, 40)])
    );
    assert_eq!(
        split_opaque_span(0, 64, Width::W128),
        Ok(vec![opaque(0, 2)])
    );
    assert_eq!(
        split_opaque_span(32, 64, Width::W128),
        Ok(vec![opaque(1, 2)])
    );
    assert_eq!(
        split_opaque_span(5, 5, Width::W128),
        Ok(vec![regular(5, 5)])
    );
    assert_eq!(split_opaque_span(6, 5, Width::W128), Err(Answer::BadRun));
    assert_eq!(split_opaque_span(0, 8193, Width::W128), Err(Answer::BadRun));
}

/// Every number is its own answer, one past the last too.
#[test]
fn answers_by_number() {
    assert_eq!(Answer::check(0), Ok(()));
    for number in 1..=15 {
        let answer = Answer::check(number).unwrap_err();
        assert_eq!(answer.number(), number);
        assert!(!matches!(answer, Answer::Unknown(_)));
        assert!(answer.text().starts_with(&format!("{answer:?}: ")));
    }
    for number in [16, 17, u32::MAX] {
        assert_eq!(Answer::check(number), Err(Answer::Unknown(number)));
    }
    assert_eq!(
        Answer::Deep.to_string(),
        "refused 6, Deep: 16 layers are open already"
    );
}

/// The header says the same of each answer.
#[test]
fn answers_in_words() {
    let header = include_str!("../../include/coarse.h");
    for number in 1..=16 {
        let text = Answer::check(number).unwrap_err().text();
        assert_eq!(
            header.matches(&format!("return \"{text}\";")).count(),
            1,
            "{text}"
        );
    }
}

/// The header has the same sizes, and the tables are as long as they ask.
#[test]
fn sizes_by_name() {
    let header = include_str!("../../include/coarse.h");
    for (name, number) in [
        ("PIECE", size_of_val(&Piece::default()) / 4),
        ("OPEN_LAYER", OPEN_LAYER),
        ("PAINT_ATTR", PAINT_ATTR),
        ("LAYER_ATTR", LAYER_ATTR),
        ("FILTER_PAINT", FILTER_PAINT),
        ("MOST_LAYERS", MOST_LAYERS),
        ("MOST_ATTRS", MOST_ATTRS),
        ("LAST_PANEL", LAST_PANEL as usize),
        ("FIGURES", FIGURES),
        ("MOST_RECORDINGS", MOST_RECORDINGS),
    ] {
        let line = ["#define", &format!("COARSE_{name}"), &number.to_string()];
        let same = |text: &str| text.split_whitespace().take(3).eq(line);
        assert_eq!(
            header.lines().filter(|text| same(text)).count(),
            1,
            "{name}"
        );
    }
    let sizes = sizes(Rect::new(0, 0, 256, 8), Setup::new(8, 8)).unwrap();
    assert_eq!(sizes.layers, MOST_LAYERS * OPEN_LAYER);
    assert_eq!(sizes.opacities, MOST_LAYERS + 1024);
    assert_eq!(sizes.paint_attrs, 1024 * PAINT_ATTR);
    assert_eq!(sizes.layer_attrs, 1024 * LAYER_ATTR);
    assert_eq!(sizes.filter_paints, 256 * FILTER_PAINT);
}

fn words(bytes: &[u8]) -> Vec<u32> {
    bytes
        .chunks_exact(4)
        .map(|b| u32::from_le_bytes([b[0], b[1], b[2], b[3]]))
        .collect()
}

/// Each sample is done, or refused with the number in its name; a done one paints every row to its end.
#[test]
fn the_samples() {
    let folder = concat!(env!("CARGO_MANIFEST_DIR"), "/../samples");
    let mut seen = 0;
    for entry in std::fs::read_dir(folder).unwrap() {
        let path = entry.unwrap().path();
        if path.extension() != Some("rec".as_ref()) {
            continue;
        }
        let name = path.file_stem().unwrap().to_str().unwrap().to_owned();
        let number = name
            .strip_prefix("refused-")
            .map_or(0, |n| n.parse().unwrap());
        // This one's viewport is no box of whole tiles.
        let setup = if name == "flat" {
            Setup::snapping(64, 64)
        } else {
            Setup::new(64, 64)
        };
        let mut bucketer = CommandBucketer::from_wh(4, 4, setup).unwrap();
        let done = bucketer.bucket_commands(Edition::One, &words(&std::fs::read(&path).unwrap()));
        assert_eq!(done.map_or_else(Answer::number, |()| 0), number, "{name}");
        if number == 0 {
            bucketer.begin_painting().unwrap();
            let pieces: usize = (0..bucketer.rows().len())
                .map(|row| painted(&mut bucketer, row).len())
                .sum();
            assert!(pieces > 0, "{name}");
        }
        seen += 1;
    }
    assert_eq!(seen, 11);
}

/// One draw of the worked example covers tiles 10 to 64 of row 0; row 1 has a layer.
#[test]
fn why_a_tile_shows_what_it_shows() {
    let file = words(include_bytes!("../../samples/worked.rec"));
    let mut bucketer = CommandBucketer::from_wh(4, 4, Setup::new(64, 64)).unwrap();
    let mut why = |row, tile, attribute| bucketer.why(Edition::One, &file, row, tile, attribute);
    assert_eq!(
        why(0, 10, Attribute::Draw(0)),
        Ok(Reason::ShownAt { place: 0, panel: 0 })
    );
    assert_eq!(
        why(0, 9, Attribute::Draw(0)),
        Ok(Reason::NoSegment { panel: 0 })
    );
    assert_eq!(why(0, 9, Attribute::Draw(9)), Ok(Reason::UnknownAttribute));
    assert_eq!(why(2, 0, Attribute::Draw(0)), Err(Answer::BadRun));
    assert_eq!(why(0, 64, Attribute::Draw(0)), Err(Answer::BadRun));
    assert_eq!(bucketer.rows().len(), 2);
    assert_eq!(
        bucketer.why(Edition::One, &file[1..], 9, 9, Attribute::Draw(0)),
        Err(Answer::BadForm)
    );
}

/// A piece cut to one of its tiles.
fn of_tile(piece: Piece, tile: u32) -> Piece {
    Piece {
        first: tile,
        end: tile + 1,
        alpha: piece
            .alpha_idx()
            .map_or(0, |alpha| alpha + 16 * (tile - piece.first)),
        ..piece
    }
}

/// Of each sample, in either edition, each mode and each width: a tile's list is what its row paints there. A recording that is refused is refused alike,
/// unless a row was full.
#[test]
fn lists_are_what_rows_paint() {
    let folder = concat!(env!("CARGO_MANIFEST_DIR"), "/../samples");
    let (mut entries, mut refused, mut full) = (0, 0, 0);
    for entry in std::fs::read_dir(folder).unwrap() {
        let path = entry.unwrap().path();
        if path.extension() != Some("rec".as_ref()) {
            continue;
        }
        let one = words(&std::fs::read(&path).unwrap());
        for mode in [Mode::Exact, Mode::Snapping] {
            let two = to_edition_two(&one, mode).unwrap_or_default();
            for (edition, file) in [(Edition::One, &one), (Edition::Two, &two)] {
                for width in [Width::W64, Width::W128, Width::W256] {
                    let setup = Setup {
                        mode,
                        width,
                        ..Setup::new(64, 64)
                    };
                    let list = |row, tile| list_tile(edition, file, mode, width, row, tile);
                    let mut bucketer = CommandBucketer::from_wh(4, 4, setup).unwrap();
                    match bucketer.bucket_commands(edition, file) {
                        Ok(()) => {}
                        Err(Answer::FullRow | Answer::FullDepth) => {
                            assert!(!list(0, 0).unwrap().is_empty());
                            full += 1;
                            continue;
                        }
                        Err(answer) => {
                            assert_eq!(list(0, 0), Err(answer));
                            refused += 1;
                            continue;
                        }
                    }
                    bucketer.begin_painting().unwrap();
                    let tiles = bucketer.width() / 4;
                    let rows = bucketer.rows().len() as u32;
                    for row in 0..rows {
                        let pieces = painted(&mut bucketer, row as usize);
                        for tile in (0..tiles).step_by(7) {
                            let received: Vec<Piece> = pieces
                                .iter()
                                .filter(|piece| piece.covers(tile))
                                .map(|&piece| of_tile(piece, tile))
                                .collect();
                            assert_eq!(list(row, tile).as_deref(), Ok(&received[..]));
                            entries += received.len();
                        }
                    }
                    assert_eq!(list(rows, 0), Err(Answer::BadRun));
                    assert_eq!(list(0, tiles), Err(Answer::BadRun));
                }
            }
        }
    }
    assert!(entries > 0 && refused > 0 && full > 0);
}

/// 1,025 opaque draws over one tile: each hides those before it, and the last finds no room for its attribute.
#[test]
fn a_list_without_rows() {
    let hidden = |count: u32| {
        let mut file = vec![1, 0, 0, 128, 4, 1, 1, 1, 0, 0, 1, 0, 0, 0, 32, 0, count];
        for _ in 0..count {
            file.extend([0, 0, 1, 0, 0, 3, 0]);
        }
        file.extend([0, 1, 0, count, 0, 1, 0, 1]);
        list_tile(Edition::One, &file, Mode::Exact, Width::W128, 0, 31)
    };
    assert_eq!(
        hidden(1024).as_deref(),
        Ok(&[Piece {
            attrs_idx: 1023,
            ..paint(0, 31, 32)
        }][..])
    );
    assert_eq!(hidden(1025), Err(Answer::FullAttrs));
}

/// Nothing is hidden in the worked example. Beside it a recording that is cut, and one whose viewport is no screen's: each is refused, and counts as that alone.
#[test]
fn figures_of_a_list() {
    let worked = words(include_bytes!("../../samples/worked.rec"));
    let mut flat = worked.clone();
    flat[3] = 255;
    let own = Figures {
        asked: 126,
        painted: 126,
        commands: 5,
        fills: 1,
        ..Figures::default()
    };
    let refused = Figures {
        refused: 1,
        ..Figures::default()
    };
    let files = [&worked[..], &worked[1..], &flat, &[], &worked];
    let list = figures(Edition::One, files, Setup::new(64, 64)).unwrap();
    assert_eq!(list.each, [own, refused, refused, refused, own]);
    let total = Figures {
        asked: 252,
        painted: 252,
        hidden: 0,
        commands: 10,
        fills: 2,
        refused: 3,
    };
    assert_eq!(list.total, total);
    assert_eq!(
        figures(Edition::One, files, Setup::snapping(64, 64))
            .unwrap()
            .each,
        [own, refused, own, refused, own]
    );
    // Of edition two there is no such recording, and a row has no room for one command of none.
    for (edition, setup) in [
        (Edition::Two, Setup::new(64, 64)),
        (Edition::One, Setup::new(0, 64)),
    ] {
        assert_eq!(figures(edition, files, setup).unwrap().each, [refused; 5]);
    }
}

#[test]
fn figures_of_none_and_of_too_many() {
    let setup = Setup::new(64, 64);
    assert_eq!(figures(Edition::One, [], setup), Ok(ListFigures::default()));
    let empty = |count| figures(Edition::One, core::iter::repeat_n(&[][..], count), setup);
    let most = empty(MOST_RECORDINGS).unwrap();
    assert_eq!(most.each.len(), MOST_RECORDINGS);
    assert_eq!(most.total.refused, 65_536);
    assert_eq!(empty(MOST_RECORDINGS + 1), Err(Answer::BadRecord));
}

/// Of each sample, at each width: tiles painted are those of its rows' pieces, commands and depth fills those that its rows hold, and what is asked for is
/// painted or hidden.
#[test]
fn figures_are_what_rows_hold_and_paint() {
    let folder = concat!(env!("CARGO_MANIFEST_DIR"), "/../samples");
    let mut files = Vec::new();
    for entry in std::fs::read_dir(folder).unwrap() {
        let path = entry.unwrap().path();
        if path.extension() == Some("rec".as_ref()) {
            files.push(words(&std::fs::read(&path).unwrap()));
        }
    }
    let mut hidden = 0;
    for width in [Width::W64, Width::W128, Width::W256] {
        let setup = Setup {
            width,
            ..Setup::new(64, 64)
        };
        let list = figures(Edition::One, files.iter().map(Vec::as_slice), setup).unwrap();
        let mut total = Figures::default();
        for (file, &told) in files.iter().zip(&list.each) {
            let mut bucketer = CommandBucketer::from_wh(4, 4, setup).unwrap();
            let mut own = Figures::default();
            if bucketer.bucket_commands(Edition::One, file).is_err() {
                own.refused = 1;
            } else {
                for row in bucketer.rows() {
                    own.commands += row.render_cmds().len() as u64;
                    own.fills += row.depth_cmds().len() as u64;
                }
                bucketer.begin_painting().unwrap();
                for row in 0..bucketer.rows().len() {
                    let pieces = painted(&mut bucketer, row);
                    own.painted += pieces
                        .iter()
                        .map(|piece| u64::from(piece.end - piece.first))
                        .sum::<u64>();
                }
                own.hidden = told.hidden;
                own.asked = own.painted + own.hidden;
            }
            assert_eq!(told, own);
            total = Figures {
                asked: total.asked + own.asked,
                painted: total.painted + own.painted,
                hidden: total.hidden + own.hidden,
                commands: total.commands + own.commands,
                fills: total.fills + own.fills,
                refused: total.refused + own.refused,
            };
        }
        assert_eq!(list.total, total);
        hidden += total.hidden;
    }
    assert!(hidden > 0);
}

/// The call itself: what is refused changes nothing, 4 for the ends before 14 for the table; with tables that are short the recording is refused, not the list.
#[test]
fn refused_figures_change_nothing() {
    let file = words(include_bytes!("../../samples/worked.rec"));
    let setup = Setup::new(64, 64);
    let room = sizes(Rect::new(0, 0, 256, 8), setup).unwrap();
    let counted = |ends: &[usize], numbers: usize, room: sys::Lengths| {
        let mut tables = Tables::new(room);
        tables.rows.fill(7);
        let mut state = sys::StateWords::default();
        let mut table = [9; 20];
        let number = unsafe {
            sys::coarse_figures(
                &mut state,
                1,
                file.as_ptr(),
                file.len(),
                ends.as_ptr(),
                ends.len(),
                setup.into(),
                &mut tables.lent().0,
                table.as_mut_ptr(),
                numbers,
            )
        };
        let untouched = state == sys::StateWords::default()
            && table == [9; 20]
            && tables.rows.iter().all(|&word| word == 7);
        (number, untouched, table)
    };
    let end = file.len();
    for (ends, numbers, number) in [
        (&[end, end - 1][..], 20, 4),
        (&[end, end - 1], 0, 4),
        (&[end + 1], 20, 4),
        (&[usize::MAX], 0, 4),
        (&[end], 11, 14),
        (&[end], 0, 14),
        (&[], 5, 14),
    ] {
        let (told, untouched, _) = counted(ends, numbers, room);
        assert_eq!((told, untouched), (number, true), "{ends:?} {numbers}");
    }
    let (told, untouched, table) = counted(&[0, end], 20, room);
    assert_eq!((told, untouched), (0, false));
    assert_eq!(table[..6], [0, 0, 0, 0, 0, 1]);
    assert_eq!(table[6..12], [126, 126, 0, 5, 1, 0]);
    assert_eq!(table[12..], [126, 126, 0, 5, 1, 1, 9, 9]);
    let short = sys::Lengths {
        minima: room.minima - 1,
        ..room
    };
    assert_eq!(
        counted(&[end], 12, short).2[..12],
        [0, 0, 0, 0, 0, 1].repeat(2)
    );
}

/// The second of two opaque draws over one row hides the first. A draw of edition one has panel 0.
#[test]
fn a_hidden_draw() {
    let file = [
        1, 0, 0, 512, 4, 1, 1, 1, 0, 0, 1, 0, 0, 0, 128, 0, 2, 0, 0, 1, 0, 0, 3, 0, 0, 0, 1, 0, 0,
        3, 0, 0, 1, 0, 2, 0, 1, 0, 1,
    ];
    let mut bucketer = CommandBucketer::from_wh(4, 4, Setup::new(8, 8)).unwrap();
    assert_eq!(
        bucketer.why(Edition::One, &file, 0, 5, Attribute::Draw(0)),
        Ok(Reason::HiddenBy {
            attribute: 1,
            hider_panel: 0,
            panel: 0
        })
    );
    assert!(bucketer.paint_attrs().all(|attrs| attrs.panel == 0));
}

/// In edition two draws and layers have their panels, and so have pieces, attributes and reasons.
#[test]
fn panels_of_edition_two() {
    let file = [
        1, 2, 1, 0, 0, 512, 4, 1, 1, 1, 0, 0, 1, 0, 0, 0, 128, 0, 2, 0, 0, 1, 0, 0, 3, 0, 5, 0, 0,
        1, 0, 0, 3, 0, 255, 0, 1, 0, 2, 0, 1, 0, 1,
    ];
    let mut recorder = Recorder::new(Rect::new(0, 0, 512, 4));
    recorder.paint(Paint::new(true, 1)).unwrap();
    recorder.segments(&[Segment::solid(0, 0, 128)]).unwrap();
    for panel in [5, 255] {
        let fill = RecordedFill {
            panel,
            ..fill(0, 1, 0)
        };
        recorder.draw(&fill).unwrap();
    }
    assert_eq!(recorder.words(Edition::Two).as_deref(), Ok(&file[..]));
    assert_eq!(recorder.words(Edition::One), Err(Answer::HasPanels));
    let mut bucketer = CommandBucketer::from_wh(4, 4, Setup::new(8, 8)).unwrap();
    assert_eq!(
        bucketer.why(Edition::Two, &file, 0, 5, Attribute::Draw(0)),
        Ok(Reason::HiddenBy {
            attribute: 1,
            hider_panel: 255,
            panel: 5
        })
    );
    bucketer.bucket_commands(Edition::Two, &file).unwrap();
    bucketer.begin_painting().unwrap();
    let pieces = painted(&mut bucketer, 0);
    assert_eq!(pieces.len(), 1);
    assert_eq!((pieces[0].attrs_idx, pieces[0].panel), (1, 255));
    let mut other = file;
    other[34] = 256;
    assert_eq!(
        bucketer.bucket_commands(Edition::Two, &other),
        Err(Answer::BadRecord)
    );

    // A layer of panel 7 with a draw of panel 9 in it, and a filter layer of panel 8 with a picture.
    let layers = [
        1,
        2,
        1,
        0,
        0,
        512,
        4,
        1,
        1,
        1,
        0,
        0,
        1,
        0,
        0,
        0,
        128,
        0,
        1,
        0,
        0,
        1,
        0,
        0,
        3,
        0,
        9,
        2,
        0,
        0,
        1,
        0,
        3,
        0x3f80_0000,
        0,
        0,
        0,
        0,
        0,
        0,
        0,
        0,
        0,
        0,
        0,
        0,
        0,
        0,
        0,
        0,
        7,
        1,
        0,
        0,
        0,
        3,
        0x3f80_0000,
        0,
        0,
        0,
        0,
        0,
        0,
        0,
        0,
        0,
        1,
        0,
        0,
        8,
        3,
        4,
        0,
        8,
        3,
        0,
        1,
        0,
        0,
        0,
        1,
        0,
        0,
        2,
        1,
        1,
        3,
    ];
    bucketer.bucket_commands(Edition::Two, &layers).unwrap();
    let drawn: Vec<u32> = bucketer.paint_attrs().map(|attrs| attrs.panel).collect();
    let closed: Vec<u32> = bucketer.layer_attrs().map(|attrs| attrs.panel).collect();
    assert_eq!((drawn, closed), (vec![9, 8], vec![7]));
}

/// Each sample there and back; a panel keeps a file from going back, also where nothing names its draw.
#[test]
fn conversions() {
    let folder = std::path::Path::new(env!("CARGO_MANIFEST_DIR")).join("../samples");
    let (mut done, mut refused) = (0, 0);
    for entry in std::fs::read_dir(folder).unwrap() {
        let path = entry.unwrap().path();
        if path.extension() != Some("rec".as_ref()) {
            continue;
        }
        let file = words(&std::fs::read(&path).unwrap());
        for mode in [Mode::Exact, Mode::Snapping] {
            match to_edition_two(&file, mode) {
                Ok(two) => {
                    assert_eq!(two[..2], [1, 2]);
                    assert_eq!(to_edition_one(&two, mode).as_ref(), Ok(&file));
                    assert_eq!(to_edition_two(&two, mode), Err(Answer::BadForm));
                    assert_eq!(to_edition_one(&two[1..], mode), Err(Answer::BadForm));
                    done += 1;
                }
                Err(answer) => {
                    assert!(matches!(
                        answer,
                        Answer::BadViewport | Answer::BadRecord | Answer::BadOrder
                    ));
                    refused += 1;
                }
            }
        }
    }
    // Two samples are refused as recordings are, by 4 and by 5, and one has an odd viewport; what a walk would refuse is converted.
    assert_eq!((done, refused), (17, 5));

    let mut file = [
        1, 2, 1, 0, 0, 8, 8, 1, 1, 1, 0, 0, 0, 1, 0, 0, 0, 0, 0, 3, 0, 0, 0, 0, 1, 0, 0,
    ];
    let mut other = [
        1, 0, 0, 8, 8, 1, 1, 1, 0, 0, 0, 1, 0, 0, 0, 0, 0, 3, 0, 0, 0, 1, 0, 0,
    ];
    assert_eq!(
        to_edition_one(&file, Mode::Exact).as_deref(),
        Ok(&other[..])
    );
    assert_eq!(
        to_edition_two(&other, Mode::Exact).as_deref(),
        Ok(&file[..])
    );
    file[21] = 255;
    assert_eq!(to_edition_one(&file, Mode::Exact), Err(Answer::HasPanels));
    file[21] = 256;
    assert_eq!(to_edition_one(&file, Mode::Exact), Err(Answer::BadRecord));
    // The viewport stands as it is given.
    (other[1], other[2]) = (3, 1);
    assert_eq!(
        to_edition_two(&other, Mode::Exact),
        Err(Answer::BadViewport)
    );
    assert_eq!(
        to_edition_two(&other, Mode::Snapping).unwrap()[3..7],
        [3, 1, 8, 8]
    );
}

/// A file is of the edition that it is told to be of, also where its words have the form of both.
#[test]
fn editions_are_told() {
    let one = [1, 0, 0, 8, 8, 0, 0, 0, 0, 0, 1, 0, 0];
    let two = [1, 2, 1, 0, 0, 8, 12, 0, 0, 0, 0, 0, 1, 0, 0];
    let mut bucketer = CommandBucketer::from_wh(4, 4, Setup::snapping(8, 8)).unwrap();
    bucketer.bucket_commands(Edition::One, &one).unwrap();
    assert_eq!(
        bucketer.bucket_commands(Edition::One, &two),
        Err(Answer::BadForm)
    );
    assert_eq!(
        bucketer.bucket_commands(Edition::Two, &one),
        Err(Answer::BadForm)
    );
    assert_eq!(bucketer.rows().len(), 2);
    bucketer.bucket_commands(Edition::Two, &two).unwrap();
    assert_eq!(bucketer.rows().len(), 3);
    for length in 0..two.len() {
        assert_eq!(
            bucketer.bucket_commands(Edition::Two, &two[..length]),
            Err(Answer::BadForm)
        );
    }

    // 2 to 254 pixels and four draws of no paint, or 254 to 0 pixels and nothing drawn.
    let mut both = [0; 41];
    both[..8].copy_from_slice(&[1, 2, 1, 254, 7, 0, 0, 4]);
    (both[24], both[38]) = (2, 1);
    assert_eq!(
        bucketer.bucket_commands(Edition::One, &both),
        Err(Answer::BadRecord)
    );
    assert_eq!(
        bucketer.bucket_commands(Edition::Two, &both),
        Err(Answer::BadViewport)
    );
}

/// The four words of a reason.
#[test]
fn reasons_by_their_words() {
    let hidden = Reason::HiddenBy {
        attribute: 7,
        hider_panel: 9,
        panel: 255,
    };
    let shown = Reason::ShownAt {
        place: 7,
        panel: 255,
    };
    for (words, reason, panel) in [
        ([0, 0, 0, 0], Reason::UnknownAttribute, None),
        ([1, 0, 3, 0], Reason::NoSegment { panel: 3 }, Some(3)),
        ([2, 0, 4, 0], Reason::CutAway { panel: 4 }, Some(4)),
        ([3, 0, 5, 0], Reason::RowUntouched { panel: 5 }, Some(5)),
        ([4, 7, 255, 9], hidden, Some(255)),
        ([5, 7, 255, 0], shown, Some(255)),
    ] {
        let words = sys::ReasonWords {
            kind: words[0],
            number: words[1],
            panel: words[2],
            hider_panel: words[3],
        };
        assert_eq!(Reason::of(words), reason);
        assert_eq!(reason.panel(), panel);
    }
}

#[test]
fn the_worked_example() {
    let file = words(include_bytes!("../../samples/worked.rec"));
    let mut bucketer = CommandBucketer::from_wh(4, 4, Setup::new(64, 64)).unwrap();
    bucketer.bucket_commands(Edition::One, &file).unwrap();
    assert_eq!(
        (
            bucketer.rows().len(),
            bucketer.buckets(),
            bucketer.next_draw_id()
        ),
        (2, 2, 4)
    );
    bucketer.begin_painting().unwrap();
    assert_eq!(
        painted(&mut bucketer, 0),
        [paint(0, 32, 64), paint(0, 10, 32)]
    );
    let layer = Piece {
        tag: 3,
        attrs_idx: 0,
        first: 0,
        end: 64,
        alpha: 0,
        nesting: 1,
        panel: 0,
    };
    assert_eq!(
        painted(&mut bucketer, 1),
        [
            Piece {
                nesting: 1,
                ..paint(1, 0, 8)
            },
            layer
        ]
    );
    assert_eq!(
        bucketer
            .layer_attrs()
            .map(|a| a.opacity)
            .collect::<Vec<_>>(),
        [0.5]
    );
}

#[test]
fn refused_recordings_change_nothing_or_leave_a_fresh_screen() {
    let mut bucketer = CommandBucketer::from_wh(256, 8, Setup::new(64, 64)).unwrap();
    bucketer
        .generate_fill(
            &[Paint::new(true, 1)],
            &[Segment::solid(0, 0, 64)],
            &fill(0, 1, 0),
        )
        .unwrap();
    let before = bucketer.clone();
    for file in [
        &[][..],
        &[1, 0, 0, 8, 8],
        &[1, 0, 0, 8, 8, 0, 0, 0, 0, 0, 1, 0, 0, 0],
    ] {
        assert_eq!(
            bucketer.bucket_commands(Edition::One, file),
            Err(Answer::BadForm)
        );
    }
    assert_eq!(
        bucketer.bucket_commands(Edition::One, &[1, 1, 0, 8, 8, 0, 0, 0, 0, 0, 1, 0, 0]),
        Err(Answer::BadViewport)
    );
    assert_eq!(
        (*bucketer.state(), &bucketer.parts().1.render_cmds),
        (*before.state(), &before.clone().parts().1.render_cmds)
    );
    assert_eq!(
        bucketer.bucket_commands(Edition::One, &[1, 0, 0, 8, 12, 0, 0, 0, 0, 0, 1, 0, 1]),
        Err(Answer::BadRecord)
    );
    assert_eq!((bucketer.rows().len(), bucketer.next_draw_id()), (3, 1));
}

#[test]
fn layers_keep_their_opacity() {
    let mut bucketer = CommandBucketer::from_wh(256, 8, Setup::new(64, 64)).unwrap();
    let patterns = [
        0x3f00_0000,
        0x7fc0_0000,
        0x7f80_0001,
        0xffff_ffff,
        0x8000_0000,
        0x7f80_0000,
    ];
    for bits in patterns {
        bucketer
            .push_layer(&LayerProps {
                opacity: f32::from_bits(bits),
                ..LayerProps::default()
            })
            .unwrap();
        bucketer.pop_layer(&[]).unwrap();
    }
    let kept: Vec<u32> = bucketer
        .layer_attrs()
        .map(|a| a.opacity.to_bits())
        .collect();
    assert_eq!(kept, patterns);
}

#[test]
fn a_clipped_layer() {
    let mut bucketer = CommandBucketer::from_wh(256, 8, Setup::new(64, 64)).unwrap();
    let clip = LayerClip {
        bbox: Rect::new(0, 0, 64, 4),
        start: 0,
        end: 1,
        thread_idx: 7,
    };
    bucketer
        .push_layer(&LayerProps {
            clip: Some(clip),
            ..LayerProps::default()
        })
        .unwrap();
    bucketer
        .generate_fill(
            &[Paint::new(true, 1)],
            &[Segment::solid(0, 8, 40)],
            &fill(0, 1, 0),
        )
        .unwrap();
    bucketer
        .pop_layer(&[Segment::alpha(0, 2, 12, 160)])
        .unwrap();
    bucketer.begin_painting().unwrap();
    let closing = Piece {
        tag: 4,
        attrs_idx: 0,
        first: 2,
        end: 12,
        alpha: 160,
        nesting: 1,
        panel: 0,
    };
    assert_eq!(
        painted(&mut bucketer, 0),
        [
            Piece {
                nesting: 1,
                ..paint(0, 8, 16)
            },
            closing
        ]
    );
    assert_eq!(closing.alpha_idx(), Some(160));
    assert_eq!(bucketer.layer_attrs().next().unwrap().thread_idx, 7);
}

#[test]
fn a_filter_fill() {
    let mut bucketer = CommandBucketer::from_wh(256, 8, Setup::new(64, 64)).unwrap();
    let placement = FilterLayerPlacement {
        dest: Rect::new(16, 2, 48, 6),
        source_x: 4,
        source_y: 5,
    };
    bucketer
        .generate_filter_layer_fill(None, &placement, 3, 0)
        .unwrap();
    assert_eq!(bucketer.filter_paints().count(), 0);
    assert_eq!(
        bucketer.generate_filter_layer_fill(Some(1 << 31), &placement, 3, 0),
        Err(Answer::BadRecord)
    );
    bucketer
        .generate_filter_layer_fill(Some(0), &placement, 3, 0)
        .unwrap();
    assert_eq!(
        bucketer.filter_paints().collect::<Vec<_>>(),
        [FilterPaint {
            pixmap: 0,
            shift_x: -12,
            shift_y: 3
        }]
    );
    let attrs: Vec<PaintFillAttrs> = bucketer.paint_attrs().collect();
    let expected = PaintFillAttrs {
        paint: 3,
        blend_mode: SOLID,
        mask: 0,
        draw_id: 1,
        thread_idx: 0,
        origin: (0, 0),
        panel: 0,
    };
    assert_eq!(attrs, [expected]);
    bucketer.begin_painting().unwrap();
    assert_eq!(painted(&mut bucketer, 0), [paint(0, 4, 12)]);
    assert_eq!(painted(&mut bucketer, 1), [paint(0, 4, 12)]);
}

/// Two layers of two panels, one in the other, with fills and a filter fill of others.
fn of_many_panels() -> CommandBucketer {
    let mut bucketer = CommandBucketer::from_wh(256, 8, Setup::new(16, 16)).unwrap();
    let layer = |panel| LayerProps {
        panel,
        ..LayerProps::default()
    };
    let fills = |bucketer: &mut CommandBucketer, panel| {
        let recorded = RecordedFill {
            panel,
            ..fill(0, 1, 0)
        };
        bucketer.generate_fill(
            &[Paint::new(false, 1)],
            &[Segment::solid(0, 0, 8)],
            &recorded,
        )
    };
    fills(&mut bucketer, LAST_PANEL).unwrap();
    bucketer.push_layer(&layer(7)).unwrap();
    bucketer.push_layer(&layer(LAST_PANEL)).unwrap();
    fills(&mut bucketer, 0).unwrap();
    bucketer
}

const BOX: FilterLayerPlacement = FilterLayerPlacement {
    dest: Rect {
        x0: 0,
        y0: 0,
        x1: 8,
        y1: 4,
    },
    source_x: 0,
    source_y: 0,
};

/// A piece has the panel of its fill, or of the layer that closes, whichever layer it stands in.
#[test]
fn panels() {
    let mut bucketer = of_many_panels();
    bucketer.pop_layer(&[]).unwrap();
    bucketer.pop_layer(&[]).unwrap();
    bucketer
        .generate_filter_layer_fill(Some(0), &BOX, 1, 9)
        .unwrap();
    let of_fills: Vec<u32> = bucketer.paint_attrs().map(|attrs| attrs.panel).collect();
    let of_layers: Vec<u32> = bucketer.layer_attrs().map(|attrs| attrs.panel).collect();
    assert_eq!((of_fills, of_layers), (vec![255, 0, 9], vec![255, 7]));
    bucketer.begin_painting().unwrap();
    let pieces: Vec<(bool, u32, u32)> = painted(&mut bucketer, 0)
        .iter()
        .map(|piece| (piece.is_layer(), piece.attrs_idx, piece.panel))
        .collect();
    assert_eq!(
        pieces,
        [
            (false, 0, 255),
            (false, 1, 0),
            (true, 0, 255),
            (true, 1, 7),
            (false, 2, 9)
        ]
    );
}

/// A panel above 255 is refused by 4 and changes nothing.
#[test]
fn no_panels() {
    let mut bucketer = of_many_panels();
    let before = bucketer.clone();
    for panel in [LAST_PANEL + 1, u32::MAX] {
        let recorded = RecordedFill {
            panel,
            ..fill(0, 1, 0)
        };
        let layer = LayerProps {
            panel,
            ..LayerProps::default()
        };
        let segments = [Segment::solid(0, 0, 8)];
        for refused in [
            bucketer.generate_fill(&[Paint::new(false, 1)], &segments, &recorded),
            bucketer.push_layer(&layer),
            bucketer.generate_filter_layer_fill(Some(0), &BOX, 1, panel),
            bucketer.generate_filter_layer_fill(None, &BOX, 1, panel),
        ] {
            assert_eq!(refused, Err(Answer::BadRecord));
        }
    }
    assert_eq!(*bucketer.state(), *before.state());
    let words = |b: &CommandBucketer| {
        let t = b.clone().parts().1.clone();
        (
            [t.render_cmds, t.rows, t.layers, t.paint_attrs],
            t.filter_paints,
        )
    };
    assert_eq!(words(&bucketer), words(&before));
    // So are words of a table with such a panel, where they are read: the inner layer's, then the first fill's.
    let inner = 2 * OPEN_LAYER - 1;
    bucketer.parts().1.layers[inner] = 256;
    assert_eq!(bucketer.pop_layer(&[]), Err(Answer::BadRecord));
    bucketer.parts().1.layers[inner] = 255;
    bucketer.pop_layer(&[]).unwrap();
    bucketer.pop_layer(&[]).unwrap();
    bucketer.begin_painting().unwrap();
    bucketer.parts().1.paint_attrs[PAINT_ATTR - 1] = 256;
    assert_eq!(bucketer.paint_step(0), Err(Answer::BadRecord));
}

#[test]
fn runs_and_skips() {
    let mut bucketer = CommandBucketer::from_wh(512, 4, Setup::new(8, 8)).unwrap();
    let run = |first, end| TileSpan { first, end };
    assert_eq!(
        bucketer.unset_runs_and_write(0, 1, 2, 7).unwrap(),
        [BucketRange::new(1, 2)]
    );
    assert_eq!(
        bucketer.unset_runs(0, 10, 100).unwrap(),
        [run(10, 32), run(64, 100)]
    );
    assert_eq!(
        bucketer.visible_runs(0, 10, 100, 7).unwrap(),
        [run(10, 100)]
    );
    assert_eq!(
        bucketer.visible_runs(0, 10, 100, 6).unwrap(),
        [run(10, 32), run(64, 100)]
    );
    assert_eq!(bucketer.unset_runs(1, 10, 100), Err(Answer::BadRun));
    assert_eq!(
        bucketer.unset_runs_and_write(0, 0, 1, 0),
        Err(Answer::BadRun)
    );
    assert_eq!(bucketer.can_skip(0, 0, 128, 1), Ok(true));
    bucketer
        .generate_fill(
            &[Paint::new(true, 1)],
            &[Segment::solid(0, 32, 64)],
            &fill(0, 1, 0),
        )
        .unwrap();
    bucketer
        .generate_fill(
            &[Paint::new(true, 1)],
            &[Segment::solid(0, 32, 64)],
            &fill(0, 1, 0),
        )
        .unwrap();
    assert_eq!(bucketer.can_skip(0, 0, 128, 2), Ok(true));
    assert_eq!(bucketer.can_skip(0, 0, 128, 1), Ok(false));
    assert_eq!(bucketer.can_skip(0, 0, 32, 1), Ok(true));
    assert_eq!(bucketer.can_skip(9, 0, 32, 1), Err(Answer::BadRun));
}

/// Every range of a row's buckets, as the depth words have it, at ids there and beside.
fn hidden_as_the_words_say(bucketer: &CommandBucketer) {
    for row in 0..bucketer.rows().len() {
        let words = bucketer.depth_words_of(row).unwrap();
        let buckets = u32::try_from(words.len()).unwrap();
        for end in 0..=buckets {
            for first in 0..=end {
                for id in [0, 1, 2, 6, 7, 8, u32::MAX - 1, u32::MAX] {
                    let all = words[first as usize..end as usize]
                        .iter()
                        .all(|&word| word > id);
                    assert_eq!(
                        bucketer.is_hidden(row, first, end, id),
                        Ok(all),
                        "{first} to {end} at {id}"
                    );
                }
            }
        }
    }
}

#[test]
fn hidden_buckets() {
    for (width, across) in [
        (Width::W64, 4_096),
        (Width::W64, 4_032),
        (Width::W128, 640),
        (Width::W128, 128),
        (Width::W256, 768),
        (Width::W256, 300),
    ] {
        let setup = Setup::new(8, 8).with_width(width);
        let mut bucketer = CommandBucketer::from_wh(across, 8, setup).unwrap();
        hidden_as_the_words_say(&bucketer);
        let buckets = u32::try_from(bucketer.buckets()).unwrap();
        bucketer
            .generate_fill(
                &[Paint::new(true, 1)],
                &[Segment::solid(0, 0, across / 4)],
                &fill(0, 1, 0),
            )
            .unwrap();
        bucketer.begin_painting().unwrap();
        hidden_as_the_words_say(&bucketer);
        bucketer.paint_row(0).unwrap();
        hidden_as_the_words_say(&bucketer);
        let half = buckets.div_ceil(2);
        bucketer.unset_runs_and_write(1, 0, half, 7).unwrap();
        hidden_as_the_words_say(&bucketer);
        bucketer
            .unset_runs_and_write(1, 0, buckets, u32::MAX)
            .unwrap();
        hidden_as_the_words_say(&bucketer);
        for (row, first, end) in [
            (0, 0, buckets + 1),
            (0, 1, 0),
            (0, buckets + 1, buckets + 1),
            (2, 0, 0),
        ] {
            assert_eq!(bucketer.is_hidden(row, first, end, 1), Err(Answer::BadRun));
        }
    }
}

/// Three commands in row 0 of two buckets: a layer's buffer with a fill in it, and nothing that closes it over the row.
fn dropped_buffer(bucketer: &mut CommandBucketer) {
    let clip = LayerClip {
        bbox: Rect::new(0, 0, 256, 4),
        ..LayerClip::default()
    };
    let props = LayerProps {
        clip: Some(clip),
        ..LayerProps::default()
    };
    bucketer.push_layer(&props).unwrap();
    bucketer
        .generate_fill(
            &[Paint::new(false, 1)],
            &[Segment::solid(0, 0, 64)],
            &fill(0, 1, 0),
        )
        .unwrap();
    bucketer.pop_layer(&[]).unwrap();
}

fn fill_row_0(bucketer: &mut CommandBucketer, is_opaque: bool) -> Result<(), Answer> {
    bucketer.generate_fill(
        &[Paint::new(is_opaque, 1)],
        &[Segment::solid(0, 0, 64)],
        &fill(0, 1, 0),
    )
}

fn stored_in_row_0(bucketer: &CommandBucketer) -> usize {
    bucketer.row(0).unwrap().render_cmds().len()
}

/// How many commands are taken out of row 0, whose pieces before and after are equal.
fn compacted(bucketer: &mut CommandBucketer) -> usize {
    let stored = stored_in_row_0(bucketer);
    bucketer.begin_painting().unwrap();
    let canvas = bucketer.canvas().unwrap();
    let pieces = painted(bucketer, 0);
    bucketer.compact_row(0).unwrap();
    assert!(!bucketer.is_painting());
    assert_eq!(bucketer.paint_row(0), Err(Answer::Open));
    bucketer.begin_painting().unwrap();
    assert_eq!(canvas.clone().paint_row(bucketer, 0), Err(Answer::Open));
    assert_eq!(painted(bucketer, 0), pieces);
    let left = stored_in_row_0(bucketer);
    bucketer.compact_row(0).unwrap();
    assert_eq!(stored_in_row_0(bucketer), left);
    stored - left
}

#[test]
fn compacted_rows() {
    let mut bucketer = CommandBucketer::from_wh(256, 8, Setup::new(6, 8)).unwrap();
    assert_eq!(compacted(&mut bucketer), 0);
    // What a newer fill hides goes, with the buffer that it was drawn in.
    dropped_buffer(&mut bucketer);
    assert_eq!(stored_in_row_0(&bucketer), 3);
    assert_eq!(compacted(&mut bucketer), 0);
    fill_row_0(&mut bucketer, true).unwrap();
    assert_eq!(compacted(&mut bucketer), 3);
    // What is newer stays.
    dropped_buffer(&mut bucketer);
    fill_row_0(&mut bucketer, false).unwrap();
    assert_eq!(compacted(&mut bucketer), 0);
    assert_eq!(stored_in_row_0(&bucketer), 4);
    // A full row takes as many commands again once all of it is hidden.
    fill_row_0(&mut bucketer, false).unwrap();
    fill_row_0(&mut bucketer, false).unwrap();
    assert_eq!(fill_row_0(&mut bucketer, false), Err(Answer::FullRow));
    fill_row_0(&mut bucketer, true).unwrap();
    assert_eq!(fill_row_0(&mut bucketer, false), Err(Answer::FullRow));
    assert_eq!(compacted(&mut bucketer), 6);
    for _ in 0..6 {
        fill_row_0(&mut bucketer, false).unwrap();
    }
    assert_eq!(fill_row_0(&mut bucketer, false), Err(Answer::FullRow));
}

#[test]
fn rows_that_are_not_compacted() {
    let mut bucketer = CommandBucketer::from_wh(256, 8, Setup::new(6, 8)).unwrap();
    dropped_buffer(&mut bucketer);
    fill_row_0(&mut bucketer, true).unwrap();
    bucketer.begin_painting().unwrap();
    let refused = |bucketer: &mut CommandBucketer, row, answer| {
        let mut before = bucketer.clone();
        assert_eq!(bucketer.compact_row(row), Err(answer));
        assert_eq!(bucketer.state(), before.state());
        let (_, tables, _) = bucketer.parts();
        let (_, held, _) = before.parts();
        assert_eq!(
            (&tables.rows, &tables.render_cmds, &tables.depth_cmds),
            (&held.rows, &held.render_cmds, &held.depth_cmds)
        );
    };
    refused(&mut bucketer, 2, Answer::BadRun);
    refused(&mut bucketer, usize::MAX, Answer::BadRun);
    // Words that no call leaves: a count past C.
    bucketer.parts().1.rows[0] = 7;
    refused(&mut bucketer, 0, Answer::BadRecord);
    bucketer.parts().1.rows[0] = 3;
    bucketer.push_layer(&LayerProps::default()).unwrap();
    refused(&mut bucketer, 0, Answer::Open);
    refused(&mut bucketer, 2, Answer::BadRun);
    bucketer.pop_layer(&[]).unwrap();
    assert_eq!(compacted(&mut bucketer), 3);
}

#[test]
fn spans_in_a_lent_list() {
    let mut bucketer = CommandBucketer::from_wh(512, 8, Setup::new(8, 8)).unwrap();
    bucketer.unset_runs_and_write(0, 1, 2, 7).unwrap();
    let other = TileSpan { first: 1, end: 0 };
    let mut list = [other; 3];
    assert_eq!(
        bucketer.visible_spans(0, 10, 100, 6, &mut list[..1]),
        Err(Answer::NoRoom)
    );
    assert_eq!(
        bucketer.visible_spans(0, 100, 10, 6, &mut list),
        Err(Answer::BadRun)
    );
    assert_eq!(
        bucketer.visible_spans(2, 10, 100, 6, &mut list),
        Err(Answer::BadRun)
    );
    assert_eq!(list, [other; 3]);
    for id in [0, 6, 7] {
        for row in [0, 1] {
            list = [other; 3];
            let count = bucketer.visible_spans(row, 10, 100, id, &mut list).unwrap();
            assert_eq!(
                &list[..count],
                &*bucketer.visible_runs(row, 10, 100, id).unwrap()
            );
            assert!(list[count..].iter().all(|run| *run == other));
        }
    }
    assert_eq!(bucketer.visible_spans(0, 5, 5, 7, &mut []), Ok(0));
}

/// Fills in and around two layers, one in the other, over rows 0 and 1 of 128 tiles.
fn nested() -> CommandBucketer {
    let mut bucketer = CommandBucketer::from_wh(512, 8, Setup::new(64, 64)).unwrap();
    let paints = [Paint::new(true, 1), Paint::new(false, 2)];
    let fills = |bucketer: &mut CommandBucketer, n: u32| {
        for i in 0..n {
            let segments = [
                Segment::solid(0, 3 * i, 70 + i),
                Segment::alpha(0, 70 + i, 72 + i, 160 * i),
                Segment::solid(1, 2 * i, 40 + 8 * i),
            ];
            bucketer
                .generate_fill(&paints, &segments, &fill(0, 3, i % 2))
                .unwrap();
        }
    };
    fills(&mut bucketer, 4);
    bucketer.push_layer(&LayerProps::default()).unwrap();
    fills(&mut bucketer, 3);
    bucketer.push_layer(&LayerProps::default()).unwrap();
    fills(&mut bucketer, 5);
    bucketer.pop_layer(&[]).unwrap();
    bucketer.pop_layer(&[]).unwrap();
    fills(&mut bucketer, 6);
    bucketer.begin_painting().unwrap();
    bucketer
}

/// A reset of what is used leaves every word as a reset does, whatever was drawn, painted and compacted before it, and with layers open.
#[test]
fn used_screens_are_reset() {
    let viewport = Rect::new(0, 0, 512, 8);
    let used = |mut bucketer: CommandBucketer| {
        let mut whole = bucketer.clone();
        assert_eq!(whole.reset(viewport), Ok(()));
        bucketer.reset_used();
        assert_eq!(bucketer.state(), whole.state());
        assert_eq!(
            format!("{:?}", bucketer.parts().1),
            format!("{:?}", whole.parts().1)
        );
        bucketer
    };
    let fresh = used(CommandBucketer::from_wh(512, 8, Setup::new(64, 64)).unwrap());
    let mut again = used(used(nested()));
    assert_eq!(again.state(), fresh.state());
    let mut half = nested();
    half.paint_step(0).unwrap();
    half.paint_row(1).unwrap();
    used(half);
    let mut compact = nested();
    fill_row_0(&mut compact, true).unwrap();
    compact.compact_row(0).unwrap();
    used(compact);
    let mut open = nested();
    for opacity in [0.5, f32::NAN] {
        let layer = LayerProps {
            opacity,
            ..LayerProps::default()
        };
        open.push_layer(&layer).unwrap();
    }
    used(open);
    fill_row_0(&mut again, false).unwrap();
    assert_eq!(stored_in_row_0(&again), 1);
    used(again);
}

/// Lists of fills are single fills, up to the first that is refused: at the first, a middle and the last, and none.
#[test]
fn a_list_is_its_fills() {
    let screen = || CommandBucketer::from_wh(256, 8, Setup::new(64, 64)).unwrap();
    let paints = [Paint::new(true, 1), Paint::new(false, 2)];
    let segments = [
        Segment::solid(0, 0, 64),
        Segment::alpha(1, 8, 56, 160),
        Segment::solid(0, 3, 9),
    ];
    let good = [fill(0, 2, 0), fill(0, 1, 1), fill(1, 2, 0), fill(2, 3, 1)];
    let refused = [
        (fill(0, 4, 0), Answer::BadRecord),
        (fill(0, usize::MAX, 0), Answer::BadRecord),
        (fill(0, 1, 2), Answer::BadRecord),
        (fill(1, 3, 0), Answer::BadOrder),
    ];
    let mut lists = vec![(good.to_vec(), None), (Vec::new(), None)];
    for at in 0..good.len() {
        for (bad, answer) in refused {
            let mut fills = good.to_vec();
            fills[at] = bad;
            lists.push((fills, Some(Stopped { done: at, answer })));
        }
    }
    for (fills, stopped) in lists {
        let (mut single, mut list) = (screen(), screen());
        let one_by_one = fills.iter().enumerate().try_for_each(|(done, fill)| {
            single
                .generate_fill(&paints, &segments, fill)
                .map_err(|answer| Stopped { done, answer })
        });
        assert_eq!(one_by_one.err(), stopped);
        assert_eq!(
            list.generate_fills(&paints, &segments, &fills).err(),
            stopped
        );
        single.begin_painting().unwrap();
        list.begin_painting().unwrap();
        for row in 0..2 {
            assert_eq!(painted(&mut list, row), painted(&mut single, row));
        }
        assert!(list.paint_attrs().eq(single.paint_attrs()));
        if let Some(stopped) = stopped {
            let said = stopped.to_string();
            assert!(
                said.starts_with(&format!("fill {}: refused ", stopped.done)),
                "{said}"
            );
        }
    }
}

/// An empty list judges nothing, and painting goes on; one fill ends it.
#[test]
fn an_empty_list_leaves_painting_alone() {
    let mut screen = CommandBucketer::from_wh(256, 8, Setup::new(64, 64)).unwrap();
    let bad = vec![Paint::new(true, 1); 4_097];
    screen.begin_painting().unwrap();
    screen.generate_fills(&bad, &[], &[]).unwrap();
    assert_eq!(screen.paint_row(0).unwrap(), []);
    screen
        .generate_fills(&bad[..1], &[], &[fill(0, 0, 0)])
        .unwrap();
    assert_eq!(screen.paint_row(0), Err(Answer::Open));
}

#[test]
fn a_row_is_its_steps() {
    let mut by_steps = nested();
    let mut by_rows = nested();
    for row in 0..2 {
        let pieces = painted(&mut by_steps, row);
        assert!(pieces.iter().any(|piece| piece.is_layer()));
        assert!(pieces.iter().any(|piece| piece.nesting == 2));
        assert_eq!(by_rows.paint_row(row).unwrap(), pieces);
        assert_eq!(by_rows.paint_row(row).unwrap(), []);
        assert_eq!(by_rows.paint_step(row), Ok(None));
    }
    assert_eq!(by_rows.depth_words(), by_steps.depth_words());
    assert_eq!(by_rows.parts().1.painting, by_steps.parts().1.painting);
    assert_eq!(by_rows.paint_row(2), Err(Answer::BadRun));
    assert_eq!(by_rows.paint_row(usize::MAX), Err(Answer::BadRun));
}

#[test]
fn a_row_with_little_room() {
    let mut by_steps = nested();
    let mut by_rows = nested();
    let pieces = painted(&mut by_steps, 0);
    // A list of two pieces holds the first steps alone.
    let (state, _, brush) = by_rows.parts();
    let state = *state;
    brush.pieces().truncate(2);
    let stored = *by_rows.stored();
    let brush = by_rows.parts().2;
    let (finished, n) = brush
        .paint_on(sys::coarse_paint_row, &state, &stored, 0, 0)
        .unwrap();
    assert!(!finished && n <= 2);
    assert_eq!(brush.pieces()[..n], pieces[..n]);
    assert_eq!(by_rows.paint_row(0).unwrap(), &pieces[n..]);
    // Without room the first step that has pieces is refused; the list grows as the row asks.
    let mut by_rows = nested();
    let stored = *by_rows.stored();
    let brush = by_rows.parts().2;
    brush.pieces().clear();
    assert_eq!(
        brush.paint_on(sys::coarse_paint_row, &state, &stored, 0, 0),
        Err(Answer::NoRoom)
    );
    assert_eq!(by_rows.paint_row(0).unwrap(), pieces);
    assert!(pieces.len() > by_rows.buckets() + 1);
}

/// Rows by one call are the rows by a call for each, on the screen and on a canvas, in parts and again.
#[test]
fn rows_are_each_row() {
    let mut by_row = nested();
    let each: Vec<Vec<Piece>> = (0..2)
        .map(|row| by_row.paint_row(row).unwrap().to_vec())
        .collect();
    let mut by_rows = nested();
    let mut canvas = by_rows.canvas().unwrap();
    assert!(canvas.paint_rows(&by_rows, 0..2).unwrap().eq(&each));
    assert!(canvas.paint_rows(&by_rows, 0..2).unwrap().eq([&[]; 2]));
    assert_eq!(by_rows.paint_rows(0..2).unwrap().len(), 2);
    assert_eq!(by_rows.depth_words(), by_row.depth_words());
    assert_eq!(by_rows.minima(), by_row.minima());
    assert_eq!(by_rows.parts().1.painting, by_row.parts().1.painting);
    let mut by_rows = nested();
    assert!(by_rows.paint_rows(1..2).unwrap().eq(&each[1..]));
    assert!(by_rows.paint_rows(0..2).unwrap().eq([&each[0], &[][..]]));
    assert_eq!(by_rows.paint_rows(2..2).unwrap().len(), 0);
    for range in [0..3, 3..3, usize::MAX..usize::MAX, 0..usize::MAX] {
        assert_eq!(by_rows.paint_rows(range).err(), Some(Answer::BadRun));
    }
    #[allow(clippy::reversed_empty_ranges)]
    let backwards = by_rows.paint_rows(2..1).err();
    assert_eq!(backwards, Some(Answer::BadRun));
    assert_eq!(
        CommandBucketer::from_wh(256, 8, Setup::new(1, 1))
            .unwrap()
            .paint_rows(0..2)
            .err(),
        Some(Answer::Open)
    );
}

/// A short list stops the rows where it ends, and the next call goes on there.
#[test]
fn rows_with_little_room() {
    let mut by_row = nested();
    let each: Vec<Vec<Piece>> = (0..2)
        .map(|row| by_row.paint_row(row).unwrap().to_vec())
        .collect();
    let most = each[0].len() + each[1].len();
    for room in 0..most {
        let mut by_rows = nested();
        let stored = *by_rows.stored();
        let state = *by_rows.parts().0;
        let brush = by_rows.parts().2;
        brush.pieces().resize(room, Piece::default());
        brush.ends().resize(2, 0);
        let (answer, painted) = brush.paint_rows_on(&state, &stored, 0..2, 0, 0);
        assert_eq!(answer, Err(Answer::NoRoom));
        let sys::PaintedRowsWords { rows, pieces } = painted;
        assert!(rows < 2 && pieces <= room);
        let so_far = brush.pieces()[..pieces].to_vec();
        assert_eq!(so_far, each.concat()[..pieces]);
        assert!(rows == 0 || brush.ends()[0] == each[0].len());
        // The first of the rows that are left is given from where it stands.
        let rest: Vec<Piece> = by_rows
            .paint_rows(rows..2)
            .unwrap()
            .flatten()
            .copied()
            .collect();
        assert_eq!([so_far, rest].concat(), each.concat());
        // The list grows as the rows ask.
        let mut by_rows = nested();
        by_rows.parts().2.pieces().truncate(room);
        assert!(by_rows.paint_rows(0..2).unwrap().eq(&each));
        // Fewer ends than rows.
        let mut by_rows = nested();
        let brush = by_rows.parts().2;
        brush.ends().resize(1, 0);
        let (answer, painted) = brush.paint_rows_on(&state, &stored, 0..2, 0, 0);
        assert_eq!(answer, Err(Answer::NoRoom));
        assert_eq!(painted, sys::PaintedRowsWords::default());
    }
}

/// The words of one row, as a host lends them, and a list of so many pieces.
#[derive(Clone, Debug, PartialEq)]
struct OwnWords {
    record: Vec<u32>,
    render_cmds: Vec<u32>,
    depth_cmds: Vec<u32>,
    paint_attrs: Vec<u32>,
    layer_attrs: Vec<u32>,
    depth: Vec<u32>,
    minima: Vec<u32>,
    painting: Vec<u32>,
    list: Vec<Piece>,
}

impl OwnWords {
    fn of(bucketer: &mut CommandBucketer, row: usize, room: usize) -> Self {
        let rows = bucketer.rows().len();
        let tables = bucketer.parts().1;
        let own = |words: &[u32]| {
            let each = words.len() / rows;
            words[row * each..(row + 1) * each].to_vec()
        };
        Self {
            record: own(&tables.rows),
            render_cmds: own(&tables.render_cmds),
            depth_cmds: own(&tables.depth_cmds),
            paint_attrs: tables.paint_attrs.clone(),
            layer_attrs: tables.layer_attrs.clone(),
            depth: own(&tables.depth),
            minima: own(&tables.minima),
            painting: own(&tables.painting),
            list: vec![Piece::default(); room],
        }
    }

    /// Each of them by its number, those of BadArena first.
    fn lent(&mut self) -> [&mut Vec<u32>; 8] {
        [
            &mut self.render_cmds,
            &mut self.depth_cmds,
            &mut self.depth,
            &mut self.minima,
            &mut self.record,
            &mut self.painting,
            &mut self.paint_attrs,
            &mut self.layer_attrs,
        ]
    }

    /// Painted: whether the row is at its end, and how many pieces.
    fn paint(&mut self, state: &sys::StateWords) -> Result<(bool, usize), Answer> {
        let own = sys::StoredWords {
            rows: sys::Read::of(&self.record),
            render_cmds: sys::Read::of(&self.render_cmds),
            depth_cmds: sys::Read::of(&self.depth_cmds),
            paint_attrs: sys::Read::of(&self.paint_attrs),
            layer_attrs: sys::Read::of(&self.layer_attrs),
        };
        let mut canvas = sys::CanvasWords {
            depth: sys::Lent::of(&mut self.depth),
            minima: sys::Lent::of(&mut self.minima),
            painting: sys::Lent::of(&mut self.painting),
        };
        let (list, list_len) = crate::canvas::words_mut(&mut self.list);
        let mut painted = sys::PaintedWords {
            finished: 7,
            pieces: 7,
        };
        let done = Answer::check(unsafe {
            sys::coarse_paint_own_row(state, &own, &mut canvas, list, list_len, &mut painted)
        });
        if done.is_err() {
            assert_eq!((painted.finished, painted.pieces), (7, 7));
        }
        done.map(|()| (painted.finished == 1, painted.pieces))
    }
}

/// A refused row leaves its words as they were.
#[test]
fn an_own_row_is_refused() {
    let mut bucketer = nested();
    let state = *bucketer.parts().0;
    let good = OwnWords::of(&mut bucketer, 0, 64);
    let refused = |own: &OwnWords, state: &sys::StateWords, answer: Answer| {
        let mut left = own.clone();
        assert_eq!(left.paint(state), Err(answer));
        assert_eq!(left, *own);
    };

    // Each length, one short and one long.
    for k in 0..8 {
        let answer = if k < 4 {
            Answer::BadArena
        } else {
            Answer::BadRecord
        };
        let mut short = good.clone();
        short.lent()[k].pop();
        refused(&short, &state, answer);
        let mut long = good.clone();
        long.lent()[k].push(0);
        refused(&long, &state, answer);
        // What comes before it.
        let wide = sys::StateWords {
            viewport: Rect::new(0, 0, 513, 8).into(),
            ..state
        };
        refused(&long, &wide, Answer::BadViewport);
        long.lent()[0].clear();
        refused(&long, &state, Answer::BadArena);
    }
    for (c, d) in [(0, 64), (64, 0), (1_025, 64), (64, 1_025)] {
        refused(&good, &sys::StateWords { c, d, ..state }, Answer::BadArena);
    }

    // The screen's own numbers, a layer that is open, and painting that has not begun.
    for bad in [
        sys::StateWords { width: 3, ..state },
        sys::StateWords {
            painting: 2,
            ..state
        },
        sys::StateWords {
            layers: 17,
            ..state
        },
        sys::StateWords {
            next_draw_id: 0,
            ..state
        },
    ] {
        refused(&good, &bad, Answer::BadRecord);
    }
    for shut in [
        sys::StateWords { layers: 1, ..state },
        sys::StateWords {
            painting: 0,
            ..state
        },
    ] {
        refused(&good, &shut, Answer::Open);
    }

    // Words that are no row's.
    for (forge, word) in [(0, 65), (1, 65)] {
        let mut forged = good.clone();
        forged.record[forge] = word;
        refused(&forged, &state, Answer::BadRecord);
    }
    let mut forged = good.clone();
    forged.painting[1] = 17;
    refused(&forged, &state, Answer::BadRecord);
    let mut full = good.clone();
    full.list.clear();
    refused(&full, &state, Answer::NoRoom);
}

/// A short list stops an own row where it ends, and the next call goes on there.
#[test]
fn an_own_row_with_little_room() {
    for row in 0..2 {
        let mut by_row = nested();
        let each = by_row.paint_row(row).unwrap().to_vec();
        let after = OwnWords::of(&mut by_row, row, 64);
        let mut bucketer = nested();
        let state = *bucketer.parts().0;
        for room in 0..=each.len() {
            let mut own = OwnWords::of(&mut bucketer, row, room);
            let mut given = Vec::new();
            let at_end = loop {
                match own.paint(&state) {
                    Ok((true, count)) => {
                        given.extend_from_slice(&own.list[..count]);
                        break true;
                    }
                    Ok((false, count)) => given.extend_from_slice(&own.list[..count]),
                    Err(refused) => {
                        assert_eq!(refused, Answer::NoRoom);
                        break false;
                    }
                }
            };
            assert_eq!(given, each[..given.len()]);
            if !at_end {
                own.list.resize(64, Piece::default());
                let (finished, count) = own.paint(&state).unwrap();
                assert!(finished);
                given.extend_from_slice(&own.list[..count]);
            }
            assert_eq!(given, each);
            own.list.clone_from(&after.list);
            assert_eq!(own, after);
            assert_eq!(own.paint(&state), Ok((true, 0)));
        }
    }
}

#[test]
fn refusals_change_nothing() {
    assert_eq!(
        CommandBucketer::from_wh(6, 8, Setup::new(64, 64)).err(),
        Some(Answer::BadViewport)
    );
    assert_eq!(
        CommandBucketer::from_wh(8, 8, Setup::new(0, 64)).err(),
        Some(Answer::BadArena)
    );
    let mut bucketer = CommandBucketer::from_wh(256, 8, Setup::new(1, 1)).unwrap();
    let opaque = [Paint::new(true, 1)];
    assert_eq!(bucketer.pop_layer(&[]), Err(Answer::NoLayer));
    assert_eq!(bucketer.paint_step(0), Err(Answer::Open));
    assert_eq!(bucketer.paint_row(0), Err(Answer::Open));
    assert_eq!(
        bucketer.generate_fill(&opaque, &[], &fill(0, 1, 0)),
        Err(Answer::BadRecord)
    );
    assert_eq!(
        bucketer.generate_fill(&opaque, &[Segment::solid(0, 3, 3)], &fill(0, 1, 0)),
        Err(Answer::BadRecord)
    );
    let unordered = [Segment::solid(1, 0, 4), Segment::solid(0, 0, 4)];
    assert_eq!(
        bucketer.generate_fill(&opaque, &unordered, &fill(0, 2, 0)),
        Err(Answer::BadOrder)
    );
    let clear = [Paint::new(false, 1)];
    let two = [Segment::solid(0, 0, 4), Segment::solid(0, 8, 12)];
    assert_eq!(
        bucketer.generate_fill(&clear, &two, &fill(0, 2, 0)),
        Err(Answer::FullRow)
    );
    let buckets = [Segment::solid(0, 0, 32), Segment::solid(0, 32, 64)];
    assert_eq!(
        bucketer.generate_fill(&opaque, &buckets, &fill(0, 2, 0)),
        Err(Answer::FullDepth)
    );
    assert_eq!(bucketer.next_draw_id(), 1);
    for _ in 0..16 {
        bucketer.push_layer(&LayerProps::default()).unwrap();
    }
    assert_eq!(
        bucketer.push_layer(&LayerProps::default()),
        Err(Answer::Deep)
    );
    assert_eq!(bucketer.begin_painting(), Err(Answer::Open));
    assert_eq!(
        (bucketer.open_layers().len(), bucketer.next_draw_id()),
        (16, 1)
    );
}

#[test]
fn words_that_are_no_screen() {
    let mut bucketer = CommandBucketer::from_wh(256, 8, Setup::new(8, 8)).unwrap();
    bucketer.parts().0.painting = 2;
    let before = bucketer.clone();
    assert_eq!(
        bucketer.push_layer(&LayerProps::default()),
        Err(Answer::BadRecord)
    );
    assert_eq!(
        bucketer.reset(Rect::new(0, 0, 256, 8)),
        Err(Answer::BadRecord)
    );
    assert_eq!(*bucketer.state(), *before.state());
    // The viewport, then C and D, are judged before the word that is no flag.
    bucketer.parts().0.c = 0;
    assert_eq!(
        bucketer.push_layer(&LayerProps::default()),
        Err(Answer::BadArena)
    );
    bucketer.parts().0.viewport.x0 = 2;
    assert_eq!(
        bucketer.push_layer(&LayerProps::default()),
        Err(Answer::BadViewport)
    );
    assert_eq!(bucketer.begin_painting(), Err(Answer::BadViewport));
}

/// One solid fill over tiles 16 to 80: whole buckets of it are depth fills, at each width.
#[test]
fn widths() {
    let run = |first, end| TileSpan { first, end };
    for (width, buckets, split, pieces) in [
        (
            Width::W64,
            8,
            vec![DepthSegment::Opaque(BucketRange::new(1, 5))],
            vec![paint(0, 16, 80)],
        ),
        (
            Width::W128,
            4,
            vec![
                DepthSegment::Regular(run(16, 32)),
                DepthSegment::Opaque(BucketRange::new(1, 2)),
                DepthSegment::Regular(run(64, 80)),
            ],
            vec![paint(0, 32, 64), paint(0, 16, 32), paint(0, 64, 80)],
        ),
        (
            Width::W256,
            2,
            vec![DepthSegment::Regular(run(16, 80))],
            vec![paint(0, 16, 80)],
        ),
    ] {
        let setup = Setup::new(8, 8).with_width(width);
        let mut bucketer = CommandBucketer::from_wh(512, 4, setup).unwrap();
        assert_eq!(
            (bucketer.bucket_width(), bucketer.buckets()),
            (width, buckets)
        );
        assert_eq!(bucketer.depth_words().len(), buckets);
        assert_eq!(split_opaque_span(16, 80, width), Ok(split));
        bucketer
            .generate_fill(
                &[Paint::new(true, 1)],
                &[Segment::solid(0, 16, 80)],
                &fill(0, 1, 0),
            )
            .unwrap();
        bucketer.begin_painting().unwrap();
        assert_eq!(painted(&mut bucketer, 0), pieces);
    }
}

/// 1,366 x 768 pixels are 342 tiles in each of 192 rows.
#[test]
fn a_snapped_screen() {
    let setup = Setup::snapping(8, 8);
    assert_eq!(
        CommandBucketer::from_wh(1366, 768, Setup::new(8, 8)).err(),
        Some(Answer::BadViewport)
    );
    assert_eq!(sizes(Rect::new(0, 0, 1366, 768), setup), {
        sizes(Rect::new(0, 0, 1368, 768), Setup::new(8, 8))
    });
    let mut bucketer = CommandBucketer::from_wh(1366, 768, setup).unwrap();
    assert_eq!(bucketer.viewport(), Rect::new(0, 0, 1368, 768));
    assert_eq!((bucketer.rows().len(), bucketer.buckets()), (192, 11));
    bucketer
        .generate_fill(
            &[Paint::new(true, 1)],
            &[Segment::solid(191, 0, 342)],
            &fill(0, 1, 0),
        )
        .unwrap();
    bucketer.begin_painting().unwrap();
    assert_eq!(painted(&mut bucketer, 190), []);
    assert_eq!(
        painted(&mut bucketer, 191),
        [paint(0, 0, 320), paint(0, 320, 342)]
    );
    // A viewport of tile edges is the same screen in both modes.
    bucketer.reset(Rect::new(0, 0, 1368, 768)).unwrap();
    let exact = CommandBucketer::from_wh(1368, 768, Setup::new(8, 8)).unwrap();
    assert_eq!(*bucketer.state(), *exact.state());
}

/// An end before its start, and the limits, are judged on the snapped box.
#[test]
fn snapped_edges() {
    let mut bucketer = CommandBucketer::from_wh(4, 4, Setup::snapping(8, 8)).unwrap();
    bucketer.reset(Rect::new(7, 7, 5, 5)).unwrap();
    assert_eq!(bucketer.viewport(), Rect::new(4, 4, 8, 8));
    assert_eq!(
        CommandBucketer::new(Rect::new(7, 7, 5, 5), Setup::new(8, 8)).err(),
        Some(Answer::BadViewport)
    );
    bucketer.reset(Rect::new(1, 0, 4093, 2045)).unwrap();
    assert_eq!(bucketer.viewport(), Rect::new(0, 0, 4096, 2048));
    let before = bucketer.clone();
    for refused in [
        Rect::new(3, 0, 4097, 4),
        Rect::new(0, 0, 4, 2049),
        Rect::new(8, 0, 4, 4),
        Rect::new(0, 0, 32769, 4),
        Rect::new(u32::MAX, 0, u32::MAX, 4),
    ] {
        assert_eq!(
            bucketer.reset(refused),
            Err(Answer::BadViewport),
            "{refused:?}"
        );
    }
    assert_eq!(*bucketer.state(), *before.state());
    assert_eq!(
        CommandBucketer::from_wh(1366, 768, Setup::snapping(0, 8)).err(),
        Some(Answer::BadArena)
    );
}

/// One draw over all 128 tiles of a recording whose viewport is 510 x 3 pixels.
#[test]
fn a_snapped_recording() {
    let file = [
        1, 0, 0, 510, 3, 1, 1, 1, 0, 0, 1, 0, 0, 0, 128, 0, 1, 0, 0, 1, 0, 0, 3, 0, 0, 1, 0, 1, 0,
        1, 0, 1,
    ];
    let mut exact = CommandBucketer::from_wh(4, 4, Setup::new(8, 8)).unwrap();
    assert_eq!(
        exact.bucket_commands(Edition::One, &file),
        Err(Answer::BadViewport)
    );
    assert_eq!(
        exact.why(Edition::One, &file, 0, 0, Attribute::Draw(0)),
        Err(Answer::BadViewport)
    );
    let mut bucketer = CommandBucketer::from_wh(4, 4, Setup::snapping(8, 8)).unwrap();
    bucketer.bucket_commands(Edition::One, &file).unwrap();
    assert_eq!(bucketer.viewport(), Rect::new(0, 0, 512, 4));
    bucketer.begin_painting().unwrap();
    assert_eq!(painted(&mut bucketer, 0), [paint(0, 0, 128)]);
    let mut why = |tile| bucketer.why(Edition::One, &file, 0, tile, Attribute::Draw(0));
    assert_eq!(why(127), Ok(Reason::ShownAt { place: 0, panel: 0 }));
    assert_eq!(why(128), Err(Answer::BadRun));
}
