//! What is read of a screen: stored commands, steps and nesting, attributes, layers, depth words.

use coarse::{
    Answer, BlendMode, BucketRange, CommandBucketer, DepthFill, FilterLayerPlacement, LayerClip,
    LayerProps, Paint, Piece, RecordedFill, Rect, RenderCmd, Segment, Setup, TileSpan,
};

const PAINTS: [Paint; 2] = [
    Paint {
        opaque: 1,
        handle: 1,
        shift_x: 0,
        shift_y: 0,
    },
    Paint {
        opaque: 0,
        handle: 2,
        shift_x: 0,
        shift_y: 0,
    },
];

fn fill(screen: &mut CommandBucketer, paint: u32, segments: &[Segment]) {
    let fill = RecordedFill {
        end: segments.len(),
        paint,
        ..RecordedFill::default()
    };
    screen.generate_fill(&PAINTS, segments, &fill).unwrap();
}

/// Depth fills and fills, then a layer that holds another, over two rows of 128 tiles.
fn scene() -> CommandBucketer {
    let mut screen = CommandBucketer::from_wh(512, 8, Setup::new(64, 64)).unwrap();
    fill(&mut screen, 0, &[Segment::solid(0, 20, 70)]);
    fill(&mut screen, 0, &[Segment::solid(0, 64, 128)]);
    screen.push_layer(&LayerProps::default()).unwrap();
    fill(&mut screen, 1, &[Segment::alpha(0, 4, 8, 160)]);
    screen.push_layer(&LayerProps::default()).unwrap();
    fill(&mut screen, 0, &[Segment::solid(0, 6, 9)]);
    screen.pop_layer(&[]).unwrap();
    screen.pop_layer(&[]).unwrap();
    screen
}

fn pieces(screen: &mut CommandBucketer, row: usize) -> Vec<Piece> {
    screen.paint_row(row).unwrap().to_vec()
}

#[test]
fn commands_by_number() {
    let screen = scene();
    let row = screen.row(0).unwrap();
    assert_eq!((row.index(), screen.rows().len()), (0, 2));
    let fills: Vec<DepthFill> = row.depth_cmds().collect();
    let ranges: Vec<BucketRange> = fills.iter().map(|fill| fill.bucket_range).collect();
    assert_eq!(ranges, [BucketRange::new(1, 2), BucketRange::new(2, 4)]);
    assert_eq!(
        ranges[1].span(screen.bucket_width()),
        TileSpan::new(64, 128)
    );
    assert_eq!(fills.iter().map(|fill| fill.attrs_idx).sum::<u32>(), 1);
    let stored: Vec<RenderCmd> = row.render_cmds().collect();
    let names: Vec<(u8, Option<TileSpan>, Option<u32>)> = stored
        .iter()
        .map(|cmd| match *cmd {
            RenderCmd::PaintFill(fill) => (b'P', Some(fill.span), fill.alpha_idx),
            RenderCmd::LayerFill(fill) => (b'L', Some(fill.span), fill.alpha_idx),
            RenderCmd::PushBuf(span) => (b'+', span, None),
            RenderCmd::PopBuf => (b'-', None, None),
        })
        .collect();
    let span = |first, end| Some(TileSpan::new(first, end));
    assert_eq!(
        names,
        [
            (b'P', span(20, 32), None),
            (b'P', span(64, 70), None),
            (b'+', span(0, 128), None),
            (b'P', span(4, 8), Some(160)),
            (b'+', span(0, 128), None),
            (b'P', span(6, 9), None),
            (b'L', span(0, 128), None),
            (b'-', None, None),
            (b'L', span(0, 128), None),
            (b'-', None, None),
        ]
    );
    for (number, cmd) in stored.iter().enumerate() {
        assert_eq!(row.render_cmd(number).as_ref(), Ok(cmd));
        assert_eq!(row.render_cmds().nth(number).as_ref(), Some(cmd));
    }
    assert!(row.render_cmds().rev().eq(stored.iter().rev().copied()));
    assert!(row.depth_cmds().rev().eq(fills.iter().rev().copied()));
    assert_eq!(row.render_cmds().len(), stored.len());
    assert_eq!(row.depth_cmd(1), Ok(fills[1]));
    for number in [stored.len(), usize::MAX] {
        assert_eq!(row.render_cmd(number), Err(Answer::BadRun));
        assert_eq!(row.depth_cmd(number), Err(Answer::BadRun));
    }
    let rows: Vec<usize> = screen.rows().rev().map(|row| row.index()).collect();
    assert_eq!(rows, [1, 0]);
    assert_eq!(screen.rows().nth(1).unwrap().render_cmds().len(), 0);
    for row in [2, usize::MAX] {
        assert_eq!(screen.row(row).err(), Some(Answer::BadRun));
    }
}

/// An open layer has its span when it closes.
#[test]
fn an_open_layer() {
    let mut screen = CommandBucketer::from_wh(256, 4, Setup::new(8, 8)).unwrap();
    screen.push_layer(&LayerProps::default()).unwrap();
    fill(&mut screen, 1, &[Segment::solid(0, 2, 8)]);
    let opened = |screen: &CommandBucketer| screen.row(0).unwrap().render_cmd(0).unwrap();
    assert_eq!(opened(&screen), RenderCmd::PushBuf(None));
    screen.pop_layer(&[]).unwrap();
    assert_eq!(
        opened(&screen),
        RenderCmd::PushBuf(Some(TileSpan::new(0, 64)))
    );
}

/// A step is the next depth fill, from the last, or the next command, and the nesting is that of the buffers.
#[test]
fn steps_and_nesting() {
    let mut screen = scene();
    let stored: Vec<RenderCmd> = screen.row(0).unwrap().render_cmds().collect();
    let depth_fills = screen.row(0).unwrap().depth_cmds().len() as u32;
    screen.begin_painting().unwrap();
    let all = {
        let mut screen = screen.clone();
        pieces(&mut screen, 0)
    };
    let (mut seen, mut nesting) = (Vec::new(), 0);
    for steps in 0.. {
        let told = screen.progress(0).unwrap();
        assert_eq!((told.steps, told.nesting), (steps, nesting));
        let Some(given) = screen.paint_step(0).unwrap() else {
            assert_eq!(steps, depth_fills + stored.len() as u32);
            break;
        };
        seen.extend_from_slice(given);
        let Some(place) = steps.checked_sub(depth_fills) else {
            continue;
        };
        match stored[place as usize] {
            RenderCmd::PushBuf(_) => nesting += 1,
            RenderCmd::PopBuf => nesting -= 1,
            RenderCmd::PaintFill(fill) => {
                assert!(given.iter().all(|piece| !piece.is_layer()
                    && piece.attrs_idx == fill.attrs_idx
                    && piece.alpha_idx().is_some() == fill.alpha_idx.is_some()
                    && piece.nesting == nesting));
            }
            RenderCmd::LayerFill(fill) => {
                assert!(given.iter().all(|piece| piece.is_layer()
                    && piece.attrs_idx == fill.attrs_idx
                    && piece.span() == fill.span));
            }
        }
    }
    assert_eq!((seen, nesting), (all, 0));
    assert_eq!(screen.progress(1).unwrap().steps, 0);
    assert_eq!(screen.progress(2), Err(Answer::BadRun));
}

#[test]
fn layers_and_boxes() {
    let mut screen = CommandBucketer::new(Rect::new(64, 8, 320, 24), Setup::new(64, 64)).unwrap();
    assert_eq!(screen.clip_bbox(), Rect::new(0, 0, 256, 16));
    assert_eq!(screen.setup(), Setup::new(64, 64));
    let clip = LayerClip {
        bbox: Rect::new(0, 12, 128, 40),
        start: 0,
        end: 1,
        thread_idx: 5,
    };
    let opacity = f32::from_bits(0x7fc0_1234);
    let props = LayerProps {
        blend_mode: BlendMode { mix: 1, compose: 3 },
        opacity,
        mask: 9,
        clip: Some(clip),
        panel: 4,
    };
    screen.push_layer(&props).unwrap();
    screen.push_layer(&LayerProps::default()).unwrap();
    let layers: Vec<_> = screen.open_layers().collect();
    assert_eq!((layers.len(), screen.open_layers().len()), (2, 2));
    // The clip's box in pixels from the viewport's corner, within it.
    let within = Rect::new(0, 4, 64, 16);
    assert_eq!((layers[0].bbox, layers[1].bbox), (within, within));
    assert_eq!(screen.clip_bbox(), within);
    assert_eq!((layers[0].clip, layers[1].clip), (Some(clip), None));
    assert_eq!(layers[0].opacity.to_bits(), opacity.to_bits());
    assert_eq!(
        (layers[0].mask, layers[0].panel, layers[0].blend_mode.mix),
        (9, 4, 1)
    );
    assert_eq!(screen.next_draw_id(), 1);
    fill(&mut screen, 1, &[Segment::solid(4, 18, 20)]);
    screen.pop_layer(&[]).unwrap();
    assert_eq!(screen.open_layers().len(), 1);
    screen.pop_layer(&[Segment::solid(4, 16, 32)]).unwrap();
    assert_eq!(screen.clip_bbox(), Rect::new(0, 0, 256, 16));
    assert_eq!((screen.layer_attrs().len(), screen.next_draw_id()), (2, 4));
    assert_eq!(screen.layer_attr(0), screen.layer_attrs().next());
    assert_eq!(screen.layer_attr(1).unwrap().opacity.to_bits(), 0x7fc0_1234);
    assert_eq!(screen.layer_attr(2), None);
}

#[test]
fn attributes_and_depth_words() {
    let mut screen = scene();
    let placement = FilterLayerPlacement {
        dest: Rect::new(0, 4, 8, 8),
        source_x: 1,
        source_y: 0,
    };
    screen
        .generate_filter_layer_fill(Some(3), &placement, 2, 1)
        .unwrap();
    assert_eq!(screen.filter_paints().len(), 1);
    assert_eq!(screen.filter_paints().next().unwrap().shift_y, -4);
    assert_eq!(screen.paint_attrs().len(), 5);
    let last = screen.paint_attr(4).unwrap();
    assert_eq!((last.paint, last.panel), (2, 1));
    assert_eq!(screen.paint_attr(5), None);
    assert!(!screen.is_painting());
    screen.begin_painting().unwrap();
    assert!(screen.is_painting());
    pieces(&mut screen, 0);
    assert_eq!(screen.depth_words_of(0), Some(&[0, 1, 2, 2][..]));
    assert_eq!(screen.depth_words_of(1), Some(&[0; 4][..]));
    assert_eq!(screen.depth_words_of(2), None);
    assert_eq!(screen.depth_words().len(), 8);
    let runs = screen.unset_runs(0, 10, 128).unwrap();
    assert_eq!(runs, [TileSpan::new(10, 32)]);
    let visible: u32 = screen
        .visible_runs(0, 0, 128, 1)
        .unwrap()
        .into_iter()
        .map(|run| run.end - run.first)
        .sum();
    assert_eq!(visible, 64);
}
