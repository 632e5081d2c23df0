//! Painting one screen on several canvases.

use coarse::{
    Answer, BucketRange, Canvas, CommandBucketer, LayerProps, Paint, Piece, RecordedFill, Rect,
    Segment, Setup,
};

const ROWS: usize = 64;

fn fill(screen: &mut CommandBucketer, segments: &[Segment], paint: u32) {
    let paints = [Paint::new(true, 1), Paint::new(false, 2)];
    let fill = RecordedFill {
        end: segments.len(),
        paint,
        ..RecordedFill::default()
    };
    screen.generate_fill(&paints, segments, &fill).unwrap();
}

/// Fills and layers over all rows, whose painting has begun.
fn scene() -> CommandBucketer {
    let mut screen = CommandBucketer::from_wh(1024, 4 * ROWS as u32, Setup::new(64, 64)).unwrap();
    for i in 0..12 {
        if i % 5 == 2 {
            screen.push_layer(&LayerProps::default()).unwrap();
        }
        let segments: Vec<Segment> = (0..ROWS as u32)
            .map(|row| Segment::solid(row, (7 * i + row) % 40, 60 + 11 * i + row))
            .collect();
        fill(&mut screen, &segments, i % 2);
        if i % 5 == 4 {
            screen.pop_layer(&[]).unwrap();
        }
    }
    screen.begin_painting().unwrap();
    screen
}

fn all(screen: &mut CommandBucketer) -> Vec<Vec<Piece>> {
    (0..screen.rows().len())
        .map(|row| screen.paint_row(row).unwrap().to_vec())
        .collect()
}

/// Four threads, each on a canvas of its own: the same pieces.
#[test]
fn threads() {
    let mut alone = scene();
    let expected = all(&mut alone);
    assert!(expected.iter().flatten().any(|piece| piece.is_layer()));
    let screen = &scene();
    let painted: Vec<(usize, Vec<Piece>)> = std::thread::scope(|threads| {
        let started: Vec<_> = (0..4)
            .map(|thread| {
                threads.spawn(move || {
                    let mut canvas = screen.canvas().unwrap();
                    let mut given = Vec::new();
                    for row in (thread..ROWS).step_by(4) {
                        let mut pieces = Vec::new();
                        if thread % 2 == 0 {
                            pieces.extend_from_slice(canvas.paint_row(screen, row).unwrap());
                        } else {
                            while let Some(step) = canvas.paint_step(screen, row).unwrap() {
                                pieces.extend_from_slice(step);
                            }
                        }
                        assert_eq!(canvas.progress(screen, row).unwrap().nesting, 0);
                        given.push((row, pieces));
                    }
                    given
                })
            })
            .collect();
        started
            .into_iter()
            .flat_map(|thread| thread.join().unwrap())
            .collect()
    });
    assert_eq!(painted.len(), ROWS);
    for (row, pieces) in painted {
        assert_eq!(pieces, expected[row]);
    }
    // The screen's own canvas knows of none.
    assert!(screen.depth_words().iter().all(|&word| word == 0));
}

/// A canvas paints every row as the screen's own does, and so does its clone; then the depth words are the same.
#[test]
fn one_canvas() {
    let mut screen = scene();
    let mut canvas = Canvas::new(&screen).unwrap();
    canvas.paint_step(&screen, 0).unwrap();
    let mut other = canvas.clone();
    for canvas in [&mut canvas, &mut other] {
        canvas.begin(&screen).unwrap();
        let given: Vec<Vec<Piece>> = (0..ROWS)
            .map(|row| canvas.paint_row(&screen, row).unwrap().to_vec())
            .collect();
        assert_eq!(given, all(&mut screen.clone()));
    }
    all(&mut screen);
    assert_eq!(canvas.depth_words(), screen.depth_words());
    assert_eq!(
        canvas.visible_runs(&screen, 3, 0, 256, 4).unwrap(),
        screen.visible_runs(3, 0, 256, 4).unwrap()
    );
    assert_eq!(
        canvas.unset_runs(&screen, 3, 0, 256).unwrap(),
        screen.unset_runs(3, 0, 256).unwrap()
    );
    for id in 0..16 {
        assert_eq!(
            canvas.is_hidden(&screen, 3, 1, 3, id).unwrap(),
            screen.is_hidden(3, 1, 3, id).unwrap()
        );
    }
    assert_eq!(canvas.paint_row(&screen, ROWS), Err(Answer::BadRun));
}

/// A canvas is of one painting of one screen.
#[test]
fn stale_canvases() {
    let mut screen = CommandBucketer::from_wh(256, 8, Setup::new(8, 8)).unwrap();
    assert_eq!(screen.canvas().err(), Some(Answer::Open));
    screen.push_layer(&LayerProps::default()).unwrap();
    assert_eq!(screen.begin_painting(), Err(Answer::Open));
    screen.pop_layer(&[]).unwrap();
    screen.begin_painting().unwrap();
    let mut canvas = screen.canvas().unwrap();
    assert_eq!(canvas.paint_row(&screen, 0).unwrap(), []);
    // Something is drawn.
    fill(&mut screen, &[Segment::solid(0, 2, 8)], 0);
    assert_eq!(canvas.paint_row(&screen, 1), Err(Answer::Open));
    assert_eq!(canvas.begin(&screen), Err(Answer::Open));
    // Painting has begun anew.
    screen.begin_painting().unwrap();
    assert_eq!(canvas.paint_row(&screen, 0), Err(Answer::Open));
    assert_eq!(canvas.paint_step(&screen, 0), Err(Answer::Open));
    assert_eq!(canvas.progress(&screen, 0), Err(Answer::Open));
    assert_eq!(canvas.unset_runs(&screen, 0, 0, 64), Err(Answer::Open));
    canvas.begin(&screen).unwrap();
    assert_eq!(canvas.paint_row(&screen, 0).unwrap().len(), 1);
    // Another screen of the same size, whose painting has begun too.
    let other = screen.clone();
    let mut begun = screen.clone();
    begun.begin_painting().unwrap();
    assert_eq!(canvas.paint_row(&begun, 0), Err(Answer::Open));
    // A clone that nothing was done to is the same screen.
    assert_eq!(canvas.paint_row(&other, 0).unwrap(), []);
    // A viewport of another size.
    screen.reset(Rect::new(0, 0, 512, 16)).unwrap();
    assert_eq!(canvas.paint_row(&screen, 0), Err(Answer::Open));
    screen.begin_painting().unwrap();
    canvas.begin(&screen).unwrap();
    assert_eq!(canvas.depth_words().len(), 16);
    assert_eq!(canvas.paint_row(&screen, 3).unwrap(), []);
}

/// Writing depth words ends the painting of one canvas.
#[test]
fn depth_words_of_a_canvas() {
    let mut screen = scene();
    let mut canvas = screen.canvas().unwrap();
    assert_eq!(
        canvas.unset_runs_and_write(&screen, 0, 1, 3, 0),
        Err(Answer::BadRun)
    );
    assert_eq!(
        canvas.unset_runs_and_write(&screen, 0, 1, 3, 9).unwrap(),
        [BucketRange::new(1, 3)]
    );
    assert_eq!(canvas.depth_words()[..4], [0, 9, 9, 0]);
    assert_eq!(canvas.paint_row(&screen, 0), Err(Answer::Open));
    assert!(screen.paint_row(0).is_ok());
    assert!(screen.canvas().unwrap().paint_row(&screen, 0).is_ok());
}

/// What can be sent and shared.
#[test]
fn sent_and_shared() {
    fn both<T: Send + Sync>() {}
    both::<CommandBucketer>();
    both::<Canvas>();
    both::<Answer>();
}
