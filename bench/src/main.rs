//! Times the original and the port on the same scenes, in one process.

mod measured;
mod port;
mod reads;
mod scenes;
mod timing;
mod widths;

use measured::{
    original_build, original_line, original_paint, original_recording, original_reset, port_build,
    port_by_rows, port_by_steps, port_line, port_list, port_own_rows, port_paint, port_recording,
    port_reset, port_reset_used,
};
use oracle::original::Original;
use oracle::painting::Piece;
use oracle::sizes;
use oracle::steps::{steps, Step};
use port::Port;
use std::hint::black_box;
use timing::Race;

fn main() {
    let only = std::env::args().nth(2).unwrap_or_default();
    let wanted = |scene: &&scenes::Scene| scene.name.contains(&only);
    if std::env::args().nth(1).as_deref() == Some("reads") {
        scenes::all().iter().filter(wanted).for_each(reads::count);
        return;
    }
    if std::env::args().nth(1).as_deref() == Some("widths") {
        scenes::of_widths().iter().for_each(widths::table);
        return;
    }
    let rounds = std::env::args()
        .nth(1)
        .and_then(|n| n.parse().ok())
        .unwrap_or(401);
    println!(
        "{:<14} {:<10} {:>12} {:>12} {:>7}",
        "scene", "what", "original us", "port us", "ratio"
    );
    for scene in scenes::all().iter().filter(wanted) {
        race(scene, rounds);
    }
}

fn race(it: &scenes::Scene, rounds: usize) {
    let mut original = Original::new(&it.draft);
    let steps = steps(&it.draft);
    let mut port = Port::new(&it.draft, it.setup());
    let fills_alone = is_fills_in_order(&steps, it.draft.draws.len());
    let [mut reset, mut used, mut build, mut list, mut paint, mut by_rows, mut own_rows, mut by_steps, mut line] =
        [(); 9].map(|()| Race::new());
    for _ in 0..rounds {
        if fills_alone {
            port.reset();
            list.port(|| port_list(&mut port));
        }
        reset.original(|| original_reset(&mut original));
        reset.port(|| port_reset(&mut port));
        port.build(&steps);
        port.paint(read);
        used.port(|| port_reset_used(&mut port));
        build.original(|| original_build(&mut original, &steps));
        build.port(|| port_build(&mut port, &steps));
        paint.original(|| original_paint(&mut original));
        paint.port(|| port_paint(&mut port));
        by_rows.port(|| port_by_rows(&mut port));
        own_rows.port(|| port_own_rows(&mut port));
        by_steps.port(|| port_by_steps(&mut port));
        if !it.line.is_empty() {
            line.original(|| original_line(&mut original, &it.line));
            line.port(|| port_line(&mut port, &it.line));
        }
    }
    reset.line(it.name, "reset");
    used.against(&reset).line(it.name, "reset used");
    build.line(it.name, "build");
    if fills_alone {
        list.against(&build).line(it.name, "list");
    }
    paint.line(it.name, "paint");
    by_rows.against(&paint).line(it.name, "all rows");
    own_rows.against(&paint).line(it.name, "own rows");
    by_steps.against(&paint).line(it.name, "by steps");
    if !it.line.is_empty() {
        line.line(it.name, "one line");
    }
    let pieces = compared(it.name, &mut original, &mut port);
    if fills_alone {
        port.reset();
        port.fill_list();
        compared(it.name, &mut original, &mut port);
    }

    let file = it.draft.words();
    if port.record(&file) {
        let mut walk = Race::new();
        for _ in 0..rounds {
            walk.original(|| original_recording(&mut original));
            walk.port(|| port_recording(&mut port, &file));
        }
        walk.line(it.name, "recording");
        compared(it.name, &mut original, &mut port);
    }
    println!(
        "{:<14} {} steps, {} segments, {} pieces",
        it.name,
        steps.len(),
        it.draft.segments.len(),
        pieces
    );
    words(it, &original, &reset, &build, &paint, pieces, rounds);
}

/// Whether a scene is its draws, each once, in order: then a list of fills builds it.
fn is_fills_in_order(steps: &[Step], draws: usize) -> bool {
    let fill = |(at, step): (usize, &Step)| matches!(*step, Step::Fill(i) if i == at);
    steps.len() == draws && steps.iter().enumerate().all(fill)
}

/// How many pieces both sides give of the scene that they hold: they must be the same, of the same panels.
fn compared(scene: &str, original: &mut Original, port: &mut Port) -> usize {
    let [mut given, mut listed, mut together, mut apart, mut stepped] =
        [(); 5].map(|()| Vec::<Piece>::new());
    original.paint(|pieces| given.extend(pieces));
    port.paint(|pieces| listed.extend(pieces.iter().map(port::piece)));
    port.paint_rows(|pieces| together.extend(pieces.iter().map(port::piece)));
    port.paint_own_rows(|pieces| apart.extend(pieces.iter().map(port::piece)));
    port.paint_by_steps(|pieces| stepped.extend(pieces.iter().map(port::piece)));
    assert!(
        given == listed && given == together && given == apart && given == stepped,
        "{scene}: the pieces differ"
    );
    given.len()
}

/// Takes what was painted.
fn read<T>(pieces: &[T]) {
    black_box(pieces);
}

/// Words written each second, beside a plain copy of as many.
fn words(
    it: &scenes::Scene,
    original: &Original,
    reset: &Race,
    build: &Race,
    paint: &Race,
    pieces: usize,
    rounds: usize,
) {
    let [x0, y0, x1, y1] = it.draft.viewport.map(|edge| edge as usize);
    let (rows, buckets) = ((y1 - y0) / 4, ((x1 - x0) / 4).div_ceil(32));
    let commands = sizes::COMMAND * it.c as usize + sizes::DEPTH_FILL * it.d as usize;
    let lent = rows * (commands + buckets + sizes::ROW + sizes::PAINTING) + sizes::TABLES;
    for (what, race, words) in [
        ("reset", reset, lent),
        ("build", build, original.words()),
        ("paint", paint, sizes::PIECE * pieces),
    ] {
        race.words(it.name, what, words, rounds);
    }
}
