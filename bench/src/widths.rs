//! The port at each width of a bucket: what a scene stores and gives, and how long it takes.

use crate::port::Port;
use crate::scenes::Scene;
use crate::timing::{median, micros};
use coarse::Width;
use oracle::steps::steps;

const ROUNDS: usize = 1_001;

pub(crate) fn table(it: &Scene) {
    let steps = steps(&it.draft);
    println!(
        "{:<14} {:>6} {:>12} {:>8} {:>10} {:>10}",
        it.name, "pixels", "depth fills", "pieces", "build us", "paint us"
    );
    for width in [Width::W64, Width::W128, Width::W256] {
        let mut port = Port::new(&it.draft, it.setup().with_width(width));
        let (mut build, mut paint, mut pieces) = (Vec::new(), Vec::new(), 0);
        for _ in 0..ROUNDS {
            port.reset();
            build.push(micros(|| port.build(&steps)));
            pieces = 0;
            paint.push(micros(|| port.paint(|given| pieces += given.len())));
        }
        println!(
            "{:<14} {:>6} {:>12} {:>8} {:>10.1} {:>10.1}",
            "",
            width as u32,
            port.depth_fills(),
            pieces,
            median(&build),
            median(&paint)
        );
    }
}
