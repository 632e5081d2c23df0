//! Paints each scene once, telling an emulator's plugin (`bench/reads.c`) where the depth words and the minima above them lie. Without it nothing is counted.

use crate::port::Port;
use crate::scenes::Scene;
use oracle::original::Original;
use oracle::steps::steps;

extern "C" {
    fn madvise(at: *const u8, bytes: usize, advice: i32) -> i32;
}

/// Advice that no system knows: the plugin takes the first two as "watch these words", depth words or minima, and the third as "say how many were read".
const WATCH: i32 = 7001;
const WATCH_MINIMA: i32 = 7003;
const SAY: i32 = 7002;

pub(crate) fn count(it: &Scene) {
    let steps = steps(&it.draft);
    let mut original = Original::new(&it.draft);
    original.reset();
    original.build(&steps);
    let mut port = Port::new(&it.draft, it.setup());
    port.reset();
    port.build(&steps);
    watch(original.depth_words(), WATCH);
    watch(&[], WATCH_MINIMA);
    original.paint(crate::read);
    say(it.name, "original");
    watch_port(&port);
    port.paint(crate::read);
    say(it.name, "port");
    watch_port(&port);
    port.paint_by_steps(crate::read);
    say(it.name, "by steps");
}

fn watch_port(port: &Port) {
    watch(port.depth_words(), WATCH);
    watch(port.minima(), WATCH_MINIMA);
}

fn watch(words: &[u32], advice: i32) {
    unsafe { madvise(words.as_ptr().cast(), size_of_val(words), advice) };
}

fn say(scene: &str, what: &str) {
    eprint!("{scene:<14} {what:<10}");
    unsafe { madvise(std::ptr::null(), 0, SAY) };
}
