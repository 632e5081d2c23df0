//! What is measured: each call of each side is a function of its own that stands in the program under its own name. The times are taken around
//! these functions, and a profiler's count of one is what that call executes (`bench/table`).

use crate::port::Port;
use crate::read;
use oracle::original::Original;
use oracle::steps::Step;
use std::ops::Range;

#[inline(never)]
pub(crate) fn original_reset(original: &mut Original) {
    original.reset();
}

#[inline(never)]
pub(crate) fn port_reset(port: &mut Port) {
    port.reset();
}

#[inline(never)]
pub(crate) fn port_reset_used(port: &mut Port) {
    port.reset_used();
}

#[inline(never)]
pub(crate) fn original_build(original: &mut Original, steps: &[Step]) {
    original.build(steps);
}

#[inline(never)]
pub(crate) fn port_build(port: &mut Port, steps: &[Step]) {
    port.build(steps);
}

#[inline(never)]
pub(crate) fn port_list(port: &mut Port) {
    port.fill_list();
}

#[inline(never)]
pub(crate) fn original_paint(original: &mut Original) {
    original.paint(read);
}

#[inline(never)]
pub(crate) fn port_paint(port: &mut Port) {
    port.paint(read);
}

#[inline(never)]
pub(crate) fn original_line(original: &mut Original, rows: &Range<usize>) {
    original.paint_only(rows.clone(), read);
}

#[inline(never)]
pub(crate) fn port_line(port: &mut Port, rows: &Range<usize>) {
    port.paint_only(rows.clone(), read);
}

#[inline(never)]
pub(crate) fn port_by_rows(port: &mut Port) {
    port.paint_rows(read);
}

#[inline(never)]
pub(crate) fn port_own_rows(port: &mut Port) {
    port.paint_own_rows(read);
}

#[inline(never)]
pub(crate) fn port_by_steps(port: &mut Port) {
    port.paint_by_steps(read);
}

#[inline(never)]
pub(crate) fn original_recording(original: &mut Original) {
    original.walk();
}

#[inline(never)]
pub(crate) fn port_recording(port: &mut Port, file: &[u32]) {
    assert!(port.record(file), "a recording");
}
