//! Viewports for the snapping mode: at its edges, and around boxes of multiples of 4.

use crate::random::Random;

/// A start and an end, and whether they are good once snapped.
pub(crate) type Axis = (u32, u32, bool);

/// A viewport, and whether it is good once snapped.
pub(crate) type Edge = ([u32; 4], bool);

/// Both sides of every edge on an axis that may be so long, a multiple of 4.
pub(crate) fn axis(most: u32) -> Vec<Axis> {
    // The start is lowered to 0, so that the end alone decides.
    let mut all = longest(most);
    // The last pixel edge, from both sides of it: starts up to 32,771 are lowered to it.
    for start in 32_765..=32_772 {
        for end in 32_765..=32_769 {
            all.push((start, end, start <= 32_771 && end <= 32_768));
        }
    }
    for end in 32_765..=32_769 {
        all.push((32_750, end, end <= 32_768));
        // As long as can be, and 4 too long.
        all.push((32_768 - most, end, end <= 32_768));
        all.push((32_767 - most, end, false));
    }
    all.extend([
        // 4 to 8, 4 to 4, 8 to 4.
        (7, 5, true),
        (5, 3, true),
        (9, 3, false),
        (7, 4, true),
        (8, 4, false),
        (8, 5, true),
        (11, 5, true),
        (12, 5, false),
        (12, 8, false),
        (12, 9, true),
        (3, 0, true),
        (1, 0, true),
        (4, 0, false),
        (5, 0, false),
        (4, 1, true),
    ]);
    all.extend((0..9).map(|edge| (edge, edge, true)));
    all.extend([(1, 2, true), (3, 4, true), (3, 5, true), (0, 8, true)]);
    // Numbers that wrap in 16 or in 32 bits once they are raised.
    let last = u32::MAX;
    for edge in [65_533, 65_535, 65_536, 65_541, 1 << 31, last - 3, last - 2] {
        all.extend([(0, edge, false), (edge, edge, false), (edge, 7, false)]);
    }
    all.extend([
        (0, last, false),
        (last, last, false),
        (last, 0, false),
        (last - 2, 1, false),
        (last - 6, last - 4, false),
        (65_536, 65_544, false),
    ]);
    all
}

/// The longest that an axis may be, 3 less to 1 more, from each start that is lowered to 0.
pub(crate) fn longest(most: u32) -> Vec<Axis> {
    let lengths = |start: u32| (most - 3..=most + 1).map(move |length| start + length);
    (0..4)
        .flat_map(|start| lengths(start).map(move |end| (start, end, end <= most)))
        .collect()
}

/// The edges across, on two rows.
pub(crate) fn across(most: u32) -> Vec<Edge> {
    let edge = |(x0, x1, good)| ([x0, 1, x1, 7], good);
    axis(most).into_iter().map(edge).collect()
}

/// The edges down, on two columns of tiles.
pub(crate) fn down(axis: Vec<Axis>) -> Vec<Edge> {
    let edge = |(y0, y1, good)| ([2, y0, 5, y1], good);
    axis.into_iter().map(edge).collect()
}

/// A viewport that snaps to this box of multiples of 4.
pub(crate) fn loosened([x0, y0, x1, y1]: [u32; 4], random: &mut Random) -> [u32; 4] {
    let by = [0; 4].map(|_: u32| random.below(4));
    [
        x0 + by[0],
        y0 + by[1],
        x1.saturating_sub(by[2]),
        y1.saturating_sub(by[3]),
    ]
}
