//! The minima above a row's depth words and the question that they answer, written from the rules in words. Every minimum is made afresh of the words, from all the
//! buckets of its group; no other minimum is read. The original has no such thing: its own runs of the same words are held beside the answer (`width`).

use crate::screen::Range;

/// What a place past the row's last bucket counts as.
const PAST: u32 = u32::MAX;

/// The minima of a row with these depth words: for each group its own, then those of its left half, then those of its right half. None for a row without buckets.
pub(crate) fn minima(words: &[u32]) -> Vec<u32> {
    let mut all = Vec::new();
    if !words.is_empty() {
        group(words, 0, words.len().next_power_of_two(), &mut all);
    }
    all
}

/// The minima of the group of so many buckets from the first on.
fn group(words: &[u32], first: usize, count: usize, all: &mut Vec<u32>) {
    let word = |bucket: usize| words.get(bucket).copied().unwrap_or(PAST);
    all.push((first..first + count).map(word).min().expect("a bucket"));
    if count > 1 {
        group(words, first, count / 2, all);
        group(words, first + count / 2, count / 2, all);
    }
}

/// Whether a range of a row's buckets is hidden from an id, by the row's minima alone: an empty range is; so is a group whose minimum is greater; a group that the
/// range has whole and whose minimum is not, is not; of any other both halves are asked.
pub(crate) fn is_hidden(minima: &[u32], (first, end): Range, id: u32) -> bool {
    if first >= end || minima[0] > id {
        return true;
    }
    let count = minima.len().div_ceil(2);
    let half = u32::try_from(count / 2).expect("few buckets");
    if count == 1 || (first == 0 && end == 2 * half) {
        return false;
    }
    let (left, right) = minima[1..].split_at(count - 1);
    let shifted = |place: u32| place.saturating_sub(half);
    is_hidden(left, (first.min(half), end.min(half)), id)
        && is_hidden(right, (shifted(first), shifted(end)), id)
}

#[cfg(test)]
mod tests {
    use super::{is_hidden, minima};
    use crate::random::Random;

    /// 2 P - 1 words, P being the smallest power of two that is at least the buckets; none without buckets.
    #[test]
    fn how_many_words() {
        for (buckets, count) in [
            (0, 0),
            (1, 1),
            (2, 3),
            (3, 7),
            (4, 7),
            (5, 15),
            (16, 31),
            (32, 63),
            (33, 127),
            (63, 127),
            (64, 127),
        ] {
            assert_eq!(minima(&vec![0; buckets]).len(), count, "{buckets}");
        }
    }

    /// A row of five buckets, by hand: three places of eight lie past its end.
    #[test]
    fn five_buckets() {
        let past = u32::MAX;
        let by_hand = [3, 4, 6, 9, 6, 4, 4, 8, 3, 3, 3, past, past, past, past];
        assert_eq!(minima(&[9, 6, 4, 8, 3]), by_hand);
    }

    /// Yes exactly if every bucket of the range holds a greater id: every range of rows of every length, at each stored id, the ones beside, the least and the last.
    #[test]
    fn hidden_where_every_bucket_is() {
        let mut random = Random::new(1);
        let (mut yes, mut no) = (0, 0);
        for buckets in [0, 1, 2, 3, 4, 5, 7, 8, 9, 15, 16, 17, 31, 32, 33, 63, 64] {
            for most in [1, 2, 4, 12] {
                let word = |_| match random.below(20) {
                    0 => u32::MAX - random.below(2),
                    _ => random.below(most + 1),
                };
                let words: Vec<u32> = (0..buckets).map(word).collect();
                let own = minima(&words);
                let mut ids: Vec<u32> = words
                    .iter()
                    .flat_map(|&id| [id.saturating_sub(1), id, id.saturating_add(1)])
                    .chain([0, u32::MAX])
                    .collect();
                ids.sort_unstable();
                ids.dedup();
                for end in 0..=buckets {
                    for (first, &id) in
                        (0..=end).flat_map(|first| ids.iter().map(move |id| (first, id)))
                    {
                        let all = words[first as usize..end as usize]
                            .iter()
                            .all(|&word| word > id);
                        assert_eq!(
                            is_hidden(&own, (first, end), id),
                            all,
                            "{first} {end} {id} of {words:?}"
                        );
                        *if all { &mut yes } else { &mut no } += 1;
                    }
                }
            }
        }
        assert!(yes > 10_000 && no > 100_000, "{yes} {no}");
    }
}
