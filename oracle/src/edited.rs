//! What `rowdump` printed of edited pairs: the asked row, ids and attributes must be the same on both sides.

use std::fmt::Write;

/// The lines of an accepted recording by what they tell of.
#[derive(Default)]
struct Parts<'a> {
    /// Rows, buckets, ids.
    head: &'a str,
    rows: Vec<Vec<&'a str>>,
    attributes: Vec<&'a str>,
    painted: Vec<Vec<&'a str>>,
}

/// The two sides of a pair, none for a refused one.
type Sides<'a> = [Option<Parts<'a>>; 2];

/// What was counted, each with its words.
#[derive(Default)]
pub struct Report {
    pairs: usize,
    accepted: usize,
    refused_both: usize,
    refused_one: usize,
    on_screen: usize,
    with_commands: usize,
    with_fills: usize,
    with_layers: usize,
    with_pieces: usize,
    others: usize,
    differ: usize,
    /// Of each pair that differs, and of a dump that isn't of these pairs.
    pub complaints: Vec<String>,
}

/// Compares the pairs of a dump; the rows are those of `oracle edits --rows`.
pub fn compare(rows: &str, dump: &str) -> Report {
    let mut report = Report::default();
    let recordings = recordings(dump);
    let rows: Vec<&str> = rows.lines().collect();
    if recordings.len() != 2 * rows.len() {
        report.complaints.push(format!(
            "{} rows, {} recordings",
            rows.len(),
            recordings.len()
        ));
    }
    for (k, (row, pair)) in rows.into_iter().zip(recordings.chunks(2)).enumerate() {
        if let [one, other] = pair {
            report.pair(k, row, [parts(one), parts(other)]);
        }
    }
    report
}

/// Each recording's lines, without the one that numbers it.
fn recordings(dump: &str) -> Vec<Vec<&str>> {
    let mut all: Vec<Vec<&str>> = Vec::new();
    for line in dump.lines() {
        if line.starts_with("recording ") {
            all.push(Vec::new());
        } else if let Some(last) = all.last_mut() {
            last.push(line);
        }
    }
    all
}

/// None for a refused recording.
fn parts<'a>(lines: &[&'a str]) -> Option<Parts<'a>> {
    let mut parts = Parts::default();
    let mut in_rows = true;
    for line in lines {
        match line.split(' ').next() {
            Some("refused") => return None,
            Some("rows") => parts.head = line,
            Some("row") => parts.rows.push(vec![line]),
            Some("painted") => parts.painted.push(vec![line]),
            Some("D" | "P" | "L" | "B" | "E") if in_rows => {
                parts.rows.last_mut()?.push(line);
            }
            Some("p" | "l") => parts.painted.last_mut()?.push(line),
            _ => {
                in_rows = false;
                parts.attributes.push(line);
            }
        }
    }
    Some(parts)
}

impl Report {
    fn pair(&mut self, k: usize, row: &str, sides: Sides) {
        self.pairs += 1;
        let (one, other) = match sides {
            [Some(one), Some(other)] => (one, other),
            [None, None] => return self.refused_both += 1,
            _ => return self.refused_one += 1,
        };
        self.accepted += 1;
        let mut unlike = Vec::new();
        if one.head.is_empty() {
            unlike.push("no lines");
        }
        if one.head != other.head {
            unlike.push("ids");
        }
        if one.attributes != other.attributes {
            unlike.push("attributes");
        }
        self.others += usize::from(one.rows != other.rows);
        if row != "-" {
            let i = row.parse().unwrap_or(usize::MAX);
            self.on_screen += 1;
            unlike.extend(self.row(&one, &other, i));
        }
        if !unlike.is_empty() {
            self.differ += 1;
            self.complaints
                .push(format!("pair {k} row {row}: {}", unlike.join(", ")));
        }
    }

    /// What differs in row i.
    fn row(&mut self, one: &Parts, other: &Parts, i: usize) -> Vec<&'static str> {
        let (Some(row), Some(painted)) = (one.rows.get(i), one.painted.get(i)) else {
            return vec!["no such row"];
        };
        let fills = row.iter().filter(|line| line.starts_with("D ")).count();
        self.with_commands += usize::from(row.len() > 1 + fills);
        self.with_fills += usize::from(fills > 0);
        let of_layer = |line: &&str| line.starts_with(['B', 'L']);
        self.with_layers += usize::from(row.iter().any(of_layer));
        self.with_pieces += usize::from(painted.len() > 1);
        let mut unlike = Vec::new();
        if Some(row) != other.rows.get(i) {
            unlike.push("row");
        }
        if Some(painted) != other.painted.get(i) {
            unlike.push("pieces");
        }
        unlike
    }

    /// Whether there were such pairs and none differs.
    pub fn agreed(&self) -> bool {
        self.complaints.is_empty()
    }

    /// Each count before its words.
    pub fn text(&self) -> String {
        let counts = [
            (self.pairs, "pairs"),
            (self.accepted, "accepted on both sides"),
            (self.refused_both, "refused on both sides"),
            (self.refused_one, "refused on one side"),
            (
                self.on_screen,
                "asked rows on the screen, of those accepted",
            ),
            (self.with_commands, "of them with commands"),
            (self.with_fills, "of them with depth fills"),
            (self.with_layers, "of them with commands of layers"),
            (self.with_pieces, "of them with pieces"),
            (self.others, "accepted pairs of which another row differs"),
            (self.differ, "differ"),
        ];
        let mut out = String::new();
        for (count, words) in counts {
            writeln!(out, "{count} {words}").expect("a line");
        }
        out
    }
}

#[cfg(test)]
mod tests {
    use super::compare;

    const ONE: &str = "rows 2 buckets 1 ids 1\nrow 0 depth 1 render 0\nD 0 1 0\nrow 1 depth 0 render 1\nP 0 4 - 0\n\
        paint attributes 1\nA 0 0 3 0 1 0 0 0\nlayer attributes 0\nfilter paints 0\n\
        painted 0 pieces 1\np 0 0 32 - 0\npainted 1 pieces 1\np 0 0 4 - 0\n";

    fn says(row: &str, other: &str) -> Vec<String> {
        let dump = format!("recording 0\n{ONE}recording 1\n{other}");
        compare(row, &dump).complaints
    }

    #[test]
    fn each_part_is_compared() {
        assert_eq!(says("0\n", ONE), [""; 0]);
        for (from, to, row, part) in [
            ("ids 1", "ids 2", "-", "ids"),
            ("A 0", "A 1", "-", "attributes"),
            ("filter paints 0", "filter paints 1", "1", "attributes"),
            ("D 0 1", "D 0 2", "0", "row"),
            ("P 0 4", "P 0 5", "1", "row"),
            (
                "row 0 depth 1 render 0",
                "row 0 depth 1 render 1",
                "0",
                "row",
            ),
            ("p 0 0 32", "p 0 0 31", "0", "pieces"),
            ("p 0 0 4", "l 0 0 4", "1", "pieces"),
        ] {
            let other = ONE.replacen(from, to, 1);
            assert_eq!(says(row, &other), [format!("pair 0 row {row}: {part}")]);
        }
        // Of the row that isn't asked about nothing is said.
        assert_eq!(says("1", &ONE.replacen("D 0 1", "D 0 2", 1)), [""; 0]);
        assert_eq!(says("2", ONE), ["pair 0 row 2: no such row"]);
    }

    #[test]
    fn refused_pairs_are_counted_apart() {
        let dump = format!("recording 0\n{ONE}recording 1\nrefused 10\n");
        let report = compare("0\n", &dump);
        assert!(report.agreed());
        assert!(report.text().contains("\n1 refused on one side\n"));
        let dump = "recording 0\nrefused 10\nrecording 1\nrefused 10\n";
        let report = compare("0\n", dump);
        assert!(report.text().contains("\n1 refused on both sides\n"));
    }

    #[test]
    fn a_dump_of_other_pairs_is_refused() {
        assert!(!compare("0\n0\n", "recording 0\nrefused 3\n").agreed());
        assert!(!compare("0\n", "").agreed());
        assert!(!compare("-\n", "recording 0\nrecording 1\n").agreed());
    }
}
