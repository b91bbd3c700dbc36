//! What was met: counts by kind and answer, and the edges.

use crate::edges::{all_edges, edges, Edge, Made};
use crate::protocol::{Reply, Request, Sort};
use exoslog::{counted, FORMS};
use std::collections::BTreeMap;
use std::fmt::{self, Display, Formatter};

/// The answers 0 to 20.
const ANSWERS: usize = exoslog::ANSWERS.len();
/// The rows: the kinds in the order of the table of bodies, unknown ones, and the
/// writer.
const ROWS: usize = FORMS.len() + 2;
/// The row of unknown kinds.
const UNKNOWN: usize = FORMS.len();
/// The row of the writer.
const WRITER: usize = FORMS.len() + 1;

/// The answers that documents 01 and 02 allow for a kind, none being an unknown one.
/// Every kind but start may answer TABLES, and every kind CALL: "body short of
/// its fixed fields, or longer without name, data or list".
fn allowed(kind: Option<u16>) -> &'static [u16] {
    match kind {
        // START: "list, R or RAM length wrong"
        Some(256) => &[0, 2, 16],
        // FLAGS: "a bit other than 4, 5, 6"
        Some(0) => &[0, 1, 2, 15],
        // CHANNEL ("open: 255 only"), EXISTS, NAME, DEVICE, DRIVER, FULL, ROOM
        Some(1) => &[0, 1, 2, 3, 4, 5, 6, 7, 8, 9],
        // CHANNEL: "255, or not open"
        Some(3) => &[0, 1, 2, 3],
        // CHANNEL; RANGE: order 2: "only where the lent output is shorter than what it
        // would give"
        Some(6) => &[0, 1, 2, 3, 13],
        // CHANNEL; RANGE: "offset + length past the end"
        Some(8) => &[0, 1, 2, 3, 13],
        // NAME: "against the rules above"
        Some(19) => &[0, 1, 2, 5],
        // RANGE: "lent output too short"
        Some(20) => &[0, 1, 2, 13],
        // NAME, FULL ("16 devices already"), ROOM ("link: also R-m < 256")
        Some(21) => &[0, 1, 2, 5, 8, 9],
        Some(22) => &[0, 1, 2],
        // BOUNDARY: "nothing shared, or value above the EXOS boundary"
        Some(23) => &[0, 1, 2, 12],
        // SEGMENT: "nothing to allocate"; "17 SHARED is a grant"
        Some(24) => &[0, 1, 2, 10, 17],
        // OWNER: "segment not the caller's to free, store or load"
        Some(25) => &[0, 1, 2, 11],
        // "CALL also for a start page or offset past its range; OWNER for the segment;
        // 19 MODULE [...]; 20 PAGE [...]; then RANGE above the user boundary; GUARD"
        Some(30) => &[0, 1, 2, 11, 13, 14, 19, 20],
        // OWNER, RANGE, GUARD
        Some(257) => &[0, 1, 2, 11, 13, 14],
        // OWNER, RANGE
        Some(258) => &[0, 1, 2, 11, 13],
        // CALL: "kind unknown"
        _ => &[1, 2],
    }
}

/// The answers that order 9 allows for the writer: "PAGE [...], then RANGE". CALL
/// is the stream's, for what is no start and list of items.
const ALLOWED_TO_WRITER: &[u16] = &[0, 2, 13, 20];

/// The row of the counts for a request.
fn row_of(request: &Request) -> usize {
    if request.sort == Sort::Writer {
        return WRITER;
    }
    let known = |kind| FORMS.iter().position(|form| form.kind == kind);
    request.kind().and_then(known).unwrap_or(UNKNOWN)
}

fn allows(row: usize, answer: usize) -> bool {
    let allowed = match row {
        WRITER => ALLOWED_TO_WRITER,
        _ => allowed(FORMS.get(row).map(|form| form.kind)),
    };
    allowed.contains(&(answer as u16))
}

fn name_of(row: usize) -> String {
    match FORMS.get(row) {
        Some(form) => format!("{} {}", form.kind, form.words),
        None if row == WRITER => "write module".to_string(),
        None => "unknown".to_string(),
    }
}

/// How often each kind got each answer, and each edge was met.
#[derive(Clone)]
pub struct Counts {
    pairs: [[u64; ANSWERS]; ROWS],
    /// A kind with an answer above 20, which no call may give.
    strange: u64,
    edges: BTreeMap<Edge, u64>,
}

impl Counts {
    /// Nothing counted yet.
    pub fn new() -> Counts {
        Counts {
            pairs: [[0; ANSWERS]; ROWS],
            strange: 0,
            edges: BTreeMap::new(),
        }
    }

    /// Counts one call.
    pub fn add(&mut self, made: &Made, request: &Request, reply: &Reply) {
        match self.pairs[row_of(request)].get_mut(usize::from(reply.number)) {
            Some(count) => *count += 1,
            None => self.strange += 1,
        }
        edges(made, request, reply, |edge| {
            *self.edges.entry(edge).or_default() += 1;
        });
    }

    /// Adds the counts of another.
    pub fn join(&mut self, other: &Counts) {
        let mine = self.pairs.as_flattened_mut().iter_mut();
        mine.zip(other.pairs.as_flattened())
            .for_each(|(mine, theirs)| *mine += theirs);
        for (&edge, count) in &other.edges {
            *self.edges.entry(edge).or_default() += count;
        }
        self.strange += other.strange;
    }

    /// How many calls were counted.
    pub fn calls(&self) -> u64 {
        self.pairs.iter().flatten().sum::<u64>() + self.strange
    }

    /// The pairs of kind and answer that are allowed and were not met.
    pub fn missing(&self) -> Vec<String> {
        self.those(|row, answer, count| allows(row, answer) && count == 0)
    }

    /// The pairs of kind and answer that were met and are not allowed.
    pub fn forbidden(&self) -> Vec<String> {
        let mut those = self.those(|row, answer, count| !allows(row, answer) && count > 0);
        if self.strange > 0 {
            let answers = counted(self.strange as usize, "answer");
            those.push(format!("{answers} above 20"));
        }
        those
    }

    fn those(&self, is: impl Fn(usize, usize, u64) -> bool) -> Vec<String> {
        let counts = self.pairs.as_flattened().iter().enumerate();
        counts
            .map(|(at, &count)| (at / ANSWERS, at % ANSWERS, count))
            .filter(|&(row, answer, count)| is(row, answer, count))
            .map(|(row, answer, _)| format!("{}: answer {answer}", name_of(row)))
            .collect()
    }

    /// The edges, each with its count.
    pub fn edges(&self) -> impl Iterator<Item = (Edge, u64)> + '_ {
        all_edges().map(|edge| (edge, self.edges.get(&edge).copied().unwrap_or(0)))
    }

    /// The edges that were not met.
    pub fn unmet(&self) -> Vec<String> {
        let unmet = self.edges().filter(|edge| edge.1 == 0);
        unmet.map(|edge| edge.0.to_string()).collect()
    }
}

impl Default for Counts {
    fn default() -> Counts {
        Counts::new()
    }
}

impl Display for Counts {
    /// A line a kind: how often it was called, and each answer with its count.
    fn fmt(&self, to: &mut Formatter<'_>) -> fmt::Result {
        writeln!(to, "calls by kind, with answer: count")?;
        for (row, counts) in self.pairs.iter().enumerate() {
            let answers = counts.iter().enumerate().filter(|pair| *pair.1 > 0);
            let answers: Vec<_> = answers
                .map(|(answer, count)| format!("{answer}: {count}"))
                .collect();
            let (name, all) = (name_of(row), counts.iter().sum::<u64>());
            writeln!(to, "  {name:<22}{all:>10}  {}", answers.join(", "))?;
        }
        Ok(())
    }
}

#[cfg(test)]
mod tests {
    use super::*;
    use exos_kernel::Tables;

    fn reply(number: u16) -> Reply {
        Reply {
            number,
            a: 0,
            b: 0,
            moved: 0,
            image: 0,
            ram: 0,
            output: 0,
            part: 0,
            part_bytes: 0,
            fault: None,
        }
    }

    /// A request on no tables, which stay.
    fn add_request(counts: &mut Counts, request: &Request, number: u16) {
        let tables = Tables::default();
        let made = Made {
            before: &tables,
            after: &tables,
            ram_length: 0,
            again: None,
        };
        counts.add(&made, request, &reply(number));
    }

    fn add(counts: &mut Counts, kind: u16, number: u16) {
        add_request(counts, &Request::new(0, kind, &[]), number);
    }

    #[test]
    fn pairs_are_counted_and_told_apart() {
        let mut counts = Counts::new();
        let missing = counts.missing().len();
        add(&mut counts, 20, 1);
        add(&mut counts, 20, 1);
        add(&mut counts, 999, 2);
        assert_eq!(counts.calls(), 3);
        assert_eq!(counts.missing().len(), missing - 2);
        assert!(counts.forbidden().is_empty());
        add(&mut counts, 256, 1);
        add(&mut counts, 256, 21);
        assert_eq!(
            counts.forbidden(),
            ["256 start: answer 1", "1 answer above 20"]
        );
    }

    #[test]
    fn the_allowed_pairs_are_82_and_the_writers_4() {
        assert_eq!(Counts::new().missing().len(), 82 + 4);
    }

    #[test]
    fn the_writer_has_a_row_of_its_own() {
        let mut counts = Counts::new();
        // as a kind, the first two bytes would be a status
        let request = Request::to_writer(0, vec![20, 0, 0]);
        add_request(&mut counts, &request, 20);
        add_request(&mut counts, &request, 1);
        assert_eq!(counts.forbidden(), ["write module: answer 1"]);
        let table = counts.to_string();
        assert!(table.contains("write module                   2  1: 1, 20: 1\n"));
    }

    #[test]
    fn counts_are_joined() {
        let mut one = Counts::new();
        add(&mut one, 22, 1);
        let mut sum = one.clone();
        sum.join(&one);
        assert_eq!(sum.calls(), 2);
        assert!(sum
            .to_string()
            .contains("22 boundary                    2  1: 2\n"));
    }
}
