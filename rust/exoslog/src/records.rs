//! The event records of a log.

/// "Length in 2 bytes counting kind and body (2 to 4,096)": the most.
pub const LONGEST: usize = 4_096;

/// A record of a log.
#[derive(Clone, Copy, Debug, PartialEq, Eq)]
pub enum Record<'a> {
    /// A record of a right length, whatever its kind and body.
    Whole {
        /// The kind.
        kind: u16,
        /// The body.
        body: &'a [u8],
    },
    /// "A bad length or cut record", with all that follows: nothing behind it
    /// is a record.
    Bad(&'a [u8]),
}

/// The records of a log from first to last; their bytes end to end are the log.
#[derive(Clone, Debug)]
pub struct Records<'a> {
    rest: &'a [u8],
}

/// The records of a log.
pub fn records(log: &[u8]) -> Records<'_> {
    Records { rest: log }
}

impl<'a> Iterator for Records<'a> {
    type Item = Record<'a>;

    fn next(&mut self) -> Option<Record<'a>> {
        if self.rest.is_empty() {
            return None;
        }
        let whole = first_whole(self.rest);
        let (record, rest) = whole.unwrap_or((Record::Bad(self.rest), &[]));
        self.rest = rest;
        Some(record)
    }
}

/// The first record, if it has a right length and is not cut, and what follows.
fn first_whole(log: &[u8]) -> Option<(Record<'_>, &[u8])> {
    let (length, rest) = log.split_first_chunk::<2>()?;
    let length = usize::from(u16::from_le_bytes(*length));
    if length > LONGEST {
        return None;
    }
    let (counted, rest) = rest.split_at_checked(length)?;
    let (kind, body) = counted.split_first_chunk::<2>()?;
    let kind = u16::from_le_bytes(*kind);
    Some((Record::Whole { kind, body }, rest))
}

/// Puts a whole record behind a log; kind and body are at most 4,096 bytes.
pub(crate) fn put_record(log: &mut Vec<u8>, kind: u16, body: &[u8]) {
    let length = (body.len() + 2) as u16;
    log.extend(length.to_le_bytes());
    log.extend(kind.to_le_bytes());
    log.extend(body);
}

#[cfg(test)]
mod tests {
    use super::*;

    #[test]
    fn whole_records_then_a_bad_one() {
        let log = [2, 0, 20, 0, 3, 0, 3, 0, 5, 1, 0, 9, 9];
        let expected = [
            Record::Whole {
                kind: 20,
                body: &[],
            },
            Record::Whole {
                kind: 3,
                body: &[5],
            },
            Record::Bad(&[1, 0, 9, 9]),
        ];
        assert_eq!(records(&log).collect::<Vec<_>>(), expected);
        assert_eq!(records(&[]).next(), None);
    }

    #[test]
    fn lengths_2_to_4096_are_right() {
        for length in [0u16, 1, 2, 3, 4_095, 4_096, 4_097, 65_535] {
            let mut log = length.to_le_bytes().to_vec();
            log.extend(vec![7; usize::from(length)]);
            let whole = matches!(records(&log).next(), Some(Record::Whole { .. }));
            assert_eq!(whole, (2..=4_096).contains(&length), "{length}");
            log.pop();
            assert_eq!(records(&log).next(), Some(Record::Bad(&log)), "{length}");
        }
    }

    #[test]
    fn a_record_put_is_the_record_read() {
        let mut log = Vec::new();
        put_record(&mut log, 77, &[1, 2]);
        assert_eq!(log, [4, 0, 77, 0, 1, 2]);
        put_record(&mut log, 65_535, &[3; 4_094]);
        let second = records(&log).nth(1);
        assert_eq!(
            second,
            Some(Record::Whole {
                kind: 65_535,
                body: &[3; 4_094]
            })
        );
    }
}
