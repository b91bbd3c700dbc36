//! A request: an event record, or what the writer of modules is asked.

/// What the record of a request is.
#[derive(Clone, Copy, Debug, PartialEq, Eq)]
pub enum Sort {
    /// An event: kind and body.
    Event,
    /// What the writer is asked: a start and a list of items.
    Writer,
}

/// A record and the length of the output that is lent with it.
#[derive(Clone, Debug, PartialEq, Eq)]
pub struct Request {
    /// What the record is.
    pub sort: Sort,
    /// The length of the lent output, which is the writer's buffer.
    pub output: u16,
    /// 2 to 65,535 bytes.
    pub record: Vec<u8>,
}

impl Request {
    /// A request for a kind and body.
    pub fn new(output: usize, kind: u16, body: &[u8]) -> Request {
        let record = [&kind.to_le_bytes(), body].concat();
        Request::of(Sort::Event, output, record)
    }

    /// A request for the writer, of 2 bytes at least.
    pub fn to_writer(output: usize, record: Vec<u8>) -> Request {
        Request::of(Sort::Writer, output, record)
    }

    fn of(sort: Sort, output: usize, mut record: Vec<u8>) -> Request {
        record.truncate(usize::from(u16::MAX));
        Request {
            sort,
            output: output.min(usize::from(u16::MAX)) as u16,
            record,
        }
    }

    /// Kind and body of an event.
    pub fn event(&self) -> Option<(u16, &[u8])> {
        let (kind, body) = self.record.split_first_chunk()?;
        (self.sort == Sort::Event).then_some((u16::from_le_bytes(*kind), body))
    }

    /// The kind of an event.
    pub fn kind(&self) -> Option<u16> {
        self.event().map(|event| event.0)
    }

    /// The channel whose buffer's bytes are asked for after the call: the
    /// third byte, which is the first of an event's body, 0 where there is none.
    pub fn channel_lent(&self) -> u8 {
        self.record.get(2).copied().unwrap_or(0)
    }
}

/// What the writer is asked.
#[derive(Clone, Debug, PartialEq, Eq)]
pub struct Writing<'a> {
    /// The start page.
    pub page: u8,
    /// The start offset.
    pub offset: u16,
    /// The list of items, three bytes each.
    pub list: &'a [u8],
}

impl<'a> Writing<'a> {
    /// What a record asks; none where it has no whole start.
    pub fn of(record: &'a [u8]) -> Option<Writing<'a>> {
        let (&[page, low, high], list) = record.split_first_chunk()?;
        let offset = u16::from_le_bytes([low, high]);
        Some(Writing { page, offset, list })
    }

    /// The record.
    pub fn record(&self) -> Vec<u8> {
        let [low, high] = self.offset.to_le_bytes();
        [&[self.page, low, high], self.list].concat()
    }
}

#[cfg(test)]
mod tests {
    use super::*;

    #[test]
    fn kind_and_body_are_an_events() {
        let event = Request::new(0, 258, &[7, 8]);
        assert_eq!(event.event(), Some((258, &[7, 8][..])));
        let writer = Request::to_writer(0, event.record);
        assert_eq!((writer.event(), writer.kind()), (None, None));
    }

    #[test]
    fn the_channel_lent() {
        assert_eq!(Request::new(0, 20, &[]).channel_lent(), 0);
        assert_eq!(Request::new(0, 258, &[7, 8]).channel_lent(), 7);
        assert_eq!(Request::to_writer(0, vec![1, 2]).channel_lent(), 0);
        assert_eq!(Request::to_writer(0, vec![1, 2, 9]).channel_lent(), 9);
    }

    #[test]
    fn what_the_writer_is_asked() {
        let record = [3, 0x34, 0x12, 0, 1, 0];
        let writing = Writing::of(&record).unwrap();
        assert_eq!((writing.page, writing.offset), (3, 0x1234));
        assert_eq!(writing.list, [0, 1, 0]);
        assert_eq!(writing.record(), record);
        assert_eq!(Writing::of(&record[..2]), None);
    }
}
