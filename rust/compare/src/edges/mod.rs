//! The edges of documents 01 and 02, each on both sides: which of them a call met.

mod again;
mod both;
mod channels;
mod devices;
mod lent;
mod modules;
mod moved;
mod names;
mod naming;
mod reads;
mod reset;
mod segments;
mod sentences;
mod user;
mod words;
mod writer;

use crate::no_mark::Opened;
use crate::protocol::{Reply, Request};
use crate::quietly::is_good;
use crate::view::View;
use exos_kernel::{decode, Call, Tables, ROWS_OF_SEGMENTS, SEGMENT};

#[cfg(test)]
pub use again::all_again_edges;
#[cfg(test)]
pub use modules::ModuleEdge;
#[cfg(test)]
pub use moved::all_moved_edges;
#[cfg(test)]
pub use reads::ReadEdge;
pub use sentences::ram_length_for;
pub use words::{all_edges, Edge};

/// The longest chain: every segment but the page zero segment.
const LONGEST_CHAIN: usize = ROWS_OF_SEGMENTS - 1;

/// A call, its answer, and where what it met is told.
struct Meeting<'a, Met> {
    /// The tables before the call.
    view: View<'a>,
    /// The length of the lent output.
    output: usize,
    /// The answer's number.
    number: u16,
    /// How many bytes it moved.
    moved: usize,
    met: Met,
}

/// The tables before and after a call, the length of the RAM, and the open that
/// it closes again.
pub struct Made<'a> {
    /// The tables before it.
    pub before: &'a Tables,
    /// The tables after it.
    pub after: &'a Tables,
    /// The length of the RAM.
    pub ram_length: usize,
    /// The open just before, if the call asks for its close.
    pub again: Option<&'a Opened>,
}

/// Tells each edge that a call met.
pub fn edges(made: &Made, request: &Request, reply: &Reply, met: impl FnMut(Edge)) {
    let &Made {
        before,
        after,
        ram_length,
        again,
    } = made;
    let mut meeting = Meeting {
        view: View(before),
        output: usize::from(request.output),
        number: reply.number,
        moved: reply.moved as usize,
        met,
    };
    meeting.at(request.record.len() == 65_535, Edge::LongestRecord);
    meeting.at(request.output == 65_535, Edge::LongestOutput);
    meeting.lent(after, ram_length, request.channel_lent(), reply.part);
    let Some((kind, body)) = request.event() else {
        meeting.write_module(request, reply);
        return;
    };
    let call = decode(kind, body);
    let right_length = ram_length == SEGMENT * usize::from(before.segments);
    let usable = is_good(before);
    meeting.moved_edges(kind, call, usable, right_length);
    if let Call::Start { r, list } = call {
        meeting.done(!usable, Edge::StartOnBad);
        meeting.start(r, list, ram_length);
    } else {
        meeting.answered(1, !usable && right_length, Edge::BadTables);
        meeting.answered(1, usable && !right_length, Edge::WrongRam);
        let unknown = matches!(call, Call::Unknown { .. });
        meeting.answered(1, !usable && unknown, Edge::BadTablesAndCall);
        meeting.sentences(ram_length);
        if usable && right_length {
            meeting.call(call);
            meeting.short_module(kind, body);
            meeting.again(again);
        }
    }
}

impl<Met: FnMut(Edge)> Meeting<'_, Met> {
    /// Tells an edge that the call is at.
    fn at(&mut self, at: bool, edge: Edge) {
        if at {
            (self.met)(edge);
        }
    }

    /// Tells an edge that the call is at if it was done.
    fn done(&mut self, at: bool, edge: Edge) {
        self.answered(0, at, edge);
    }

    /// Tells an edge that the call is at if it got that answer.
    fn answered(&mut self, number: u16, at: bool, edge: Edge) {
        self.at(at && self.number == number, edge);
    }

    fn call(&mut self, call: Call) {
        self.done(true, Edge::CallOn(self.view.0.segments));
        let chain = self.view.chain();
        self.done(chain.len() == LONGEST_CHAIN, Edge::ChainLongest);
        self.done(!self.view.chain_falls(), Edge::ChainNotFalling);
        match call {
            Call::Reset { flags } => self.reset(flags),
            Call::Open {
                channel,
                driver_status,
                n,
                name,
            } => {
                self.open(channel, usize::from(n));
                self.name(name);
                self.both_of_open(channel, driver_status, usize::from(n), name);
            }
            Call::Close { channel } => self.close(channel),
            Call::Read {
                channel,
                offset,
                length,
            } => self.read(channel, usize::from(offset), usize::from(length)),
            Call::Write {
                channel,
                offset,
                data,
            } => self.write(channel, usize::from(offset), data.len()),
            Call::Default { name, .. } => self.default(name),
            Call::Status => self.status(),
            Call::Link { m, name } => {
                self.link(usize::from(m), name);
                self.both_of_link(usize::from(m), name);
            }
            Call::SetUserBoundary { value } => self.set_user_boundary(usize::from(value)),
            Call::Allocate { caller } => self.allocate(caller),
            Call::Free { segment, .. } => self.free(segment),
            Call::LoadModule {
                segment,
                page,
                offset,
                stream,
            } => self.load_module(segment, usize::from(page), usize::from(offset), stream),
            Call::Store {
                segment,
                offset,
                data,
            } => self.store(segment, usize::from(offset), data.len()),
            Call::Load {
                segment,
                offset,
                length,
            } => self.load(segment, usize::from(offset), usize::from(length)),
            Call::Start { .. } | Call::Boundary | Call::Unknown { .. } => {}
        }
    }
}
