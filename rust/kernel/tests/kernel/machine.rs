//! A started machine for the tests. Each call is watched: a refusal must
//! change nothing, good tables must stay good, and the bytes moved are order 8's.

use exos_kernel::{call, good, Call, Channel, Reply, Tables, HEADING, SEGMENT, SHARED_GRANT};

/// The three numbers of an answer.
pub type Answer = (u8, u8, u16);

#[derive(Clone)]
pub struct Machine {
    pub tables: Tables,
    pub ram: Vec<u8>,
    pub output: Vec<u8>,
    /// How many bytes the last call moved.
    pub moved: u32,
}

impl Machine {
    pub fn start(r: u16, list: &[u8]) -> Machine {
        let mut machine = Machine {
            tables: Tables::default(),
            ram: vec![0xEE; list.len() * SEGMENT],
            output: vec![0xDD; 65_536],
            moved: 0,
        };
        let answer = machine.call(Call::Start { r, list });
        assert_eq!(answer, (0, list.len() as u8, r));
        assert!(machine.ram.iter().all(|&byte| byte == 0));
        machine
    }

    /// "R = 11,074, list 252 to 255."
    pub fn standard() -> Machine {
        Machine::start(11_074, &[252, 253, 254, 255])
    }

    pub fn call(&mut self, request: Call) -> Answer {
        let before = self.clone();
        let reply = call(&mut self.tables, &mut self.ram, request, &mut self.output);
        let Reply {
            number,
            a,
            b,
            moved,
        } = reply;
        self.moved = moved;
        before.check_moved(request, reply);
        if !matches!(number, 0 | SHARED_GRANT) {
            assert_eq!(self.tables, before.tables, "{request:?}");
            assert!(self.ram == before.ram, "{request:?}");
            assert!(self.output == before.output, "{request:?}");
            assert!(number == 7 || (a, b) == (0, 0), "{request:?}");
        } else {
            assert!(good(&self.tables), "{request:?}");
            self.check_output(request, &before, b);
        }
        (number, a, b)
    }

    /// "Fill the first b bytes of the lent output; the rest stays."
    fn check_output(&self, request: Call, before: &Machine, b: u16) {
        let filled = match request {
            Call::Read { .. } | Call::Status | Call::Load { .. } => usize::from(b),
            _ => 0,
        };
        assert!(self.output[filled..] == before.output[filled..]);
    }

    /// Holds what a call on this machine moved against order 8: "for close the
    /// lengths of the records after the closed one, for a link T if R falls, else 0.
    /// The number [...] never exceeds T before the call. Other and refused calls
    /// report 0".
    fn check_moved(&self, request: Call, reply: Reply) {
        let expected = match request {
            _ if reply.number != 0 => 0,
            Call::Close { channel } => self.after(channel),
            Call::Link { m, .. } if m > 0 => self.t(),
            _ => 0,
        };
        let moved = reply.moved as usize;
        // tables that are not good have no T
        assert!(moved == 0 || moved <= self.t(), "{request:?}");
        assert_eq!(moved, expected, "{request:?}");
    }

    /// The lengths of the records after a channel's.
    fn after(&self, channel: u8) -> usize {
        let mut open = self.channels().iter();
        open.find(|open| open.number == channel);
        open.map(length).sum()
    }

    /// T.
    pub fn t(&self) -> usize {
        self.channels().iter().map(length).sum()
    }

    fn channels(&self) -> &[Channel] {
        &self.tables.channels[..usize::from(self.tables.channel_count)]
    }

    pub fn open(&mut self, channel: u8, n: u16) -> Answer {
        self.open_named(channel, n, b"VIDEO:")
    }

    pub fn open_named(&mut self, channel: u8, n: u16, name: &[u8]) -> Answer {
        self.call(Call::Open {
            channel,
            driver_status: 0,
            n,
            name,
        })
    }

    pub fn close(&mut self, channel: u8) -> Answer {
        self.call(Call::Close { channel })
    }

    pub fn write(&mut self, channel: u8, offset: u16, data: &[u8]) -> Answer {
        self.call(Call::Write {
            channel,
            offset,
            data,
        })
    }

    pub fn read(&mut self, channel: u8, offset: u16, length: u16) -> Answer {
        self.call(Call::Read {
            channel,
            offset,
            length,
        })
    }

    /// All bytes of a channel's buffer.
    pub fn buffer(&mut self, channel: u8, n: u16) -> Vec<u8> {
        assert_eq!(self.read(channel, 0, n), (0, 0, n));
        self.output[..usize::from(n)].to_vec()
    }

    pub fn store(&mut self, segment: u8, offset: u16, data: &[u8]) -> Answer {
        self.call(Call::Store {
            segment,
            offset,
            data,
        })
    }

    pub fn load(&mut self, segment: u8, offset: u16, length: u16) -> Answer {
        self.call(Call::Load {
            segment,
            offset,
            length,
        })
    }

    pub fn load_module(&mut self, segment: u8, page: u8, offset: u16, stream: &[u8]) -> Answer {
        self.call(Call::LoadModule {
            segment,
            page,
            offset,
            stream,
        })
    }

    pub fn link(&mut self, m: u16, name: &[u8]) -> Answer {
        self.call(Call::Link { m, name })
    }

    pub fn boundary(&mut self) -> Answer {
        self.call(Call::Boundary)
    }

    pub fn set_boundary(&mut self, value: u16) -> Answer {
        self.call(Call::SetUserBoundary { value })
    }

    pub fn allocate(&mut self, caller: u8) -> Answer {
        self.call(Call::Allocate { caller })
    }

    pub fn free(&mut self, caller: u8, segment: u8) -> Answer {
        self.call(Call::Free { caller, segment })
    }

    pub fn reset(&mut self, flags: u8) -> Answer {
        self.call(Call::Reset { flags })
    }

    /// The counts free, user, system, device, shared.
    pub fn status(&mut self) -> [u8; 5] {
        assert_eq!(self.call(Call::Status), (0, 0, 5));
        self.output[..5].try_into().unwrap()
    }

    /// The bytes of a segment.
    pub fn segment(&mut self, number: u8) -> &mut [u8] {
        let row = self.row(number);
        &mut self.ram[row * SEGMENT..(row + 1) * SEGMENT]
    }

    pub fn class(&self, number: u8) -> u8 {
        self.tables.classes[self.row(number)]
    }

    /// The chain as segment numbers.
    pub fn chain(&self) -> Vec<u8> {
        let length = usize::from(self.tables.chain_length);
        let number = |row: &u8| self.tables.list[usize::from(*row)];
        self.tables.chain[..length].iter().map(number).collect()
    }

    fn row(&self, number: u8) -> usize {
        let list = &self.tables.list[..usize::from(self.tables.segments)];
        list.iter().position(|&other| other == number).unwrap()
    }
}

/// "Length L = 16 + n."
fn length(channel: &Channel) -> usize {
    HEADING + usize::from(channel.n)
}
