//! Who may have a segment, and how the chain grows and shrinks.

use crate::answers::{Refusal, Reply, SHARED_GRANT};
use crate::tables::{class, Tables, SEGMENT};

/// The classes in the order in which status counts them.
const COUNTED: [u8; 5] = [
    class::FREE,
    class::USER,
    class::SYSTEM,
    class::DEVICE,
    class::SHARED,
];

/// Caller 0 of allocate and free.
const USER: u8 = 0;
/// Caller 1 of allocate and free.
const DEVICE: u8 = 1;

fn is_free(class: &u8) -> bool {
    *class == class::FREE
}

fn is_shared(tables: &Tables) -> bool {
    tables.used_classes().contains(&class::SHARED)
}

/// The row of a segment number, the page zero segment's too.
pub(crate) fn row_of(tables: &Tables, segment: u8) -> Option<usize> {
    tables.used_list().binary_search(&segment).ok()
}

/// "Room rule: with nothing shared, T may reach R + 16,384 x (chain length -
/// 1 + free segments). With a segment shared, the line stays in the present
/// chain and the EXOS boundary may not fall below the user boundary, even if a
/// free segment exists."
///
/// A link that takes m bytes off R asks for m bytes more at the old R.
pub(crate) fn has_room(tables: &Tables, t: usize) -> bool {
    if is_shared(tables) {
        t + usize::from(tables.user_boundary) <= tables.chain_room()
    } else {
        t <= tables.chain_room() + SEGMENT * usize::from(tables.count(class::FREE))
    }
}

/// "A new system segment is the highest numbered free one."
pub(crate) fn lengthen_chain(tables: &mut Tables, length: usize) {
    while usize::from(tables.chain_length) < length {
        let Some(row) = tables.used_classes().iter().rposition(is_free) else {
            return;
        };
        tables.classes[row] = class::SYSTEM;
        tables.chain[usize::from(tables.chain_length)] = row as u8;
        tables.chain_length += 1;
    }
}

/// "Segments are given up from the chain's end." "A given-up segment becomes
/// free, a shared one becomes user and the user boundary 0."
pub(crate) fn shorten_chain(tables: &mut Tables, length: usize) {
    while usize::from(tables.chain_length) > length {
        tables.chain_length -= 1;
        let last = &mut tables.chain[usize::from(tables.chain_length)];
        let class = &mut tables.classes[usize::from(*last)];
        *last = 0;
        if *class == class::SHARED {
            *class = class::USER;
            tables.user_boundary = 0;
        } else {
            *class = class::FREE;
        }
    }
}

/// "The shared one becoming system and the user boundary 0."
fn end_sharing(tables: &mut Tables, row: usize) {
    tables.classes[row] = class::SYSTEM;
    tables.user_boundary = 0;
}

/// "Bit 6 frees all user segments and ends sharing."
pub(crate) fn release_user(tables: &mut Tables) {
    for row in 1..usize::from(tables.segments) {
        match tables.classes[row] {
            class::USER => tables.classes[row] = class::FREE,
            class::SHARED => end_sharing(tables, row),
            _ => {}
        }
    }
}

/// "Allocate gives user or device the lowest numbered free segment, bytes
/// untouched."
pub(crate) fn allocate(tables: &mut Tables, caller: u8) -> Result<Reply, Refusal> {
    let class = match caller {
        USER => class::USER,
        DEVICE => class::DEVICE,
        _ => return Err(Refusal::Call),
    };
    match tables.used_classes().iter().position(is_free) {
        Some(row) => {
            tables.classes[row] = class;
            Ok(Reply::done(tables.list[row], SEGMENT as u16))
        }
        None if caller == USER => share(tables),
        None => Err(Refusal::Segment),
    }
}

/// "A user finding none gets the chain's last segment shared, if none is
/// shared and the EXOS boundary is above 0; the user boundary becomes the EXOS
/// boundary."
fn share(tables: &mut Tables) -> Result<Reply, Refusal> {
    let boundary = tables.exos_boundary();
    if is_shared(tables) || boundary == 0 {
        return Err(Refusal::Segment);
    }
    let row = last_of_chain(tables);
    tables.classes[row] = class::SHARED;
    tables.user_boundary = boundary;
    Ok(Reply::new(SHARED_GRANT, tables.list[row], boundary))
}

fn last_of_chain(tables: &Tables) -> usize {
    usize::from(tables.chain[usize::from(tables.chain_length) - 1])
}

/// "Free: the user gives back user (becomes free) or shared (becomes system,
/// user boundary 0); a device gives back device. The page zero segment can't
/// be freed."
pub(crate) fn free(tables: &mut Tables, caller: u8, segment: u8) -> Result<Reply, Refusal> {
    if caller != USER && caller != DEVICE {
        return Err(Refusal::Call);
    }
    let row = row_of(tables, segment).ok_or(Refusal::Owner)?;
    match (caller, tables.classes[row]) {
        (USER, class::USER) | (DEVICE, class::DEVICE) => tables.classes[row] = class::FREE,
        (USER, class::SHARED) => end_sharing(tables, row),
        _ => return Err(Refusal::Owner),
    }
    Ok(Reply::done(0, 0))
}

/// "Status writes the counts free, user, system, device, shared."
pub(crate) fn status(tables: &Tables, output: &mut [u8]) -> Result<Reply, Refusal> {
    let counts = COUNTED.map(|class| tables.count(class));
    output
        .get_mut(..counts.len())
        .ok_or(Refusal::Range)?
        .copy_from_slice(&counts);
    Ok(Reply::done(0, counts.len() as u16))
}

/// Boundary: "last chain segment, EXOS boundary".
pub(crate) fn boundary(tables: &Tables) -> Reply {
    Reply::done(tables.list[last_of_chain(tables)], tables.exos_boundary())
}

/// "BOUNDARY: nothing shared, or value above the EXOS boundary."
pub(crate) fn set_user_boundary(tables: &mut Tables, value: u16) -> Result<Reply, Refusal> {
    if !is_shared(tables) || value > tables.exos_boundary() {
        return Err(Refusal::Boundary);
    }
    tables.user_boundary = value;
    Ok(Reply::done(0, 0))
}
