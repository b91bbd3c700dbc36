//! A body taken apart into its fields and put together again.

use crate::protocol::Request;
use exoslog::{form_of, Field};

/// A field of a body and its bytes.
pub(super) struct Part {
    pub(super) field: Field,
    pub(super) bytes: Vec<u8>,
}

impl Part {
    /// The number that a fixed field is.
    pub(super) fn number(&self) -> Option<u16> {
        self.field.size()?;
        let bytes = self.bytes.iter().rev();
        Some(bytes.fold(0, |number, &byte| number << 8 | u16::from(byte)))
    }

    /// Puts a number into a fixed field.
    pub(super) fn set(&mut self, number: u16) -> Option<()> {
        let size = self.field.size()?;
        self.bytes = number.to_le_bytes()[..size].to_vec();
        Some(())
    }
}

/// The parts of a request whose body fits its form.
pub(super) fn parts(request: &Request) -> Option<Vec<Part>> {
    let (kind, body) = request.event()?;
    let parts = form_of(kind)?.parts(body).ok()?;
    let owned = parts.into_iter().map(|(field, bytes)| Part {
        field,
        bytes: bytes.to_vec(),
    });
    Some(owned.collect())
}

/// Changes the parts of a request; false where that cannot be.
pub(super) fn change(request: &mut Request, how: impl FnOnce(&mut [Part]) -> Option<()>) -> bool {
    let (Some(kind), Some(mut parts)) = (request.kind(), parts(request)) else {
        return false;
    };
    let changed = how(&mut parts).is_some();
    if changed {
        let body: Vec<u8> = parts.into_iter().flat_map(|part| part.bytes).collect();
        *request = Request::new(usize::from(request.output), kind, &body);
    }
    changed
}
