//! Order 9's two sentences, asked of every module that the kernel writes or
//! loads, by its own reader and by the tools', which knows nothing of the
//! kernel's. What the writers make of a module's items is compared where they are
//! asked for it.

use crate::protocol::{Fault, Request, Writing};
use exos_kernel::{decode, list_of, read_module, Call};
use exos_modules::{of_list, stream, Module, END};

/// The fault in the module of a request that was done, of which b bytes were
/// written to the output or used of the stream.
pub fn fault_of(request: &Request, b: u16, output: &[u8]) -> Option<Fault> {
    let length = usize::from(b);
    let Some((kind, body)) = request.event() else {
        let written = output.get(..length);
        let is_read = written.is_some_and(|module| reads_back(&request.record, module));
        return (!is_read).then_some(Fault::NotReadBack);
    };
    let Call::LoadModule { stream, .. } = decode(kind, body) else {
        return None;
    };
    let is_made = stream.get(..length).is_some_and(is_of_items);
    (!is_made).then_some(Fault::NotOfItems)
}

/// "Reading back gives the same items."
fn reads_back(record: &[u8], written: &[u8]) -> bool {
    let list = Writing::of(record).map_or(&[][..], |writing| writing.list);
    let ended = of_list(list).map(|items| [&items[..], &[END]].concat());
    let module = Module::of(written);
    let is_padded = module.rest.len() < 8 && !module.rest.contains(&true);
    let read = read_module(written);
    ended == Some(module.items)
        && is_padded
        && read == list_of(list).map(|items| (items, written.len()))
}

/// "Every module the loader accepts is what the writer makes of its items, up to
/// the end item."
fn is_of_items(module: &[u8]) -> bool {
    let items = Module::of(module).items;
    items.last() == Some(&END) && stream(&items) == module
}

#[cfg(test)]
mod tests {
    use super::*;
    use exos_modules::{byte, list, RESTORE};

    fn writing(items: &[exos_modules::Item]) -> Request {
        let list = list(items);
        let writing = Writing {
            page: 0,
            offset: 0,
            list: &list,
        };
        Request::to_writer(9, writing.record())
    }

    #[test]
    fn a_module_that_reads_back_and_others() {
        let request = writing(&[byte(1), RESTORE]);
        let right = stream(&[byte(1), RESTORE, END]);
        let fault = |written: &[u8]| fault_of(&request, written.len() as u16, written);
        assert_eq!(fault(&right), None);
        let mut padded = right.clone();
        padded[2] |= 1;
        let wrong = [
            padded,
            [&right[..], &[0]].concat(),
            right[..2].to_vec(),
            stream(&[byte(2), RESTORE, END]),
            stream(&[byte(1), END]),
        ];
        for written in wrong {
            assert_eq!(fault(&written), Some(Fault::NotReadBack), "{written:?}");
        }
        let beyond = fault_of(&request, right.len() as u16 + 1, &right);
        assert_eq!(beyond, Some(Fault::NotReadBack));
    }

    #[test]
    fn a_module_of_its_items_and_others() {
        let right = stream(&[byte(1), END]);
        let fault = |stream: &[u8], b: usize| {
            let body = [&[252, 0, 0, 0], stream].concat();
            fault_of(&Request::new(0, 30, &body), b as u16, &[])
        };
        let followed = [&right[..], &[0xFF]].concat();
        assert_eq!(fault(&right, 2), None);
        assert_eq!(fault(&followed, 2), None);
        for (stream, b) in [
            (&followed, 3),
            (&right, 1),
            (&right, 3),
            (&vec![0x00, 0xE1], 2),
        ] {
            assert_eq!(fault(stream, b), Some(Fault::NotOfItems));
        }
        assert_eq!(fault_of(&Request::new(0, 22, &[]), 5, &[]), None);
    }
}
