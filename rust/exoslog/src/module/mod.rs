//! The stream of a relocatable module: its items, and the rest behind them.

mod list;
mod page_rule;
#[cfg(test)]
mod tests;
mod whole;

pub(crate) use list::Start;
pub use list::{ItemList, MOST_ITEMS};
pub use page_rule::PageFault;
pub(crate) use page_rule::LAST_PAGE;
pub use whole::{module_words, NoModule};

use crate::words::data;
use exos_kernel::hex;
use exos_modules::{stream as stream_of, Item, Module, What, END};

/// A stream in words. Where it is no whole module and has no illegal item, a
/// comment says why.
pub(crate) fn stream_words(stream: &[u8]) -> Vec<String> {
    let mut module = Module::of(stream);
    let fault = if !is_broken_off(&module) {
        Some("# input runs out")
    } else if has_bad_padding(&module) {
        module.items.pop();
        Some("# bad padding")
    } else {
        None
    };
    let mut words = items_words(&module.items);
    if fault.is_some() || stream_of(&module.items) != stream {
        words.push(format!("rest {}", data(&rest_of(stream, &module))));
    }
    words.extend(fault.map(str::to_string));
    words
}

/// Whether "the end item, an illegal item" is there, which "breaks off the
/// reading".
pub(crate) fn is_broken_off(module: &Module) -> bool {
    module.items.last().is_some_and(|item| item.what.is_last())
}

/// "Padding must be zero."
fn has_bad_padding(module: &Module) -> bool {
    module.items.last() == Some(&END) && module.rest[..module.padding()].contains(&true)
}

/// Items in words, bytes in runs.
pub fn items_words(items: &[Item]) -> Vec<String> {
    let are_bytes = |one: &Item, next: &Item| [one.what, next.what] == [What::Byte; 2];
    items.chunk_by(are_bytes).map(run_words).collect()
}

/// An item, or a run of bytes, in words.
fn run_words(run: &[Item]) -> String {
    let Item { what, value } = run[0];
    match what {
        What::Byte => {
            let bytes: Vec<u8> = run.iter().map(|item| item.value as u8).collect();
            format!("bytes {}", hex(&bytes))
        }
        What::Word => format!("word {value:04x}"),
        What::SetPage => format!("page {value}"),
        What::Restore => "restore".to_string(),
        What::Move => format!("move {value:04x}"),
        What::End => "end".to_string(),
        What::Illegal => "illegal".to_string(),
    }
}

/// How many bits the items leave of the byte that they end in. What an end item
/// leaves is padding, and its own.
pub(crate) fn bits_left(module: &Module) -> usize {
    match module.items.last() {
        Some(&END) => 0,
        _ => module.padding(),
    }
}

/// The most that so many bits can be.
pub(crate) fn most_of(bits: usize) -> u8 {
    !(u8::MAX << bits)
}

/// The bytes of a stream behind its items. Where the items leave bits of a byte,
/// the first has these.
fn rest_of(stream: &[u8], module: &Module) -> Vec<u8> {
    let left = bits_left(module);
    let begun = module.length().div_ceil(8);
    let mut rest = stream[begun - usize::from(left > 0)..].to_vec();
    if left > 0 {
        rest[0] &= most_of(left);
    }
    rest
}

/// The stream of items with such bytes behind them.
pub(crate) fn with_rest(module: &Module, rest: &[u8]) -> Vec<u8> {
    let mut stream = stream_of(&module.items);
    let mut rest = rest.iter();
    if bits_left(module) > 0 {
        if let (Some(last), Some(bits)) = (stream.last_mut(), rest.next()) {
            *last |= bits;
        }
    }
    stream.extend(rest);
    stream
}
