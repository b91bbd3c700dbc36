//! The stream that is compared: tables as 776 bytes, requests, replies and
//! digests. Numbers are little-endian.

mod digest;
mod image;
mod reply;
mod request;
mod stream;

pub use digest::{digest, joined, power};
pub use image::{at, image_of, tables_of, Image, CHANNEL, DEVICE, IMAGE};
pub use reply::{Fault, Reply, REPLY};
pub use request::{Request, Sort, Writing};
pub use stream::{ram_of, Case, MOST_RAM, UNTOUCHED};
