//! Tests taken from the text of the definition (documents 01 and 02).

mod again;
mod audit;
mod bodies;
mod cases;
mod good_tables;
mod guard;
mod lending;
mod listing;
mod machine;
mod model;
mod module_refusals;
mod module_streams;
mod modules;
mod moved;
mod moves;
mod names;
mod plain_good;
mod plain_modules;
mod random_calls;
mod random_tables;
mod reads;
mod refusals;
mod resets;
mod writer;
mod writer_refusals;
mod writer_trips;
