//! Comparison of the library with a second implementation, through the C boundary.
//!
//! The library is called by the package in rust/. Each test file belongs to one group of calls:
//!
//! | file | calls |
//! |---|---|
//! | tests/paper.rs | none: the cases and readings of document 01 on the second implementation |
//! | tests/table.rs | lookup, age, spoilt |
//! | tests/free.rs | free slot |
//! | tests/homes.rs | receive, widen, and the calls on a table, where a station has several homes |
//! | tests/header.rs | all, through the header, for the stack that they take; lookup, age and spoilt |
//! | tests/example.rs | receive, age: examples/port.c |
//! | tests/install.rs | none: `make install` and the version |
//! | tests/flush.rs | flush |
//! | tests/why.rs | why, and flush beside it |
//! | tests/report.rs | report, and the program `morning_report` |
//! | tests/hello.rs | hello_read |
//! | tests/hello_write.rs | hello_write, and hello_read with what it wrote |
//! | tests/write.rs | write_flush, and flush with what it wrote |
//! | tests/receive.rs | receive |
//! | tests/convert.rs | compact, expand, send |
//! | tests/refusals.rs | all: the order of refusals in docs/FORMATS.md |
//! | tests/formats.rs | receive, compact, flush, spoilt: the examples of docs/FORMATS.md |
//! | tests/driver.rs | all, through the port driver |
//! | tests/map.rs | receive_port, ingress, and receive and compact beside them |
//! | tests/pairs.rs | receive_port, ingress, beside the program `replay`, which lends the map as a slice of pairs |
//! | tests/lists.rs | receive_port, compact, lookup, age, spoilt: whole call lists |
//! | tests/pages.rs | all, with areas against memory that cannot be accessed |
//! | tests/words.rs | all, with typed answers; words that are no answers |
//! | tests/fuzz.rs | all, by the fuzz target of fuzz/ on its corpus |
//! | tests/replay.rs | flush: a good one cut at each of its lengths |
//! | tests/vectors.rs | none: the files of the program `replay` |
//! | tests/outside.rs | compact, expand, receive, lookup: what tshark says of the frames |
//!
//! Environment: `SHINGLEBAR_SEED` the seed, `SHINGLEBAR_CASES` the number of cases of each call,
//! `SHINGLEBAR_CASE` the only case to run, and for rust/build.rs `SHINGLEBAR_ARCHIVE_DIR` the folder
//! of libshinglebar.a. Seeds and counts go to standard error, past the capture of the test runner.

#![deny(unsafe_code)]

pub mod boundary;
pub mod c_program;
pub mod captures;
pub mod compare;
pub mod corpus;
pub mod generate;
pub mod hellos;
pub mod lend;
pub mod maps;
pub mod outside;
pub mod pages;
pub mod random;
pub mod reference;
pub mod run;
pub mod vectors;
pub mod watched;
