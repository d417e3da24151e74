//! Times the calls of Shinglebar beside hand-written Rust versions of the same calls: the same
//! arguments, the same bytes, the same run. Before a row is timed, both must give the same word and
//! leave the same bytes.
//!
//! | module | what it holds |
//! |---|---|
//! | `library` | the exports of the archive, and the type of each call |
//! | `baseline` | the hand-written versions, complete calls with the same signatures |
//! | `inputs` | tables, frames and payloads |
//! | `buffer` | bytes at fixed places in memory |
//! | `measure` | the check and the timing |
//! | `report` | the cases with their times, the table and the page docs/BENCH.md |
//! | `plot` | the plots of that page |
//! | `machine` | where and when it ran |
//! | `stages` | the cases, a module for each cargo feature |

pub mod baseline;
pub mod buffer;
pub mod inputs;
pub mod library;
pub mod machine;
pub mod measure;
pub mod plot;
pub mod random;
pub mod report;
pub mod stages;
