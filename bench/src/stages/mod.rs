//! The cases, a module for each cargo feature.

use crate::report::Report;

#[cfg(feature = "convert")]
mod convert;
#[cfg(feature = "flush")]
mod flush;
#[cfg(feature = "hello")]
mod hello;
#[cfg(feature = "homes")]
mod homes;
#[cfg(feature = "map")]
mod map;
#[cfg(feature = "receive")]
mod receive;
#[cfg(feature = "table")]
mod report;
#[cfg(feature = "table")]
mod table;
#[cfg(feature = "convert")]
mod watch;
#[cfg(feature = "flush")]
mod write;

const STAGES: &[fn(&Report)] = &[
    #[cfg(feature = "table")]
    table::run,
    #[cfg(feature = "flush")]
    flush::run,
    #[cfg(feature = "receive")]
    receive::run,
    #[cfg(feature = "convert")]
    convert::run,
    #[cfg(feature = "flush")]
    write::run,
    #[cfg(feature = "convert")]
    watch::run,
    #[cfg(feature = "map")]
    map::run,
    #[cfg(feature = "homes")]
    homes::run,
    #[cfg(feature = "table")]
    report::run,
    #[cfg(feature = "hello")]
    hello::run,
];

pub fn run(report: &Report) {
    for stage in STAGES {
        stage(report);
    }
}
