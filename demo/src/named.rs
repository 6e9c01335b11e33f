//! What a question names: a half hour of a log, and one of its tanks.

use std::ffi::{OsStr, OsString};

use crate::calendar::{Moment, Span};
use crate::log::Log;
use crate::name::Name;
use crate::text::{joined, printable};

/// The half hour that begins at a date and a time of day.
pub fn moment(time: [&OsString; 2]) -> Result<Moment, String> {
    let [date, clock] = time.map(|word| word.to_string_lossy());
    Moment::read(&date, &clock).map_err(|what| format!("{what}: ask for one as 2026-03-12 22:00."))
}

/// Which half hour of the log it is.
pub fn row(span: Span, time: Moment) -> Result<usize, String> {
    span.row(time).ok_or_else(|| {
        let [asked, first, last] = [time, span.from, span.moment(span.rows - 1)].map(|moment| moment.shown(true));
        format!("{asked} is not in the log: ask for one from {first} to {last}.")
    })
}

/// The place of the tank of this name, however it is written.
pub fn tank<E>(log: &Log<E>, name: &OsStr) -> Result<usize, String> {
    let text = name.to_string_lossy();
    let place = Name::read(&text).ok().and_then(|name| log.tanks.iter().position(|tank| tank.name.same(&name)));
    place.ok_or_else(|| {
        let names: Vec<&str> = log.tanks.iter().map(|tank| tank.name.text.as_str()).collect();
        format!("There is no tank `{}`: the log has {}.", printable(&text), joined(&names, "and"))
    })
}
