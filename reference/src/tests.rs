//! The tests of the second implementation.

mod accepting;
mod charging;
mod comparing;
mod examples;
mod generated;
mod marked;
mod memory;
mod readings;
mod script;
mod support;
