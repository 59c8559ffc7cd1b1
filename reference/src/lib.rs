//! The second implementation of the numbering plan processor: a test
//! instrument, written from the papers alone (see README.md).

pub mod bodies;
pub mod calls;
pub mod charging;
pub mod comparing;
pub mod generate;
pub mod layout;
pub mod ledger;
pub mod plan;
pub mod prices;
pub mod process;
pub mod reached;
pub mod records;
pub mod rules;
pub mod script;
pub mod text;

#[cfg(test)]
mod tests;
