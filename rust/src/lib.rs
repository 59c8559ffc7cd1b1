//! Safe wrappers of the proved numbering plan processor's calls.
//!
//! A [`Plan`], a [`PriceList`] and a [`Ledger`] lie in memory that they own or borrow; each of their
//! methods is one call of the library, and promises what include/npp.h says of it. A refused call gives a
//! [`Refusal`] and changes nothing that was lent. The calls are proved (docs/PROMISES.md); these wrappers
//! are ordinary Rust, and are not.
//!
//! Any input is safe: the library looks at every length itself. A wrapper would panic only on a result
//! that the library is proved never to give.
//!
//! ```
//! use npp::bodies::{self, Lookup, Settings};
//! use npp::{ca, digits_of, fa, sa, text_of, Class, Outcome, Plan, Refusal, SetNumber, DIGIT_BUFFER_BYTES};
//!
//! // Country code 55, room for 8 sets and 8 rules.
//! let mut plan = Plan::new(8, 8);
//! plan.open(&bodies::open(8, 8, &Settings::of_country(&[5, 5])).unwrap())?;
//!
//! // Document 01's S1 as set 0, under NATL with both wildcards.
//! let conditioning = [(ca::DNX, 0), (ca::CCDEF, 0)];
//! let s1 = bodies::set(SetNumber(0), None, &conditioning, &[sa::CDPNNP], &[fa::RN, fa::DN]);
//! plan.add_set(&s1.unwrap())?;
//! plan.add_rule(&bodies::rule(Class::NATL, &[], 0, SetNumber(0)).unwrap())?;
//!
//! // 87654321 with RN 0015.
//! let digits = digits_of("87654321").unwrap();
//! let rn = digits_of("0015").unwrap();
//! let body = bodies::number(Class::NATL, &digits, &Lookup::rn(&rn)).unwrap();
//! let mut out = [0; DIGIT_BUFFER_BYTES];
//! let answer = plan.answer(&body, &mut out)?;
//! assert_eq!(answer.outcome, Outcome::Formatted);
//! assert_eq!(text_of(answer.digits), "001587654321");
//!
//! // A rule names the set.
//! assert_eq!(plan.remove_set(&bodies::set_number(SetNumber(0))), Err(Refusal::InUse));
//! # Ok::<(), Refusal>(())
//! ```
//!
//! The loss by district is at [`Ledger`] and [`Plan::take_call`], two plans side by side at
//! [`Plan::compare`], and a file of house records at [`Records`].

#![deny(missing_docs, unsafe_code)]

pub mod bodies;
#[allow(unsafe_code)]
mod c;
mod content;
mod differences;
mod ledger;
mod plan;
mod prices;
mod records;
mod terms;
#[cfg(test)]
mod tests;

pub use bodies::{CallRecord, Price};
pub use c::{Totals, LEDGER_NUMBERS, PRICES_BYTES};
pub use content::Content;
pub use differences::{Difference, Differences, Side, DIFFERENCE_BYTES, MOST_DIFFERENCES, NO_SET};
pub use ledger::{Ledger, Loss, DISTRICTS, LEDGER_RECORDS, UNITS_A_CENT};
pub use plan::{
    plan_bytes, Answer, Listed, Plan, CONTENT_BUFFER_BYTES, DIGIT_BUFFER_BYTES, MOST_RULES,
    MOST_SETS, PLAN_HEADER_BYTES, RULE_SLOT_BYTES, SET_SLOT_BYTES,
};
pub use prices::{PriceList, PRICE_ROWS};
pub use records::{Fault, Kind, Place, Record, Records};
pub use terms::{
    accepted, ca, digits_of, fa, sa, text_of, Class, Outcome, Refusal, Response, RulePlace,
    SetNumber, AS_INCOMING,
};
