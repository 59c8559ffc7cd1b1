//! A plan in its memory, and the calls on it.

use crate::bodies::CallRecord;
use crate::c::{self, LEDGER_NUMBERS, PRICES_BYTES};
use crate::terms::{length_text, prefix_text};
use crate::{accepted, text_of, Class, Outcome, Refusal, Response, RulePlace, SetNumber};
use crate::{Differences, Kind, Ledger, PriceList, Record};
use std::borrow::{Borrow, BorrowMut};
use std::fmt;

/// The least bytes of a buffer for digits: [`Plan::answer`], [`Plan::conditioned`], [`Plan::take_call`].
pub const DIGIT_BUFFER_BYTES: usize = 35;
/// The least bytes of a buffer for a set's content: [`Plan::set_content`].
pub const CONTENT_BUFFER_BYTES: usize = 47;
/// The bytes of a plan memory before its sets.
pub const PLAN_HEADER_BYTES: usize = 64;
/// The bytes of a plan memory for a set.
pub const SET_SLOT_BYTES: usize = 48;
/// The bytes of a plan memory for a rule.
pub const RULE_SLOT_BYTES: usize = 24;
/// The most sets that an opening may ask room for.
pub const MOST_SETS: u16 = 1024;
/// The most rules that an opening may ask room for.
pub const MOST_RULES: u16 = 4096;

/// The least bytes of the memory of a plan with room for so many sets and so many rules.
///
/// ```
/// assert_eq!(npp::plan_bytes(8, 8), 64 + 8 * 48 + 8 * 24);
/// ```
pub const fn plan_bytes(sets: u16, rules: u16) -> usize {
    PLAN_HEADER_BYTES + SET_SLOT_BYTES * sets as usize + RULE_SLOT_BYTES * rules as usize
}

/// A plan memory, owned (`Vec<u8>`, an array) or borrowed (`&mut [u8]`; `&[u8]` to read alone).
///
/// The memory may hold anything: each call but [`open`](Plan::open) examines it, and is refused with
/// [`Refusal::Plan`] where it is not a sound plan. While a `Plan` has it nobody else writes it: after an
/// accepted opening no call of its methods draws `Refusal::Plan`.
///
/// Bodies come from [`bodies`](crate::bodies), or from a file of house records; they may be any bytes
/// of any length, and what stands behind a body is not looked at.
#[derive(Clone, Debug, PartialEq, Eq)]
pub struct Plan<M = Vec<u8>> {
    memory: M,
}

impl Plan {
    /// A memory of its own with room for so many sets and so many rules. It holds no plan until an
    /// opening is accepted.
    ///
    /// ```
    /// use npp::{Plan, Refusal};
    ///
    /// let plan = Plan::new(8, 8);
    /// assert_eq!(plan.memory().len(), npp::plan_bytes(8, 8));
    /// assert!(!plan.is_sound());
    /// assert_eq!(plan.rule_count(), Err(Refusal::Plan));
    /// ```
    pub fn new(sets: u16, rules: u16) -> Plan {
        Plan::over(vec![0; plan_bytes(sets, rules)])
    }
}

impl<M: AsRef<[u8]>> Plan<M> {
    /// The plan, if there is one, in a memory.
    ///
    /// ```
    /// use npp::bodies::{self, Settings};
    /// use npp::Plan;
    ///
    /// let mut memory = [0; npp::plan_bytes(1, 1)];
    /// let mut plan = Plan::over(&mut memory[..]);
    /// plan.open(&bodies::open(1, 1, &Settings::of_country(&[4, 4])).unwrap())?;
    ///
    /// // What only reads needs no more than `&[u8]`.
    /// assert_eq!(Plan::over(&memory).rule_count(), Ok(0));
    /// # Ok::<(), npp::Refusal>(())
    /// ```
    pub fn over(memory: M) -> Plan<M> {
        Plan { memory }
    }

    /// The memory.
    pub fn memory(&self) -> &[u8] {
        self.memory.as_ref()
    }

    /// Gives the memory back.
    ///
    /// ```
    /// let memory = npp::Plan::new(1, 1).into_memory();
    /// assert_eq!(memory, [0; 64 + 48 + 24]);
    /// ```
    pub fn into_memory(self) -> M {
        self.memory
    }

    /// Whether the memory is a sound plan of this build (docs/LAYOUT.md, "Sound"): `npp_sound`.
    ///
    /// ```
    /// assert!(!npp::Plan::over(b"any bytes").is_sound());
    /// ```
    pub fn is_sound(&self) -> bool {
        c::sound(self.memory()) == 1
    }

    /// Answers the number of a body ([`bodies::number`](crate::bodies::number)): `npp_answer`. Outcome 4
    /// writes the outgoing digits at the front of `out`, and the bytes behind them stay; nothing else
    /// is written.
    ///
    /// Refusals, in order: CUT, the body is under 73 bytes; PLAN; ROOM, `out` is under 35 bytes; RANGE;
    /// SHORT; LONG.
    ///
    /// ```
    /// use npp::bodies::{self, Lookup};
    /// use npp::{sa, text_of, Class, Outcome, Refusal, DIGIT_BUFFER_BYTES};
    /// # use npp::{bodies::Settings, ca, fa, Plan, SetNumber};
    /// # fn example() -> Result<Plan, Refusal> {
    /// #     let mut plan = Plan::new(3, 4);
    /// #     plan.open(&bodies::open(3, 4, &Settings::of_country(&[5, 5])).unwrap())?;
    /// #     let s1 = [(ca::DNX, 0), (ca::CCDEF, 0)];
    /// #     let s1 = bodies::set(SetNumber(0), None, &s1, &[sa::CDPNNP], &[fa::RN, fa::DN]);
    /// #     plan.add_set(&s1.unwrap())?;
    /// #     plan.add_rule(&bodies::rule(Class::NATL, &[], 0, SetNumber(0)).unwrap())?;
    /// #     Ok(plan)
    /// # }
    ///
    /// let plan = example()?;
    /// let mut out = [0; DIGIT_BUFFER_BYTES];
    /// let number = bodies::number(Class::NATL, &[8, 7], &Lookup::rn(&[0, 0, 1, 5])).unwrap();
    /// let answer = plan.answer(&number, &mut out)?;
    /// assert_eq!(answer.outcome, Outcome::Formatted);
    /// assert_eq!(answer.class, Class::NATL);
    /// assert_eq!(answer.response, None);
    /// assert_eq!(answer.carried_out(), [sa::CDPNNP]);
    /// assert_eq!(text_of(answer.digits), "001587");
    ///
    /// // M4: an empty number.
    /// let empty = bodies::number(Class::NATL, &[], &Lookup::NO_RECORD).unwrap();
    /// assert_eq!(plan.answer(&empty, &mut out), Err(Refusal::Short));
    /// assert_eq!(plan.answer(&number, &mut out[..34]), Err(Refusal::Room));
    /// assert_eq!(plan.answer(&number[..72], &mut out), Err(Refusal::Cut));
    /// # Ok::<(), Refusal>(())
    /// ```
    pub fn answer<'o>(&self, body: &[u8], out: &'o mut [u8]) -> Result<Answer<'o>, Refusal> {
        let given = c::answer(self.memory(), body, out);
        Answer::of(given, out)
    }

    /// Takes a call record: answers its number as [`answer`](Plan::answer) does, and enters what the call
    /// is due and what was billed for it into the ledger, under its district and in the whole:
    /// `npp_take_call`. It is priced by the row with the longest prefix that fits the outgoing digits in
    /// outcome 4, the incoming ones in outcomes 0, 1 and 3; in outcome 2 it is due nothing and needs no
    /// row. Outcome 4 writes the outgoing digits at the front of `out`, and the bytes behind them stay.
    ///
    /// Refusals, in order: PLAN; ROOM, `out` is under 35 bytes; RANGE, a field of the record is out of
    /// range, or the price list or the ledger is; SHORT; LONG; NO PRICE, no row fits; LEDGER FULL,
    /// 10,000,000 records were taken. None changes a sum.
    ///
    /// ```
    /// use npp::bodies::{self, Lookup};
    /// use npp::{CallRecord, Class, Ledger, Loss, Price, PriceList, Refusal, DIGIT_BUFFER_BYTES};
    /// # use npp::{bodies::Settings, Plan};
    /// # let mut plan = Plan::new(1, 1);
    /// # plan.open(&bodies::open(1, 1, &Settings::of_country(&[5, 5])).unwrap())?;
    ///
    /// // Numbers that begin with 8 cost 1 cent a minute.
    /// let mut prices = PriceList::new();
    /// prices.add(&Price { prefix: &[8], price: 1_000 })?;
    /// let mut ledger = Ledger::new();
    /// let mut out = [0; DIGIT_BUFFER_BYTES];
    ///
    /// // Half a minute, for which 2 cents were billed.
    /// let number = bodies::number(Class::NATL, &[8, 7], &Lookup::NO_RECORD).unwrap();
    /// let record = CallRecord { account: 1001, district: 17, seconds: 30, billed: 2_000, number };
    /// let answer = plan.take_call(&prices, &mut ledger, &record, &mut out)?;
    /// assert_eq!(answer.to_string(), "0 1 0 0 -");
    /// let overcharged = Loss { units: 30_000 - 120_000, cents: -2 };
    /// assert_eq!(ledger.district_loss(17), Ok(Some(overcharged)));
    ///
    /// // No price is for a number that begins with 9, and nothing is entered.
    /// let number = bodies::number(Class::NATL, &[9, 7], &Lookup::NO_RECORD).unwrap();
    /// let record = CallRecord { number, ..record };
    /// let taken = plan.take_call(&prices, &mut ledger, &record, &mut out);
    /// assert_eq!(taken, Err(Refusal::NoPrice));
    /// assert_eq!(ledger.whole().count, 1);
    /// # Ok::<(), Refusal>(())
    /// ```
    pub fn take_call<'o, P, D>(
        &self,
        prices: &PriceList<P>,
        ledger: &mut Ledger<D>,
        record: &CallRecord,
        out: &'o mut [u8],
    ) -> Result<Answer<'o>, Refusal>
    where
        P: Borrow<[u8; PRICES_BYTES]>,
        D: BorrowMut<[i64; LEDGER_NUMBERS]>,
    {
        self.take_call_body(prices, ledger, &record.body(), out)
    }

    /// Takes the call record of a body ([`CallRecord::body`]), which may be any bytes: `npp_take_call`.
    ///
    /// Refusals, in order: CUT, the body is under 87 bytes; then those of [`take_call`](Plan::take_call).
    ///
    /// ```
    /// use npp::{Ledger, Plan, PriceList, Refusal, DIGIT_BUFFER_BYTES};
    ///
    /// let (prices, mut ledger) = (PriceList::new(), Ledger::new());
    /// let mut out = [0; DIGIT_BUFFER_BYTES];
    /// let mut take = |body: &[u8]| {
    ///     let plan = Plan::new(1, 1);
    ///     plan.take_call_body(&prices, &mut ledger, body, &mut out).map(|_| ())
    /// };
    /// assert_eq!(take(&[0; 86]), Err(Refusal::Cut));
    /// assert_eq!(take(&[0; 87]), Err(Refusal::Plan));
    /// ```
    pub fn take_call_body<'o, P, D>(
        &self,
        prices: &PriceList<P>,
        ledger: &mut Ledger<D>,
        body: &[u8],
        out: &'o mut [u8],
    ) -> Result<Answer<'o>, Refusal>
    where
        P: Borrow<[u8; PRICES_BYTES]>,
        D: BorrowMut<[i64; LEDGER_NUMBERS]>,
    {
        let (districts, whole) = ledger.numbers_mut();
        let given = c::take_call(self.memory(), prices.memory(), districts, whole, body, out);
        Answer::of(given, out)
    }

    /// The conditioned number, for the lookup: `npp_conditioned`. It gives the 1 to 35 digits, written
    /// at the front of `out`, and the bytes behind them stay. Where no rule fits, or the set has no
    /// conditioning action, it gives none.
    ///
    /// Refusals, in order: PLAN; ROOM, `out` is under 35 bytes; RANGE, over 32 digits or one over 15;
    /// SHORT.
    ///
    /// ```
    /// use npp::{digits_of, text_of, Class, Refusal, DIGIT_BUFFER_BYTES};
    /// # use npp::{bodies::{self, Settings}, ca, Plan, SetNumber};
    /// # fn example() -> Result<Plan, Refusal> {
    /// #     let mut plan = Plan::new(3, 4);
    /// #     plan.open(&bodies::open(3, 4, &Settings::of_country(&[5, 5])).unwrap())?;
    /// #     let s2 = [(ca::IGN, 1), (ca::AC, 2), (ca::PFXA, 4), (ca::SNX, 0), (ca::CCDEF, 0)];
    /// #     plan.add_set(&bodies::set(SetNumber(1), None, &s2, &[], &[]).unwrap())?;
    /// #     plan.add_rule(&bodies::rule(Class::UNKNOWN, &[11], 15, SetNumber(1)).unwrap())?;
    /// #     Ok(plan)
    /// # }
    ///
    /// // M5.
    /// let plan = example()?;
    /// let digits = digits_of("b33909087654321").unwrap();
    /// let mut out = [0; DIGIT_BUFFER_BYTES];
    /// assert_eq!(text_of(plan.conditioned(Class::UNKNOWN, &digits, &mut out)?), "553387654321");
    /// assert_eq!(plan.conditioned(Class::INTL, &digits, &mut out), Ok(&[][..]));
    /// assert_eq!(plan.conditioned(Class::INTL, &[16], &mut out), Err(Refusal::Range));
    /// # Ok::<(), Refusal>(())
    /// ```
    pub fn conditioned<'o>(
        &self,
        class: Class,
        digits: &[u8],
        out: &'o mut [u8],
    ) -> Result<&'o [u8], Refusal> {
        let given = c::conditioned(self.memory(), class.code(), digits, out);
        accepted(given.refusal)?;
        Ok(&out[..given.bytes])
    }

    /// The very stretch of the incoming digits that a value covers: `npp_stretch`. A value is named by
    /// its formatting action's code, 1 to 10 ([`fa`](crate::fa)).
    ///
    /// It is empty where the value is not 1 to 10, or is not taken from the number, and where anything
    /// is refused: it has no refusal number.
    ///
    /// ```
    /// use npp::{digits_of, fa, text_of, Class};
    /// # use npp::{bodies::{self, Settings}, ca, Plan, Refusal, SetNumber};
    /// # fn example() -> Result<Plan, Refusal> {
    /// #     let mut plan = Plan::new(3, 4);
    /// #     plan.open(&bodies::open(3, 4, &Settings::of_country(&[5, 5])).unwrap())?;
    /// #     let s2 = [(ca::IGN, 1), (ca::AC, 2), (ca::PFXA, 4), (ca::SNX, 0), (ca::CCDEF, 0)];
    /// #     plan.add_set(&bodies::set(SetNumber(1), None, &s2, &[], &[]).unwrap())?;
    /// #     plan.add_rule(&bodies::rule(Class::UNKNOWN, &[11], 15, SetNumber(1)).unwrap())?;
    /// #     Ok(plan)
    /// # }
    ///
    /// let plan = example()?;
    /// let digits = digits_of("b33909087654321").unwrap();
    /// assert_eq!(text_of(plan.stretch(Class::UNKNOWN, &digits, fa::AC)), "33");
    /// assert_eq!(text_of(plan.stretch(Class::UNKNOWN, &digits, fa::SN)), "87654321");
    /// // CCDEF takes no digits.
    /// assert!(plan.stretch(Class::UNKNOWN, &digits, fa::CC).is_empty());
    /// # Ok::<(), Refusal>(())
    /// ```
    pub fn stretch<'d>(&self, class: Class, digits: &'d [u8], value: u8) -> &'d [u8] {
        let span = c::stretch(self.memory(), class.code(), digits, value);
        &digits[span.start..][..span.count]
    }

    /// The content of a set: `npp_set_content`. It gives 47 bytes, written at the front of `out`, a body
    /// as [`add_set`](Plan::add_set) takes it; the bytes behind them stay.
    ///
    /// Refusals, in order: PLAN; ROOM, `out` is under 47 bytes; RANGE, the number is at or over the
    /// room; ABSENT.
    ///
    /// ```
    /// use npp::bodies::{self, Settings};
    /// use npp::{ca, Plan, Refusal, SetNumber, CONTENT_BUFFER_BYTES};
    ///
    /// let mut plan = Plan::new(2, 1);
    /// plan.open(&bodies::open(2, 1, &Settings::of_country(&[5, 5])).unwrap())?;
    /// let body = bodies::set(SetNumber(0), None, &[(ca::ZNX, 0)], &[], &[]).unwrap();
    /// plan.add_set(&body)?;
    ///
    /// let mut out = [0; CONTENT_BUFFER_BYTES];
    /// assert_eq!(plan.set_content(SetNumber(0), &mut out), Ok(&body[..]));
    /// assert_eq!(plan.set_content(SetNumber(1), &mut out), Err(Refusal::Absent));
    /// assert_eq!(plan.set_content(SetNumber(2), &mut out), Err(Refusal::Range));
    /// # Ok::<(), Refusal>(())
    /// ```
    pub fn set_content<'o>(&self, set: SetNumber, out: &'o mut [u8]) -> Result<&'o [u8], Refusal> {
        let given = c::set_content(self.memory(), set.0, out);
        accepted(given.refusal)?;
        Ok(&out[..given.bytes])
    }

    /// How many rules name a set: `npp_referrers`.
    ///
    /// Refusals, in order: PLAN; RANGE, the number is at or over the room; ABSENT.
    ///
    /// ```
    /// use npp::bodies::{self, Settings};
    /// use npp::{Class, Plan, Refusal, SetNumber};
    ///
    /// let mut plan = Plan::new(2, 2);
    /// plan.open(&bodies::open(2, 2, &Settings::of_country(&[5, 5])).unwrap())?;
    /// plan.add_set(&bodies::set(SetNumber(0), None, &[], &[], &[]).unwrap())?;
    /// plan.add_rule(&bodies::rule(Class::INTL, &[], 0, SetNumber(0)).unwrap())?;
    /// plan.add_rule(&bodies::rule(Class::INTL, &[4, 4], 0, SetNumber(0)).unwrap())?;
    ///
    /// assert_eq!(plan.referrers(SetNumber(0)), Ok(2));
    /// assert_eq!(plan.referrers(SetNumber(1)), Err(Refusal::Absent));
    /// # Ok::<(), Refusal>(())
    /// ```
    pub fn referrers(&self, set: SetNumber) -> Result<usize, Refusal> {
        let given = c::referrers(self.memory(), set.0);
        accepted(given.refusal)?;
        Ok(given.rules)
    }

    /// How many rules are listed: `npp_rule_count`.
    ///
    /// Refusals: PLAN.
    ///
    /// ```
    /// use npp::{Plan, Refusal};
    ///
    /// assert_eq!(Plan::over([0; 64]).rule_count(), Err(Refusal::Plan));
    /// ```
    pub fn rule_count(&self) -> Result<usize, Refusal> {
        let given = c::rule_count(self.memory());
        accepted(given.refusal)?;
        Ok(given.rules)
    }

    /// The rule at a place of the listing: `npp_rule_at`.
    ///
    /// Refusals, in order: PLAN; RANGE, the place is at or over the count of rules.
    ///
    /// ```
    /// use npp::bodies::{self, Settings};
    /// use npp::{Class, Plan, Refusal, RulePlace, SetNumber};
    ///
    /// let mut plan = Plan::new(1, 1);
    /// plan.open(&bodies::open(1, 1, &Settings::of_country(&[5, 5])).unwrap())?;
    /// plan.add_set(&bodies::set(SetNumber(0), None, &[], &[], &[]).unwrap())?;
    /// plan.add_rule(&bodies::rule(Class::UNKNOWN, &[11, 3], 15, SetNumber(0)).unwrap())?;
    ///
    /// let rule = plan.rule_at(RulePlace(0))?;
    /// assert_eq!((rule.class, rule.prefix(), rule.length), (Class::UNKNOWN, &[11, 3][..], Some(15)));
    /// assert_eq!(rule.set, SetNumber(0));
    /// assert_eq!(plan.rule_at(RulePlace(1)), Err(Refusal::Range));
    /// # Ok::<(), Refusal>(())
    /// ```
    pub fn rule_at(&self, place: RulePlace) -> Result<Listed, Refusal> {
        let given = c::rule_at(self.memory(), place.0);
        accepted(given.refusal)?;
        Ok(Listed {
            class: Class::of(given.class).expect("a class, 0 to 5"),
            prefix: given.prefix,
            digits: usize::from(given.digits),
            length: (given.length != 0).then_some(given.length),
            set: SetNumber(given.set),
        })
    }

    /// The whole listing, made of [`rule_count`](Plan::rule_count) and of [`rule_at`](Plan::rule_at) for
    /// each place. Each of these calls examines the plan anew.
    ///
    /// Refusals: PLAN.
    ///
    /// ```
    /// use npp::bodies::{self, Settings};
    /// use npp::{Class, Plan, SetNumber};
    ///
    /// let mut plan = Plan::new(1, 2);
    /// plan.open(&bodies::open(1, 2, &Settings::of_country(&[5, 5])).unwrap())?;
    /// plan.add_set(&bodies::set(SetNumber(0), None, &[], &[], &[]).unwrap())?;
    /// plan.add_rule(&bodies::rule(Class::UNKNOWN, &[11, 3], 15, SetNumber(0)).unwrap())?;
    /// plan.add_rule(&bodies::rule(Class::NATL, &[], 0, SetNumber(0)).unwrap())?;
    ///
    /// let lines: Vec<String> = plan.rules()?.map(|rule| rule.to_string()).collect();
    /// assert_eq!(lines, ["1 * * 0", "2 b3 15 0"]);
    /// # Ok::<(), npp::Refusal>(())
    /// ```
    pub fn rules(&self) -> Result<impl Iterator<Item = Listed> + '_, Refusal> {
        let places = 0..self.rule_count()?;
        let listed = |place| self.rule_at(RulePlace(u16::try_from(place).ok()?)).ok();
        Ok(places.map_while(listed))
    }

    /// Compares two plans (C-20), this one on the left: `npp_compare`. It gives, in listing order and each
    /// once, the filters that the left plan holds alone, those that the right one does, and those that
    /// both hold with sets whose content differs. Sets are compared by content and not by number; settings
    /// and rooms are left aside. A plan may be compared with itself.
    ///
    /// The entries are written at the front of `out`, 24 bytes each, and the bytes behind them stay. There
    /// are at most [`MOST_DIFFERENCES`](crate::MOST_DIFFERENCES). Where there is none, under equal settings
    /// both plans give every number the same answer.
    ///
    /// Refusals, in order: PLAN, of either; ROOM, `out` is under
    /// [`DIFFERENCE_BYTES`](crate::DIFFERENCE_BYTES) for each difference, and then nothing is written.
    ///
    /// ```
    /// use npp::bodies::{self, Settings};
    /// use npp::{ca, Class, Plan, Refusal, SetNumber, Side, DIFFERENCE_BYTES};
    ///
    /// // Both plans let numbers that begin with 1 pass as they are, by sets 0 and 1.
    /// let quarter = |set| {
    ///     let mut plan = Plan::new(2, 2);
    ///     plan.open(&bodies::open(2, 2, &Settings::of_country(&[5, 5])).unwrap())?;
    ///     plan.add_set(&bodies::set(SetNumber(set), None, &[], &[], &[]).unwrap())?;
    ///     plan.add_rule(&bodies::rule(Class::NATL, &[1], 0, SetNumber(set)).unwrap())?;
    ///     Ok(plan)
    /// };
    /// let left = quarter(0)?;
    /// let mut right = quarter(1)?;
    /// assert_eq!(left.compare(&right, &mut [])?.len(), 0);
    ///
    /// // The second gets a rule that the first has not.
    /// right.add_rule(&bodies::rule(Class::NATL, &[2, 1], 8, SetNumber(1)).unwrap())?;
    /// let mut out = [0; DIFFERENCE_BYTES];
    /// let added = left.compare(&right, &mut out)?.next().unwrap();
    /// assert_eq!((added.side, added.class), (Side::RightOnly, Class::NATL));
    /// assert_eq!((added.prefix(), added.length), (&[2, 1][..], Some(8)));
    /// assert_eq!((added.left, added.right), (None, Some(SetNumber(1))));
    /// assert_eq!(added.to_string(), "right only: NATL 21/8, set 1");
    /// assert_eq!(left.compare(&right, &mut []).unwrap_err(), Refusal::Room);
    /// # Ok::<(), Refusal>(())
    /// ```
    pub fn compare<'o, R: AsRef<[u8]>>(
        &self,
        right: &Plan<R>,
        out: &'o mut [u8],
    ) -> Result<Differences<'o>, Refusal> {
        let given = c::compare(self.memory(), right.memory(), out);
        accepted(given.refusal)?;
        Ok(Differences::of(given.differences, out))
    }
}

/// A method for each provisioning call. The documentation of each is its own.
macro_rules! provisioning {
    ($($(#[$attribute:meta])* $name:ident),* $(,)?) => {
        $(
            $(#[$attribute])*
            pub fn $name(&mut self, body: &[u8]) -> Result<(), Refusal> {
                accepted(c::$name(self.memory.as_mut(), body))
            }
        )*
    };
}

/// Opening and provisioning. A refused call leaves every byte of the memory as it was. An accepted one
/// leaves the plan with the change made; the bytes behind the size that its rooms need stay.
impl<M: AsMut<[u8]>> Plan<M> {
    provisioning!(
        /// Opens a plan ([`bodies::open`](crate::bodies::open)) over the memory, whatever it holds:
        /// `npp_open`. An accepted opening starts afresh, with no set and no rule; a refused one leaves
        /// the old plan in force.
        ///
        /// Refusals, in order: CUT, the body is under 41 bytes; RANGE; ROOM, the memory is under
        /// [`plan_bytes`] of the rooms asked.
        ///
        /// ```
        /// use npp::bodies::{open, Settings};
        /// use npp::{Plan, Refusal};
        ///
        /// let settings = Settings::of_country(&[5, 5]);
        /// let mut plan = Plan::new(8, 8);
        /// assert_eq!(plan.open(&open(8, 8, &settings).unwrap()), Ok(()));
        /// assert_eq!(plan.open(&open(8, 9, &settings).unwrap()), Err(Refusal::Room));
        /// assert_eq!(plan.open(&open(0, 9, &settings).unwrap()), Err(Refusal::Range));
        /// assert_eq!(plan.open(&[]), Err(Refusal::Cut));
        /// assert!(plan.is_sound());
        /// ```
        open,
        /// Adds a set ([`bodies::set`](crate::bodies::set)): `npp_add_set`.
        ///
        /// Refusals, in order: CUT, the body is under 47 bytes; PLAN; RANGE; GROUPS; TAKEN.
        ///
        /// ```
        /// use npp::bodies::{open, set, Settings};
        /// use npp::{ca, sa, Plan, Refusal, SetNumber};
        ///
        /// let mut plan = Plan::new(1, 1);
        /// plan.open(&open(1, 1, &Settings::of_country(&[5, 5])).unwrap())?;
        /// let znx = [(ca::ZNX, 0)];
        /// // M10: precedence never rises.
        /// let rises = set(SetNumber(0), None, &znx, &[sa::ASDLKUP, sa::CDPNNP], &[]).unwrap();
        /// assert_eq!(plan.add_set(&rises), Err(Refusal::Groups));
        /// let falls = set(SetNumber(0), None, &znx, &[sa::CDPNNP, sa::ASDLKUP], &[]).unwrap();
        /// assert_eq!(plan.add_set(&falls), Ok(()));
        /// assert_eq!(plan.add_set(&falls), Err(Refusal::Taken));
        /// # Ok::<(), Refusal>(())
        /// ```
        add_set,
        /// Gives a set another content ([`bodies::set`](crate::bodies::set)): `npp_replace_set`. Every
        /// rule that names it must fit.
        ///
        /// Refusals, in order: CUT, the body is under 47 bytes; PLAN; RANGE; GROUPS; ABSENT; MISFIT.
        ///
        /// ```
        /// use npp::bodies::{open, rule, set, Settings};
        /// use npp::{ca, Class, Plan, Refusal, SetNumber};
        ///
        /// let mut plan = Plan::new(1, 1);
        /// plan.open(&open(1, 1, &Settings::of_country(&[5, 5])).unwrap())?;
        /// let znx = set(SetNumber(0), None, &[(ca::ZNX, 0)], &[], &[]).unwrap();
        /// assert_eq!(plan.replace_set(&znx), Err(Refusal::Absent));
        /// plan.add_set(&znx)?;
        /// plan.add_rule(&rule(Class::INTL, &[], 0, SetNumber(0)).unwrap())?;
        /// // A rule with a wildcard length needs an X action.
        /// let zn = set(SetNumber(0), None, &[(ca::ZN, 8)], &[], &[]).unwrap();
        /// assert_eq!(plan.replace_set(&zn), Err(Refusal::Misfit));
        /// # Ok::<(), Refusal>(())
        /// ```
        replace_set,
        /// Removes a set ([`bodies::set_number`](crate::bodies::set_number)): `npp_remove_set`. Its room
        /// is used again.
        ///
        /// Refusals, in order: CUT, the body is under 2 bytes; PLAN; RANGE; ABSENT; IN USE.
        ///
        /// ```
        /// use npp::bodies::{open, set, set_number, Settings};
        /// use npp::{Plan, Refusal, SetNumber};
        ///
        /// let mut plan = Plan::new(1, 1);
        /// plan.open(&open(1, 1, &Settings::of_country(&[5, 5])).unwrap())?;
        /// plan.add_set(&set(SetNumber(0), None, &[], &[], &[]).unwrap())?;
        /// assert_eq!(plan.remove_set(&set_number(SetNumber(0))), Ok(()));
        /// assert_eq!(plan.remove_set(&set_number(SetNumber(0))), Err(Refusal::Absent));
        /// assert_eq!(plan.remove_set(&set_number(SetNumber(1))), Err(Refusal::Range));
        /// # Ok::<(), Refusal>(())
        /// ```
        remove_set,
        /// Adds a rule ([`bodies::rule`](crate::bodies::rule)): `npp_add_rule`. It stands at its place
        /// in listing order.
        ///
        /// Refusals, in order: CUT, the body is under 21 bytes; PLAN; RANGE; TAKEN, the filter; ABSENT,
        /// the set; MISFIT; FULL.
        ///
        /// ```
        /// use npp::bodies::{open, rule, set, Settings};
        /// use npp::{Class, Plan, Refusal, SetNumber};
        ///
        /// let mut plan = Plan::new(2, 1);
        /// plan.open(&open(2, 1, &Settings::of_country(&[5, 5])).unwrap())?;
        /// plan.add_set(&set(SetNumber(0), None, &[], &[], &[]).unwrap())?;
        /// let absent = rule(Class::NATL, &[], 0, SetNumber(1)).unwrap();
        /// assert_eq!(plan.add_rule(&absent), Err(Refusal::Absent));
        /// let any = rule(Class::NATL, &[], 0, SetNumber(0)).unwrap();
        /// assert_eq!(plan.add_rule(&any), Ok(()));
        /// assert_eq!(plan.add_rule(&any), Err(Refusal::Taken));
        /// let other = rule(Class::NATL, &[1], 0, SetNumber(0)).unwrap();
        /// assert_eq!(plan.add_rule(&other), Err(Refusal::Full));
        /// # Ok::<(), Refusal>(())
        /// ```
        add_rule,
        /// Has the rule of a filter name another set ([`bodies::rule`](crate::bodies::rule)):
        /// `npp_change_rule`.
        ///
        /// Refusals, in order: CUT, the body is under 21 bytes; PLAN; RANGE; ABSENT, the filter or the
        /// set; MISFIT.
        ///
        /// ```
        /// use npp::bodies::{open, rule, set, Settings};
        /// use npp::{Class, Plan, Refusal, RulePlace, SetNumber};
        ///
        /// let mut plan = Plan::new(2, 1);
        /// plan.open(&open(2, 1, &Settings::of_country(&[5, 5])).unwrap())?;
        /// plan.add_set(&set(SetNumber(0), None, &[], &[], &[]).unwrap())?;
        /// plan.add_set(&set(SetNumber(1), None, &[], &[], &[]).unwrap())?;
        /// plan.add_rule(&rule(Class::NATL, &[], 0, SetNumber(0)).unwrap())?;
        /// plan.change_rule(&rule(Class::NATL, &[], 0, SetNumber(1)).unwrap())?;
        /// assert_eq!(plan.rule_at(RulePlace(0))?.set, SetNumber(1));
        /// let other = rule(Class::NATL, &[1], 0, SetNumber(1)).unwrap();
        /// assert_eq!(plan.change_rule(&other), Err(Refusal::Absent));
        /// # Ok::<(), Refusal>(())
        /// ```
        change_rule,
        /// Removes the rule of a filter ([`bodies::filter`](crate::bodies::filter)):
        /// `npp_remove_rule`. Its room is used again.
        ///
        /// Refusals, in order: CUT, the body is under 19 bytes; PLAN; RANGE; ABSENT.
        ///
        /// ```
        /// use npp::bodies::{filter, open, rule, set, Settings};
        /// use npp::{Class, Plan, Refusal, SetNumber};
        ///
        /// let mut plan = Plan::new(1, 1);
        /// plan.open(&open(1, 1, &Settings::of_country(&[5, 5])).unwrap())?;
        /// plan.add_set(&set(SetNumber(0), None, &[], &[], &[]).unwrap())?;
        /// plan.add_rule(&rule(Class::NATL, &[], 0, SetNumber(0)).unwrap())?;
        /// let any = filter(Class::NATL, &[], 0).unwrap();
        /// assert_eq!(plan.remove_rule(&any), Ok(()));
        /// assert_eq!(plan.remove_rule(&any), Err(Refusal::Absent));
        /// # Ok::<(), Refusal>(())
        /// ```
        remove_rule,
    );

    /// Makes the call of a house record where its kind is one of these seven ([`Kind`]); none where it is
    /// not, and then nothing is done.
    ///
    /// ```
    /// use npp::bodies::{self, record, Settings};
    /// use npp::{Plan, Records};
    ///
    /// let opening = bodies::open(1, 1, &Settings::of_country(&[5, 5])).unwrap();
    /// let file = [&[record::OPEN][..], &opening, &[record::LIST]].concat();
    /// let mut plan = Plan::new(1, 1);
    /// let mut done = Records::of(&file).map(|record| plan.carry_out(&record.unwrap()));
    /// assert_eq!((done.next(), done.next()), (Some(Some(Ok(()))), Some(None)));
    /// ```
    #[must_use = "a refused call changes nothing, and says so here alone"]
    pub fn carry_out(&mut self, record: &Record) -> Option<Result<(), Refusal>> {
        let call = match record.kind {
            Kind::Open => Self::open,
            Kind::AddSet => Self::add_set,
            Kind::ReplaceSet => Self::replace_set,
            Kind::RemoveSet => Self::remove_set,
            Kind::AddRule => Self::add_rule,
            Kind::ChangeRule => Self::change_rule,
            Kind::RemoveRule => Self::remove_rule,
            _ => return None,
        };
        Some(call(self, record.body))
    }

    /// Runs a list of these seven calls: `npp_replay`. `calls` holds house records one behind the other,
    /// a kind byte ([`bodies::record`](crate::bodies::record)) and its body of just its length; each call
    /// gets the plan as the last one left it.
    ///
    /// It gives the number of each call that was carried out, refused ones included: 0 or its refusal
    /// ([`accepted`] tells). They are written at the front of `numbers`, and the bytes behind them stay.
    /// It ends before the first byte that is not a kind 0 to 6, before the first record that is cut, and
    /// where `numbers` is full.
    ///
    /// ```
    /// use npp::bodies::{self, record, Settings};
    /// use npp::{accepted, Plan, Refusal, SetNumber};
    ///
    /// let mut calls = vec![record::OPEN];
    /// calls.extend(bodies::open(1, 1, &Settings::of_country(&[5, 5])).unwrap());
    /// calls.push(record::REMOVE_SET);
    /// calls.extend(bodies::set_number(SetNumber(0)));
    ///
    /// let mut numbers = [0; 8];
    /// let mut plan = Plan::new(1, 1);
    /// let done: Vec<_> = plan.replay(&calls, &mut numbers).iter().map(|&n| accepted(n)).collect();
    /// assert_eq!(done, [Ok(()), Err(Refusal::Absent)]);
    /// ```
    pub fn replay<'n>(&mut self, calls: &[u8], numbers: &'n mut [u8]) -> &'n [u8] {
        let done = c::replay(self.memory.as_mut(), calls, numbers);
        &numbers[..done]
    }
}

/// The answer to a number.
///
/// As text it is document 01's number line: outcome, class, response, action count, digits.
#[derive(Clone, Copy, Debug, PartialEq, Eq)]
pub struct Answer<'o> {
    /// What came of it.
    pub outcome: Outcome,
    /// In outcomes 1 and 4 the set's class, or the incoming one where that is "as incoming"; else the
    /// incoming one.
    pub class: Class,
    /// INPRTG's answer; none if it was not carried out.
    pub response: Option<Response>,
    /// The codes of the service actions carried out, in order; 0 behind the last.
    pub actions: [u8; 8],
    /// How many service actions were carried out.
    pub count: usize,
    /// The outgoing digits, at most 32, at the front of the lent buffer; none in outcomes 0 to 3.
    pub digits: &'o [u8],
}

impl<'o> Answer<'o> {
    /// What the library gives, with the buffer that it wrote.
    fn of(given: c::Answered, out: &'o [u8]) -> Result<Answer<'o>, Refusal> {
        accepted(given.refusal)?;
        Ok(Answer {
            outcome: Outcome::of(given.outcome).expect("an outcome, 0 to 4"),
            class: Class::of(given.class).expect("a class, 0 to 5"),
            response: Response::of(given.response),
            actions: given.actions,
            count: usize::from(given.count),
            digits: &out[..given.digits],
        })
    }

    /// The codes of the service actions carried out ([`sa`](crate::sa)), in order.
    pub fn carried_out(&self) -> &[u8] {
        &self.actions[..self.count]
    }
}

impl fmt::Display for Answer<'_> {
    fn fmt(&self, f: &mut fmt::Formatter<'_>) -> fmt::Result {
        write!(
            f,
            "{} {} {} {} {}",
            self.outcome.code(),
            self.class.code(),
            self.response.map_or(0, Response::code),
            self.count,
            text_of(self.digits)
        )
    }
}

/// A rule of the listing.
///
/// As text it is document 01's line: class, prefix, length and set, `*` for a wildcard.
#[derive(Clone, Copy, Debug, PartialEq, Eq)]
pub struct Listed {
    /// The filter's class.
    pub class: Class,
    /// The filter's length; none for a wildcard.
    pub length: Option<u8>,
    /// The set that the rule names.
    pub set: SetNumber,
    prefix: [u8; 16],
    digits: usize,
}

impl Listed {
    /// The filter's prefix; no digits for a wildcard.
    pub fn prefix(&self) -> &[u8] {
        &self.prefix[..self.digits]
    }
}

impl fmt::Display for Listed {
    fn fmt(&self, f: &mut fmt::Formatter<'_>) -> fmt::Result {
        let (prefix, length) = (prefix_text(self.prefix()), length_text(self.length));
        write!(f, "{} {prefix} {length} {}", self.class.code(), self.set.0)
    }
}
