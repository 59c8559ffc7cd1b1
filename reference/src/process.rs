//! What is done to one number: conditioning, services, formatting
//! (document 01, 'Carrying it out', and C-12).

use crate::rules::*;

/// Where the digits of a value come from.
#[derive(Clone, Copy, Debug, PartialEq, Eq)]
enum Source {
    Unset,
    Incoming { start: usize, count: usize },
    DefaultCountry,
}

/// The values that conditioning sets.
pub struct Values<'a> {
    number: &'a [u8],
    country_code: &'a [u8],
    sources: [Source; Value::ALL.len()],
}

impl<'a> Values<'a> {
    pub fn digits(&self, value: Value) -> &'a [u8] {
        match self.sources[value.index()] {
            Source::Unset => &[],
            Source::Incoming { start, count } => &self.number[start..start + count],
            Source::DefaultCountry => self.country_code,
        }
    }

    /// The start and count of the part of the number that the value covers;
    /// (0, 0) if it isn't taken from the number.
    pub fn stretch(&self, value: Value) -> (usize, usize) {
        match self.sources[value.index()] {
            Source::Incoming { start, count } => (start, count),
            Source::Unset | Source::DefaultCountry => (0, 0),
        }
    }

    /// ZN, or CC then DN, or CC then AC then SN: by the group rules the
    /// values outside the set's format are not set and add nothing.
    pub fn conditioned(&self) -> Vec<u8> {
        [Value::Zn, Value::Cc, Value::Dn, Value::Ac, Value::Sn]
            .iter()
            .flat_map(|&value| self.digits(value))
            .copied()
            .collect()
    }
}

/// Carries out the conditioning actions of `set` on a number that `filter`
/// fits.
pub fn condition<'a>(
    set: &ActionSet,
    filter: &Filter,
    number: &'a [u8],
    settings: &'a Settings,
) -> Checked<Values<'a>> {
    let mut values = Values {
        number,
        country_code: &settings.country_code,
        sources: [Source::Unset; Value::ALL.len()],
    };
    let mut start = 0;
    for &action in &set.conditioning {
        let left = number.len() - start;
        let count = match action {
            Conditioning::Ignore(count) | Conditioning::Take(_, count) => usize::from(count),
            Conditioning::TakeRest(_) => left.max(1),
            Conditioning::TakePrefix => filter.prefix.len(),
            Conditioning::DefaultCountry => 0,
        };
        demand(count <= left, Refusal::Short)?;
        if let Some(value) = action.value() {
            values.sources[value.index()] = match action {
                Conditioning::DefaultCountry => Source::DefaultCountry,
                _ => Source::Incoming { start, count },
            };
        }
        start += count;
    }
    Ok(values)
}

/// What the service actions leave behind.
pub struct Served<'a> {
    pub carried_out: Vec<Service>,
    pub response: Option<Response>,
    pub withheld: bool,
    rn: &'a [u8],
    sp: &'a [u8],
    asd: &'a [u8],
    grn: &'a [u8],
}

impl Served<'_> {
    /// INPRTG has given another answer than RELAY: nothing more is done.
    pub fn responded(&self) -> bool {
        self.response
            .is_some_and(|response| response != Response::Relay)
    }
}

/// Carries out the service actions of `set` in list order.
pub fn serve<'a>(set: &ActionSet, lookup: &Lookup<'a>, settings: &'a Settings) -> Served<'a> {
    let mut served = Served {
        carried_out: Vec::with_capacity(set.services.len()),
        response: None,
        withheld: false,
        rn: &[],
        sp: &[],
        asd: &[],
        grn: &[],
    };
    for &service in &set.services {
        served.carried_out.push(service);
        match service {
            Service::Inprtg => served.response = Some(settings.answers[lookup.kind as usize]),
            Service::Cdpnnp => portability(&mut served, set, lookup, settings),
            Service::Asdlkup => served.asd = lookup.asd,
            Service::Grnlkup => served.grn = lookup.grn,
            Service::Cdial => served.withheld = false,
        }
        if served.responded() {
            break;
        }
    }
    served
}

/// CDPNNP.  DFLTRN serves kind 3 alone, and SP stays beside it.  Kind 1 is a
/// success where any record is accepted (C-12); RN and SP stay empty.
fn portability<'a>(
    served: &mut Served<'a>,
    set: &ActionSet,
    lookup: &Lookup<'a>,
    settings: &'a Settings,
) {
    match lookup.kind {
        LookupKind::NoRecord => served.withheld = true,
        LookupKind::NoEntity => served.withheld = !settings.accepting,
        LookupKind::RoutingNumber => served.rn = lookup.entity,
        LookupKind::ServiceProvider => {
            served.sp = lookup.entity;
            if set.formatting.contains(&Formatting::Rn) {
                served.rn = &settings.default_routing;
            }
        }
    }
}

/// Joins the values of the formatting actions; empty ones add nothing.
pub fn format(
    set: &ActionSet,
    values: &Values,
    served: &Served,
    settings: &Settings,
) -> Checked<Vec<u8>> {
    let mut outgoing = Vec::with_capacity(LONGEST_NUMBER);
    for &action in &set.formatting {
        outgoing.extend_from_slice(match action {
            Formatting::Conditioned(value) => values.digits(value),
            Formatting::Rn => served.rn,
            Formatting::Sp => served.sp,
            Formatting::Asd => served.asd,
            Formatting::Grn => served.grn,
            Formatting::DelimiterA => &settings.delimiter_a,
            Formatting::DelimiterB => &settings.delimiter_b,
        });
    }
    demand(outgoing.len() <= LONGEST_NUMBER, Refusal::Long)?;
    Ok(outgoing)
}

#[derive(Clone, Copy, Debug, PartialEq, Eq)]
#[repr(u8)]
pub enum Outcome {
    NoRule = 0,
    Escaped = 1,
    Responded = 2,
    Unchanged = 3,
    Formatted = 4,
}

/// The answer to a number that is not refused.
#[derive(Clone, Debug, PartialEq, Eq)]
pub struct Answer {
    pub outcome: Outcome,
    pub class: Class,
    pub response: Option<Response>,
    pub carried_out: Vec<Service>,
    pub digits: Vec<u8>,
}

impl Answer {
    /// The answer where no service action is carried out.
    pub fn plain(outcome: Outcome, class: Class) -> Answer {
        Answer {
            outcome,
            class,
            response: None,
            carried_out: Vec::new(),
            digits: Vec::new(),
        }
    }
}

/// Answers a number whose chosen rule has `filter` and names `set`.
pub fn carry_out(
    set: &ActionSet,
    filter: &Filter,
    number: &Number,
    settings: &Settings,
) -> Checked<Answer> {
    if set.escapes() {
        return Ok(Answer::plain(
            Outcome::Escaped,
            set.class.answered(number.class),
        ));
    }
    let values = condition(set, filter, number.digits, settings)?;
    let served = serve(set, &number.lookup, settings);
    let (outcome, class, digits) = if served.responded() {
        (Outcome::Responded, number.class, Vec::new())
    } else if served.withheld {
        (Outcome::Unchanged, number.class, Vec::new())
    } else {
        let digits = format(set, &values, &served, settings)?;
        (Outcome::Formatted, set.class.answered(number.class), digits)
    };
    Ok(Answer {
        outcome,
        class,
        response: served.response,
        carried_out: served.carried_out,
        digits,
    })
}
