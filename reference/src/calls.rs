//! The library calls over byte memory: any bytes of any length are answered,
//! and a refused call changes nothing lent.

use crate::bodies::{self, Kind};
use crate::layout;
use crate::plan::Plan;
use crate::process::Answer;
use crate::rules::*;

/// The examiner: whether a memory is a sound plan of this build.
pub fn sound(memory: &[u8]) -> bool {
    layout::decode(memory).is_some()
}

pub(crate) fn plan_in(memory: &[u8]) -> Checked<Plan> {
    layout::decode(memory).ok_or(Refusal::Plan)
}

/// A body longer than its kind says is taken; what is behind is not looked at.
pub(crate) fn whole(kind: Kind, body: &[u8]) -> Checked<&[u8]> {
    body.get(..kind.body_length()).ok_or(Refusal::Cut)
}

// ---------------------------------------------------------------------------
// Provisioning

pub fn open(memory: &mut [u8], body: &[u8]) -> Checked<()> {
    let plan = Plan::open(whole(Kind::Open, body)?)?;
    demand(memory.len() >= layout::size(plan.rooms), Refusal::Room)?;
    store(memory, &plan);
    Ok(())
}

/// Bytes behind the size that the rooms need stay.
pub(crate) fn store(memory: &mut [u8], plan: &Plan) {
    let image = layout::encode(plan);
    memory[..image.len()].copy_from_slice(&image);
}

fn edit(
    kind: Kind,
    memory: &mut [u8],
    body: &[u8],
    change: impl Fn(&mut Plan, &[u8]) -> Checked<()>,
) -> Checked<()> {
    let body = whole(kind, body)?;
    let mut plan = plan_in(memory)?;
    change(&mut plan, body)?;
    store(memory, &plan);
    Ok(())
}

pub fn add_set(memory: &mut [u8], body: &[u8]) -> Checked<()> {
    edit(Kind::AddSet, memory, body, Plan::add_set)
}

pub fn replace_set(memory: &mut [u8], body: &[u8]) -> Checked<()> {
    edit(Kind::ReplaceSet, memory, body, Plan::replace_set)
}

pub fn remove_set(memory: &mut [u8], body: &[u8]) -> Checked<()> {
    edit(Kind::RemoveSet, memory, body, Plan::remove_set)
}

pub fn add_rule(memory: &mut [u8], body: &[u8]) -> Checked<()> {
    edit(Kind::AddRule, memory, body, Plan::add_rule)
}

pub fn change_rule(memory: &mut [u8], body: &[u8]) -> Checked<()> {
    edit(Kind::ChangeRule, memory, body, Plan::change_rule)
}

pub fn remove_rule(memory: &mut [u8], body: &[u8]) -> Checked<()> {
    edit(Kind::RemoveRule, memory, body, Plan::remove_rule)
}

/// The provisioning call of a kind, none for kinds from 7 on.
pub fn provisioning(kind: Kind) -> Option<fn(&mut [u8], &[u8]) -> Checked<()>> {
    match kind {
        Kind::Open => Some(open),
        Kind::AddSet => Some(add_set),
        Kind::ReplaceSet => Some(replace_set),
        Kind::RemoveSet => Some(remove_set),
        Kind::AddRule => Some(add_rule),
        Kind::ChangeRule => Some(change_rule),
        Kind::RemoveRule => Some(remove_rule),
        Kind::Number | Kind::Referrers | Kind::List => None,
        Kind::Call | Kind::Price | Kind::Losses => None,
    }
}

/// Carries out records of kinds 0 to 6 one after the other, writes each one's
/// number (0: accepted) and gives how many were carried out.  It stops before
/// the first other kind byte, before a record that is cut, and when `numbers`
/// is full.
pub fn replay(memory: &mut [u8], calls: &[u8], numbers: &mut [u8]) -> usize {
    let mut rest = calls;
    for (done, number) in numbers.iter_mut().enumerate() {
        let Some((call, body, behind)) = next_call(rest) else {
            return done;
        };
        *number = refusal_number(call(memory, body));
        rest = behind;
    }
    numbers.len()
}

type Call = fn(&mut [u8], &[u8]) -> Checked<()>;

fn next_call(calls: &[u8]) -> Option<(Call, &[u8], &[u8])> {
    let (&byte, rest) = calls.split_first()?;
    let kind = Kind::from_byte(byte)?;
    let call = provisioning(kind)?;
    let (body, behind) = rest.split_at_checked(kind.body_length())?;
    Some((call, body, behind))
}

/// 0 for an accepted call.
pub fn refusal_number<T>(result: Checked<T>) -> u8 {
    result.err().map_or(0, Refusal::number)
}

// ---------------------------------------------------------------------------
// Answering and reading

/// Every field of an answer.  Where `refusal` is not 0 all others are 0.
#[derive(Clone, Copy, Debug, Default, PartialEq, Eq)]
pub struct Answered {
    pub refusal: u8,
    pub outcome: u8,
    pub class: u8,
    pub response: u8,
    pub count: u8,
    pub actions: [u8; MOST_SERVICES],
    pub written: usize,
}

impl Answered {
    pub fn of(result: &Checked<Answer>) -> Answered {
        match result {
            Ok(answer) => Answered::accepted(answer),
            Err(refusal) => Answered::refused(*refusal),
        }
    }

    fn accepted(answer: &Answer) -> Answered {
        let mut actions = [0; MOST_SERVICES];
        for (place, service) in actions.iter_mut().zip(&answer.carried_out) {
            *place = service.code();
        }
        Answered {
            refusal: 0,
            outcome: answer.outcome as u8,
            class: answer.class.byte(),
            response: answer.response.map_or(0, |response| response as u8),
            count: answer.carried_out.len() as u8,
            actions,
            written: answer.digits.len(),
        }
    }

    fn refused(refusal: Refusal) -> Answered {
        Answered {
            refusal: refusal.number(),
            ..Answered::default()
        }
    }
}

pub fn answer(memory: &[u8], body: &[u8], out: &mut [u8]) -> Answered {
    let result = try_answer(memory, body, out);
    if let Ok(answer) = &result {
        write_front(out, &answer.digits);
    }
    Answered::of(&result)
}

fn try_answer(memory: &[u8], body: &[u8], out: &[u8]) -> Checked<Answer> {
    let body = whole(Kind::Number, body)?;
    let plan = plan_in(memory)?;
    demand(out.len() >= LONGEST_CONDITIONED, Refusal::Room)?;
    plan.answer(body)
}

/// The bytes behind what is written stay.
pub(crate) fn write_front(out: &mut [u8], bytes: &[u8]) -> usize {
    out[..bytes.len()].copy_from_slice(bytes);
    bytes.len()
}

pub fn conditioned(memory: &[u8], class: u8, digits: &[u8], out: &mut [u8]) -> Checked<usize> {
    let plan = plan_in(memory)?;
    demand(out.len() >= LONGEST_CONDITIONED, Refusal::Room)?;
    Ok(write_front(out, &plan.conditioned(class, digits)?))
}

pub fn set_content(memory: &[u8], number: SetNumber, out: &mut [u8]) -> Checked<usize> {
    let plan = plan_in(memory)?;
    demand(out.len() >= bodies::SET, Refusal::Room)?;
    Ok(write_front(out, &plan.set_content(number)?))
}

pub fn referrers(memory: &[u8], number: SetNumber) -> Checked<usize> {
    plan_in(memory)?.referrers(number)
}

/// Start and count; (0, 0) for the empty stretch (docs/DECISIONS.md).
pub fn stretch(memory: &[u8], class: u8, digits: &[u8], value: u8) -> (usize, usize) {
    layout::decode(memory).map_or((0, 0), |plan| plan.stretch(class, digits, value))
}

pub fn rule_count(memory: &[u8]) -> Checked<usize> {
    Ok(plan_in(memory)?.rule_count())
}

pub fn rule_at(memory: &[u8], place: RulePlace) -> Checked<(Filter, SetNumber)> {
    let plan = plan_in(memory)?;
    let (filter, set) = plan.rule_at(place)?;
    Ok((filter.clone(), set))
}
