//! Takes the call records of three accounts, each with a loss of 0.4 cents, and tells the loss of their
//! district: 0 cents behind the first record, 1 behind the third. A fourth meets no price, and changes
//! nothing. It writes what include/three_accounts.c writes. `rust/build` builds it.

use npp::bodies::{self, Lookup, Settings};
use npp::{digits_of, CallRecord, Class, Ledger, Loss, Plan, Price, PriceList, Refusal};

fn report(call: &str, result: Result<(), Refusal>) {
    match result {
        Ok(()) => println!("{call}: ok"),
        Err(refusal) => println!("{call}: no {}", refusal.number()),
    }
}

fn print_loss(what: &str, loss: Option<Loss>) {
    match loss {
        Some(Loss { units, cents }) => println!("{what}: {units} units, in cents {cents}"),
        None => println!("{what}: no records"),
    }
}

/// A minute of an account of district 17, for which 0.6 cents were billed.
fn record(account: u32, number: &str) -> CallRecord {
    let digits = digits_of(number).expect("digits");
    let number = bodies::number(Class::NATL, &digits, &Lookup::NO_RECORD);
    CallRecord {
        account,
        district: 17,
        seconds: 60,
        billed: 600,
        number: number.expect("few digits"),
    }
}

fn main() -> Result<(), Refusal> {
    // A plan with room for one set and one rule; it stays without either, so that numbers go out as they
    // come. Country code 55, RELAY for every lookup kind.
    let mut plan = Plan::new(1, 1);
    let opening = bodies::open(1, 1, &Settings::of_country(&[5, 5]));
    report("open", plan.open(&opening.expect("a country code")));

    // Numbers that begin with 8 cost 1 cent a minute.
    let mut prices = PriceList::new();
    let price = Price {
        prefix: &[8],
        price: 1_000,
    };
    report("price 8", prices.add(&price));

    let take_call = |ledger: &mut Ledger, account, number| {
        let mut out = [0; npp::DIGIT_BUFFER_BYTES];
        let taken = plan.take_call(&prices, ledger, &record(account, number), &mut out);
        report(&format!("account {account}"), taken.map(|_| ()));
    };
    let mut ledger = Ledger::new();
    take_call(&mut ledger, 1001, "87654321");
    print_loss("district 17", ledger.district_loss(17)?);
    take_call(&mut ledger, 1002, "87654321");
    take_call(&mut ledger, 1003, "87654321");
    take_call(&mut ledger, 1004, "97654321");
    print_loss("district 17", ledger.district_loss(17)?);
    print_loss("district 18", ledger.district_loss(18)?);
    print_loss("total", Some(ledger.total_loss()?));
    println!("records: {}", ledger.whole().count);
    Ok(())
}
