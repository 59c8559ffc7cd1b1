//! The header and the wrappers say the same: constants, the structs' places, and the calls' types.

use crate::bodies::*;
use crate::differences::*;
use crate::{c, ca, fa, sa, Class, Outcome, Refusal, Response};
use std::collections::BTreeMap;
use std::mem::{align_of, offset_of, size_of};

const HEADER: &str = include_str!("../../../include/npp.h");
const DECLARED: &str = include_str!("../c.rs");

/// Every constant of the header by its name.
fn header_constants() -> BTreeMap<String, usize> {
    let constants = HEADER.lines().filter_map(|line| {
        let mut words = line.strip_prefix("#define ")?.split_whitespace();
        let name = words.next()?;
        Some((name.to_string(), words.next()?.parse().ok()?))
    });
    constants.collect()
}

#[test]
fn constants() {
    let mut ours: BTreeMap<String, usize> = BTreeMap::new();
    let mut put = |name: &str, number: usize| {
        let before = ours.insert(format!("NPP_{name}"), number);
        assert_eq!(before, None, "{name} stands twice");
    };
    for refusal in Refusal::ALL {
        put(
            &refusal.name().replace(' ', "_"),
            usize::from(refusal.number()),
        );
    }
    let bytes = [
        ("INTL", Class::INTL.code()),
        ("NATL", Class::NATL.code()),
        ("UNKNOWN", Class::UNKNOWN.code()),
        ("HOUSE3", Class::HOUSE3.code()),
        ("HOUSE4", Class::HOUSE4.code()),
        ("HOUSE5", Class::HOUSE5.code()),
        ("AS_INCOMING", crate::AS_INCOMING),
        ("NO_RULE", Outcome::NoRule.code()),
        ("ESCAPED", Outcome::Escaped.code()),
        ("RESPONDED", Outcome::Responded.code()),
        ("UNCHANGED", Outcome::Unchanged.code()),
        ("FORMATTED", Outcome::Formatted.code()),
        ("RELAY", Response::Relay.code()),
        ("CONNECT", Response::Connect.code()),
        ("CONTINUE", Response::Continue.code()),
        ("RELEASECALL", Response::ReleaseCall.code()),
        ("LOOKUP_NO_RECORD", Lookup::NO_RECORD.kind),
        ("LOOKUP_NO_ENTITY", Lookup::NO_ENTITY.kind),
        ("LOOKUP_RN", Lookup::rn(&[]).kind),
        ("LOOKUP_SP", Lookup::sp(&[]).kind),
        ("CA_IGN", ca::IGN),
        ("CA_CC", ca::CC),
        ("CA_AC", ca::AC),
        ("CA_SN", ca::SN),
        ("CA_DN", ca::DN),
        ("CA_ZN", ca::ZN),
        ("CA_PFXA", ca::PFXA),
        ("CA_PFXB", ca::PFXB),
        ("CA_PFXC", ca::PFXC),
        ("CA_PFXD", ca::PFXD),
        ("CA_SNX", ca::SNX),
        ("CA_DNX", ca::DNX),
        ("CA_ZNX", ca::ZNX),
        ("CA_FPFX", ca::FPFX),
        ("CA_CCDEF", ca::CCDEF),
        ("SA_INPRTG", sa::INPRTG),
        ("SA_CDPNNP", sa::CDPNNP),
        ("SA_ASDLKUP", sa::ASDLKUP),
        ("SA_GRNLKUP", sa::GRNLKUP),
        ("SA_CDIAL", sa::CDIAL),
        ("FA_CC", fa::CC),
        ("FA_AC", fa::AC),
        ("FA_SN", fa::SN),
        ("FA_DN", fa::DN),
        ("FA_ZN", fa::ZN),
        ("FA_FPFX", fa::FPFX),
        ("FA_PFXA", fa::PFXA),
        ("FA_PFXB", fa::PFXB),
        ("FA_PFXC", fa::PFXC),
        ("FA_PFXD", fa::PFXD),
        ("FA_RN", fa::RN),
        ("FA_SP", fa::SP),
        ("FA_ASD", fa::ASD),
        ("FA_GRN", fa::GRN),
        ("FA_DELIMITER_A", fa::DELIMITER_A),
        ("FA_DELIMITER_B", fa::DELIMITER_B),
        ("RECORD_OPEN", record::OPEN),
        ("RECORD_ADD_SET", record::ADD_SET),
        ("RECORD_REPLACE_SET", record::REPLACE_SET),
        ("RECORD_REMOVE_SET", record::REMOVE_SET),
        ("RECORD_ADD_RULE", record::ADD_RULE),
        ("RECORD_CHANGE_RULE", record::CHANGE_RULE),
        ("RECORD_REMOVE_RULE", record::REMOVE_RULE),
        ("LEFT_ONLY", Side::LeftOnly.byte()),
        ("RIGHT_ONLY", Side::RightOnly.byte()),
        ("IN_BOTH", Side::Both.byte()),
    ];
    for (name, byte) in bytes {
        put(name, usize::from(byte));
    }
    let sizes = [
        ("OPEN_BYTES", OPEN_BYTES),
        ("SET_BYTES", SET_BYTES),
        ("SET_NUMBER_BYTES", SET_NUMBER_BYTES),
        ("RULE_BYTES", RULE_BYTES),
        ("FILTER_BYTES", FILTER_BYTES),
        ("NUMBER_BYTES", NUMBER_BYTES),
        ("PRICE_BYTES", PRICE_BYTES),
        ("CALL_BYTES", CALL_BYTES),
        ("DIGIT_BUFFER_BYTES", crate::DIGIT_BUFFER_BYTES),
        ("CONTENT_BUFFER_BYTES", crate::CONTENT_BUFFER_BYTES),
        ("PRICES_BYTES", crate::PRICES_BYTES),
        ("PRICE_ROWS", crate::PRICE_ROWS),
        ("DISTRICTS", usize::from(crate::DISTRICTS)),
        ("LEDGER_NUMBERS", crate::LEDGER_NUMBERS),
        ("LEDGER_RECORDS", crate::LEDGER_RECORDS as usize),
        ("UNITS_A_CENT", crate::UNITS_A_CENT as usize),
        ("OPEN_SETS_AT", OPEN_SETS),
        ("OPEN_RULES_AT", OPEN_RULES),
        ("OPEN_COUNTRY_AT", OPEN_COUNTRY),
        ("OPEN_DFLTRN_AT", OPEN_DFLTRN),
        ("OPEN_DELIMITER_A_AT", OPEN_DELIMITER_A),
        ("OPEN_DELIMITER_B_AT", OPEN_DELIMITER_B),
        ("OPEN_ANSWERS_AT", OPEN_ANSWERS),
        ("OPEN_ACCEPTING_AT", OPEN_ACCEPTING),
        ("SET_NUMBER_AT", SET_NUMBER),
        ("SET_CLASS_AT", SET_CLASS),
        ("SET_CA_AT", SET_CA),
        ("SET_SA_AT", SET_SA),
        ("SET_FA_AT", SET_FA),
        ("RULE_CLASS_AT", RULE_CLASS),
        ("RULE_PREFIX_AT", RULE_PREFIX),
        ("RULE_LENGTH_AT", RULE_LENGTH),
        ("RULE_SET_AT", RULE_SET),
        ("NUMBER_CLASS_AT", NUMBER_CLASS),
        ("NUMBER_DIGITS_AT", NUMBER_DIGITS),
        ("NUMBER_LOOKUP_AT", NUMBER_LOOKUP),
        ("NUMBER_ENTITY_AT", NUMBER_ENTITY),
        ("NUMBER_ASD_AT", NUMBER_ASD),
        ("NUMBER_GRN_AT", NUMBER_GRN),
        ("PRICE_PREFIX_AT", PRICE_PREFIX),
        ("PRICE_PRICE_AT", PRICE_PRICE),
        ("CALL_ACCOUNT_AT", CALL_ACCOUNT),
        ("CALL_DISTRICT_AT", CALL_DISTRICT),
        ("CALL_SECONDS_AT", CALL_SECONDS),
        ("CALL_BILLED_AT", CALL_BILLED),
        ("CALL_NUMBER_AT", CALL_NUMBER),
        ("DIFFERENCE_BYTES", DIFFERENCE_BYTES),
        ("MOST_DIFFERENCES", MOST_DIFFERENCES),
        ("DIFFERENCE_KIND_AT", DIFFERENCE_SIDE),
        ("DIFFERENCE_FILTER_AT", DIFFERENCE_FILTER),
        ("DIFFERENCE_LEFT_SET_AT", DIFFERENCE_LEFT_SET),
        ("DIFFERENCE_RIGHT_SET_AT", DIFFERENCE_RIGHT_SET),
        ("NO_SET", usize::from(NO_SET)),
    ];
    for (name, size) in sizes {
        put(name, size);
    }
    assert_eq!(header_constants(), ours);
}

/// The numbers are those that rust/tests holds the header's structs to.
#[test]
fn structs() {
    assert_eq!(
        (size_of::<c::Answered>(), align_of::<c::Answered>()),
        (24, 8)
    );
    assert_eq!(offset_of!(c::Answered, refusal), 0);
    assert_eq!(offset_of!(c::Answered, outcome), 1);
    assert_eq!(offset_of!(c::Answered, class), 2);
    assert_eq!(offset_of!(c::Answered, response), 3);
    assert_eq!(offset_of!(c::Answered, count), 4);
    assert_eq!(offset_of!(c::Answered, actions), 5);
    assert_eq!(offset_of!(c::Answered, digits), 16);
    assert_eq!((size_of::<c::Written>(), align_of::<c::Written>()), (16, 8));
    assert_eq!(offset_of!(c::Written, refusal), 0);
    assert_eq!(offset_of!(c::Written, bytes), 8);
    assert_eq!((size_of::<c::Counted>(), align_of::<c::Counted>()), (16, 8));
    assert_eq!(offset_of!(c::Counted, refusal), 0);
    assert_eq!(offset_of!(c::Counted, rules), 8);
    assert_eq!((size_of::<c::Span>(), align_of::<c::Span>()), (16, 8));
    assert_eq!(offset_of!(c::Span, start), 0);
    assert_eq!(offset_of!(c::Span, count), 8);
    assert_eq!((size_of::<c::Listed>(), align_of::<c::Listed>()), (22, 2));
    assert_eq!(offset_of!(c::Listed, refusal), 0);
    assert_eq!(offset_of!(c::Listed, class), 1);
    assert_eq!(offset_of!(c::Listed, digits), 2);
    assert_eq!(offset_of!(c::Listed, length), 3);
    assert_eq!(offset_of!(c::Listed, prefix), 4);
    assert_eq!(offset_of!(c::Listed, set), 20);
    assert_eq!((size_of::<c::Loss>(), align_of::<c::Loss>()), (24, 8));
    assert_eq!(offset_of!(c::Loss, refusal), 0);
    assert_eq!(offset_of!(c::Loss, held), 1);
    assert_eq!(offset_of!(c::Loss, units), 8);
    assert_eq!(offset_of!(c::Loss, cents), 16);
    assert_eq!((size_of::<c::Totals>(), align_of::<c::Totals>()), (24, 8));
    assert_eq!(offset_of!(c::Totals, count), 0);
    assert_eq!(offset_of!(c::Totals, due), 8);
    assert_eq!(offset_of!(c::Totals, billed), 16);
    assert_eq!(
        (size_of::<c::Compared>(), align_of::<c::Compared>()),
        (16, 8)
    );
    assert_eq!(offset_of!(c::Compared, refusal), 0);
    assert_eq!(offset_of!(c::Compared, differences), 8);
}

/// The names of classes and actions are those of the header's constants.
#[test]
fn names() {
    let constants = header_constants();
    let named = |prefix: &str, name: Option<&str>, code: u8| {
        let name = name.expect("a name").replace(' ', "_").to_uppercase();
        assert_eq!(
            constants.get(&format!("NPP_{prefix}{name}")),
            Some(&usize::from(code))
        );
    };
    for code in Class::INTL.code()..=Class::HOUSE5.code() {
        named("", Class::of(code).map(Class::name), code);
    }
    for code in ca::IGN..=ca::CCDEF {
        named("CA_", ca::name(code), code);
    }
    for code in sa::INPRTG..=sa::CDIAL {
        named("SA_", sa::name(code), code);
    }
    for code in fa::CC..=fa::DELIMITER_B {
        named("FA_", fa::name(code), code);
    }
    for code in [0, 17, 255] {
        assert_eq!(
            (ca::name(code), sa::name(code), fa::name(code)),
            (None, None, None)
        );
    }
}

/// A list is as long as its rows, and a ledger as its districts, as docs/LAYOUT.md has them; an entry as
/// its fields.
#[test]
fn sizes() {
    assert_eq!(crate::PRICES_BYTES, 2 + 24 * crate::PRICE_ROWS);
    let districts = usize::from(crate::DISTRICTS);
    assert_eq!(crate::LEDGER_NUMBERS, 3 * districts);
    assert_eq!(CALL_BYTES, CALL_NUMBER + NUMBER_BYTES);
    assert_eq!(DIFFERENCE_LEFT_SET, DIFFERENCE_FILTER + FILTER_BYTES);
    assert_eq!(DIFFERENCE_BYTES, DIFFERENCE_RIGHT_SET + 2);
}

/// The header without comments and preprocessor lines.
fn header_code() -> String {
    let mut code = String::new();
    for part in HEADER.split("/*") {
        let behind = part.split_once("*/").map_or(part, |(_, behind)| behind);
        code.push_str(behind);
    }
    let lines = code.lines().filter(|line| !line.starts_with('#'));
    lines.collect::<Vec<&str>>().join(" ")
}

/// A C type in Rust's words.
fn rust_type(c_type: &str) -> String {
    let simple = match c_type.trim_start_matches("const ").trim_end_matches(" *") {
        // Read as the byte that it is.
        "bool" | "uint8_t" => "u8",
        "uint16_t" => "u16",
        "int64_t" => "i64",
        "size_t" => "usize",
        "npp_answered" => "Answered",
        "npp_written" => "Written",
        "npp_counted" => "Counted",
        "npp_span" => "Span",
        "npp_listed" => "Listed",
        "npp_totals" => "Totals",
        "npp_loss" => "Loss",
        "npp_compared" => "Compared",
        other => panic!("no Rust type for {other}"),
    };
    match (c_type.ends_with('*'), c_type.starts_with("const ")) {
        (false, _) => simple.to_string(),
        (true, false) => format!("*mut {simple}"),
        (true, true) => format!("*const {simple}"),
    }
}

/// The header's calls with the types of what they take and give, in Rust's words.
fn header_calls() -> BTreeMap<String, String> {
    let code = header_code();
    let calls = code.split(';').filter_map(|statement| {
        let (front, parameters) = statement.trim().strip_suffix(')')?.split_once('(')?;
        let mut words = front.split_whitespace().rev();
        let (name, given) = (words.next()?, words.next()?);
        let types = parameters.split(',').map(|parameter| {
            let name_at = parameter.rfind([' ', '*']).expect("a type and a name") + 1;
            rust_type(parameter[..name_at].trim())
        });
        let types = types.collect::<Vec<String>>().join(", ");
        Some((
            name.to_string(),
            format!("({types}) -> {}", rust_type(given)),
        ))
    });
    calls.collect()
}

/// The same as `c.rs` declares them.
fn declared_calls() -> BTreeMap<String, String> {
    let (_, behind) = DECLARED.split_once("extern \"C\" {").expect("the calls");
    let (calls, _) = behind.split_once("\n    }").expect("their end");
    let calls = calls.split(';').filter_map(|statement| {
        let (_, declaration) = statement.split_once("pub fn ")?;
        let (name, behind) = declaration.split_once('(')?;
        let (parameters, given) = behind.split_once(") -> ")?;
        let types = parameters.split(',').filter_map(|one| one.split_once(": "));
        let types = types.map(|(_, one)| one.trim()).collect::<Vec<&str>>();
        Some((
            name.to_string(),
            format!("({}) -> {given}", types.join(", ")),
        ))
    });
    calls.collect()
}

#[test]
fn signatures() {
    let calls = header_calls();
    assert_eq!(calls, declared_calls());
    assert_eq!(calls.len(), 21);
    let words = |name| calls.get(name).map(String::as_str);
    assert_eq!(
        words("npp_add_price"),
        Some("(*mut u8, *const u8, usize) -> u8")
    );
    let taken = "(*const u8, usize, *const u8, *mut i64, *mut Totals, *const u8, usize, *mut u8, usize) -> Answered";
    assert_eq!(words("npp_take_call"), Some(taken));
    assert_eq!(
        words("npp_district_loss"),
        Some("(*const i64, Totals, u16) -> Loss")
    );
    assert_eq!(
        words("npp_total_loss"),
        Some("(*const i64, Totals) -> Loss")
    );
    let compared = "(*const u8, usize, *const u8, usize, *mut u8, usize) -> Compared";
    assert_eq!(words("npp_compare"), Some(compared));
}
