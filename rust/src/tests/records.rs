//! The reader of house records: every kind, its place, every cut and every unknown byte. agreement/records
//! holds it against the program.

use super::lent::Random;
use super::*;
use crate::{Fault, Kind, Place, Record, Records, Refusal};

/// A record of each kind, its body as long as document 01 and document 02 say.
fn one_of_each() -> Vec<(u8, usize)> {
    vec![
        (0, 41),
        (1, 47),
        (2, 47),
        (3, 2),
        (4, 21),
        (5, 21),
        (6, 19),
        (7, 73),
        (8, 2),
        (9, 0),
        (16, 87),
        (17, 21),
        (18, 0),
    ]
}

#[test]
fn kinds() {
    let listed: Vec<(u8, usize)> = Kind::ALL
        .iter()
        .map(|kind| (kind.byte(), kind.body_bytes()))
        .collect();
    assert_eq!(listed, one_of_each());
    for byte in 0..=255 {
        let known = one_of_each().iter().any(|&(kind, _)| kind == byte);
        assert_eq!(Kind::of(byte).map(Kind::byte), known.then_some(byte));
    }
    let provisioning: Vec<u8> = Kind::ALL[..7].iter().map(|kind| kind.byte()).collect();
    assert_eq!(provisioning, PROVISIONING);
}

/// A file with a record of each kind, and where each begins.
fn file(random: &mut Random) -> (Vec<u8>, Vec<usize>) {
    let (mut file, mut places) = (Vec::new(), Vec::new());
    for (kind, length) in one_of_each() {
        places.push(file.len());
        file.push(kind);
        file.extend(random.bytes(length));
    }
    (file, places)
}

/// The records before a fault, held to be the bytes before it, and the fault.
fn read(file: &[u8]) -> (Vec<Record<'_>>, Option<Fault>) {
    let mut records = Records::of(file);
    let (mut whole, mut fault) = (Vec::new(), None);
    for record in records.by_ref() {
        assert_eq!(fault, None, "a fault is the last that is given");
        match record {
            Ok(record) => whole.push(record),
            Err(other) => fault = Some(other),
        }
    }
    assert!(records.next().is_none() && records.next().is_none());
    let mut joined = Vec::new();
    for (at, record) in whole.iter().enumerate() {
        let place = Place {
            number: at + 1,
            byte: joined.len(),
        };
        assert_eq!(record.place, place);
        joined.push(record.kind.byte());
        joined.extend_from_slice(record.body);
    }
    let end = fault.map_or(file.len(), |fault| fault.place().byte);
    assert_eq!(joined, file[..end]);
    assert_eq!(
        fault.map(|fault| fault.place().number),
        fault.map(|_| whole.len() + 1)
    );
    (whole, fault)
}

#[test]
fn whole_files() {
    assert_eq!(read(&[]), (Vec::new(), None));
    let (file, places) = file(&mut Random(1));
    let (records, fault) = read(&file);
    assert_eq!((records.len(), fault), (13, None));
    for ((record, place), (kind, length)) in records.iter().zip(places).zip(one_of_each()) {
        assert_eq!((record.place.byte, record.kind.byte()), (place, kind));
        assert_eq!(record.body, &file[place + 1..][..length]);
    }
}

/// Every cut is CUT at the record that it meets, or no fault between two records.
#[test]
fn cuts() {
    let (file, places) = file(&mut Random(2));
    for length in 0..file.len() {
        let (records, fault) = read(&file[..length]);
        let before = places.iter().filter(|&&place| place < length).count();
        if places.contains(&length) {
            assert_eq!((records.len(), fault), (before, None));
            continue;
        }
        let kind = Kind::ALL[before - 1];
        let place = Place {
            number: before,
            byte: places[before - 1],
        };
        let missing = place.byte + 1 + kind.body_bytes() - length;
        let cut = Fault::Cut {
            place,
            kind,
            missing,
        };
        assert_eq!((records.len(), fault), (before - 1, Some(cut)));
        assert_eq!(cut.refusal(), Refusal::Cut);
    }
    let cut = read(&[3, 0]).1.expect("a fault").to_string();
    assert_eq!(cut, "record 1, byte 0: 1 CUT, remove set, bytes missing: 1");
}

/// Every unknown byte in the place of a kind, the last byte of a file too: KIND before CUT.
#[test]
fn unknown_kinds() {
    let (file, places) = file(&mut Random(3));
    for (at, &byte_place) in places.iter().enumerate() {
        for byte in (0..=255).filter(|&byte| Kind::of(byte).is_none()) {
            let mut damaged = file.clone();
            damaged[byte_place] = byte;
            let place = Place {
                number: at + 1,
                byte: byte_place,
            };
            let fault = Fault::Kind { place, byte };
            let (records, told) = read(&damaged);
            assert_eq!((records.len(), told), (at, Some(fault)));
            assert_eq!(fault.refusal(), Refusal::Kind);
            let (_, told) = read(&damaged[..=byte_place]);
            assert_eq!(told, Some(fault));
        }
    }
    let unknown = read(&[9, 10, 9]).1.expect("a fault").to_string();
    assert_eq!(unknown, "record 2, byte 1: 2 KIND, there is no kind 10");
}

/// Any bytes are read.
#[test]
fn any_bytes() {
    let mut random = Random(4);
    for _ in 0..3000 {
        let length = random.below(300);
        let mut bytes = random.bytes(length);
        for byte in &mut bytes {
            *byte %= random.pick(&[4, 12, 20, 255]);
        }
        read(&bytes);
    }
}

/// A record that provisions does what its call does; the others do nothing.
#[test]
fn carried_out() {
    let place = Place { number: 1, byte: 0 };
    let mut plan = plan_with(&open55(8, 8), &[], &[]);
    let opened = plan.clone();
    for kind in Kind::ALL {
        let body = &vec![255; kind.body_bytes()][..];
        let record = Record { place, kind, body };
        let refused = PROVISIONING.contains(&kind.byte());
        let done = refused.then_some(Err(Refusal::Range));
        assert_eq!(plan.carry_out(&record), done);
    }
    assert_eq!(plan, opened);
    let calls = [
        (Kind::AddSet, s1(0)),
        (Kind::AddSet, s1(1)),
        (Kind::ReplaceSet, s2(1)),
        (Kind::AddRule, rule(Class::NATL, "-", 0, 0)),
        (Kind::ChangeRule, rule(Class::NATL, "-", 0, 1)),
        (Kind::RemoveSet, vec![0, 0]),
        (Kind::AddRule, rule(Class::INTL, "-", 0, 1)),
        (Kind::RemoveRule, filter(Class::NATL, "-", 0)),
        (Kind::Open, open55(4, 4)),
    ];
    let mut replayed = opened;
    for (kind, body) in &calls {
        let (kind, body) = (*kind, &body[..]);
        let record = Record { place, kind, body };
        assert_eq!(plan.carry_out(&record), Some(Ok(())));
        let mut numbers = [9];
        replayed.replay(&with_kind(kind.byte(), body), &mut numbers);
        assert_eq!((numbers, &replayed), ([0], &plan));
    }
}
