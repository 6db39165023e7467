//! Books for the checks of the form.

use super::builder::{all_below, set, view};
use super::worked::Worked;
use crate::encode::{encode, record, set_bytes};
use crate::format::{Book, Kind, KINDS};
use crate::random::Random;
use crate::rules::{Judgement, Refusal};

/// Books whose refusal is known by the way they are made.
pub fn all() -> Vec<Worked> {
    [
        first_bytes(),
        kinds(),
        maps(),
        cut_records(),
        single_faults(),
        double_faults(),
        limits(),
        limit_order(),
        before_rules(),
        boundaries(),
    ]
    .into_iter()
    .flatten()
    .collect()
}

fn ok(name: &'static str, bytes: Vec<u8>) -> Worked {
    Worked {
        name,
        bytes,
        expected: Judgement::Accepted,
    }
}

fn no(name: &'static str, number: u8, place: usize, bytes: Vec<u8>) -> Worked {
    Worked {
        name,
        bytes,
        expected: Judgement::Refused(Refusal {
            number,
            place,
            other: None,
        }),
    }
}

fn joined(parts: &[&[u8]]) -> Vec<u8> {
    parts.concat()
}

/// A book with two records of each kind up to `last`.
fn two_of_each(last: Kind) -> Vec<u8> {
    let mut book = Book::default();
    for _ in 0..2 {
        book = book.with_type(&[], &[]);
        book = if last >= Kind::Role {
            book.with_role(&[])
        } else {
            book
        };
        book = if last >= Kind::Group {
            book.with_group(&[], &[])
        } else {
            book
        };
        book = if last >= Kind::View {
            book.with_view(view(0))
        } else {
            book
        };
        book = if last >= Kind::Subject {
            book.with_subject(&[])
        } else {
            book
        };
    }
    encode(&book)
}

fn field_count(kind: Kind) -> usize {
    kind.widths().len()
}

/// A field that is accepted in a book with two records of each kind.
fn good_field(kind: Kind, field: usize) -> Vec<u8> {
    match (kind, field) {
        (Kind::View, 0) => vec![1],
        (Kind::View, 4) => vec![4],
        (Kind::View, 6) => set_bytes(&set(&[2])),
        (Kind::View, 7) => [set_bytes(&set(&[3])), set_bytes(&set(&[4]))].concat(),
        _ => set_bytes(&set(&[1])),
    }
}

/// A field that is refused by 6, if there can be one.
fn empty_field(kind: Kind, field: usize) -> Option<Vec<u8>> {
    if kind == Kind::View && field == 0 {
        return None;
    }
    Some(vec![0; kind.widths()[field]])
}

/// A field that is refused by 8, if there can be one.
fn undeclared_field(kind: Kind, field: usize) -> Option<Vec<u8>> {
    match (kind, field) {
        (Kind::Type, 1) | (Kind::View, 5..) => None,
        (Kind::View, 0) => Some(vec![2]),
        (Kind::View, 4) => Some(vec![8]),
        _ => Some(set_bytes(&set(&[0, 2]))),
    }
}

/// Each way to get one field wrong: the field, the refusal and the bytes.
fn faults(kind: Kind) -> Vec<(usize, u8, Vec<u8>)> {
    let mut faults = Vec::new();
    for field in 0..field_count(kind) {
        if let Some(bytes) = empty_field(kind, field) {
            faults.push((field, 6, bytes));
        }
        if let Some(bytes) = undeclared_field(kind, field) {
            faults.push((field, 8, bytes));
        }
    }
    faults
}

fn good_fields(kind: Kind) -> Vec<Vec<u8>> {
    (0..field_count(kind))
        .map(|field| good_field(kind, field))
        .collect()
}

/// A record with one field, and the controlled type if it is a view.
fn lone_field(kind: Kind, field: usize, bytes: &[u8]) -> Vec<u8> {
    let mut fields = vec![Vec::new(); field_count(kind)];
    if kind == Kind::View {
        fields[0] = vec![0];
    }
    fields[field] = bytes.to_vec();
    record(kind, &fields)
}

fn first_bytes() -> Vec<Worked> {
    let mut cases = vec![
        ok("only the first byte", vec![1]),
        no("first byte and kind wrong", 2, 0, vec![2, 6, 0]),
        no("first byte wrong, record cut", 2, 0, vec![0, 1]),
    ];
    for byte in [0, 2, 3, 4, 5, 16, 127, 128, 129, 254, 255] {
        cases.push(no("first byte wrong", 2, 0, vec![byte]));
        let mut bytes = two_of_each(Kind::Subject);
        bytes[0] = byte;
        cases.push(no("first byte wrong, records", 2, 0, bytes));
    }
    cases
}

fn kinds() -> Vec<Worked> {
    let mut cases = Vec::new();
    for byte in [0, 6, 7, 8, 9, 0x81, 0x84, 0xff] {
        cases.push(no("no such kind", 3, 1, vec![1, byte]));
        cases.push(no("no such kind, full record", 3, 1, vec![1, byte, 0, 0]));
        let start = two_of_each(Kind::Group);
        let place = start.len();
        cases.push(no(
            "no such kind later",
            3,
            place,
            joined(&[&start, &[byte, 0xff]]),
        ));
    }
    for last in KINDS {
        let start = two_of_each(last);
        for kind in KINDS.into_iter().filter(|kind| *kind < last) {
            let place = start.len();
            let good = record(kind, &good_fields(kind));
            cases.push(no("lower kind", 3, place, joined(&[&start, &good])));
            cases.push(no(
                "lower kind, bad map",
                3,
                place,
                joined(&[&start, &[kind as u8, 0xf8]]),
            ));
            cases.push(no(
                "lower kind, cut",
                3,
                place,
                joined(&[&start, &[kind as u8]]),
            ));
        }
    }
    cases
}

fn maps() -> Vec<Worked> {
    let mut cases = Vec::new();
    for kind in KINDS {
        let start = two_of_each(kind);
        let place = start.len();
        let refused = |map: u8, tail: &[u8]| {
            let bytes = joined(&[&start, &[kind as u8, map], tail]);
            no("bit without a field", 5, place, bytes)
        };
        for bit in 0..8 {
            let unknown = bit >= field_count(kind);
            let map = 1u8 << bit;
            if unknown || (kind == Kind::View && bit > 0) {
                cases.push(refused(map, &[]));
                cases.push(refused(map, &[0; 60]));
            }
            if unknown {
                cases.push(refused(map + 1, &[0, 0, 0, 0, 0, 0, 0, 9]));
            }
        }
        let all_wrong = if kind == Kind::View { 0xfe } else { 0xff };
        cases.push(refused(all_wrong, &[0xff; 8]));
    }
    let start = two_of_each(Kind::View);
    let place = start.len();
    cases.push(no(
        "view without a type",
        5,
        place,
        joined(&[&start, &[4, 0]]),
    ));
    cases
}

/// Every length of a cut record, with good fields and with bad ones.
fn cut_records() -> Vec<Worked> {
    let mut cases = Vec::new();
    for kind in KINDS {
        let start = two_of_each(kind);
        let good = record(kind, &good_fields(kind));
        let mut bad = good.clone();
        bad[2..].fill(0xff);
        for length in 1..good.len() {
            let chosen = if length % 2 == 0 { &good } else { &bad };
            let bytes = joined(&[&start, &chosen[..length]]);
            cases.push(no("cut record", 4, start.len(), bytes));
        }
        if kind != Kind::View {
            cases.push(ok("full record", joined(&[&start, &good])));
        }
    }
    cases
}

fn single_faults() -> Vec<Worked> {
    let mut cases = Vec::new();
    for kind in KINDS {
        let start = two_of_each(kind);
        for (field, number, bytes) in faults(kind) {
            let lone = lone_field(kind, field, &bytes);
            cases.push(no(
                "fault alone",
                number,
                start.len(),
                joined(&[&start, &lone]),
            ));
            let mut fields = good_fields(kind);
            fields[field] = bytes;
            let full = record(kind, &fields);
            cases.push(no(
                "fault among fields",
                number,
                start.len(),
                joined(&[&start, &full]),
            ));
        }
    }
    cases
}

/// Two wrong fields: the first decides.
fn double_faults() -> Vec<Worked> {
    let mut cases = Vec::new();
    for kind in KINDS {
        let start = two_of_each(kind);
        for (first, number, first_bytes) in faults(kind) {
            for (second, _, second_bytes) in faults(kind) {
                if first >= second {
                    continue;
                }
                let mut fields = good_fields(kind);
                fields[first] = first_bytes.clone();
                fields[second] = second_bytes;
                let bytes = joined(&[&start, &record(kind, &fields)]);
                cases.push(no("two faults", number, start.len(), bytes));
            }
        }
    }
    cases
}

/// As many records of a kind as there may be.
fn full_of(kind: Kind) -> Vec<u8> {
    let mut bytes = vec![1];
    if kind == Kind::View {
        bytes.extend([1, 0]);
    }
    for _ in 0..kind.limit() {
        bytes.extend(least_record(kind));
    }
    bytes
}

fn least_record(kind: Kind) -> Vec<u8> {
    match kind {
        Kind::View => vec![4, 1, 0],
        _ => vec![kind as u8, 0],
    }
}

fn limits() -> Vec<Worked> {
    let mut cases = Vec::new();
    for kind in KINDS {
        let start = full_of(kind);
        let place = start.len();
        let byte = kind as u8;
        let least = least_record(kind);
        let after = if kind < Kind::Group {
            record(Kind::Group, &[])
        } else {
            vec![5, 0]
        };
        let tails: [Vec<u8>; 9] = [
            least.clone(),
            vec![byte],
            vec![byte, 0xfe],
            vec![byte, 0],
            record(kind, &good_fields(kind)),
            vec![byte, 1],
            vec![byte, 1, 0, 0, 0, 0, 0, 0, 0, 0],
            [least.clone(), least.clone()].concat(),
            [least.clone(), after.clone()].concat(),
        ];
        cases.push(ok("as many as there may be", start.clone()));
        for tail in tails {
            cases.push(no("one more", 7, place, joined(&[&start, &tail])));
        }
        if kind < Kind::Subject {
            cases.push(ok("a higher kind after", joined(&[&start, &after])));
        }
    }
    cases
}

/// A full kind that comes again after a higher kind: 3 comes before 7, 5 and 4.
fn limit_order() -> Vec<Worked> {
    let mut cases = Vec::new();
    for kind in KINDS.into_iter().filter(|kind| *kind < Kind::Subject) {
        let start = joined(&[&full_of(kind), &[5, 0]]);
        for tail in [&[0][..], &[0xfe], &[]] {
            let bytes = joined(&[&start, &[kind as u8], tail]);
            cases.push(no("3 before 7", 3, start.len(), bytes));
        }
    }
    cases
}

/// A form refusal after a view that breaks a rule.
fn before_rules() -> Vec<Worked> {
    let broken = [
        view(0).permits(&[0]).denies(&[0]),
        view(0).permits(&[9]),
        view(0).assignable().denies(&[0]),
        view(0).only_virtual().denies(&[0]),
    ];
    let mut cases = Vec::new();
    for it in broken {
        let start = encode(&Book::default().with_type(&[], &[0]).with_view(it));
        let place = start.len();
        cases.push(no("form before rules", 3, place, joined(&[&start, &[9]])));
        cases.push(no("form before rules", 4, place, joined(&[&start, &[5]])));
        cases.push(no(
            "form before rules",
            5,
            place,
            joined(&[&start, &[5, 2]]),
        ));
        cases.push(no(
            "form before rules",
            6,
            place,
            joined(&[&start, &[5, 1], &[0; 8]]),
        ));
        cases.push(no(
            "form before rules",
            8,
            place,
            joined(&[&start, &[4, 1, 1]]),
        ));
    }
    cases
}

fn boundaries() -> Vec<Worked> {
    let start = two_of_each(Kind::View);
    let place = start.len();
    let last = |tail: &[u8]| joined(&[&start, tail]);
    let mut cases = Vec::new();
    for modifiers in 1..=7 {
        cases.push(ok("modifiers", last(&[4, 0x11, 1, modifiers])));
    }
    for modifiers in [8, 9, 15, 16, 64, 128, 255] {
        cases.push(no(
            "modifiers too high",
            8,
            place,
            last(&[4, 0x11, 1, modifiers]),
        ));
    }
    for controlled in [2, 3, 63, 64, 128, 255] {
        cases.push(no("type not declared", 8, place, last(&[4, 1, controlled])));
    }
    for number in 2..64 {
        let bytes = set_bytes(&set(&[number]));
        let tail = lone_field(Kind::View, 1 + usize::from(number) % 3, &bytes);
        cases.push(no("number not declared", 8, place, last(&tail)));
    }
    let number = set_bytes(&all_below(2));
    for field in 1..=3 {
        cases.push(ok(
            "all declared",
            last(&lone_field(Kind::View, field, &number)),
        ));
    }
    cases
}

/// A good book with a few of its bytes changed.
pub fn mutated(random: &mut Random, good: &[u8]) -> Vec<u8> {
    let mut bytes = good.to_vec();
    for _ in 0..random.between(1, 2) {
        mutate(random, &mut bytes);
    }
    bytes
}

fn mutate(random: &mut Random, bytes: &mut Vec<u8>) {
    if bytes.len() < 2 {
        bytes.push(random.byte());
        return;
    }
    let at = random.between(1, bytes.len() - 1);
    match random.below(7) {
        0 => bytes[at] ^= 1 << random.below(8),
        1 => bytes[at] = random.byte(),
        2 => bytes.truncate(at),
        3 => bytes.insert(at, random.below(6) as u8),
        4 => {
            bytes.remove(at);
        }
        5 => bytes[at] = 0,
        _ => {
            let end = random.between(at, bytes.len() - 1) + 1;
            let again = bytes[at..end.min(at + 20)].to_vec();
            bytes.splice(at..at, again);
        }
    }
}

/// The byte 01 and random bytes.
pub fn noise(random: &mut Random) -> Vec<u8> {
    let mut bytes = vec![1];
    for _ in 0..random.between(1, 30) {
        bytes.push(random.byte());
    }
    bytes
}

/// Records of rising kinds with possible maps, but with sets of random low numbers.
pub fn noisy_records(random: &mut Random) -> Vec<u8> {
    let mut bytes = vec![1];
    for kind in KINDS {
        for _ in 0..random.between(0, 2) {
            let mut fields = Vec::new();
            for field in 0..field_count(kind) {
                let present = random.chance(40) || (kind == Kind::View && field == 0);
                let width = if present { kind.widths()[field] } else { 0 };
                fields.push(noisy_field(random, width));
            }
            bytes.extend(record(kind, &fields));
        }
    }
    bytes
}

fn noisy_field(random: &mut Random, width: usize) -> Vec<u8> {
    let mut bytes = vec![0; width];
    if let Some(last) = bytes.last_mut() {
        *last = random.below(4) as u8;
    }
    bytes
}
