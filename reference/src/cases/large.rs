//! Long chains, full books, and books at the limit of the length.

use super::builder::{set, view};
use super::grown::{grow, Sizes};
use super::worked::{no, no_with, ok, Worked};
use crate::encode::encode;
use crate::format::{Book, Set, View, LONGEST_BOOK};
use crate::random::Random;
use crate::rules::{Judgement, Refusal};

const LAST: u8 = 63;

pub fn all() -> Vec<Worked> {
    [
        type_chains(),
        role_chains(),
        group_chains(),
        view_chains(),
        long_meets(),
        lengths(),
    ]
    .into_iter()
    .flatten()
    .collect()
}

/// The link of a chain from `number` to the one before; without the link at `gap`.
fn link(number: u8, gap: Option<u8>) -> Set {
    if number == 0 || Some(number) == gap {
        return Set::new();
    }
    set(&[number - 1])
}

fn members(set: &Set) -> Vec<u8> {
    set.iter().copied().collect()
}

/// 64 types in a chain; type 0 has operation 5 and the last one operation 6.
fn chain_of_types(gap: Option<u8>) -> Book {
    let mut book = Book::default();
    for number in 0..=LAST {
        let own: &[u8] = match number {
            0 => &[5],
            LAST => &[6],
            _ => &[],
        };
        book = book.with_type(&members(&link(number, gap)), own);
    }
    book
}

fn type_chains() -> Vec<Worked> {
    let whole = || chain_of_types(None);
    let gap = || chain_of_types(Some(31));
    let extension = |book: Book, base: u8, own: u8| {
        book.with_view(view(base))
            .with_view(view(own).extends(&[0]))
    };
    let opposite = |book: Book| {
        book.with_view(view(0).permits_strongly(&[5]))
            .with_view(view(LAST).denies_strongly(&[5]))
    };
    vec![
        ok(
            "operation over 63 links",
            whole().with_view(view(LAST).denies(&[5, 6])),
        ),
        no(
            "operation over a gap",
            12,
            0,
            gap().with_view(view(LAST).denies(&[5, 6])),
        ),
        ok(
            "operation above the gap",
            gap().with_view(view(30).denies(&[5])),
        ),
        no(
            "operation of the lowest type",
            12,
            0,
            whole().with_view(view(0).permits(&[6])),
        ),
        ok("extension over 63 type links", extension(whole(), 0, LAST)),
        no_with("extension upwards", 15, 1, 0, extension(whole(), LAST, 62)),
        no_with("extension over a gap", 15, 1, 0, extension(gap(), 0, LAST)),
        no_with("clash over 63 type links", 19, 0, 1, opposite(whole())),
        no("no operation over a gap", 12, 1, opposite(gap())),
    ]
}

fn chain_of_roles(gap: Option<u8>, base: &[u8], own: &[u8]) -> Book {
    let mut book = Book::default().with_type(&[], &[]);
    for number in 0..=LAST {
        book = book.with_role(&members(&link(number, gap)));
    }
    book.with_view(view(0).restricted(base))
        .with_view(view(0).extends(&[0]).restricted(own))
}

fn role_chains() -> Vec<Worked> {
    vec![
        ok(
            "restriction over 63 links",
            chain_of_roles(None, &[0], &[LAST]),
        ),
        no_with(
            "restriction upwards",
            16,
            1,
            0,
            chain_of_roles(None, &[LAST], &[62, LAST]),
        ),
        no_with(
            "restriction over a gap",
            16,
            1,
            0,
            chain_of_roles(Some(1), &[0], &[LAST]),
        ),
        ok(
            "restriction below the gap",
            chain_of_roles(Some(1), &[1], &[LAST]),
        ),
    ]
}

fn group_chains() -> Vec<Worked> {
    let mut book = Book::default().with_role(&[]);
    for number in 0..=LAST {
        book = book.with_group(&members(&link(number, None)), &[0]);
    }
    let mut with_subjects = book.clone();
    for number in 0..=255 {
        with_subjects = with_subjects.with_subject(&[number / 4]);
    }
    vec![
        ok("63 group links", book),
        ok("256 subjects", with_subjects),
    ]
}

/// A chain of views, each made by `own` from its number.
fn chain_of_views(count: u8, own: impl Fn(u8) -> View) -> Book {
    let mut book = Book::default().with_type(&[], &[0, 1]);
    for number in 0..count {
        book = book.with_view(own(number).extends(&members(&link(number, None))));
    }
    book
}

fn view_chains() -> Vec<Worked> {
    let permits = |_| view(0).permits_strongly(&[0]);
    let weak_until = |last: u8| {
        move |number| {
            if number < last {
                view(0).denies(&[0])
            } else {
                view(0).permits_strongly(&[0])
            }
        }
    };
    let static_until = |last: u8| {
        move |number| {
            if number < last {
                view(0).only_static()
            } else {
                view(0)
            }
        }
    };
    let requiring = |number| {
        if number == 0 {
            view(0)
        } else {
            view(0).requires(&[0])
        }
    };
    let denying = || view(0).denies_strongly(&[0]);
    vec![
        ok("63 view links", chain_of_views(64, permits)),
        ok(
            "weak denial permitted at the last link",
            chain_of_views(64, weak_until(LAST)),
        ),
        no_with(
            "right dropped at the last link",
            18,
            63,
            62,
            chain_of_views(63, permits).with_view(view(0).extends(&[62])),
        ),
        no_with(
            "strong right denied at the last link",
            18,
            63,
            62,
            chain_of_views(63, permits).with_view(denying().extends(&[62])),
        ),
        no_with(
            "static lost at the last link",
            17,
            63,
            62,
            chain_of_views(64, static_until(63)),
        ),
        no_with(
            "static lost in the middle",
            17,
            32,
            31,
            chain_of_views(64, static_until(32)),
        ),
        ok("required along the chain", chain_of_views(64, requiring)),
        no_with(
            "clash with the whole chain",
            19,
            0,
            63,
            chain_of_views(63, permits).with_view(denying()),
        ),
        no_with(
            "clash with the end of the chain",
            19,
            40,
            63,
            chain_of_views(63, weak_until(40)).with_view(denying()),
        ),
        no_with(
            "clash of the last two",
            19,
            62,
            63,
            chain_of_views(62, weak_until(62))
                .with_view(view(0).permits_strongly(&[0]))
                .with_view(denying()),
        ),
    ]
}

/// Two chains of types that meet in the last type, or do not.
fn long_meets() -> Vec<Worked> {
    let chains = |last: &[u8]| {
        let mut book = Book::default().with_type(&[], &[0]).with_type(&[], &[0]);
        for number in 2..LAST {
            book = book.with_type(&[number - 2], &[]);
        }
        book.with_type(last, &[])
            .with_view(view(0).permits_strongly(&[0]))
            .with_view(view(1).denies_strongly(&[0]))
    };
    vec![
        no_with("chains that meet", 19, 0, 1, chains(&[61, 62])),
        ok("chains that do not meet", chains(&[61])),
    ]
}

/// The longest book that can be accepted: every record with every field it can have.
pub fn longest() -> Book {
    let mut book = Book::default();
    for number in 0..=LAST {
        book = book.with_type(&members(&link(number, None)), &[0, 1, 2, number]);
    }
    for number in 0..=LAST {
        book = book.with_role(&members(&link(number, None)));
    }
    for number in 0..=LAST {
        book = book.with_group(&members(&link(number, None)), &[number]);
    }
    for number in 0..=LAST {
        let required: &[u8] = if number == 0 { &[] } else { &[0] };
        let own = view(number)
            .extends(&members(&link(number, None)))
            .requires(required)
            .restricted(&[number])
            .only_static()
            .permits(&[0])
            .permits_strongly(&[1])
            .denies(&[2]);
        book = book.with_view(own);
    }
    for number in 0..=255 {
        book = book.with_subject(&[number / 4]);
    }
    book
}

fn lengths() -> Vec<Worked> {
    let whole = encode(&longest());
    let padded = |length: usize| {
        let mut bytes = whole.clone();
        while bytes.len() < length {
            bytes.extend([5, 0]);
        }
        bytes.truncate(length);
        bytes
    };
    let starting_with = |byte: u8, length: usize| {
        let mut bytes = padded(length);
        bytes[0] = byte;
        bytes
    };
    let refused = |name, number, place, bytes| Worked {
        name,
        bytes,
        expected: Judgement::Refused(Refusal {
            number,
            place,
            other: None,
        }),
    };
    vec![
        ok("longest accepted", longest()),
        refused(
            "longest and a byte",
            7,
            whole.len(),
            padded(whole.len() + 1),
        ),
        refused(
            "longest less a byte",
            4,
            whole.len() - 10,
            padded(whole.len() - 1),
        ),
        refused("as long as may be", 7, whole.len(), padded(LONGEST_BOOK)),
        refused(
            "as long as may be, first byte",
            2,
            0,
            starting_with(2, LONGEST_BOOK),
        ),
        refused("one byte too long", 1, 0, padded(LONGEST_BOOK + 1)),
        refused(
            "too long, first byte",
            1,
            0,
            starting_with(2, LONGEST_BOOK + 1),
        ),
        refused("much too long", 1, 0, padded(20_000)),
    ]
}

/// Random books with many records.
pub fn grown(random: &mut Random) -> Vec<Book> {
    let mut books = Vec::new();
    for size in [64, 40, 24, 24, 16, 16, 16, 16, 12, 12, 12, 12] {
        let sizes = Sizes {
            types: size,
            roles: size,
            groups: size,
            views: size,
            subjects: if size == 64 { 256 } else { size },
            operations: size.min(20),
        };
        books.push(grow(random, sizes));
    }
    books
}
