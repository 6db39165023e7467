//! The case books: made the same way on every run.

mod builder;
mod changes;
mod grown;
mod large;
mod malformed;
mod worked;

use crate::encode::encode;
use crate::format::Book;
use crate::random::Random;
use crate::rules::{judge, Judgement};
use builder::view;
use grown::{grow, Sizes};
use worked::Worked;

const START: u64 = 1;
const EMPTY_BOOKS: usize = 40;
const RULES: std::ops::RangeInclusive<u8> = 11..=19;

pub fn all() -> Vec<Vec<u8>> {
    let mut random = Random::new(START);
    let mut books: Vec<Vec<u8>> = known().into_iter().map(|it| it.bytes).collect();
    books.extend(operation_numbers());
    books.extend(accepted(&mut random, 600));
    books.extend(broken_once(&mut random, 60));
    books.extend(broken_twice(&mut random, 10));
    books.extend(changed(&mut random, 600));
    books.extend(mutated(&mut random, 420));
    books.extend(wrong_first_byte(&mut random, 25));
    books.extend((0..60).map(|_| malformed::noise(&mut random)));
    books.extend((0..120).map(|_| malformed::noisy_records(&mut random)));
    books.extend(large_books(&mut random));
    spread_empty(books)
}

/// The books whose judgement is known without the judge.
fn known() -> Vec<Worked> {
    let mut known = worked::all();
    known.extend(malformed::all());
    known.extend(large::all());
    known
}

/// One line for each known book that gets another judgement.
pub fn differences() -> Vec<String> {
    let mut lines = Vec::new();
    for it in known() {
        let judgement = judge(&it.bytes);
        if judgement != it.expected {
            lines.push(format!("{}: {}, not {}", it.name, judgement, it.expected));
        }
    }
    lines
}

/// Empty books at even distances, so that they stand between books of every sort.
fn spread_empty(books: Vec<Vec<u8>>) -> Vec<Vec<u8>> {
    let distance = books.len() / EMPTY_BOOKS;
    let mut spread = Vec::new();
    for (index, book) in books.into_iter().enumerate() {
        spread.push(book);
        if index % distance == 0 && index / distance < EMPTY_BOOKS {
            spread.push(Vec::new());
        }
    }
    spread
}

/// For each operation number, a view that has a right for it and one that has none.
fn operation_numbers() -> Vec<Vec<u8>> {
    let mut books = Vec::new();
    for operation in 0..64 {
        let own = match operation % 4 {
            0 => view(0).permits(&[operation]),
            1 => view(0).permits_strongly(&[operation]),
            2 => view(0).denies(&[operation]),
            _ => view(0).denies_strongly(&[operation]),
        };
        for known in [operation, (operation + 1) % 64] {
            let book = Book::default()
                .with_type(&[], &[known])
                .with_view(own.clone());
            books.push(encode(&book));
        }
    }
    books
}

fn any_book(random: &mut Random) -> Book {
    let sizes = if random.chance(80) {
        Sizes::small(random)
    } else {
        Sizes::medium(random)
    };
    grow(random, sizes)
}

fn accepted(random: &mut Random, count: usize) -> Vec<Vec<u8>> {
    (0..count).map(|_| encode(&any_book(random))).collect()
}

/// For each rule, books in which it decides.
fn broken_once(random: &mut Random, count: usize) -> Vec<Vec<u8>> {
    let mut books = Vec::new();
    for number in RULES {
        let mut kept = 0;
        while kept < count {
            let mut book = any_book(random);
            let change = changes::break_rule(random, &mut book, number);
            let bytes = encode(&book);
            if change.is_some() && number_of(&bytes) == Some(number) {
                books.push(bytes);
                kept += 1;
            }
        }
    }
    books
}

fn number_of(bytes: &[u8]) -> Option<u8> {
    match judge(bytes) {
        Judgement::Accepted => None,
        Judgement::Refused(refusal) => Some(refusal.number),
    }
}

/// For each two rules, books with a change that may break the one and one that may break the
/// other; more of them where the rules are neighbours.
fn broken_twice(random: &mut Random, count: usize) -> Vec<Vec<u8>> {
    let mut books = Vec::new();
    for lower in RULES {
        for higher in lower + 1..=*RULES.end() {
            let wanted = if higher == lower + 1 {
                2 * count
            } else {
                count
            };
            let mut kept = 0;
            while kept < wanted {
                let mut book = any_book(random);
                let first = changes::break_rule(random, &mut book, higher);
                let second = changes::break_rule(random, &mut book, lower);
                let bytes = encode(&book);
                if first.and(second).is_some() && number_of(&bytes).is_some() {
                    books.push(bytes);
                    kept += 1;
                }
            }
        }
    }
    books
}

/// Books with one thing changed, which may break a rule or not.
fn changed(random: &mut Random, count: usize) -> Vec<Vec<u8>> {
    let mut books = Vec::new();
    while books.len() < count {
        let mut book = any_book(random);
        if changes::change_any(random, &mut book).is_some() {
            books.push(encode(&book));
        }
    }
    books
}

fn mutated(random: &mut Random, count: usize) -> Vec<Vec<u8>> {
    let mut books = Vec::new();
    for _ in 0..count {
        let good = encode(&any_book(random));
        books.push(malformed::mutated(random, &good));
    }
    books
}

/// Accepted books with another first byte.
fn wrong_first_byte(random: &mut Random, count: usize) -> Vec<Vec<u8>> {
    let mut books = accepted(random, count);
    for bytes in &mut books {
        bytes[0] ^= random.between(1, 255) as u8;
    }
    books
}

/// Large random books, each with a changed book beside it.
fn large_books(random: &mut Random) -> Vec<Vec<u8>> {
    let mut books = Vec::new();
    for book in large::grown(random) {
        let mut changed = book.clone();
        let number = random.between(11, 19) as u8;
        let _ = changes::break_rule(random, &mut changed, number);
        books.push(encode(&book));
        books.push(encode(&changed));
    }
    books
}

#[cfg(test)]
mod tests {
    use super::*;
    use crate::hex;
    use std::collections::BTreeMap;

    const EXAMPLE: &str = "01010200000000000000070103000000000000000100000000000000080200020100\
        00000000000001030200000000000000030421000000000000000001048100000000000000000600000000000\
        000000433000000000000000002010000000000000006050100000000000000010501000000000000\
        0001";

    #[test]
    fn known_books_get_their_judgement() {
        assert_eq!(differences(), Vec::<String>::new());
    }

    #[test]
    fn example_has_its_bytes() {
        let example = &worked::all()[0];
        assert_eq!(hex::encode(&example.bytes), EXAMPLE);
        assert_eq!(example.bytes.len(), 121);
    }

    #[test]
    fn example_with_strong_denials() {
        let example = &worked::all()[1];
        assert_eq!(judge(&example.bytes).to_string(), "book no 18 81 1");
    }

    #[test]
    fn grown_books_are_accepted() {
        let mut random = Random::new(7);
        for bytes in accepted(&mut random, 2000) {
            assert_eq!(
                judge(&bytes),
                Judgement::Accepted,
                "{}",
                hex::encode(&bytes)
            );
        }
    }

    #[test]
    fn enough_books_of_each_judgement() {
        let mut counts = BTreeMap::new();
        for bytes in all() {
            *counts.entry(number_of(&bytes)).or_insert(0) += 1;
        }
        assert!(counts[&None] >= 500);
        for number in (1..=8).chain(RULES) {
            assert!(counts[&Some(number)] >= 40, "{number}: {counts:?}");
        }
    }
}
