//! Books whose judgement is worked out by hand.

use super::builder::view;
use crate::encode;
use crate::format::{Book, View};
use crate::rules::{Judgement, Refusal};

pub struct Worked {
    pub name: &'static str,
    pub bytes: Vec<u8>,
    pub expected: Judgement,
}

pub fn all() -> Vec<Worked> {
    [
        example(),
        rights_alone(),
        modifiers(),
        controlled_types(),
        restrictions(),
        required_views(),
        redefinitions(),
        new_rights(),
        clashes(),
        clash_pairs(),
        same_view_order(),
        order_over_views(),
        order_over_bases(),
        diamonds(),
    ]
    .into_iter()
    .flatten()
    .collect()
}

pub fn ok(name: &'static str, book: Book) -> Worked {
    Worked {
        name,
        bytes: encode::encode(&book),
        expected: Judgement::Accepted,
    }
}

/// Refused with a number at the place of a view, with no other view.
pub fn no(name: &'static str, number: u8, at: usize, book: Book) -> Worked {
    refused(name, number, at, None, book)
}

/// Refused with a number at the place of a view, and the other view.
pub fn no_with(name: &'static str, number: u8, at: usize, other: u8, book: Book) -> Worked {
    refused(name, number, at, Some(other), book)
}

fn refused(name: &'static str, number: u8, at: usize, other: Option<u8>, book: Book) -> Worked {
    let place = encode::view_place(&book, at);
    Worked {
        name,
        bytes: encode::encode(&book),
        expected: Judgement::Refused(Refusal {
            number,
            place,
            other,
        }),
    }
}

/// The book that the format's description works through, with a choice of view 1.
fn example_book(view_1: View) -> Book {
    Book::default()
        .with_type(&[], &[0, 1, 2])
        .with_type(&[0], &[3])
        .with_role(&[])
        .with_role(&[0])
        .with_group(&[], &[0, 1])
        .with_view(view(0).permits(&[0]))
        .with_view(view_1)
        .with_view(view(0).extends(&[1]).assignable().permits(&[1, 2]))
        .with_subject(&[0])
        .with_subject(&[0])
}

fn example() -> Vec<Worked> {
    let strong = example_book(view(0).denies_strongly(&[1, 2]));
    vec![
        ok("example", example_book(view(0).denies(&[1, 2]))),
        no_with("example, strong denials", 18, 2, 1, strong),
        ok("nothing but the first byte", Book::default()),
    ]
}

/// One type with operations 0 to 3, and views.
fn plain(views: &[View]) -> Book {
    let book = Book::default().with_type(&[], &[0, 1, 2, 3]);
    views.iter().cloned().fold(book, Book::with_view)
}

fn rights_alone() -> Vec<Worked> {
    let double = |it: View| plain(&[view(0), it]);
    let types = || {
        Book::default()
            .with_type(&[], &[0])
            .with_type(&[0], &[1])
            .with_type(&[], &[2])
    };
    vec![
        no(
            "both permissions",
            11,
            1,
            double(view(0).permits(&[1]).permits_strongly(&[0, 1])),
        ),
        no(
            "weak permission and weak denial",
            11,
            1,
            double(view(0).permits(&[2]).denies(&[2])),
        ),
        no(
            "weak permission and strong denial",
            11,
            1,
            double(view(0).permits(&[3]).denies_strongly(&[3])),
        ),
        no(
            "strong permission and weak denial",
            11,
            1,
            double(view(0).permits_strongly(&[0]).denies(&[0])),
        ),
        no(
            "strong permission and strong denial",
            11,
            1,
            double(view(0).permits_strongly(&[0]).denies_strongly(&[0])),
        ),
        no(
            "both denials",
            11,
            1,
            double(view(0).denies(&[0]).denies_strongly(&[0])),
        ),
        ok(
            "a right of each sort",
            double(
                view(0)
                    .permits(&[0])
                    .permits_strongly(&[1])
                    .denies(&[2])
                    .denies_strongly(&[3]),
            ),
        ),
        ok("own operation", types().with_view(view(1).permits(&[1]))),
        ok(
            "inherited operation",
            types().with_view(view(1).denies_strongly(&[0])),
        ),
        no(
            "operation of a subtype",
            12,
            0,
            types().with_view(view(0).permits(&[1])),
        ),
        no(
            "operation of another type",
            12,
            0,
            types().with_view(view(1).permits_strongly(&[2])),
        ),
        no(
            "foreign weak denial",
            12,
            0,
            types().with_view(view(2).denies(&[0])),
        ),
        no(
            "foreign strong denial",
            12,
            0,
            types().with_view(view(2).denies_strongly(&[0, 2])),
        ),
        no(
            "operation of no type",
            12,
            0,
            types().with_view(view(2).permits(&[63])),
        ),
        ok("no rights", types().with_view(view(2))),
    ]
}

fn modifiers() -> Vec<Worked> {
    let one = |it: View| plain(&[it]);
    vec![
        ok(
            "assignable with permissions",
            one(view(0).assignable().permits(&[0])),
        ),
        ok(
            "assignable, strong permission",
            one(view(0).assignable().permits_strongly(&[0])),
        ),
        ok("assignable without rights", one(view(0).assignable())),
        no(
            "assignable, weak denial",
            13,
            0,
            one(view(0).assignable().denies(&[0])),
        ),
        no(
            "assignable, strong denial",
            13,
            0,
            one(view(0).assignable().denies_strongly(&[0])),
        ),
        ok("virtual without rights", one(view(0).only_virtual())),
        no(
            "virtual, weak permission",
            14,
            0,
            one(view(0).only_virtual().permits(&[0])),
        ),
        no(
            "virtual, strong permission",
            14,
            0,
            one(view(0).only_virtual().permits_strongly(&[0])),
        ),
        no(
            "virtual, weak denial",
            14,
            0,
            one(view(0).only_virtual().denies(&[0])),
        ),
        no(
            "virtual, strong denial",
            14,
            0,
            one(view(0).only_virtual().denies_strongly(&[0])),
        ),
        ok(
            "static with denial",
            one(view(0).only_static().denies(&[0])),
        ),
        ok(
            "all modifiers",
            one(view(0).only_static().only_virtual().assignable()),
        ),
    ]
}

/// Types 0 and 1 unrelated, 2 below 0, 3 below 2, 4 below 0 and 1.
fn five_types() -> Book {
    Book::default()
        .with_type(&[], &[0])
        .with_type(&[], &[0])
        .with_type(&[0], &[])
        .with_type(&[2], &[])
        .with_type(&[0, 1], &[])
}

fn controlled_types() -> Vec<Worked> {
    let pair = |base: u8, own: u8| {
        five_types()
            .with_view(view(base))
            .with_view(view(own).extends(&[0]))
    };
    vec![
        ok("same controlled type", pair(2, 2)),
        ok("subtype", pair(0, 2)),
        ok("subtype at two links", pair(0, 3)),
        ok("second supertype", pair(1, 4)),
        no_with("supertype", 15, 1, 0, pair(2, 0)),
        no_with("supertype at two links", 15, 1, 0, pair(3, 0)),
        no_with("unrelated type", 15, 1, 0, pair(0, 1)),
        no_with("sibling type", 15, 1, 0, pair(2, 4)),
    ]
}

/// Roles 0 and 1 unrelated, 2 below 0, 3 below 2, 4 below 0 and 1.
fn five_roles() -> Book {
    Book::default()
        .with_type(&[], &[0])
        .with_role(&[])
        .with_role(&[])
        .with_role(&[0])
        .with_role(&[2])
        .with_role(&[0, 1])
}

fn restrictions() -> Vec<Worked> {
    let pair = |base: &[u8], own: &[u8]| {
        five_roles()
            .with_view(view(0).restricted(base))
            .with_view(view(0).extends(&[0]).restricted(own))
    };
    vec![
        ok("no restrictions", pair(&[], &[])),
        ok("first restriction", pair(&[], &[1, 3])),
        ok("same restriction", pair(&[0], &[0])),
        ok("subrole", pair(&[0], &[2])),
        ok("subrole at two links", pair(&[0], &[3])),
        ok("several subroles", pair(&[0], &[0, 2, 3, 4])),
        ok("each below another role", pair(&[1, 2], &[3, 4])),
        ok("fewer roles", pair(&[0, 1, 2], &[1])),
        no_with("dropped restriction", 16, 1, 0, pair(&[0], &[])),
        no_with("superrole", 16, 1, 0, pair(&[2], &[0])),
        no_with("unrelated role", 16, 1, 0, pair(&[0], &[1])),
        no_with("one of two unrelated", 16, 1, 0, pair(&[0], &[1, 2])),
        no_with("sibling role", 16, 1, 0, pair(&[2], &[4])),
        no_with("superrole added", 16, 1, 0, pair(&[3], &[2, 3])),
    ]
}

fn required_views() -> Vec<Worked> {
    let four = |base: View, own: View| plain(&[view(0), view(0).requires(&[0]), base, own]);
    let two = |base: View, own: View| plain(&[base, own.extends(&[0])]);
    let own = || view(0).extends(&[2]);
    vec![
        ok(
            "same requirement",
            four(view(0).requires(&[1]), own().requires(&[1])),
        ),
        ok(
            "more requirements",
            four(view(0).requires(&[1]), own().requires(&[0, 1])),
        ),
        ok("new requirement", four(view(0), own().requires(&[1]))),
        ok("the base is required", four(view(0), own().requires(&[2]))),
        no_with(
            "dropped requirement",
            17,
            3,
            2,
            four(view(0).requires(&[0]), own()),
        ),
        no_with(
            "another requirement",
            17,
            3,
            2,
            four(view(0).requires(&[0]), own().requires(&[1, 2])),
        ),
        no_with(
            "one of two requirements",
            17,
            3,
            2,
            four(view(0).requires(&[0, 1]), own().requires(&[1])),
        ),
        no_with(
            "required through a required view",
            17,
            3,
            2,
            four(view(0).requires(&[0, 1]), own().requires(&[1, 2])),
        ),
        no_with("static lost", 17, 1, 0, two(view(0).only_static(), view(0))),
        no_with(
            "static lost, other modifiers",
            17,
            1,
            0,
            two(view(0).only_static(), view(0).assignable().only_virtual()),
        ),
        ok(
            "static kept",
            two(view(0).only_static(), view(0).only_static()),
        ),
        ok("static gained", two(view(0), view(0).only_static())),
        ok(
            "virtual lost",
            two(view(0).only_virtual(), view(0).permits(&[0])),
        ),
        ok("assignable lost", two(view(0).assignable(), view(0))),
    ]
}

fn redefinitions() -> Vec<Worked> {
    let pair = |base: View, own: View| plain(&[base, own.extends(&[0])]);
    let weak = || view(0).permits(&[0]);
    let strong = || view(0).permits_strongly(&[0]);
    let weak_no = || view(0).denies(&[0]);
    let strong_no = || view(0).denies_strongly(&[0]);
    vec![
        ok("weak permission kept", pair(weak(), weak())),
        ok("weak permission made strong", pair(weak(), strong())),
        no_with("weak permission denied", 18, 1, 0, pair(weak(), weak_no())),
        no_with(
            "weak permission denied strongly",
            18,
            1,
            0,
            pair(weak(), strong_no()),
        ),
        no_with("weak permission dropped", 18, 1, 0, pair(weak(), view(0))),
        no_with(
            "strong permission made weak",
            18,
            1,
            0,
            pair(strong(), weak()),
        ),
        ok("strong permission kept", pair(strong(), strong())),
        no_with(
            "strong permission denied",
            18,
            1,
            0,
            pair(strong(), weak_no()),
        ),
        no_with(
            "strong permission denied strongly",
            18,
            1,
            0,
            pair(strong(), strong_no()),
        ),
        no_with(
            "strong permission dropped",
            18,
            1,
            0,
            pair(strong(), view(0)),
        ),
        ok("weak denial permitted", pair(weak_no(), weak())),
        ok("weak denial permitted strongly", pair(weak_no(), strong())),
        ok("weak denial kept", pair(weak_no(), weak_no())),
        ok("weak denial made strong", pair(weak_no(), strong_no())),
        no_with("weak denial dropped", 18, 1, 0, pair(weak_no(), view(0))),
        no_with(
            "strong denial permitted",
            18,
            1,
            0,
            pair(strong_no(), weak()),
        ),
        no_with(
            "strong denial permitted strongly",
            18,
            1,
            0,
            pair(strong_no(), strong()),
        ),
        no_with(
            "strong denial made weak",
            18,
            1,
            0,
            pair(strong_no(), weak_no()),
        ),
        ok("strong denial kept", pair(strong_no(), strong_no())),
        no_with(
            "strong denial dropped",
            18,
            1,
            0,
            pair(strong_no(), view(0)),
        ),
    ]
}

fn new_rights() -> Vec<Worked> {
    let pair = |base: View, own: View| plain(&[base, own.extends(&[0])]);
    let two = |own: View| plain(&[view(0).denies(&[0]), view(0).permits(&[1]), own]);
    let own = || view(0).extends(&[0, 1]);
    vec![
        ok("new weak permission", pair(view(0), view(0).permits(&[0]))),
        ok(
            "new strong permission",
            pair(view(0), view(0).permits_strongly(&[0])),
        ),
        no_with(
            "new weak denial",
            18,
            1,
            0,
            pair(view(0), view(0).denies(&[0])),
        ),
        no_with(
            "new strong denial",
            18,
            1,
            0,
            pair(view(0), view(0).denies_strongly(&[0])),
        ),
        no_with(
            "new denial beside a kept one",
            18,
            1,
            0,
            pair(view(0).denies(&[0]), view(0).denies(&[0, 1])),
        ),
        no_with(
            "new denial, virtual base",
            18,
            1,
            0,
            pair(view(0).only_virtual(), view(0).denies(&[0])),
        ),
        no_with(
            "virtual below rights",
            18,
            1,
            0,
            pair(view(0).permits(&[0]), view(0).only_virtual()),
        ),
        ok("two bases, both permitted", two(own().permits(&[0, 1]))),
        no_with(
            "denial that one base does not have",
            18,
            2,
            1,
            two(own().denies(&[0]).permits(&[1])),
        ),
        no_with(
            "right of the first base dropped",
            18,
            2,
            0,
            two(own().permits(&[1])),
        ),
        no_with(
            "right of the second base dropped",
            18,
            2,
            1,
            two(own().permits(&[0])),
        ),
    ]
}

/// Unrelated types 0 and 1 and more types, all with operation 0; view 0 strongly permits it on
/// one type, view 1 strongly denies it on another.
fn opposite(more: &[&[u8]], permitted: u8, denied: u8) -> Book {
    let book = Book::default().with_type(&[], &[0]).with_type(&[], &[0]);
    more.iter()
        .fold(book, |book, supertypes| book.with_type(supertypes, &[0]))
        .with_view(view(permitted).permits_strongly(&[0]))
        .with_view(view(denied).denies_strongly(&[0]))
}

fn clashes() -> Vec<Worked> {
    let weak = |one: View, other: View| plain(&[one, other]);
    let strong = || view(0).permits_strongly(&[0]);
    let strong_no = || view(0).denies_strongly(&[0]);
    vec![
        ok("unrelated types", opposite(&[], 0, 1)),
        no_with("a type below both", 19, 0, 1, opposite(&[&[0, 1]], 0, 1)),
        no_with(
            "a type below both, turned",
            19,
            0,
            1,
            opposite(&[&[0, 1]], 1, 0),
        ),
        ok("types below each alone", opposite(&[&[0], &[1]], 0, 1)),
        ok("a common supertype only", opposite(&[&[0], &[0]], 2, 3)),
        no_with(
            "a type below both at a distance",
            19,
            0,
            1,
            opposite(&[&[0], &[1], &[2, 3]], 0, 1),
        ),
        no_with("same type", 19, 0, 1, opposite(&[], 0, 0)),
        no_with("same type, no types below", 19, 0, 1, opposite(&[], 1, 1)),
        no_with("type and subtype", 19, 0, 1, opposite(&[&[0]], 0, 2)),
        no_with("subtype and type", 19, 0, 1, opposite(&[&[0]], 2, 0)),
        no_with(
            "subtype at a distance",
            19,
            0,
            1,
            opposite(&[&[0], &[2], &[3]], 4, 0),
        ),
        no_with("turned rights", 19, 0, 1, weak(strong_no(), strong())),
        ok("weak permission", weak(view(0).permits(&[0]), strong_no())),
        ok("weak denial", weak(strong(), view(0).denies(&[0]))),
        ok(
            "both weak",
            weak(view(0).permits(&[0]), view(0).denies(&[0])),
        ),
        ok(
            "other operations",
            weak(strong(), view(0).denies_strongly(&[1])),
        ),
        ok("both permit", weak(strong(), strong())),
        ok("both deny", weak(strong_no(), strong_no())),
    ]
}

fn clash_pairs() -> Vec<Worked> {
    let none = || view(0);
    let weak = || view(0).denies(&[0]);
    let strong = || view(0).permits_strongly(&[0]);
    let strong_no = || view(0).denies_strongly(&[0]);
    vec![
        no_with(
            "lowest second",
            19,
            1,
            3,
            plain(&[none(), strong(), strong(), strong_no(), strong_no()]),
        ),
        no_with(
            "lowest first before lowest second",
            19,
            0,
            4,
            plain(&[
                view(0).permits_strongly(&[1]),
                strong(),
                strong_no(),
                none(),
                view(0).denies_strongly(&[1]),
            ]),
        ),
        no_with(
            "two views that extend the same base",
            19,
            1,
            2,
            plain(&[weak(), strong().extends(&[0]), strong_no().extends(&[0])]),
        ),
        no_with(
            "two views that extend a base at a distance",
            19,
            2,
            4,
            plain(&[
                weak(),
                weak().extends(&[0]),
                strong().extends(&[1]),
                weak().extends(&[0]),
                strong_no().extends(&[3]),
            ]),
        ),
        ok(
            "weak denial made a strong permission at a distance",
            plain(&[
                weak(),
                weak().extends(&[0]),
                strong().extends(&[1]),
                strong().extends(&[2]),
            ]),
        ),
        no_with(
            "strong denial permitted at a distance",
            18,
            2,
            1,
            plain(&[
                strong_no(),
                strong_no().extends(&[0]),
                strong().extends(&[1]),
            ]),
        ),
        no_with(
            "strong denial permitted at a distance, link last",
            18,
            1,
            0,
            plain(&[strong_no(), weak().extends(&[0]), strong().extends(&[1])]),
        ),
        no_with(
            "a view with a base and a view without",
            19,
            1,
            2,
            plain(&[none(), strong().extends(&[0]), strong_no()]),
        ),
    ]
}

/// Two rules broken by one view, or by the same pair of views.
fn same_view_order() -> Vec<Worked> {
    let roles = || five_roles().with_type(&[], &[0]);
    vec![
        no(
            "11 before 12",
            11,
            0,
            plain(&[view(0).permits(&[9]).denies(&[9])]),
        ),
        no(
            "11 before 13",
            11,
            0,
            plain(&[view(0).assignable().permits(&[0]).denies(&[0])]),
        ),
        no(
            "11 before 14",
            11,
            0,
            plain(&[view(0).only_virtual().permits(&[0]).denies(&[0])]),
        ),
        no(
            "12 before 13",
            12,
            0,
            plain(&[view(0).assignable().denies(&[9])]),
        ),
        no(
            "12 before 14",
            12,
            0,
            plain(&[view(0).only_virtual().permits(&[9])]),
        ),
        no(
            "13 before 14",
            13,
            0,
            plain(&[view(0).assignable().only_virtual().denies(&[0])]),
        ),
        no(
            "14 before 15",
            14,
            1,
            five_types()
                .with_view(view(1))
                .with_view(view(0).only_virtual().permits(&[0]).extends(&[0])),
        ),
        no_with(
            "15 before 16",
            15,
            1,
            0,
            Book::default()
                .with_type(&[], &[])
                .with_type(&[], &[])
                .with_role(&[])
                .with_view(view(0).restricted(&[0]))
                .with_view(view(1).extends(&[0])),
        ),
        no_with(
            "16 before 17, static",
            16,
            1,
            0,
            roles()
                .with_view(view(0).restricted(&[0]).only_static())
                .with_view(view(0).extends(&[0]).restricted(&[1])),
        ),
        no_with(
            "16 before 17, required",
            16,
            2,
            1,
            roles()
                .with_view(view(0))
                .with_view(view(0).restricted(&[0]).requires(&[0]))
                .with_view(view(0).extends(&[1])),
        ),
        no_with(
            "17 before 18",
            17,
            1,
            0,
            plain(&[view(0).only_static().permits(&[0]), view(0).extends(&[0])]),
        ),
        no_with(
            "18 before 19",
            18,
            2,
            1,
            plain(&[
                view(0).permits_strongly(&[0]),
                view(0).permits(&[1]),
                view(0).extends(&[1]).denies_strongly(&[0]).permits(&[1]),
            ]),
        ),
        no_with(
            "15 before 18",
            15,
            1,
            0,
            five_types()
                .with_view(view(0).permits(&[0]))
                .with_view(view(1).extends(&[0])),
        ),
    ]
}

/// Two views with a broken rule each: the lower view decides, but 19 comes last.
fn order_over_views() -> Vec<Worked> {
    let late_11 = || view(0).permits(&[0]).denies(&[0]);
    let late_12 = || view(0).permits(&[9]);
    vec![
        no(
            "12 of an earlier view before 11",
            12,
            0,
            plain(&[late_12(), late_11()]),
        ),
        no(
            "14 of an earlier view before 11",
            14,
            0,
            plain(&[view(0).only_virtual().denies(&[0]), late_11()]),
        ),
        no_with(
            "18 of an earlier view before 11",
            18,
            1,
            0,
            plain(&[view(0).permits(&[0]), view(0).extends(&[0]), late_11()]),
        ),
        no_with(
            "17 of an earlier view before 13",
            17,
            1,
            0,
            plain(&[
                view(0).only_static(),
                view(0).extends(&[0]),
                view(0).assignable().denies(&[0]),
            ]),
        ),
        no(
            "11 of an earlier view before 12",
            11,
            0,
            plain(&[late_11(), late_12()]),
        ),
        no(
            "12 of a later view before 19",
            12,
            2,
            plain(&[
                view(0).permits_strongly(&[0]),
                view(0).denies_strongly(&[0]),
                late_12(),
            ]),
        ),
        no_with(
            "18 of a later view before 19",
            18,
            3,
            2,
            plain(&[
                view(0).permits_strongly(&[0]),
                view(0).denies_strongly(&[0]),
                view(0).permits(&[1]),
                view(0).extends(&[2]),
            ]),
        ),
        no(
            "13 of the base before 18 of the view",
            13,
            0,
            plain(&[
                view(0).assignable().denies_strongly(&[0]),
                view(0).extends(&[0]),
            ]),
        ),
    ]
}

/// Two bases with a broken rule each: the lower base decides.
fn order_over_bases() -> Vec<Worked> {
    let kept = || view(0).only_static();
    let permitting = || view(0).permits(&[0]);
    vec![
        no_with(
            "18 of the first base before 17",
            18,
            2,
            0,
            plain(&[permitting(), kept(), view(0).extends(&[0, 1])]),
        ),
        no_with(
            "17 of the first base before 18",
            17,
            2,
            0,
            plain(&[kept(), permitting(), view(0).extends(&[0, 1])]),
        ),
        no_with(
            "17 of the second base",
            17,
            2,
            1,
            plain(&[view(0), kept(), view(0).extends(&[0, 1])]),
        ),
        no_with(
            "18 of the first base before 15",
            18,
            2,
            0,
            five_types()
                .with_view(permitting())
                .with_view(view(1))
                .with_view(view(0).extends(&[0, 1])),
        ),
        no(
            "13 before 15 of the first base",
            13,
            2,
            five_types()
                .with_view(view(1))
                .with_view(view(0).denies(&[0]))
                .with_view(view(0).extends(&[0, 1]).assignable().denies(&[0])),
        ),
        ok(
            "a base of a base is not checked",
            plain(&[
                view(0).denies(&[0]),
                permitting().extends(&[0]),
                permitting().extends(&[1]),
            ]),
        ),
    ]
}

fn diamonds() -> Vec<Worked> {
    let types = || {
        Book::default()
            .with_type(&[], &[0])
            .with_type(&[0], &[1])
            .with_type(&[0], &[2])
            .with_type(&[1, 2], &[3])
    };
    let views = |left: View, right: View, own: View| {
        types()
            .with_view(view(0).denies(&[0]))
            .with_view(left.extends(&[0]))
            .with_view(right.extends(&[0]))
            .with_view(own.extends(&[1, 2]))
    };
    let roles = |own: &[u8]| {
        Book::default()
            .with_type(&[], &[])
            .with_role(&[])
            .with_role(&[0])
            .with_role(&[0])
            .with_role(&[1, 2])
            .with_view(view(0).restricted(&[1]))
            .with_view(view(0).restricted(&[2]))
            .with_view(view(0).extends(&[0, 1]).restricted(own))
    };
    vec![
        ok(
            "type diamond",
            types().with_view(view(3).permits(&[0, 1, 2, 3])),
        ),
        no(
            "type diamond, operation of a side",
            12,
            0,
            types().with_view(view(1).permits(&[0, 1, 2])),
        ),
        ok(
            "view diamond",
            views(
                view(1).denies(&[0]),
                view(2).permits(&[0]),
                view(3).permits(&[0]),
            ),
        ),
        no_with(
            "view diamond, permission denied",
            18,
            3,
            2,
            views(
                view(1).denies(&[0]),
                view(2).permits(&[0]),
                view(3).denies(&[0]),
            ),
        ),
        no_with(
            "view diamond, strong sides",
            18,
            3,
            2,
            views(
                view(1).denies_strongly(&[0]),
                view(2).permits_strongly(&[0]),
                view(3).denies_strongly(&[0]),
            ),
        ),
        no_with(
            "view diamond, type of a side",
            15,
            3,
            2,
            views(
                view(1).denies(&[0]),
                view(2).denies(&[0]),
                view(1).denies(&[0]),
            ),
        ),
        ok("role diamond", roles(&[3])),
        no_with("role diamond, first side", 16, 2, 1, roles(&[1])),
        no_with("role diamond, second side", 16, 2, 0, roles(&[2])),
        no_with("role diamond, top", 16, 2, 0, roles(&[0, 3])),
    ]
}
