//! Records as the bytes of a book. The records' places are not looked at.

use crate::format::{Book, Group, Kind, Role, Set, Subject, Type, View};

pub fn encode(book: &Book) -> Vec<u8> {
    let mut bytes = vec![1];
    book.types
        .iter()
        .for_each(|it| bytes.extend(type_record(it)));
    book.roles
        .iter()
        .for_each(|it| bytes.extend(role_record(it)));
    book.groups
        .iter()
        .for_each(|it| bytes.extend(group_record(it)));
    book.views
        .iter()
        .for_each(|it| bytes.extend(view_record(it)));
    book.subjects
        .iter()
        .for_each(|it| bytes.extend(subject_record(it)));
    bytes
}

/// The place that view `number` of the book gets in its bytes.
pub fn view_place(book: &Book, number: usize) -> usize {
    let mut before = book.clone();
    before.views.truncate(number);
    before.subjects.clear();
    encode(&before).len()
}

fn type_record(it: &Type) -> Vec<u8> {
    let fields = [set_field(&it.supertypes), set_field(&it.operations)];
    record(Kind::Type, &fields)
}

fn role_record(it: &Role) -> Vec<u8> {
    record(Kind::Role, &[set_field(&it.superroles)])
}

fn group_record(it: &Group) -> Vec<u8> {
    let fields = [set_field(&it.supergroups), set_field(&it.roles)];
    record(Kind::Group, &fields)
}

fn view_record(it: &View) -> Vec<u8> {
    let fields = [
        vec![it.controlled],
        set_field(&it.bases),
        set_field(&it.required),
        set_field(&it.restriction),
        modifiers_field(it),
        set_field(&it.weak_permissions),
        set_field(&it.strong_permissions),
        denials_field(it),
    ];
    record(Kind::View, &fields)
}

fn subject_record(it: &Subject) -> Vec<u8> {
    record(Kind::Subject, &[set_field(&it.groups)])
}

/// A record of its fields; an empty field is left out.
pub fn record(kind: Kind, fields: &[Vec<u8>]) -> Vec<u8> {
    let mut map = 0;
    let mut body: Vec<u8> = Vec::new();
    for (field, bytes) in fields.iter().enumerate() {
        if !bytes.is_empty() {
            map += 1 << field;
            body.extend(bytes);
        }
    }
    let mut record = vec![kind as u8, map];
    record.extend(body);
    record
}

fn set_field(set: &Set) -> Vec<u8> {
    if set.is_empty() {
        return Vec::new();
    }
    set_bytes(set)
}

fn modifiers_field(view: &View) -> Vec<u8> {
    let assignable = if view.is_assignable { 1 } else { 0 };
    let virtual_ = if view.is_virtual { 2 } else { 0 };
    let static_ = if view.is_static { 4 } else { 0 };
    match assignable + virtual_ + static_ {
        0 => Vec::new(),
        modifiers => vec![modifiers],
    }
}

fn denials_field(view: &View) -> Vec<u8> {
    if view.weak_denials.is_empty() && view.strong_denials.is_empty() {
        return Vec::new();
    }
    let mut bytes = set_bytes(&view.weak_denials);
    bytes.extend(set_bytes(&view.strong_denials));
    bytes
}

/// A set as eight bytes, the highest first.
pub fn set_bytes(set: &Set) -> Vec<u8> {
    let mut bytes = vec![0; 8];
    for number in set {
        bytes[7 - usize::from(number / 8)] += 1 << (number % 8);
    }
    bytes
}
