//! The bytes of a book: its records, or the refusal of its form.

use std::collections::BTreeSet;

pub type Set = BTreeSet<u8>;

pub const LONGEST_BOOK: usize = 16_384;
const FIRST_BYTE: u8 = 1;
const OPERATIONS: usize = 64;

#[derive(Clone, Debug, Default)]
pub struct Type {
    pub supertypes: Set,
    pub operations: Set,
}

#[derive(Clone, Debug, Default)]
pub struct Role {
    pub superroles: Set,
}

#[derive(Clone, Debug, Default)]
pub struct Group {
    pub supergroups: Set,
    pub roles: Set,
}

#[derive(Clone, Debug, Default)]
pub struct View {
    /// The offset of the record's kind byte; only a view's place is used after reading.
    pub place: usize,
    pub controlled: u8,
    pub bases: Set,
    pub required: Set,
    pub restriction: Set,
    pub is_assignable: bool,
    pub is_virtual: bool,
    pub is_static: bool,
    pub weak_permissions: Set,
    pub strong_permissions: Set,
    pub weak_denials: Set,
    pub strong_denials: Set,
}

#[derive(Clone, Debug, Default)]
pub struct Subject {
    pub groups: Set,
}

#[derive(Clone, Debug, Default)]
pub struct Book {
    pub types: Vec<Type>,
    pub roles: Vec<Role>,
    pub groups: Vec<Group>,
    pub views: Vec<View>,
    pub subjects: Vec<Subject>,
}

#[derive(Clone, Copy, Debug, PartialEq, Eq, PartialOrd, Ord)]
pub enum Kind {
    Type = 1,
    Role = 2,
    Group = 3,
    View = 4,
    Subject = 5,
}

pub const KINDS: [Kind; 5] = [
    Kind::Type,
    Kind::Role,
    Kind::Group,
    Kind::View,
    Kind::Subject,
];

impl Kind {
    fn of(byte: u8) -> Option<Kind> {
        KINDS.into_iter().find(|kind| *kind as u8 == byte)
    }

    /// How many records of the kind a book may have.
    pub fn limit(self) -> usize {
        match self {
            Kind::Subject => 256,
            _ => 64,
        }
    }

    /// The number of bytes of each field, from field 0 upwards.
    pub fn widths(self) -> &'static [usize] {
        match self {
            Kind::Type | Kind::Group => &[8, 8],
            Kind::Role | Kind::Subject => &[8],
            Kind::View => &[1, 8, 8, 8, 1, 8, 8, 16],
        }
    }

    fn accepts_map(self, map: u8) -> bool {
        let known = (0..8).all(|field| !has_field(map, field) || field < self.widths().len());
        known && (self != Kind::View || has_field(map, 0))
    }

    fn record_length(self, map: u8) -> usize {
        let widths = self.widths().iter().enumerate();
        let present = widths.filter(|(field, _)| has_field(map, *field));
        2 + present.map(|(_, width)| width).sum::<usize>()
    }
}

fn has_field(map: u8, field: usize) -> bool {
    (map >> field) % 2 == 1
}

impl Book {
    pub fn count(&self, kind: Kind) -> usize {
        match kind {
            Kind::Type => self.types.len(),
            Kind::Role => self.roles.len(),
            Kind::Group => self.groups.len(),
            Kind::View => self.views.len(),
            Kind::Subject => self.subjects.len(),
        }
    }
}

/// A refusal of the form: its number and place.
#[derive(Clone, Copy, Debug, PartialEq, Eq)]
pub struct Malformed {
    pub number: u8,
    pub place: usize,
}

/// The records of a book, or the first refusal of its form.
pub fn read(bytes: &[u8]) -> Result<Book, Malformed> {
    check_whole(bytes).map_err(|number| Malformed { number, place: 0 })?;
    let mut book = Book::default();
    let mut lowest = Kind::Type;
    let mut place = 1;
    while place < bytes.len() {
        let at_place = |number| Malformed { number, place };
        let (kind, length) = check_record(&book, lowest, &bytes[place..]).map_err(at_place)?;
        let mut fields = Fields::new(&bytes[place..place + length]);
        add_record(&mut book, kind, place, &mut fields).map_err(at_place)?;
        lowest = kind;
        place += length;
    }
    Ok(book)
}

fn check_whole(bytes: &[u8]) -> Result<(), u8> {
    if bytes.is_empty() || bytes.len() > LONGEST_BOOK {
        return Err(1);
    }
    if bytes[0] != FIRST_BYTE {
        return Err(2);
    }
    Ok(())
}

/// The kind and length of the record that `rest` begins with.
fn check_record(book: &Book, lowest: Kind, rest: &[u8]) -> Result<(Kind, usize), u8> {
    let kind = Kind::of(rest[0]).ok_or(3)?;
    if kind < lowest {
        return Err(3);
    }
    if book.count(kind) >= kind.limit() {
        return Err(7);
    }
    let map = *rest.get(1).ok_or(4)?;
    if !kind.accepts_map(map) {
        return Err(5);
    }
    let length = kind.record_length(map);
    if length > rest.len() {
        return Err(4);
    }
    Ok((kind, length))
}

fn add_record(book: &mut Book, kind: Kind, place: usize, fields: &mut Fields) -> Result<(), u8> {
    match kind {
        Kind::Type => book.types.push(read_type(book, fields)?),
        Kind::Role => book.roles.push(read_role(book, fields)?),
        Kind::Group => book.groups.push(read_group(book, fields)?),
        Kind::View => book.views.push(read_view(book, place, fields)?),
        Kind::Subject => book.subjects.push(read_subject(book, fields)?),
    }
    Ok(())
}

fn read_type(book: &Book, fields: &mut Fields) -> Result<Type, u8> {
    let supertypes = fields.set(0, book.types.len())?;
    let operations = fields.set(1, OPERATIONS)?;
    Ok(Type {
        supertypes,
        operations,
    })
}

fn read_role(book: &Book, fields: &mut Fields) -> Result<Role, u8> {
    let superroles = fields.set(0, book.roles.len())?;
    Ok(Role { superroles })
}

fn read_group(book: &Book, fields: &mut Fields) -> Result<Group, u8> {
    let supergroups = fields.set(0, book.groups.len())?;
    let roles = fields.set(1, book.roles.len())?;
    Ok(Group { supergroups, roles })
}

fn read_view(book: &Book, place: usize, fields: &mut Fields) -> Result<View, u8> {
    let controlled = fields.controlled_type(book.types.len())?;
    let bases = fields.set(1, book.views.len())?;
    let required = fields.set(2, book.views.len())?;
    let restriction = fields.set(3, book.roles.len())?;
    let modifiers = fields.modifiers(4)?;
    let weak_permissions = fields.set(5, OPERATIONS)?;
    let strong_permissions = fields.set(6, OPERATIONS)?;
    let (weak_denials, strong_denials) = fields.denials(7)?;
    Ok(View {
        place,
        controlled,
        bases,
        required,
        restriction,
        is_assignable: modifiers % 2 == 1,
        is_virtual: modifiers / 2 % 2 == 1,
        is_static: modifiers / 4 % 2 == 1,
        weak_permissions,
        strong_permissions,
        weak_denials,
        strong_denials,
    })
}

fn read_subject(book: &Book, fields: &mut Fields) -> Result<Subject, u8> {
    let groups = fields.set(0, book.groups.len())?;
    Ok(Subject { groups })
}

/// The fields of one complete record, taken from field 0 upwards.
struct Fields<'a> {
    map: u8,
    rest: &'a [u8],
}

impl<'a> Fields<'a> {
    fn new(record: &'a [u8]) -> Fields<'a> {
        Fields {
            map: record[1],
            rest: &record[2..],
        }
    }

    fn take(&mut self, width: usize) -> &'a [u8] {
        let (taken, rest) = self.rest.split_at(width);
        self.rest = rest;
        taken
    }

    /// A set of numbers below `declared`; empty if the field is not present.
    fn set(&mut self, field: usize, declared: usize) -> Result<Set, u8> {
        if !has_field(self.map, field) {
            return Ok(Set::new());
        }
        let set = set_of(self.take(8));
        if set.is_empty() {
            return Err(6);
        }
        if set.iter().any(|number| usize::from(*number) >= declared) {
            return Err(8);
        }
        Ok(set)
    }

    fn controlled_type(&mut self, declared: usize) -> Result<u8, u8> {
        let controlled = self.take(1)[0];
        if usize::from(controlled) >= declared {
            return Err(8);
        }
        Ok(controlled)
    }

    fn modifiers(&mut self, field: usize) -> Result<u8, u8> {
        if !has_field(self.map, field) {
            return Ok(0);
        }
        match self.take(1)[0] {
            0 => Err(6),
            modifiers @ 1..=7 => Ok(modifiers),
            _ => Err(8),
        }
    }

    /// The weak and the strong denials.
    fn denials(&mut self, field: usize) -> Result<(Set, Set), u8> {
        if !has_field(self.map, field) {
            return Ok((Set::new(), Set::new()));
        }
        let weak = set_of(self.take(8));
        let strong = set_of(self.take(8));
        if weak.is_empty() && strong.is_empty() {
            return Err(6);
        }
        Ok((weak, strong))
    }
}

/// The set of eight bytes, the highest first.
fn set_of(bytes: &[u8]) -> Set {
    let mut set = Set::new();
    for (index, byte) in bytes.iter().rev().enumerate() {
        for bit in 0..8 {
            if (byte >> bit) % 2 == 1 {
                set.insert(index as u8 * 8 + bit);
            }
        }
    }
    set
}
