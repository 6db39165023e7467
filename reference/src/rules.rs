//! The judgement of a book: its form, and then the rules 11 to 19.

use crate::format::{self, Book, Malformed, Set, View};
use crate::model::{self, Order, Right};
use std::fmt;

/// A refusal: its number, its place, and the other view where there is one.
#[derive(Clone, Copy, Debug, PartialEq, Eq)]
pub struct Refusal {
    pub number: u8,
    pub place: usize,
    pub other: Option<u8>,
}

impl From<Malformed> for Refusal {
    fn from(malformed: Malformed) -> Refusal {
        Refusal {
            number: malformed.number,
            place: malformed.place,
            other: None,
        }
    }
}

#[derive(Clone, Copy, Debug, PartialEq, Eq)]
pub enum Judgement {
    Accepted,
    Refused(Refusal),
}

impl fmt::Display for Judgement {
    fn fmt(&self, out: &mut fmt::Formatter) -> fmt::Result {
        let refusal = match self {
            Judgement::Accepted => return write!(out, "book ok"),
            Judgement::Refused(refusal) => refusal,
        };
        write!(out, "book no {} {} ", refusal.number, refusal.place)?;
        match refusal.other {
            Some(other) => write!(out, "{other}"),
            None => write!(out, "-"),
        }
    }
}

pub fn judge(bytes: &[u8]) -> Judgement {
    match accept(bytes) {
        Ok(_) => Judgement::Accepted,
        Err(refusal) => Judgement::Refused(refusal),
    }
}

/// The records of an accepted book.
pub fn accept(bytes: &[u8]) -> Result<Book, Refusal> {
    let book = format::read(bytes)?;
    check_rules(&book)?;
    Ok(book)
}

/// The orders of a book, and the operations of each of its types.
struct Facts {
    types: Order,
    roles: Order,
    views: Order,
    operations: Vec<Set>,
}

impl Facts {
    fn of(book: &Book) -> Facts {
        let types = model::type_order(book);
        let numbers = 0..book.types.len();
        let operations = numbers
            .map(|number| model::operations_of(book, &types, number as u8))
            .collect();
        Facts {
            types,
            roles: model::role_order(book),
            views: model::view_order(book),
            operations,
        }
    }
}

fn check_rules(book: &Book) -> Result<(), Refusal> {
    let facts = Facts::of(book);
    for view in &book.views {
        check_alone(&facts, view).map_err(|number| refusal(number, view, None))?;
        for base in &view.bases {
            let base_view = &book.views[usize::from(*base)];
            check_extension(&facts, view, base_view)
                .map_err(|number| refusal(number, view, Some(*base)))?;
        }
    }
    check_clashes(book, &facts)
}

fn refusal(number: u8, view: &View, other: Option<u8>) -> Refusal {
    Refusal {
        number,
        place: view.place,
        other,
    }
}

/// Rules 11 to 14: a view by itself.
fn check_alone(facts: &Facts, view: &View) -> Result<(), u8> {
    let operations = view.all_operations();
    if operations
        .iter()
        .any(|operation| view.rights_for(*operation).len() > 1)
    {
        return Err(11);
    }
    if !operations.is_subset(&facts.operations[usize::from(view.controlled)]) {
        return Err(12);
    }
    if view.is_assignable && view.has_denial() {
        return Err(13);
    }
    if view.is_virtual && !operations.is_empty() {
        return Err(14);
    }
    Ok(())
}

/// Rules 15 to 18: a view against one of its base views.
fn check_extension(facts: &Facts, view: &View, base: &View) -> Result<(), u8> {
    if !facts.types.at_or_below(view.controlled, base.controlled) {
        return Err(15);
    }
    if !keeps_restriction(&facts.roles, view, base) {
        return Err(16);
    }
    if !base.required.is_subset(&view.required) || (base.is_static && !view.is_static) {
        return Err(17);
    }
    if !keeps_rights(view, base) {
        return Err(18);
    }
    Ok(())
}

fn keeps_restriction(roles: &Order, view: &View, base: &View) -> bool {
    if base.restriction.is_empty() {
        return true;
    }
    let is_covered = |role: &u8| {
        base.restriction
            .iter()
            .any(|upper| roles.at_or_below(*role, *upper))
    };
    !view.restriction.is_empty() && view.restriction.iter().all(is_covered)
}

fn keeps_rights(view: &View, base: &View) -> bool {
    let operations = &view.all_operations() | &base.all_operations();
    operations.iter().all(|operation| {
        let inherited = base.right_for(*operation);
        may_become(inherited, view.right_for(*operation))
    })
}

/// Whether a view may have `own` where its base has `inherited`.
pub fn may_become(inherited: Option<Right>, own: Option<Right>) -> bool {
    let Some(inherited) = inherited else {
        return !own.is_some_and(Right::is_denial);
    };
    let Some(own) = own else {
        return false;
    };
    match inherited {
        Right::WeakDenial => true,
        Right::WeakPermission => !own.is_denial(),
        Right::StrongPermission | Right::StrongDenial => own == inherited,
    }
}

/// Rule 19, over all pairs of views.
fn check_clashes(book: &Book, facts: &Facts) -> Result<(), Refusal> {
    for first in 0..book.views.len() {
        for second in first + 1..book.views.len() {
            if clash(book, facts, first, second) {
                return Err(refusal(19, &book.views[first], Some(second as u8)));
            }
        }
    }
    Ok(())
}

fn clash(book: &Book, facts: &Facts, first: usize, second: usize) -> bool {
    let (one, other) = (&book.views[first], &book.views[second]);
    let (first, second) = (first as u8, second as u8);
    let related = facts.views.at_or_below(first, second) || facts.views.at_or_below(second, first);
    !related
        && facts.types.meet_below(one.controlled, other.controlled)
        && (opposes(one, other) || opposes(other, one))
}

/// Whether one view strongly permits what the other strongly denies.
fn opposes(one: &View, other: &View) -> bool {
    !one.strong_permissions.is_disjoint(&other.strong_denials)
}
