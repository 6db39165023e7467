//! Changes of a book: each breaks a given rule, or is any small change of one record.

use super::builder::{all_below, view};
use super::grown::set_right;
use crate::format::{Book, Set, Type, View};
use crate::model::{self, Right, RIGHTS};
use crate::random::Random;
use crate::rules::may_become;

/// Tries to break a rule; nothing if the book has no view where it could be broken.
pub fn break_rule(random: &mut Random, book: &mut Book, number: u8) -> Option<()> {
    match number {
        11 => double_right(random, book),
        12 => foreign_right(random, book),
        13 => assignable_denial(random, book),
        14 => virtual_right(random, book),
        15 => unrelated_type(random, book),
        16 => wider_restriction(random, book),
        17 => lost_requirement(random, book),
        18 => wrong_right(random, book),
        19 => opposite_rights(random, book),
        _ => None,
    }
}

/// The number of a random view for which `fits` holds.
fn pick_view(random: &mut Random, book: &Book, fits: impl Fn(&View) -> bool) -> Option<usize> {
    let numbers: Vec<usize> = (0..book.views.len())
        .filter(|number| fits(&book.views[*number]))
        .collect();
    random.pick(&numbers)
}

/// A random view that has a base, and one of its bases.
fn pick_extension(random: &mut Random, book: &Book) -> Option<(usize, usize)> {
    let number = pick_view(random, book, |it| !it.bases.is_empty())?;
    let base = random.pick_member(&book.views[number].bases)?;
    Some((number, usize::from(base)))
}

fn has_rights(it: &View) -> bool {
    !it.all_operations().is_empty()
}

fn operations_of(book: &Book, controlled: u8) -> Set {
    model::operations_of(book, &model::type_order(book), controlled)
}

fn double_right(random: &mut Random, book: &mut Book) -> Option<()> {
    let number = pick_view(random, book, has_rights)?;
    let operation = random.pick_member(&book.views[number].all_operations())?;
    let held = book.views[number].rights_for(operation);
    let others: Vec<Right> = RIGHTS.into_iter().filter(|it| !held.contains(it)).collect();
    let right = random.pick(&others)?;
    book.views[number].operations_mut(right).insert(operation);
    Some(())
}

fn foreign_right(random: &mut Random, book: &mut Book) -> Option<()> {
    let number = pick_view(random, book, |_| true)?;
    let known = operations_of(book, book.views[number].controlled);
    let mut foreign: Set = book
        .types
        .iter()
        .flat_map(|it| it.operations.clone())
        .collect();
    foreign.insert(random.below(64) as u8);
    let operation = random.pick_member(&(&foreign - &known))?;
    let right = random.pick(&RIGHTS)?;
    book.views[number].operations_mut(right).insert(operation);
    Some(())
}

fn assignable_denial(random: &mut Random, book: &mut Book) -> Option<()> {
    if random.chance(50) {
        let number = pick_view(random, book, View::has_denial)?;
        book.views[number].is_assignable = true;
        return Some(());
    }
    let number = pick_view(random, book, |it| it.is_assignable)?;
    let operation = random.pick_member(&operations_of(book, book.views[number].controlled))?;
    let right = random.pick(&[Right::WeakDenial, Right::StrongDenial]);
    set_right(&mut book.views[number], operation, right);
    Some(())
}

fn virtual_right(random: &mut Random, book: &mut Book) -> Option<()> {
    if random.chance(50) {
        let number = pick_view(random, book, has_rights)?;
        book.views[number].is_virtual = true;
        return Some(());
    }
    let number = pick_view(random, book, |it| it.is_virtual)?;
    let operation = random.pick_member(&operations_of(book, book.views[number].controlled))?;
    let right = random.pick(&RIGHTS);
    set_right(&mut book.views[number], operation, right);
    Some(())
}

fn unrelated_type(random: &mut Random, book: &mut Book) -> Option<()> {
    let (number, base) = pick_extension(random, book)?;
    let upper = book.views[base].controlled;
    let types = model::type_order(book);
    let wrong = |it: &u8| !types.at_or_below(*it, upper);
    let wrong: Set = all_below(book.types.len())
        .into_iter()
        .filter(wrong)
        .collect();
    book.views[number].controlled = random.pick_member(&wrong)?;
    Some(())
}

fn wider_restriction(random: &mut Random, book: &mut Book) -> Option<()> {
    let (number, base) = pick_extension(random, book)?;
    let roles = all_below(book.roles.len());
    match random.below(3) {
        0 => book.views[number].restriction.clear(),
        1 => {
            let role = random.pick_member(&roles)?;
            book.views[number].restriction.insert(role);
        }
        _ => {
            let role = random.pick_member(&roles)?;
            book.views[base].restriction = [role].into_iter().collect();
        }
    }
    Some(())
}

fn lost_requirement(random: &mut Random, book: &mut Book) -> Option<()> {
    let (number, base) = pick_extension(random, book)?;
    match random.below(4) {
        0 => {
            let required = random.pick_member(&book.views[base].required)?;
            book.views[number].required.remove(&required);
        }
        1 => {
            let required = random.pick_member(&all_below(base))?;
            book.views[base].required.insert(required);
        }
        2 => book.views[number].is_static = false,
        _ => book.views[base].is_static = true,
    }
    Some(())
}

fn wrong_right(random: &mut Random, book: &mut Book) -> Option<()> {
    let (number, base) = pick_extension(random, book)?;
    let operation = random.pick_member(&operations_of(book, book.views[number].controlled))?;
    let inherited = book.views[base].right_for(operation);
    let mut choices: Vec<Option<Right>> = RIGHTS.into_iter().map(Some).collect();
    choices.push(None);
    choices.retain(|own| !may_become(inherited, *own));
    let wrong = random.pick(&choices)?;
    set_right(&mut book.views[number], operation, wrong);
    Some(())
}

/// Opposite strong rights of two views, one or both of them new.
fn opposite_rights(random: &mut Random, book: &mut Book) -> Option<()> {
    let types = all_below(book.types.len());
    let one = random.pick_member(&types)?;
    let other = random.pick_member(&types)?;
    let operation = random.below(64) as u8;
    if random.chance(40) && book.types.len() < 64 {
        book.types.push(Type {
            supertypes: [one, other].into_iter().collect(),
            operations: Set::new(),
        });
    }
    for number in [one, other] {
        book.types[usize::from(number)].operations.insert(operation);
    }
    let mut pair = [
        view(one).permits_strongly(&[operation]),
        view(other).denies_strongly(&[operation]),
    ];
    if random.chance(50) {
        pair.swap(0, 1);
    }
    let unused = |it: &View| it.controlled == pair[0].controlled && it.bases.is_empty();
    match pick_view(random, book, unused) {
        Some(number) if random.chance(60) => {
            let right = pair[0].right_for(operation);
            set_right(&mut book.views[number], operation, right);
        }
        _ => book.views.push(pair[0].clone()),
    }
    book.views.push(pair[1].clone());
    Some(())
}

/// Changes one thing of one record.
pub fn change_any(random: &mut Random, book: &mut Book) -> Option<()> {
    if random.chance(20) {
        return change_order(random, book);
    }
    let number = pick_view(random, book, |_| true)?;
    let earlier = all_below(number);
    let types = all_below(book.types.len());
    let roles = all_below(book.roles.len());
    let operations = operations_of(book, book.views[number].controlled);
    let changed = &mut book.views[number];
    match random.below(8) {
        0 => changed.controlled = random.pick_member(&types)?,
        1 => toggle(&mut changed.bases, random.pick_member(&earlier)?),
        2 => toggle(&mut changed.required, random.pick_member(&earlier)?),
        3 => toggle(&mut changed.restriction, random.pick_member(&roles)?),
        4 => change_modifier(random, changed),
        5 => toggle(
            changed.operations_mut(random.pick(&RIGHTS)?),
            random.below(64) as u8,
        ),
        _ => {
            let operation = random.pick_member(&operations)?;
            let right = random.pick(&RIGHTS);
            set_right(changed, operation, right);
        }
    }
    Some(())
}

fn change_modifier(random: &mut Random, changed: &mut View) {
    match random.below(3) {
        0 => changed.is_assignable = !changed.is_assignable,
        1 => changed.is_virtual = !changed.is_virtual,
        _ => changed.is_static = !changed.is_static,
    }
}

/// Changes a link of a type or role, or an operation of a type.
fn change_order(random: &mut Random, book: &mut Book) -> Option<()> {
    match random.below(3) {
        0 => {
            let number = random.below(book.types.len());
            let upper = random.pick_member(&all_below(number))?;
            toggle(&mut book.types[number].supertypes, upper);
        }
        1 => {
            let number = random.pick_member(&all_below(book.roles.len()))?;
            let upper = random.pick_member(&all_below(usize::from(number)))?;
            toggle(&mut book.roles[usize::from(number)].superroles, upper);
        }
        _ => {
            let number = random.below(book.types.len());
            let operation = random.pick_member(&book.types[number].operations)?;
            toggle(&mut book.types[number].operations, operation);
        }
    }
    Some(())
}

fn toggle(set: &mut Set, number: u8) {
    if !set.remove(&number) {
        set.insert(number);
    }
}
