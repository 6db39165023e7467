//! Random books that keep every rule.

use super::builder::all_below;
use crate::format::{Book, Group, Role, Set, Subject, Type, View};
use crate::model::{self, Order, Right, RIGHTS};
use crate::random::Random;
use crate::rules::may_become;

/// How many records of each kind, and how many operations are in use.
#[derive(Clone, Copy)]
pub struct Sizes {
    pub types: usize,
    pub roles: usize,
    pub groups: usize,
    pub views: usize,
    pub subjects: usize,
    pub operations: usize,
}

impl Sizes {
    pub fn small(random: &mut Random) -> Sizes {
        Sizes {
            types: random.between(1, 3),
            roles: random.between(0, 3),
            groups: random.between(0, 1),
            views: random.between(1, 4),
            subjects: random.between(0, 1),
            operations: random.between(1, 4),
        }
    }

    pub fn medium(random: &mut Random) -> Sizes {
        Sizes {
            types: random.between(2, 6),
            roles: random.between(1, 5),
            groups: random.between(0, 3),
            views: random.between(3, 8),
            subjects: random.between(0, 3),
            operations: random.between(2, 6),
        }
    }
}

pub fn grow(random: &mut Random, sizes: Sizes) -> Book {
    let mut book = Book::default();
    let operations = pick_operations(random, sizes.operations);
    for number in 0..sizes.types {
        let supertypes = links(random, number);
        let own = random.subset(&operations, if number == 0 { 70 } else { 35 });
        book.types.push(Type {
            supertypes,
            operations: own,
        });
    }
    for number in 0..sizes.roles {
        let superroles = links(random, number);
        book.roles.push(Role { superroles });
    }
    add_people(random, &mut book, sizes);
    let orders = Orders::of(&book);
    for _ in 0..sizes.views {
        let view = grow_view(random, &book, &orders);
        book.views.push(view);
    }
    book
}

fn add_people(random: &mut Random, book: &mut Book, sizes: Sizes) {
    for number in 0..sizes.groups {
        let supergroups = links(random, number);
        let roles = random.subset(&all_below(sizes.roles), 40);
        book.groups.push(Group { supergroups, roles });
    }
    for _ in 0..sizes.subjects {
        let groups = random.subset(&all_below(sizes.groups), 40);
        book.subjects.push(Subject { groups });
    }
}

fn pick_operations(random: &mut Random, count: usize) -> Set {
    let mut operations = Set::new();
    while operations.len() < count {
        operations.insert(random.below(64) as u8);
    }
    operations
}

/// None, one or a few of the numbers below `number`.
fn links(random: &mut Random, number: usize) -> Set {
    let mut links = Set::new();
    if number == 0 {
        return links;
    }
    let count = [0, 0, 1, 1, 1, 2, 2, 3][random.below(8)];
    for _ in 0..count {
        links.insert(random.below(number) as u8);
    }
    links
}

/// The orders that do not change while views are added.
struct Orders {
    types: Order,
    roles: Order,
}

impl Orders {
    fn of(book: &Book) -> Orders {
        Orders {
            types: model::type_order(book),
            roles: model::role_order(book),
        }
    }
}

/// A view that may follow the book's views: with random bases where some are possible.
fn grow_view(random: &mut Random, book: &Book, orders: &Orders) -> View {
    for _ in 0..6 {
        let bases = links(random, book.views.len());
        if let Some(view) = extend(random, book, orders, bases) {
            return view;
        }
    }
    let alone = extend(random, book, orders, Set::new());
    alone.unwrap_or_default()
}

fn extend(random: &mut Random, book: &Book, orders: &Orders, bases: Set) -> Option<View> {
    let above: Vec<&View> = bases
        .iter()
        .map(|base| &book.views[usize::from(*base)])
        .collect();
    let mut view = View {
        controlled: pick_type(random, book, orders, &above)?,
        restriction: pick_restriction(random, book, orders, &above)?,
        required: pick_required(random, book, &above),
        is_static: above.iter().any(|base| base.is_static) || random.chance(12),
        ..View::default()
    };
    add_rights(random, book, orders, &above, &mut view)?;
    view.bases = bases;
    view.is_assignable = !view.has_denial() && random.chance(35);
    view.is_virtual = view.all_operations().is_empty() && random.chance(60);
    Some(view)
}

fn pick_type(random: &mut Random, book: &Book, orders: &Orders, above: &[&View]) -> Option<u8> {
    let fits = |it: &u8| {
        above
            .iter()
            .all(|base| orders.types.at_or_below(*it, base.controlled))
    };
    let fitting: Set = all_below(book.types.len())
        .into_iter()
        .filter(fits)
        .collect();
    random.pick_member(&fitting)
}

fn pick_restriction(
    random: &mut Random,
    book: &Book,
    orders: &Orders,
    above: &[&View],
) -> Option<Set> {
    let under = |role: u8, base: &View| {
        base.restriction
            .iter()
            .any(|upper| orders.roles.at_or_below(role, *upper))
    };
    let fits = |role: &u8| {
        above
            .iter()
            .all(|base| base.restriction.is_empty() || under(*role, base))
    };
    let fitting: Set = all_below(book.roles.len())
        .into_iter()
        .filter(fits)
        .collect();
    let is_free = above.iter().all(|base| base.restriction.is_empty());
    if is_free {
        return Some(if random.chance(30) {
            random.subset(&fitting, 50)
        } else {
            Set::new()
        });
    }
    let mut restriction = random.subset(&fitting, 50);
    restriction.insert(random.pick_member(&fitting)?);
    Some(restriction)
}

fn pick_required(random: &mut Random, book: &Book, above: &[&View]) -> Set {
    let mut required: Set = above
        .iter()
        .flat_map(|base| base.required.clone())
        .collect();
    if random.chance(20) {
        required.extend(random.subset(&all_below(book.views.len()), 35));
    }
    required
}

/// Gives the view a right for some operations of its type, as its bases and the earlier views
/// allow; nothing if they leave no choice for an operation.
fn add_rights(
    random: &mut Random,
    book: &Book,
    orders: &Orders,
    above: &[&View],
    view: &mut View,
) -> Option<()> {
    let few = random.chance(25);
    for operation in model::operations_of(book, &orders.types, view.controlled) {
        let fits = |own: Option<Right>| {
            above
                .iter()
                .all(|base| may_become(base.right_for(operation), own))
        };
        let is_free = |right: Right| !is_opposed(book, orders, view.controlled, operation, right);
        let mut choices: Vec<Option<Right>> = RIGHTS
            .into_iter()
            .filter(|right| fits(Some(*right)) && is_free(*right))
            .map(Some)
            .collect();
        if fits(None) && (few || random.chance(40)) {
            choices = vec![None];
        }
        let chosen = random.pick(&choices)?;
        set_right(view, operation, chosen);
    }
    Some(())
}

/// Whether an earlier view has the opposite strong right on a type that meets this one.
fn is_opposed(book: &Book, orders: &Orders, controlled: u8, operation: u8, right: Right) -> bool {
    let opposite = match right {
        Right::StrongPermission => Right::StrongDenial,
        Right::StrongDenial => Right::StrongPermission,
        _ => return false,
    };
    book.views.iter().any(|earlier| {
        earlier.operations(opposite).contains(&operation)
            && orders.types.meet_below(earlier.controlled, controlled)
    })
}

/// Makes `right` the view's only right for an operation.
pub fn set_right(view: &mut View, operation: u8, right: Option<Right>) {
    for each in RIGHTS {
        view.operations_mut(each).remove(&operation);
    }
    if let Some(right) = right {
        view.operations_mut(right).insert(operation);
    }
}

impl View {
    pub fn operations_mut(&mut self, right: Right) -> &mut Set {
        match right {
            Right::WeakPermission => &mut self.weak_permissions,
            Right::StrongPermission => &mut self.strong_permissions,
            Right::WeakDenial => &mut self.weak_denials,
            Right::StrongDenial => &mut self.strong_denials,
        }
    }
}
