//! What the records of a book mean: orders, operations, rights.

use crate::format::{Book, Set, View};

/// The least reflexive and transitive relation over links from each number to the ones above it.
pub struct Order {
    above: Vec<Set>,
}

impl Order {
    pub fn of(links: Vec<Set>) -> Order {
        let mut above = links;
        for (number, set) in above.iter_mut().enumerate() {
            set.insert(number as u8);
        }
        let mut order = Order { above };
        while order.add_step() {}
        order
    }

    /// Adds all that lies two steps above; whether anything was new.
    fn add_step(&mut self) -> bool {
        let mut changed = false;
        for number in 0..self.above.len() {
            let nearer = self.above[number].clone();
            let before = nearer.len();
            for middle in nearer {
                let further = self.above[usize::from(middle)].clone();
                self.above[number].extend(further);
            }
            changed |= self.above[number].len() > before;
        }
        changed
    }

    /// All numbers that `number` is at or below.
    pub fn above(&self, number: u8) -> &Set {
        &self.above[usize::from(number)]
    }

    pub fn at_or_below(&self, lower: u8, upper: u8) -> bool {
        self.above(lower).contains(&upper)
    }

    /// Whether some number is at or below both.
    pub fn meet_below(&self, one: u8, other: u8) -> bool {
        self.above
            .iter()
            .any(|above| above.contains(&one) && above.contains(&other))
    }
}

pub fn type_order(book: &Book) -> Order {
    Order::of(book.types.iter().map(|it| it.supertypes.clone()).collect())
}

pub fn role_order(book: &Book) -> Order {
    Order::of(book.roles.iter().map(|it| it.superroles.clone()).collect())
}

pub fn view_order(book: &Book) -> Order {
    Order::of(book.views.iter().map(|it| it.bases.clone()).collect())
}

/// A type's own operations and those of all types above it.
pub fn operations_of(book: &Book, types: &Order, number: u8) -> Set {
    let above = types.above(number).iter();
    above
        .flat_map(|upper| book.types[usize::from(*upper)].operations.clone())
        .collect()
}

#[derive(Clone, Copy, Debug, PartialEq, Eq)]
pub enum Right {
    WeakPermission,
    StrongPermission,
    WeakDenial,
    StrongDenial,
}

pub const RIGHTS: [Right; 4] = [
    Right::WeakPermission,
    Right::StrongPermission,
    Right::WeakDenial,
    Right::StrongDenial,
];

impl Right {
    pub fn is_denial(self) -> bool {
        matches!(self, Right::WeakDenial | Right::StrongDenial)
    }
}

impl View {
    /// The operations for which the view has this right.
    pub fn operations(&self, right: Right) -> &Set {
        match right {
            Right::WeakPermission => &self.weak_permissions,
            Right::StrongPermission => &self.strong_permissions,
            Right::WeakDenial => &self.weak_denials,
            Right::StrongDenial => &self.strong_denials,
        }
    }

    /// The rights that the view has for an operation.
    pub fn rights_for(&self, operation: u8) -> Vec<Right> {
        let has = |right: &Right| self.operations(*right).contains(&operation);
        RIGHTS.into_iter().filter(has).collect()
    }

    /// The view's only right for an operation, where it has at most one.
    pub fn right_for(&self, operation: u8) -> Option<Right> {
        self.rights_for(operation).first().copied()
    }

    /// All operations for which the view has a right.
    pub fn all_operations(&self) -> Set {
        let sets = RIGHTS.into_iter().map(|right| self.operations(right));
        sets.flatten().copied().collect()
    }

    pub fn has_denial(&self) -> bool {
        !self.weak_denials.is_empty() || !self.strong_denials.is_empty()
    }
}
