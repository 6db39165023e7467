//! Short ways to write records.

use crate::format::{Book, Group, Role, Set, Subject, Type, View};

pub fn set(members: &[u8]) -> Set {
    members.iter().copied().collect()
}

/// The numbers below `bound`.
pub fn all_below(bound: usize) -> Set {
    (0..bound).map(|number| number as u8).collect()
}

pub fn view(controlled: u8) -> View {
    View {
        controlled,
        ..View::default()
    }
}

impl View {
    pub fn extends(mut self, bases: &[u8]) -> View {
        self.bases = set(bases);
        self
    }

    pub fn requires(mut self, required: &[u8]) -> View {
        self.required = set(required);
        self
    }

    pub fn restricted(mut self, roles: &[u8]) -> View {
        self.restriction = set(roles);
        self
    }

    pub fn assignable(mut self) -> View {
        self.is_assignable = true;
        self
    }

    pub fn only_virtual(mut self) -> View {
        self.is_virtual = true;
        self
    }

    pub fn only_static(mut self) -> View {
        self.is_static = true;
        self
    }

    pub fn permits(mut self, operations: &[u8]) -> View {
        self.weak_permissions = set(operations);
        self
    }

    pub fn permits_strongly(mut self, operations: &[u8]) -> View {
        self.strong_permissions = set(operations);
        self
    }

    pub fn denies(mut self, operations: &[u8]) -> View {
        self.weak_denials = set(operations);
        self
    }

    pub fn denies_strongly(mut self, operations: &[u8]) -> View {
        self.strong_denials = set(operations);
        self
    }
}

/// A book to which records are added one after the other.
impl Book {
    pub fn with_type(mut self, supertypes: &[u8], operations: &[u8]) -> Book {
        self.types.push(Type {
            supertypes: set(supertypes),
            operations: set(operations),
        });
        self
    }

    pub fn with_role(mut self, superroles: &[u8]) -> Book {
        self.roles.push(Role {
            superroles: set(superroles),
        });
        self
    }

    pub fn with_group(mut self, supergroups: &[u8], roles: &[u8]) -> Book {
        self.groups.push(Group {
            supergroups: set(supergroups),
            roles: set(roles),
        });
        self
    }

    pub fn with_view(mut self, view: View) -> Book {
        self.views.push(view);
        self
    }

    pub fn with_subject(mut self, groups: &[u8]) -> Book {
        self.subjects.push(Subject {
            groups: set(groups),
        });
        self
    }
}
