//! In place of longshot's module of this name: the one constant that the source takes from it.

pub const VARLIST_CAPACITY: usize = 0;
