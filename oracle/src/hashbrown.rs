//! In place of hashbrown: the standard library's map (the same algorithm), with a short hash as hashbrown has.

use std::collections;
use std::hash::{BuildHasherDefault, Hash, Hasher};
use std::ops::{Deref, DerefMut};

/// One rotation and one product a number.
#[derive(Default)]
pub struct ShortHasher(u64);

impl ShortHasher {
    fn mix(&mut self, x: u64) {
        self.0 = (self.0.rotate_left(5) ^ x).wrapping_mul(0x517C_C1B7_2722_0A95);
    }
}

impl Hasher for ShortHasher {
    fn finish(&self) -> u64 {
        self.0
    }

    fn write(&mut self, bytes: &[u8]) {
        for b in bytes {
            self.mix(u64::from(*b));
        }
    }

    fn write_u32(&mut self, x: u32) {
        self.mix(u64::from(x));
    }

    fn write_usize(&mut self, x: usize) {
        self.mix(x as u64);
    }
}

type Inner<K, V> = collections::HashMap<K, V, BuildHasherDefault<ShortHasher>>;

#[derive(Debug, Clone)]
pub struct HashMap<K: Eq + Hash, V>(Inner<K, V>);

impl<K: Eq + Hash, V> HashMap<K, V> {
    pub fn new() -> HashMap<K, V> {
        HashMap(Inner::default())
    }
}

impl<K: Eq + Hash, V> Deref for HashMap<K, V> {
    type Target = Inner<K, V>;
    fn deref(&self) -> &Inner<K, V> {
        &self.0
    }
}

impl<K: Eq + Hash, V> DerefMut for HashMap<K, V> {
    fn deref_mut(&mut self) -> &mut Inner<K, V> {
        &mut self.0
    }
}

impl<'a, K: Eq + Hash, V> IntoIterator for &'a HashMap<K, V> {
    type Item = (&'a K, &'a V);
    type IntoIter = collections::hash_map::Iter<'a, K, V>;
    fn into_iter(self) -> Self::IntoIter {
        self.0.iter()
    }
}
