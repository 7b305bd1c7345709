//! What stores the made runs leave, and which mistakes in the order of store lines show in their texts.

use crate::machine::Entry;
use crate::row::limit;
use std::cmp::Reverse;

/// An order that store lines do not have, and whether entries in the right order stand in it too.
type OtherOrder = (&'static str, fn(&[Entry]) -> bool);

pub const OTHER_ORDERS: [OtherOrder; 8] = [
    ("newest first", |entries| entries.is_sorted_by_key(|one| Reverse(one.made))),
    ("oldest first", |entries| entries.is_sorted_by_key(|one| one.made)),
    ("with addresses as decimal strings", |entries| entries.is_sorted_by_key(|one| (one.of, one.address.to_string()))),
    ("by address before type", |entries| entries.is_sorted_by_key(|one| (one.address, one.of))),
    ("with types as decimal strings", |entries| entries.is_sorted_by_key(|one| (one.of.to_string(), one.address))),
    ("with addresses as signed numbers", |entries| entries.is_sorted_by_key(|one| (one.of, one.address as i64))),
    ("with addresses cut to 32 bits", |entries| entries.is_sorted_by_key(|one| (one.of, one.address as u32))),
    ("with the lowest byte of addresses first", |entries| {
        entries.is_sorted_by_key(|one| (one.of, one.address.swap_bytes()))
    }),
];

/// Counts over the stores that runs leave.
#[derive(Clone, Debug, Default)]
pub struct StoreCounts {
    /// With no store line, one, two, three or more.
    pub by_lines: [u64; 4],
    /// With three or more lines of two or more types.
    pub several_types: u64,
    /// With as many entries as the store can have.
    pub full: u64,
    /// Whose lines stand neither newest nor oldest first. They are three or more.
    pub mixed: u64,
    /// Such ones of two or more types.
    pub mixed_types: u64,
    /// For each of `OTHER_ORDERS`: whose lines would stand otherwise.
    pub otherwise: [u64; OTHER_ORDERS.len()],
}

impl StoreCounts {
    pub fn add(&mut self, store: &[Entry]) {
        let mut entries = store.to_vec();
        entries.sort_unstable_by_key(|entry| (entry.of, entry.address));
        let otherwise = OTHER_ORDERS.map(|(_, stand_in)| !stand_in(&entries));
        let several = entries.len() >= 3 && entries[0].of != entries[entries.len() - 1].of;
        let mixed = otherwise[0] && otherwise[1];
        self.by_lines[entries.len().min(3)] += 1;
        self.several_types += u64::from(several);
        self.full += u64::from(entries.len() == limit::ENTRIES);
        self.mixed += u64::from(mixed);
        self.mixed_types += u64::from(mixed && several);
        for (count, otherwise) in self.otherwise.iter_mut().zip(otherwise) {
            *count += u64::from(otherwise);
        }
    }

    /// A line for each count.
    pub fn lines(&self) -> String {
        let mut lines = String::new();
        let mut put = |what: &str, count: u64| lines.push_str(&format!("  {what}: {count}\n"));
        for (lines, count) in ["no store line", "one", "two", "three or more"].into_iter().zip(self.by_lines) {
            put(&format!("texts with {lines}"), count);
        }
        put("texts with three or more, of two or more types", self.several_types);
        put("texts with 64", self.full);
        for ((name, _), count) in OTHER_ORDERS.iter().zip(self.otherwise) {
            put(&format!("texts not the same {name}"), count);
        }
        put("texts the same neither newest nor oldest first", self.mixed);
        put("texts the same neither newest nor oldest first, of two or more types", self.mixed_types);
        lines
    }
}
