//! Runs whose store holds keys of several types. A table has procedures for some of its types, in several modules; calls
//! publish their records in every order, withdraw some and publish them again, with stopped calls among them.

use super::kit::less_one;
use super::plan::{asm::*, Code, Plan, ProcPlan};
use super::rng::Rng;
use crate::program::Sort;
use crate::row::{limit, ROW_BYTES};

const N: Sort = Sort::Number;

/// Their order is not that of their decimal strings, of signed numbers, of their low halves, or of their bytes from the
/// lowest.
const ADDRESSES: [u64; 26] = [
    0,
    1,
    2,
    9,
    10,
    11,
    99,
    100,
    101,
    255,
    256,
    257,
    65_535,
    65_536,
    9_999_999_999,
    1 << 31,
    (1 << 32) - 1,
    1 << 32,
    (1 << 32) + 1,
    (1 << 32) + 10,
    1 << 56,
    (1 << 63) - 1,
    1 << 63,
    (1 << 63) + 9,
    u64::MAX - 1,
    u64::MAX,
];

/// Different addresses; in half of the cases 0, 9, 10 and the highest are among them.
pub fn addresses(rng: &mut Rng, count: usize) -> Vec<u64> {
    let mut addresses = if rng.chance(50) { vec![0, 9, 10, u64::MAX] } else { Vec::new() };
    while addresses.len() < count {
        let one = match rng.below(8) {
            0 => rng.draw(),
            1 => rng.within(80, 120) as u64,
            _ => rng.pick(&ADDRESSES),
        };
        if !addresses.contains(&one) {
            addresses.push(one);
        }
    }
    addresses
}

/// The procedures of a type. Arguments are numbers where not said otherwise; `x` is a number that 1 is taken from at
/// the end, so that 0 stops the call there.
#[derive(Clone, Copy, Debug)]
#[repr(u16)]
enum Deed {
    /// value: makes a record.
    Make,
    /// record: breaks it up.
    Break,
    /// address, value: publishes.
    Put,
    /// address: withdraws and breaks up.
    Take,
    /// from, to: withdraws and publishes again.
    Shift,
    /// address, value: writes into the published record.
    Write,
    /// address, value, x
    PutStop,
    /// address, x
    TakeStop,
    /// from, to, x
    ShiftStop,
}

/// In the order of their numbers.
const DEEDS: [Deed; 9] = [
    Deed::Make,
    Deed::Break,
    Deed::Put,
    Deed::Take,
    Deed::Shift,
    Deed::Write,
    Deed::PutStop,
    Deed::TakeStop,
    Deed::ShiftStop,
];

/// A type's place among those with procedures, and an address. Places rise as the types do.
type Key = (usize, u64);

/// Number of a procedure of the type at this place.
fn number(place: usize, deed: Deed) -> u16 {
    (place * DEEDS.len()) as u16 + deed as u16
}

fn value(rng: &mut Rng) -> u64 {
    match rng.below(4) {
        0 => rng.draw(),
        _ => rng.below(1_000) as u64,
    }
}

/// A table and calls over it.
pub struct Depot {
    pub plan: Plan,
    /// A procedure and its arguments.
    pub calls: Vec<(u16, Vec<u64>)>,
    /// The types with procedures, rising.
    types: Vec<u16>,
    /// How many records one of each of them is, itself included.
    records: Vec<usize>,
    /// The keys of the store if every call ends as it is meant to.
    present: Vec<Key>,
}

// The table.

impl Depot {
    /// Two types or more have procedures. One record and those in it are at most `records`.
    fn new(rng: &mut Rng, records: usize) -> Depot {
        let (count, chosen) = choose_types(rng);
        let modules = rng.within(1, 5);
        let mut homes: Vec<usize> = (0..count).map(|_| rng.below(modules)).collect();
        homes.sort_unstable();
        // The last module has no types: it publishes through the others.
        let plan = Plan { trusted: (0..=modules).map(|_| rng.chance(60)).collect(), ..Plan::default() };
        let mut depot = Depot { plan, calls: vec![], types: vec![], records: vec![], present: vec![] };
        for (of, home) in homes.into_iter().enumerate() {
            if chosen.contains(&of) {
                depot.add_type(rng, home, records);
            } else {
                depot.plan.add_type(home, &vec![(N, false); rng.below(3)]);
            }
        }
        for place in 0..depot.types.len() {
            for deed in DEEDS {
                let procedure = depot.procedure(rng, place, deed);
                depot.plan.add_proc(procedure);
            }
        }
        depot
    }

    /// A type of numbers and of records of the types before it.
    fn add_type(&mut self, rng: &mut Rng, home: usize, most: usize) {
        let mut fields = Vec::new();
        let mut records = 1;
        for _ in 0..rng.below(5) {
            let inner = rng.below(self.types.len() + 1);
            if rng.chance(60) && inner < self.types.len() && records + self.records[inner] <= most {
                records += self.records[inner];
                fields.push((Sort::Record(self.types[inner] as u8), false));
            } else {
                fields.push((N, self.plan.trusted[home] && rng.chance(40)));
            }
        }
        let of = self.plan.add_type(home, &fields);
        self.types.push(of);
        self.records.push(records);
    }

    fn procedure(&self, rng: &mut Rng, place: usize, deed: Deed) -> ProcPlan {
        let of = self.types[place];
        let record = Sort::Record(of as u8);
        let to = |deed: Deed| call(number(place, deed));
        let (params, results, code) = match deed {
            Deed::Make => (vec![N], vec![record], self.make(rng, of)),
            Deed::Break => (vec![record], vec![], self.break_up(of)),
            Deed::Put => (vec![N; 2], vec![], vec![mv(1), to(Deed::Make), mv(0), move_to(of), ret()]),
            Deed::Take => (vec![N], vec![], vec![mv(0), move_from(of), to(Deed::Break), ret()]),
            Deed::Shift => (vec![N; 2], vec![], vec![mv(0), move_from(of), mv(1), move_to(of), ret()]),
            Deed::Write => (vec![N; 2], vec![], self.write_into(of)),
            Deed::PutStop => (vec![N; 3], vec![], stopping(2, to(Deed::Put))),
            Deed::TakeStop => (vec![N; 2], vec![], stopping(1, to(Deed::Take))),
            Deed::ShiftStop => (vec![N; 3], vec![], stopping(2, to(Deed::Shift))),
        };
        ProcPlan {
            module: self.plan.types[usize::from(of)].module,
            public: true,
            params,
            others: vec![],
            results,
            code,
        }
    }

    /// The sorts of a type's fields.
    fn fields(&self, of: u16) -> impl DoubleEndedIterator<Item = Sort> + '_ {
        self.plan.types[usize::from(of)].fields.iter().map(|field| field.sort)
    }

    /// A call for a record inside another.
    fn inside(&self, of: u8, deed: Deed) -> Code {
        let place = self.types.iter().position(|&one| one == u16::from(of));
        call(number(place.expect("a nested record's type has procedures"), deed))
    }

    fn make(&self, rng: &mut Rng, of: u16) -> Vec<Code> {
        let mut code = Vec::new();
        for sort in self.fields(of) {
            match sort {
                Sort::Record(inner) => code.extend([cp(0), self.inside(inner, Deed::Make)]),
                _ if rng.chance(60) => code.push(cp(0)),
                _ => code.push(load(rng.below(100) as u64)),
            }
        }
        code.extend([pack(of), ret()]);
        code
    }

    fn break_up(&self, of: u16) -> Vec<Code> {
        let mut code = vec![mv(0), unpack(of)];
        code.extend(self.fields(of).rev().map(|sort| match sort {
            Sort::Record(inner) => self.inside(inner, Deed::Break),
            _ => pop(),
        }));
        code.push(ret());
        code
    }

    /// Writes the first number; of a record without numbers it asks for the key only.
    fn write_into(&self, of: u16) -> Vec<Code> {
        match self.fields(of).position(|sort| sort == N) {
            Some(place) => vec![mv(1), mv(0), global(of), field(of, place as u16), write(), ret()],
            None => vec![mv(0), global(of), pop(), ret()],
        }
    }

    /// A procedure that publishes the keys in turn; some are withdrawn and published again in it. Its argument is `x`.
    fn add_batch(&mut self, rng: &mut Rng, keys: &[Key]) -> u16 {
        let put = |(place, address): Key, value: u64| [load(address), load(value), call(number(place, Deed::Put))];
        let take = |(place, address): Key| [load(address), call(number(place, Deed::Take))];
        let mut code = Vec::new();
        for (at, &key) in keys.iter().enumerate() {
            code.extend(put(key, value(rng)));
            if rng.chance(25) {
                let again = rng.pick(&keys[..=at]);
                code.extend(take(again));
                code.extend(put(again, value(rng)));
            }
        }
        code.extend(less_one(0));
        code.push(ret());
        let module = self.plan.trusted.len() - 1;
        self.plan.add_proc(ProcPlan { module, public: true, params: vec![N], code, ..ProcPlan::default() })
    }
}

/// How many types a table has, and which of them have procedures: two or more.
fn choose_types(rng: &mut Rng) -> (usize, Vec<usize>) {
    let count = match rng.below(10) {
        0..=4 => rng.within(2, 6),
        5..=7 => rng.within(11, 20),
        _ => limit::TYPES,
    };
    let mut all: Vec<usize> = (0..count).collect();
    rng.shuffle(&mut all);
    let mut chosen = all[..rng.within(2, 5.min(count))].to_vec();
    if count > 10 && rng.chance(50) {
        chosen.extend([9, 10]);
    }
    (count, chosen)
}

/// Gives the parameters to a procedure of its module, then takes 1 from the last one.
fn stopping(params: u16, to: Code) -> Vec<Code> {
    (0..params).map(mv).chain([to]).chain(less_one(params)).chain([ret()]).collect()
}

// The calls.

/// What stands between calls that publish.
#[derive(Clone, Copy, PartialEq, Eq)]
enum Between {
    /// Calls that leave the keys as they were.
    Quiet,
    /// Others too.
    Any,
}

impl Depot {
    /// Different keys of these addresses: rising, falling or, mostly, in any order.
    fn some_keys(&self, rng: &mut Rng, addresses: &[u64], count: usize) -> Vec<Key> {
        let of_place = |place| addresses.iter().map(move |&address| (place, address));
        let mut keys: Vec<Key> = (0..self.types.len()).flat_map(of_place).collect();
        rng.shuffle(&mut keys);
        keys.truncate(count);
        match rng.below(20) {
            0..=2 => keys.sort_unstable(),
            3..=5 => keys.sort_unstable_by(|a, b| b.cmp(a)),
            _ => {}
        }
        keys
    }

    fn absent_key(&self, rng: &mut Rng) -> Key {
        loop {
            let address = if rng.chance(60) { rng.pick(&ADDRESSES) } else { rng.draw() };
            let key = (rng.below(self.types.len()), address);
            if !self.present.contains(&key) {
                return key;
            }
        }
    }

    /// Calls a procedure of the key's type with its address and more.
    fn call(&mut self, deed: Deed, (place, address): Key, more: &[u64]) {
        self.calls.push((number(place, deed), [&[address], more].concat()));
    }

    fn put(&mut self, rng: &mut Rng, key: Key) {
        self.call(Deed::Put, key, &[value(rng)]);
        self.present.push(key);
    }

    fn take(&mut self, key: Key) {
        self.call(Deed::Take, key, &[]);
        self.present.retain(|&one| one != key);
    }

    /// Publishes the keys that are absent in their order, one in a call or several.
    fn publish(&mut self, rng: &mut Rng, keys: &[Key], between: Between) {
        let mut rest = keys;
        while !rest.is_empty() {
            let count = if rng.chance(25) { rng.within(2, 6) } else { 1 };
            let (now, later) = rest.split_at(count.min(rest.len()));
            rest = later;
            let now: Vec<Key> = now.iter().copied().filter(|key| !self.present.contains(key)).collect();
            match now[..] {
                [] => {}
                [key] => self.put(rng, key),
                _ => self.put_batch(rng, &now),
            }
            if rng.chance(30) {
                self.stir_quietly(rng);
            }
            if between == Between::Any && rng.chance(20) {
                self.stir(rng, keys);
            }
        }
    }

    /// Publishes keys in one call, now and then after such a call has stopped.
    fn put_batch(&mut self, rng: &mut Rng, keys: &[Key]) {
        let batch = self.add_batch(rng, keys);
        if rng.chance(30) {
            self.calls.push((batch, vec![0]));
        }
        self.calls.push((batch, vec![1]));
        self.present.extend(keys);
    }

    /// A call or two that leave the keys as they were: a key is withdrawn and published again, a number written, a call
    /// stopped after publishing or withdrawing, a key taken or missing.
    fn stir_quietly(&mut self, rng: &mut Rng) {
        if self.present.is_empty() {
            return;
        }
        let (key, absent) = (rng.pick(&self.present), self.absent_key(rng));
        match rng.below(9) {
            0 | 1 => {
                self.take(key);
                self.put(rng, key);
            }
            2 => self.call(Deed::Shift, key, &[key.1]),
            3 => self.call(Deed::Write, key, &[value(rng)]),
            4 => self.call(Deed::PutStop, absent, &[value(rng), 0]),
            5 => self.call(Deed::TakeStop, key, &[0]),
            6 => self.call(Deed::ShiftStop, key, &[absent.1, 0]),
            7 => self.call(Deed::Put, key, &[value(rng)]),
            _ => self.call(Deed::Take, absent, &[]),
        }
    }

    /// A call that changes the keys: one is withdrawn, published elsewhere, or new.
    fn stir(&mut self, rng: &mut Rng, keys: &[Key]) {
        if self.present.is_empty() {
            return;
        }
        let (key, absent) = (rng.pick(&self.present), self.absent_key(rng));
        match rng.below(3) {
            0 => self.take(key),
            1 => {
                let to = (key.0, rng.pick(keys).1);
                self.call(Deed::Shift, key, &[to.1]);
                if !self.present.contains(&to) {
                    self.present.retain(|&one| one != key);
                    self.present.push(to);
                }
            }
            _ => {
                self.call(Deed::PutStop, absent, &[value(rng), 1]);
                self.present.push(absent);
            }
        }
    }

    /// No more calls than a list has room for.
    fn cut(mut self) -> Depot {
        let mut rows = 0;
        self.calls.retain(|(_, arguments)| {
            rows += 1 + arguments.len();
            rows <= limit::LIST_BYTES / ROW_BYTES
        });
        self
    }
}

/// Keys of several types are published, withdrawn and published again.
pub fn spread(rng: &mut Rng) -> Depot {
    let mut depot = Depot::new(rng, 5);
    let count = rng.within(3, 8);
    let addresses = addresses(rng, count);
    let count = rng.within(4, 14);
    let keys = depot.some_keys(rng, &addresses, count);
    depot.publish(rng, &keys, Between::Any);
    let gone: Vec<Key> = keys.into_iter().filter(|key| !depot.present.contains(key)).collect();
    for key in gone {
        if rng.chance(50) {
            depot.put(rng, key);
        }
    }
    depot.cut()
}

/// One entry is left in the end, or none.
pub fn emptied(rng: &mut Rng) -> Depot {
    let mut depot = Depot::new(rng, 5);
    let count = rng.within(2, 6);
    let addresses = addresses(rng, count);
    let count = rng.within(3, 8);
    let keys = depot.some_keys(rng, &addresses, count);
    depot.publish(rng, &keys, Between::Quiet);
    let mut leaving = keys;
    match rng.below(3) {
        0 => rng.shuffle(&mut leaving),
        1 => leaving.reverse(),
        _ => {}
    }
    leaving.truncate(leaving.len() - rng.below(2));
    for key in leaving {
        depot.take(key);
    }
    if rng.chance(40) {
        let absent = depot.absent_key(rng);
        depot.call(Deed::PutStop, absent, &[value(rng), 0]);
    }
    depot.cut()
}

/// The store is full, and one key more is too many.
pub fn full(rng: &mut Rng) -> Depot {
    let mut depot = Depot::new(rng, 2);
    let addresses = addresses(rng, 40);
    let mut keys = depot.some_keys(rng, &addresses, limit::ENTRIES + 2);
    let over = keys.split_off(limit::ENTRIES);
    if rng.chance(40) {
        // The second key of a call is one too many, so the first is not published either.
        let last = keys.split_off(limit::ENTRIES - 1);
        depot.publish(rng, &keys, Between::Quiet);
        let batch = depot.add_batch(rng, &over);
        depot.calls.push((batch, vec![1]));
        depot.publish(rng, &last, Between::Quiet);
    } else {
        depot.publish(rng, &keys, Between::Quiet);
    }
    depot.call(Deed::Put, over[0], &[value(rng)]);
    for _ in 0..rng.below(4) {
        match rng.below(3) {
            0 => {
                let key = rng.pick(&depot.present);
                depot.take(key);
                let absent = depot.absent_key(rng);
                depot.put(rng, absent);
            }
            1 => depot.call(Deed::Put, over[1], &[value(rng)]),
            _ => depot.stir_quietly(rng),
        }
    }
    depot.cut()
}
