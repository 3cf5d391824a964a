//! Rows of facts in one ordered map.

use std::collections::BTreeMap;
use std::collections::btree_map::Entry;
use std::hint::black_box;

/// The kinds stand in the order of keys. Structs and optionals are never keys.
#[allow(dead_code)]
#[derive(Clone, PartialEq, Eq, PartialOrd, Ord)]
enum Value {
    Int(i64),
    Bool(bool),
    Text(String),
    Bytes(Vec<u8>),
    Id([u8; 32]),
    Enum(u32, u16),
    Struct(u32, Vec<Value>),
    Optional(Option<Box<Value>>),
}

type Place = (u32, Vec<Value>);

/// A row of that fact and keys is there.
#[derive(Debug)]
struct Exists;

#[derive(Clone, Default)]
struct Facts {
    rows: BTreeMap<Place, Vec<Value>>,
}

fn is_named(named: &[Option<Value>], values: &[Value]) -> bool {
    named
        .iter()
        .zip(values)
        .all(|(named, value)| named.as_ref().is_none_or(|named| named == value))
}

impl Facts {
    fn create(&mut self, fact: u32, keys: Vec<Value>, values: Vec<Value>) -> Result<(), Exists> {
        match self.rows.entry((fact, keys)) {
            Entry::Vacant(entry) => {
                entry.insert(values);
                Ok(())
            }
            Entry::Occupied(_) => Err(Exists),
        }
    }

    /// Gives the row of just these keys other values, where it is there and its values begin with the named ones.
    fn update(
        &mut self,
        fact: u32,
        keys: Vec<Value>,
        named: &[Option<Value>],
        values: Vec<Value>,
    ) -> bool {
        match self.rows.get_mut(&(fact, keys)) {
            Some(held) if is_named(named, held) => {
                *held = values;
                true
            }
            _ => false,
        }
    }

    fn delete(&mut self, fact: u32, keys: Vec<Value>) -> bool {
        self.rows.remove(&(fact, keys)).is_some()
    }

    /// The first row of a fact whose keys begin with these and whose values are the named ones.
    fn first(
        &self,
        fact: u32,
        keys: Vec<Value>,
        named: &[Option<Value>],
    ) -> Option<(&Place, &Vec<Value>)> {
        let start = (fact, keys);
        self.rows
            .range(&start..)
            .take_while(|(place, _)| place.0 == fact && place.1.starts_with(&start.1))
            .find(|(_, values)| is_named(named, values))
    }
}

/// The second key of the row that is made in this turn.
fn number(turn: u32) -> i64 {
    turn.wrapping_mul(2_654_435_761).into()
}

/// The first key of the row that is made in this turn, and of the query that is made in it.
fn group(turn: u32) -> i64 {
    ((turn.wrapping_mul(2_654_435_761) >> 7) % 1024).into()
}

fn filled(rows: u32) -> Facts {
    let mut facts = Facts::default();
    for turn in 0..rows {
        let keys = vec![Value::Int(group(turn)), Value::Int(number(turn))];
        facts
            .create(0, keys, vec![Value::Int(turn.into())])
            .expect("a new row");
    }
    facts
}

/// The value of the first row of the group of this turn.
fn first(facts: &Facts, turn: u32) -> u64 {
    match facts.first(0, vec![Value::Int(group(turn))], &[]) {
        Some((_, values)) => match values[..] {
            [Value::Int(number)] => number.unsigned_abs(),
            _ => 0,
        },
        None => 0,
    }
}

/// Rows in no order, and then queries by a prefix of the keys, each for the first row.
pub fn query(rows: u32, rounds: u32) {
    let facts = filled(rows);
    let sum: u64 = (0..rounds).map(|turn| first(black_box(&facts), turn)).sum();
    println!("Facts Query: {rows} rows, {rounds} rounds, sum {sum}");
}

/// Rows in no order, and then copies, in each of which a row of a group is asked for.
pub fn copy(rows: u32, rounds: u32) {
    let facts = filled(rows);
    let sum: u64 = (0..rounds)
        .map(|turn| first(&black_box(facts.clone()), turn))
        .sum();
    println!("Facts Copy: {rows} rows, {rounds} rounds, sum {sum}");
}

fn keys(row: u32) -> Vec<Value> {
    vec![Value::Int(group(row)), Value::Int(number(row))]
}

/// The change of this turn: an update, a delete, and the create of what was deleted.
fn changed(facts: &mut Facts, turn: u32, rows: u32) -> bool {
    let row = (turn / 3).wrapping_mul(7919) % rows.max(1);
    let values = || vec![Value::Int(row.into())];
    match turn % 3 {
        0 => facts.update(0, keys(row), &[], values()),
        1 => facts.delete(0, keys(row)),
        _ => facts.create(0, keys(row), values()).is_ok(),
    }
}

/// Rows in no order, and then updates, deletes and creates; how many of them came through.
pub fn change(rows: u32, rounds: u32) {
    let mut facts = filled(rows);
    let sum = (0..rounds)
        .filter(|turn| changed(&mut facts, *turn, rows))
        .count();
    println!("Facts Change: {rows} rows, {rounds} rounds, sum {sum}");
}
