//! Well-formed pools, said level by level and apart from the check, and the map that such a pool holds.

use super::check::INNER_LEAST;
use super::header::{admit, Header};
use super::node::{read, Cover, WHOLE};

/// The records of a pool in rising order of key.
pub type Map = Vec<(u64, u64)>;

/// The numbers and covers of one depth, left to right.
type Row = Vec<(u64, Cover)>;

/// The map of a well-formed pool; none if the pool is not well formed.
pub fn map_of(pool: &[u64]) -> Option<Map> {
    let header = admit(pool).ok()?;
    let mut row: Row = vec![(header.root, WHOLE)];
    let mut met = vec![header.root];
    for depth in 1..header.height {
        row = below(pool, header, &row, depth)?;
        met.extend(row.iter().map(|(number, _)| *number));
        if met.len() as u64 > header.used {
            return None;
        }
    }
    met.sort();
    if met != (1..=header.used).collect::<Vec<u64>>() {
        return None;
    }
    leaves(pool, &row)
}

/// The children of a row of inner nodes, if those are as a well-formed pool has them.
fn below(pool: &[u64], header: Header, row: &Row, depth: u64) -> Option<Row> {
    let mut children = Row::new();
    for (number, cover) in row {
        if *number < 1 || *number > header.used {
            return None;
        }
        let node = read(pool, *number);
        let enough = depth == 1 || node.count >= INNER_LEAST;
        if !node.is_sound(true) || !node.is_within(*cover) || !enough {
            return None;
        }
        children.extend((0..=node.count as usize).map(|place| node.child(place, *cover)));
    }
    Some(children)
}

/// The records of the leaves, if these are sound, within their covers and linked.
fn leaves(pool: &[u64], row: &Row) -> Option<Map> {
    let mut map = Map::new();
    for (i, (number, cover)) in row.iter().enumerate() {
        let leaf = read(pool, *number);
        let next = row.get(i + 1).map_or(0, |(number, _)| *number);
        if !leaf.is_sound(false) || !leaf.is_within(*cover) || leaf.link != next {
            return None;
        }
        map.extend(leaf.records());
    }
    Some(map)
}

/// The map with a key put.
pub fn with(map: &Map, key: u64, value: u64) -> Map {
    let mut later = without(map, key);
    let place = later.iter().filter(|record| record.0 < key).count();
    later.insert(place, (key, value));
    later
}

/// The map without a key.
pub fn without(map: &Map, key: u64) -> Map {
    map.iter().copied().filter(|record| record.0 != key).collect()
}

/// The value of a key.
pub fn value_of(map: &Map, key: u64) -> Option<u64> {
    map.iter().find(|record| record.0 == key).map(|record| record.1)
}
