//! The judge of a proposed list, as request 6 asks for it: yes, or the condition that fails first.

use crate::models::kept;
use crate::rules::{earlier, writes_there};
use crate::{Model, Record, Table};

#[derive(Clone, Copy, Debug, PartialEq, Eq)]
pub enum Judgement {
    Valid,
    WrongLength,
    /// The first place.
    BadNumber(usize),
    /// The lowest record concerned; of a pair the lowest first, then the lowest second.
    Repeat(usize),
    OutOfTurn(usize, usize),
    WrongValue(usize),
}

pub fn judge<T: Table>(records: &[Record], model: Model, list: &[usize]) -> Judgement {
    let all = 0..records.len();
    let operation = |x: usize| records.get(x).is_some_and(|record| !record.is_fence());
    if list.len() != all.clone().filter(|&x| operation(x)).count() {
        return Judgement::WrongLength;
    }
    if let Some(place) = list.iter().position(|&x| !operation(x)) {
        return Judgement::BadNumber(place);
    }
    let mut places = vec![Vec::new(); records.len()];
    list.iter().enumerate().for_each(|(place, &x)| places[x].push(place));
    if let Some(x) = places.iter().position(|places| places.len() > 1) {
        return Judgement::Repeat(x);
    }
    // A fence has no place, and asks for none.
    let places: Vec<usize> = places.iter().map(|places| places.first().copied().unwrap_or(0)).collect();
    let pairs: T = kept(records, model);
    let turned = |x: usize| all.clone().find(|&y| pairs.has(x, y) && places[y] < places[x]).map(|y| (x, y));
    if let Some((x, y)) = all.clone().find_map(turned) {
        return Judgement::OutOfTurn(x, y);
    }
    let wrong = |&load: &usize| records[load].read().is_some_and(|read| read != seen(records, &places, load));
    all.clone().find(wrong).map_or(Judgement::Valid, Judgement::WrongValue)
}

/// What a load must read: the latest in the list of the writers that are before it there or in program order.
fn seen(records: &[Record], places: &[usize], load: usize) -> usize {
    let before = |&x: &usize| writes_there(records, load, x) && (places[x] < places[load] || earlier(records, x, load));
    let latest = (0..records.len()).filter(before).max_by_key(|&x| places[x]);
    latest.and_then(|x| records[x].written()).unwrap_or(0)
}
