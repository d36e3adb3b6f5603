//! How many inputs of each kind there are.

use super::Kind;

/// So many in all, by weight; one of each kind at least, where there are enough.
pub fn portions(kinds: &[Kind], count: usize) -> Vec<usize> {
    let all: usize = kinds.iter().map(|kind| kind.weight).sum();
    let mut weight = 0;
    let mut before = 0;
    let by_weight = kinds.iter().map(|kind| {
        weight += kind.weight;
        let so_far = count * weight / all;
        so_far - std::mem::replace(&mut before, so_far)
    });
    let mut portions: Vec<usize> = by_weight.collect();
    while let Some(none) = portions.iter().position(|&portion| portion == 0) {
        let most = portions.iter_mut().max().filter(|most| **most > 1);
        let Some(most) = most else { break };
        *most -= 1;
        portions[none] = 1;
    }
    portions
}
