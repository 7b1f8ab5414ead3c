//! "Compaction", as A8 of document 02 has it.

use crate::game::Game;

/// The lowest priority used becomes 0 or 1 by its parity; each next different one the last new number plus 1 if parity
/// differs, else the same number.
pub fn compact(game: &Game) -> Vec<u16> {
    let mut used = game.priorities.clone();
    used.sort_unstable();
    used.dedup();
    let mut new: Vec<u16> = Vec::new();
    for (at, priority) in used.iter().enumerate() {
        new.push(match at {
            0 => priority % 2,
            _ if priority % 2 != used[at - 1] % 2 => new[at - 1] + 1,
            _ => new[at - 1],
        });
    }
    let renamed = |priority| new[used.binary_search(priority).expect("every priority is used")];
    game.priorities.iter().map(renamed).collect()
}
