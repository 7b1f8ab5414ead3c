//! Memory to work in, used for one call after another.
#![forbid(unsafe_code)]

use crate::doors::opinion_words;

/// The words that the methods of [`Game`](crate::Game) whose names end in `_in` work in. It grows to what the largest game that it
/// was lent for needs, and each call uses it again as the last one left it: that is right for every function of
/// [`doors`](crate::doors), as none of them asks anything of what a work area holds.
///
/// ```
/// use reckonbough::{Game, Player::*, WorkArea};
/// let game = Game::new(&[(Even, 2, &[1]), (Odd, 0, &[0, 1])])?;
/// let mut work = WorkArea::new();
/// let solved = game.solve_zielonka_in(u64::MAX, &mut work)?;
/// assert_eq!(game.solve_priority_promotion_in(u64::MAX, &mut work)?.even, solved.even);
/// game.check_in(&solved.even, &solved.odd, &solved.strategy, &mut work)?;
/// # Ok::<(), reckonbough::Refusal>(())
/// ```
#[derive(Debug, Default)]
pub struct WorkArea {
    words: Vec<u64>,
}

impl WorkArea {
    /// No words yet.
    pub fn new() -> WorkArea {
        WorkArea::default()
    }

    /// As many words as any function needs for n vertices and m edges. Words that no function writes to cost no memory: they are
    /// asked for as zeros, which the system gives when they are first used.
    pub(crate) fn words(&mut self, n: usize, m: usize) -> &mut [u64] {
        let needed = opinion_words(n, m);
        if self.words.len() < needed {
            // the old words go before the new ones come
            self.words = Vec::new();
            self.words = vec![0; needed];
        }
        &mut self.words
    }
}
