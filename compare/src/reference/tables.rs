//! "The tables of a game" and refusals 1 to 8 of "Numbers given back".

use super::Answer;
use crate::game::Game;

/// s, the words of a set.
pub fn set_words(n: usize) -> usize {
    n.div_ceil(64)
}

/// W, the words of the work area.
pub fn work_words(n: usize, m: usize) -> usize {
    8 * (n + 2) * set_words(n) + 4 * n + 2 * m + 272
}

/// The first refusal of the tables by 1 to 8, or none.
pub fn first_refusal(game: &Game) -> Option<Answer> {
    let (n, m) = (game.n(), game.m());
    let lowest = |number, place: Option<usize>| place.map(|at| Answer::no(number, at));
    if n > 4_096 {
        return Some(Answer::no(1, 0));
    }
    if game.priorities.len() != n || game.offsets.len() != n + 1 {
        return Some(Answer::no(2, 0));
    }
    if m > 16_384 {
        return Some(Answer::no(3, 0));
    }
    lowest(4, game.owners.iter().position(|owner| *owner > 1))
        .or_else(|| lowest(5, game.priorities.iter().position(|priority| *priority > 255)))
        .or_else(|| lowest(6, bad_offset(game)))
        .or_else(|| lowest(7, game.targets.iter().position(|target| *target as usize >= n)))
        .or_else(|| lowest(8, (0..n).find(|v| game.edges(*v).is_empty())))
}

fn bad_offset(game: &Game) -> Option<usize> {
    if game.offsets[0] != 0 {
        return Some(0);
    }
    let falls = game.offsets.windows(2).position(|pair| pair[0] > pair[1]);
    falls.or_else(|| (game.offsets[game.n()] as usize != game.m()).then_some(game.n()))
}
