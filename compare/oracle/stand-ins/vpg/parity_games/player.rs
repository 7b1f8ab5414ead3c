//! STAND-IN for merc's `Player` and `PlayerVec`.

use std::fmt;

use crate::Priority;

/// The two players.
#[derive(Clone, Copy, Debug, PartialEq, Eq)]
pub enum Player {
    Even,
    Odd,
}

impl Player {
    /// Even has the even priorities.
    pub fn from_priority(priority: Priority) -> Player {
        Player::from_index(priority.value() % 2)
    }

    /// 0 is Even, anything else Odd.
    pub fn from_index(index: usize) -> Player {
        if index == 0 { Player::Even } else { Player::Odd }
    }

    pub fn to_index(self) -> usize {
        self as usize
    }

    pub fn opponent(self) -> Player {
        match self {
            Player::Even => Player::Odd,
            Player::Odd => Player::Even,
        }
    }
}

impl fmt::Display for Player {
    fn fmt(&self, f: &mut fmt::Formatter<'_>) -> fmt::Result {
        fmt::Debug::fmt(self, f)
    }
}

/// A player for each vertex; the stand-in keeps them as they are, not as bits.
pub struct PlayerVec {
    players: Vec<Player>,
}

impl PlayerVec {
    pub fn len(&self) -> usize {
        self.players.len()
    }

    pub fn index(&self, index: usize) -> Player {
        self.players[index]
    }
}

impl FromIterator<Player> for PlayerVec {
    fn from_iter<I: IntoIterator<Item = Player>>(players: I) -> PlayerVec {
        PlayerVec { players: players.into_iter().collect() }
    }
}
