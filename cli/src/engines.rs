//! The engines on one game, and whether their winners are the same.

use reckonbough::{Game, Opinion, Refusal, Solved, WorkArea};

/// Which engines are to run, in how many calls and rounds.
#[derive(Clone, Copy)]
pub struct Wanted {
    pub zielonka: bool,
    pub promotion: bool,
    pub quasi: bool,
    pub budget: u64,
}

impl Wanted {
    pub fn named(engine: &str, budget: u64) -> Wanted {
        let is = |names: &[&str]| names.contains(&engine);
        Wanted {
            zielonka: is(&["zielonka", "both", "all"]),
            promotion: is(&["promotion", "both", "all"]),
            quasi: is(&["quasi", "all"]),
            budget,
        }
    }
}

/// What each engine gave; none where it was not run.
pub struct Ran {
    pub zielonka: Option<Result<Solved, Refusal>>,
    pub promotion: Option<Result<Solved, Refusal>>,
    pub quasi: Option<Opinion>,
}

impl Ran {
    /// One after another, in the one work area.
    pub fn on(game: &Game, wanted: Wanted, work: &mut WorkArea) -> Ran {
        Ran {
            zielonka: wanted.zielonka.then(|| game.solve_zielonka_in(wanted.budget, work)),
            promotion: wanted.promotion.then(|| game.solve_priority_promotion_in(wanted.budget, work)),
            quasi: wanted.quasi.then(|| game.solve_quasi_polynomial_in(work)),
        }
    }

    /// The answer with a strategy: Zielonka's where there is one.
    pub fn solved(&self) -> Option<&Solved> {
        answered(&self.zielonka).or_else(|| answered(&self.promotion))
    }

    /// For each vertex whether Odd wins it.
    pub fn odd(&self) -> Option<&[bool]> {
        self.sets().into_iter().next().map(|(_, odd)| odd)
    }

    /// Whether all engines that answered name the same winners.
    pub fn agree(&self) -> bool {
        let sets = self.sets();
        sets.windows(2).all(|two| two[0] == two[1])
    }

    fn sets(&self) -> Vec<(&[bool], &[bool])> {
        let solved = answered(&self.zielonka).into_iter().chain(answered(&self.promotion));
        let mut sets: Vec<(&[bool], &[bool])> = solved.map(|solved| (&solved.even[..], &solved.odd[..])).collect();
        sets.extend(self.quasi.iter().map(|opinion| (&opinion.even[..], &opinion.odd[..])));
        sets
    }
}

fn answered(given: &Option<Result<Solved, Refusal>>) -> Option<&Solved> {
    given.as_ref().and_then(|result| result.as_ref().ok())
}

/// The calls or rounds as a column: `-` over the budget, `.` where the engine was not run.
pub fn column(given: &Option<Result<Solved, Refusal>>) -> String {
    match given {
        None => ".".into(),
        Some(Ok(solved)) => solved.count.to_string(),
        Some(Err(_)) => "-".into(),
    }
}
