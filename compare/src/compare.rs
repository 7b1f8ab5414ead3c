//! One game, every solver, every result compared.

use crate::definition;
use crate::game::{won_by, Game};
use crate::oracle::{self, Cap, Outcome};
use crate::reference::{checker, compaction, promotion, solitaire, tables, zielonka};

/// What was compared so far.
#[derive(Clone, Debug, Default)]
pub struct Tally {
    pub games: u64,
    pub by_definition: u64,
    pub solitaire: u64,
    /// Strategies of the oracle that the checker of the rules accepted.
    pub strategies: u64,
    /// Games on which a run of the oracle was stopped at the cap.
    pub capped: u64,
    /// Those of them on which both solvers of the oracle were: they are not among `games`.
    pub left_out: u64,
    /// Games whose calls, or rounds, the plain reference counted too, and that it solved after compaction.
    pub calls_counted: u64,
    pub rounds_counted: u64,
    pub compacted: u64,
    pub most_calls: u64,
    pub most_rounds: u64,
    /// How often promotion's "if there is none, p stays" came up.
    pub stays: u64,
    pub port: u64,
    /// Strategies of the port that its own checker and the checker of the rules accepted: two a game.
    pub port_strategies: u64,
}

/// The plain reference is slow: it goes up to this many calls or rounds, times 1 + n + m.
pub const RULES_TO: u64 = 200_000_000;

/// What a game's answers have to be; none where nobody came to an answer in good time.
pub struct Want {
    pub winners: Option<Vec<u8>>,
    pub calls: Option<u64>,
    pub rounds: Option<u64>,
    /// The entries of Zielonka and of promotion, by A4's definitions.
    pub zielonka_entries: Option<Vec<u16>>,
    pub promotion_entries: Option<Vec<u16>>,
    /// None where two owners differ.
    pub solitaire: Option<Vec<bool>>,
}

impl Want {
    /// Of the game without a vertex.
    pub fn of_nothing() -> Want {
        Want {
            winners: Some(vec![]),
            calls: Some(1),
            rounds: Some(0),
            zielonka_entries: Some(vec![]),
            promotion_entries: Some(vec![]),
            solitaire: Some(vec![]),
        }
    }
}

/// The answers by the rules; calls and rounds are none beyond what the plain reference can count in good time.
pub struct Rules {
    pub zielonka: Option<zielonka::Solved>,
    pub promotion: Option<promotion::Solved>,
    /// Zielonka after compaction.
    pub compacted: Option<zielonka::Solved>,
    pub solitaire: Option<Vec<bool>>,
}

impl Rules {
    pub fn of(game: &Game) -> Rules {
        let most = RULES_TO / (1 + game.n() + game.m()) as u64;
        let compacted = Game { priorities: compaction::compact(game), ..game.clone() };
        Rules {
            zielonka: zielonka::solve(game, most),
            promotion: promotion::solve(game, most),
            compacted: zielonka::solve(&compacted, most),
            solitaire: game.is_solitaire().then(|| solitaire::solve(game)),
        }
    }
}

/// The answers by the oracle; none where it was stopped at the cap.
struct Given {
    zielonka: Option<oracle::Solved>,
    promotion: Option<oracle::Solved>,
    solitaire: Option<Vec<bool>>,
    stopped: bool,
}

impl Given {
    fn of(game: &Game, cap: Cap, tally: &mut Tally) -> Result<Given, String> {
        let mut stopped = false;
        let zielonka = certified("Zielonka", game, tally, &mut stopped, oracle::zielonka(game, cap))?;
        let promotion = certified("promotion", game, tally, &mut stopped, oracle::priority_promotion(game, cap))?;
        let solitaire = match game.is_solitaire() {
            true => answered("solitaire", oracle::solitaire(game, cap), &mut stopped)?,
            false => None,
        };
        Ok(Given { zielonka, promotion, solitaire, stopped })
    }

    /// Neither solver came to an answer.
    fn is_left_out(&self) -> bool {
        self.zielonka.is_none() && self.promotion.is_none()
    }
}

/// Compares one accepted game of at least one vertex; the error says what differs. A game on which the oracle was stopped is
/// still compared with whatever there is.
pub fn compare(game: &Game, cap: Cap, tally: &mut Tally) -> Result<(), String> {
    if let Some(refusal) = tables::first_refusal(game) {
        return Err(format!("the generator made a game that is refused: {refusal:?}"));
    }
    let given = Given::of(game, cap, tally)?;
    let rules = Rules::of(game);
    let defined = if game.n() <= definition::MOST { Some(definition::winners(game)?) } else { None };
    let want = wanted(&given, &rules, defined.as_ref())?;
    compare_solitaire(game, &given, &want, tally)?;
    compare_counts(game, &rules, &want, given.zielonka.as_ref().map(|solved| solved.looks), tally)?;
    #[cfg(feature = "port")]
    {
        tally.port_strategies += crate::port_check::compare(game, &want)?;
        tally.port += 1;
    }
    tally.by_definition += defined.is_some() as u64;
    tally.capped += given.stopped as u64;
    tally.left_out += given.is_left_out() as u64;
    tally.games += !given.is_left_out() as u64;
    Ok(())
}

/// The oracle's answers, the rules' where it has none. All who name winners name the same.
fn wanted(given: &Given, rules: &Rules, defined: Option<&Vec<u8>>) -> Result<Want, String> {
    let named = [
        ("the oracle's Zielonka", given.zielonka.as_ref().map(|solved| &solved.winners)),
        ("the oracle's promotion", given.promotion.as_ref().map(|solved| &solved.winners)),
        ("Zielonka by the rules", rules.zielonka.as_ref().map(|solved| &solved.winners)),
        ("promotion by the rules", rules.promotion.as_ref().map(|solved| &solved.winners)),
        ("Zielonka by the rules after compaction", rules.compacted.as_ref().map(|solved| &solved.winners)),
        ("demand 2's definition", defined),
    ];
    let winners = named.iter().find_map(|(_, winners)| *winners);
    for (name, others) in named {
        same(&format!("winners of {name}"), &winners, &others.or(winners))?;
    }
    let (by_zielonka, by_promotion) = (rules.zielonka.as_ref(), rules.promotion.as_ref());
    Ok(Want {
        winners: winners.cloned(),
        calls: given.zielonka.as_ref().map(|solved| solved.count).or(by_zielonka.map(|solved| solved.calls)),
        rounds: given.promotion.as_ref().map(|solved| solved.count).or(by_promotion.map(|solved| solved.rounds)),
        zielonka_entries: by_zielonka.map(|solved| solved.entries.clone()),
        promotion_entries: by_promotion.map(|solved| solved.entries.clone()),
        solitaire: rules.solitaire.clone(),
    })
}

/// The oracle's answer, with a strategy that the checker of the rules accepts.
fn certified(
    name: &str,
    game: &Game,
    tally: &mut Tally,
    stopped: &mut bool,
    run: Outcome<oracle::Solved>,
) -> Result<Option<oracle::Solved>, String> {
    let Some(solved) = answered(name, run, stopped)? else { return Ok(None) };
    check_strategy(name, game, &solved)?;
    tally.strategies += 1;
    Ok(Some(solved))
}

/// The rules' counts and the bounds against the oracle's counts.
fn compare_counts(game: &Game, rules: &Rules, want: &Want, looks: Option<u64>, tally: &mut Tally) -> Result<(), String> {
    if let Some(zielonka) = &rules.zielonka {
        tally.calls_counted += 1;
        tally.most_calls = tally.most_calls.max(zielonka.calls);
        same("calls", &Some(zielonka.calls), &want.calls)?;
        same("looks of all attractors", &Some(zielonka.looks), &looks.or(Some(zielonka.looks)))?;
    }
    if want.calls.is_some_and(|calls| calls as u128 > zielonka::bound(game)) {
        return Err(format!("{:?} calls are more than demand 3's bound {}", want.calls, zielonka::bound(game)));
    }
    if want.rounds.is_some_and(|rounds| rounds as u128 > promotion::bound(game)) {
        return Err(format!("{:?} rounds are more than A12's bound {}", want.rounds, promotion::bound(game)));
    }
    if let Some(promotion) = &rules.promotion {
        tally.rounds_counted += 1;
        tally.most_rounds = tally.most_rounds.max(promotion.rounds);
        tally.stays += promotion.stays;
        same("rounds", &Some(promotion.rounds), &want.rounds)?;
    }
    tally.compacted += rules.compacted.is_some() as u64;
    Ok(())
}

/// Where all owners are equal: the oracle's solitaire set is the rules', and these are the vertices that the owner wins.
fn compare_solitaire(game: &Game, given: &Given, want: &Want, tally: &mut Tally) -> Result<(), String> {
    if let Some(set) = &given.solitaire {
        same("solitaire set", &want.solitaire.as_ref(), &Some(set))?;
        tally.solitaire += 1;
    }
    if let (Some(set), Some(winners)) = (&want.solitaire, &want.winners) {
        let won: Vec<bool> = winners.iter().map(|winner| *winner == game.owners[0]).collect();
        same("solitaire set by the winners", &won, set)?;
    }
    Ok(())
}

/// The oracle's strategy is accepted by the checker of the rules. It rests on the stand-in for `Strategy`.
fn check_strategy(name: &str, game: &Game, got: &oracle::Solved) -> Result<(), String> {
    let answer = checker::check(game, &won_by(&got.winners, 0), &won_by(&got.winners, 1), &got.strategy);
    if answer.number != 0 {
        return Err(format!("strategy {:?} of the oracle's {name} gets {answer:?}", got.strategy));
    }
    Ok(())
}

fn answered<T>(name: &str, outcome: Outcome<T>, stopped: &mut bool) -> Result<Option<T>, String> {
    match outcome {
        Outcome::Answer(answer) => Ok(Some(answer)),
        Outcome::Panicked(message) => Err(format!("the oracle's {name} panicked: {message}")),
        Outcome::Capped => {
            *stopped = true;
            Ok(None)
        }
    }
}

/// An error that names what differs.
pub fn same<T: PartialEq + std::fmt::Debug + ?Sized>(what: &str, want: &T, got: &T) -> Result<(), String> {
    if want == got {
        Ok(())
    } else {
        Err(format!("{what}: wanted {want:?}, got {got:?}"))
    }
}
