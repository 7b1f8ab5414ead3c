//! The checker's findings as sentences.

use crate::paritysol::Claim;
use reckonbough::{Game, Player, Refusal, WorkArea};

/// The checker's answer to the claim.
pub fn checked(game: &Game, claim: &Claim, work: &mut WorkArea) -> Result<(), Refusal> {
    game.check_in(&claim.even, &claim.odd, &claim.strategy, work)
}

/// What is wrong with the claim.
pub fn wrong(name: &str, game: &Game, claim: &Claim, refusal: Refusal) -> String {
    let (number, place) = refusal.number_and_place();
    let said = match refusal {
        Refusal::NotOneWinner(vertex) => format!("vertex {vertex} has not exactly one winner"),
        Refusal::BadEntry(vertex) => entry(game, claim, vertex),
        Refusal::LeavesSet(vertex) => leaving(game, claim, vertex),
        Refusal::LosingCycle(vertex) => {
            format!("vertex {vertex} lies on a cycle by which the other player wins it")
        }
        Refusal::NoStrategy(vertex) => format!("there are no choices at all, and vertex {vertex} needs one"),
        other => return format!("{name}: {other}"),
    };
    format!("{name}: {said} ({number} at vertex {place})")
}

fn entry(game: &Game, claim: &Claim, vertex: usize) -> String {
    let choice = claim.strategy.get(vertex).copied().flatten();
    match (choice, winner(claim, vertex) == owner(game, vertex)) {
        (Some(target), true) => format!("vertex {vertex} chooses {target}, and no edge leads there"),
        (Some(target), false) => format!("vertex {vertex} chooses {target}, and its owner does not win it"),
        (None, _) => format!("vertex {vertex} is won by its owner, and chooses nothing"),
    }
}

/// The first edge that counts at the vertex and leads to one that the other player wins.
fn leaving(game: &Game, claim: &Claim, vertex: usize) -> String {
    let out = |target: &usize| winner(claim, *target) != winner(claim, vertex);
    let choice = claim.strategy.get(vertex).copied().flatten();
    let target = match choice {
        Some(target) => Some(target).filter(out),
        None if vertex < game.vertices() => game.successors(vertex).iter().map(|w| usize::from(*w)).find(out),
        None => None,
    };
    match target {
        Some(target) => format!("the edge {vertex} → {target} leaves the winner's set"),
        None => format!("an edge at vertex {vertex} leaves the winner's set"),
    }
}

pub fn winner(claim: &Claim, vertex: usize) -> Option<Player> {
    match (claim.even.get(vertex), claim.odd.get(vertex)) {
        (Some(true), _) => Some(Player::Even),
        (_, Some(true)) => Some(Player::Odd),
        _ => None,
    }
}

fn owner(game: &Game, vertex: usize) -> Option<Player> {
    (vertex < game.vertices()).then(|| game.owner(vertex))
}
