//! The library's refusals as sentences. Each ends with the number and the place, as the library gave them.

use crate::grammar;
use reckonbough::{Edit, Export, Game, Player, Refusal, Tables};

/// Why a text is no game.
pub fn of_text(name: &str, text: &[u8], refusal: Refusal) -> String {
    match refusal {
        Refusal::BadText(byte) => {
            let (at, why) = (grammar::position(name, text, byte), grammar::refused(text, byte));
            format!("{at}: {why} (30 at byte {byte})")
        }
        Refusal::BeyondLimit(byte) => {
            let (at, why) = (grammar::position(name, text, byte), grammar::beyond(text, byte));
            format!("{at}: {why} (32 at byte {byte})")
        }
        Refusal::BadIdentifier(named) => {
            format!("{name}: {} (31 at identifier {named})", grammar::identifier(text, named))
        }
        _ => match Export::read(text) {
            Ok(export) => of_tables(name, export.tables(), refusal),
            Err(_) => format!("{name}: {refusal}"),
        },
    }
}

/// Why tables that a text says are no game.
pub fn of_tables(name: &str, tables: Tables<'_>, refusal: Refusal) -> String {
    let said = match refusal {
        Refusal::BadOwner(vertex) => tables.owners.get(vertex).map(|owner| {
            let owner = if *owner == u8::MAX { "255 or more".into() } else { owner.to_string() };
            format!("the owner of vertex {vertex} is {owner}, neither 0 nor 1 (4 at vertex {vertex})")
        }),
        Refusal::BadPriority(vertex) => tables
            .priorities
            .get(vertex)
            .map(|priority| format!("the priority of vertex {vertex} is {priority}, above 255 (5 at vertex {vertex})")),
        Refusal::BadTarget(edge) => tables.targets.get(edge).map(|target| {
            format!("edge {} ends at no vertex (7 at edge {edge})", ends(tables, edge, u64::from(*target)))
        }),
        Refusal::TooManyEdges => Some("with a self loop at each dead end there are more than 16384 edges (3)".into()),
        _ => None,
    };
    format!("{name}: {}", said.unwrap_or_else(|| refusal.to_string()))
}

/// An edge by its number and its ends: `5, 2 → 9,`.
pub fn ends(tables: Tables<'_>, edge: usize, target: u64) -> String {
    let from = tables.offsets.iter().skip(1).filter(|offset| usize::from(**offset) <= edge).count();
    format!("{edge}, {from} → {target},")
}

/// Why there is no run.
pub fn of_loop(name: &str, game: &Game, refusal: Refusal) -> String {
    let said = match refusal {
        Refusal::OwnersDiffer => {
            "a run is shown where one player owns every vertex, and here two owners differ (11)".into()
        }
        Refusal::NoSuchVertex(vertex) => {
            format!(
                "there is no vertex {vertex}: the highest is {} (44 at vertex {vertex})",
                game.vertices().max(1) - 1
            )
        }
        Refusal::NoLoop(vertex) => {
            let owner = if game.tables().owners.first() == Some(&1) { Player::Odd } else { Player::Even };
            format!("no cycle that {owner:?} wins can be reached from vertex {vertex} (46 at vertex {vertex})")
        }
        other => other.to_string(),
    };
    format!("{name}: {said}")
}

/// Why an edit was refused.
pub fn of_edit(name: &str, game: &Game, edit: Edit, refusal: Refusal) -> String {
    let said = match (edit, refusal) {
        (Edit::Edge { edge, .. }, Refusal::NoSuchEntry(_)) => {
            format!("there is no edge {edge}: the last is {} (41 at edge {edge})", game.edges().max(1) - 1)
        }
        (Edit::Priority { vertex, .. } | Edit::Owner { vertex, .. }, Refusal::NoSuchEntry(_)) => {
            format!(
                "there is no vertex {vertex}: the highest is {} (41 at vertex {vertex})",
                game.vertices().max(1) - 1
            )
        }
        (Edit::Priority { vertex, priority }, Refusal::HighPriority(_)) => {
            format!("priority {priority} for vertex {vertex} is above 255 (42 at vertex {vertex})")
        }
        (Edit::Owner { vertex, owner }, Refusal::NoSuchOwner(_)) => {
            format!("owner {owner} for vertex {vertex} is neither 0 nor 1 (48 at vertex {vertex})")
        }
        (Edit::Edge { edge, target }, Refusal::NoSuchTarget(place)) => {
            format!("edge {} would end at no vertex (43 at edge {edge})", ends(game.tables(), place, target))
        }
        (_, other) => other.to_string(),
    };
    format!("{name}: {said}")
}
