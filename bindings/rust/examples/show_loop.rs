//! Vertex 17 is won: prints the run that shows it, `17 → 4 → (9 → 2 → 9)`, and then the game as Graphviz text, with the run in bold.
//! `cargo run --example show_loop | tail -n +2 | dot -Tsvg` draws it.
#![forbid(unsafe_code)]

use reckonbough::{Game, Player, Refusal, Run};

fn main() -> Result<(), Refusal> {
    // all vertices are Even's: most have priority 1 and a self loop, which Even loses
    let mut edges: Vec<Vec<u16>> = (0..18).map(|v| vec![v]).collect();
    let mut priorities = [1; 18];
    for (v, priority, targets) in [(17, 3, vec![3, 4]), (4, 1, vec![9, 4]), (9, 2, vec![2, 5]), (2, 0, vec![9, 17])] {
        priorities[v] = priority;
        edges[v] = targets;
    }
    let vertices: Vec<(Player, u16, &[u16])> =
        edges.iter().zip(priorities).map(|(targets, priority)| (Player::Even, priority, &targets[..])).collect();
    let game = Game::new(&vertices)?;

    let run = game.show_loop(17)?;
    println!("{}", shown(&run));
    print!("{}", graphviz(&game, &run));
    Ok(())
}

/// The path, and the cycle in brackets with its first vertex once more.
fn shown(run: &Run) -> String {
    let arrows = |vertices: &[usize]| vertices.iter().map(|v| format!("{} → ", v)).collect::<String>();
    let before = &run.path[..run.path.len() - 1];
    format!("{}({}{})", arrows(before), arrows(&run.cycle), run.cycle[0])
}

/// The game with the run's vertices and edges in bold; a vertex has its number and, behind a colon, its priority.
fn graphviz(game: &Game, run: &Run) -> String {
    let mut way: Vec<(usize, usize)> = run.path.windows(2).chain(run.cycle.windows(2)).map(|two| (two[0], two[1])).collect();
    way.push((run.cycle[run.cycle.len() - 1], run.cycle[0]));
    let mut text = String::from("digraph game {\n");
    for v in 0..game.vertices() {
        let on_it = way.iter().any(|(from, to)| *from == v || *to == v);
        text += &format!("  {} [label=\"{}: {}\"{}];\n", v, v, game.priority(v), if on_it { ", style=bold" } else { "" });
        for w in game.successors(v) {
            let on_it = way.contains(&(v, usize::from(*w)));
            text += &format!("  {} -> {}{};\n", v, w, if on_it { " [style=bold]" } else { "" });
        }
    }
    text + "}\n"
}
