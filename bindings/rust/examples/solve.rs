//! Solves the worked game C7 by both solvers, prints who wins and by which choices, and has the checker check each answer.
//! examples/c/solve.c does the same in C and prints the same.
#![forbid(unsafe_code)]

use reckonbough::{Game, Player, Refusal, Solved};

fn main() -> Result<(), Refusal> {
    // vertex 0 is Even's, with priority 2 and an edge to 1; vertex 1 is Odd's, with priority 0 and edges to 0 and 1
    let game = Game::new(&[(Player::Even, 2, &[1]), (Player::Odd, 0, &[0, 1])])?;

    let solved = game.solve_zielonka(u64::MAX)?;
    println!("zielonka: {} calls", solved.count);
    print_checked(&game, &solved);

    let solved = game.solve_priority_promotion(u64::MAX)?;
    println!("priority promotion: {} rounds", solved.count);
    print_checked(&game, &solved);

    println!("a choice that is no edge");
    print_checked(&game, &Solved { strategy: vec![Some(0), None], ..solved });
    Ok(())
}

fn print_checked(game: &Game, solved: &Solved) {
    for v in 0..game.vertices() {
        print!("vertex {} of {:?}: {:?} wins", v, game.owner(v), solved.winner(v));
        match solved.strategy[v] {
            Some(w) => println!(" and goes to {}", w),
            None => println!(),
        }
    }
    match game.check(&solved.even, &solved.odd, &solved.strategy) {
        Ok(()) => println!("checked: yes"),
        Err(wrong) => {
            let (number, place) = wrong.number_and_place();
            println!("checked: {} at {}", number, place);
        }
    }
}
