//! Every verb, on small games.

use crate::{ended, Bench, C7, C8};

#[test]
fn solve_prints_a_line_a_file() {
    let bench = Bench::new("solve");
    bench.file("c7.pg", C7);
    bench.file("c8.pg", C8);
    assert_eq!(bench.run(&["solve", "c7.pg", "c8.pg"]), ended(0, "c7.pg 00 3 3\nc8.pg 0001 5 2\n", ""));
    assert_eq!(bench.run_on(&["solve"], C7.as_bytes()), ended(0, "- 00 3 3\n", ""));
    assert_eq!(bench.run_on(&["solve", "c8.pg", "-"], C7.as_bytes()), ended(0, "c8.pg 0001 5 2\n- 00 3 3\n", ""));
}

#[test]
fn an_engine_that_was_not_run_has_a_dot() {
    let bench = Bench::new("engines");
    bench.file("c7.pg", C7);
    for (engine, line) in [
        ("zielonka", "c7.pg 00 3 . 1,-\n"),
        ("promotion", "c7.pg 00 . 3 1,-\n"),
        ("quasi", "c7.pg 00 . . .\n"),
        ("both", "c7.pg 00 3 3 1,-\n"),
        ("all", "c7.pg 00 3 3 1,-\n"),
    ] {
        assert_eq!(bench.run(&["solve", "--engine", engine, "--strategy", "c7.pg"]), ended(0, line, ""));
    }
}

#[test]
fn a_solution_is_written_and_checked() {
    let bench = Bench::new("check");
    bench.file("c7.pg", C7);
    assert_eq!(bench.run(&["solve", "c7.pg", "--solution", "c7.sol"]).0, 0);
    assert_eq!(bench.text("c7.sol"), "paritysol 1;\n0 0 1;\n1 0;\n");
    assert_eq!(bench.run(&["check", "c7.pg", "c7.sol"]), ended(0, "c7.pg yes\n", ""));
    assert_eq!(bench.run_on(&["check", "c7.pg", "-"], b"1 0; 0 0 1;"), ended(0, "c7.pg yes\n", ""));
    assert_eq!(bench.run(&["solve", "c7.pg", "--engine", "quasi", "--solution", "none.sol"]).0, 0);
    assert_eq!(bench.text("none.sol"), "paritysol 1;\n0 0;\n1 0;\n");
    let none = "none.sol: there are no choices at all, and vertex 0 needs one (25 at vertex 0)\n";
    assert_eq!(bench.run(&["check", "c7.pg", "none.sol"]), ended(1, "c7.pg no 25 0\n", none));
}

#[test]
fn a_solution_made_wrong_in_one_entry_gets_its_number() {
    let bench = Bench::new("wrong");
    bench.file("c7.pg", C7);
    bench.file("c8.pg", C8);
    bench.file("loops.pg", "0 1 0 0,1; 1 2 0 1; 2 0 1 1,0;");
    for (game, solution, said, sentence) in [
        ("c7", "0 0 1;", "no 21 1", "vertex 1 has not exactly one winner (21 at vertex 1)"),
        ("c7", "0 0 0; 1 0;", "no 22 0", "vertex 0 chooses 0, and no edge leads there (22 at vertex 0)"),
        ("c7", "0 0 1; 1 0 1;", "no 22 1", "vertex 1 chooses 1, and its owner does not win it (22 at vertex 1)"),
        ("c7", "0 0 1; 1 1 1;", "no 23 0", "the edge 0 → 1 leaves the winner's set (23 at vertex 0)"),
        (
            "loops",
            "0 0 0; 1 0 1; 2 0;",
            "no 24 0",
            "vertex 0 lies on a cycle by which the other player wins it (24 at vertex 0)",
        ),
        ("loops", "0 0; 1 0 1; 2 0;", "no 22 0", "vertex 0 is won by its owner, and chooses nothing (22 at vertex 0)"),
        (
            "c8",
            "0 0; 1 0; 2 0; 3 1;",
            "no 25 0",
            "there are no choices at all, and vertex 0 needs one (25 at vertex 0)",
        ),
    ] {
        let game = format!("{game}.pg");
        bench.file("s.sol", solution);
        let ends = ended(1, &format!("{game} {said}\n"), &format!("s.sol: {sentence}\n"));
        assert_eq!(bench.run(&["check", &game, "s.sol"]), ends);
    }
}

#[test]
fn a_text_that_is_no_solution_is_refused_at_its_byte() {
    let bench = Bench::new("no_solution");
    bench.file("c7.pg", C7);
    for (solution, sentence) in [
        ("paritysol 7;", "s.sol:1:11: the header says 7, and the game's highest vertex is 1 (byte 10)"),
        ("0 0 1;\n2 0;", "s.sol:2:1: the game has no vertex 2 (byte 7)"),
        ("0 0 1; 0 0 1;", "s.sol:1:8: vertex 0 was named before (byte 7)"),
        ("0 2;", "s.sol:1:3: the winner of vertex 0 is 2, neither 0 nor 1 (byte 2)"),
        ("0;", "s.sol:1:2: a winner is missing before the semicolon (byte 1)"),
        ("0 0 1", "s.sol:1:6: the text ends too soon: a semicolon is missing (byte 5)"),
        ("0 0 1 1;", "s.sol:1:7: a semicolon is missing before this (byte 6)"),
        ("0 x;", "s.sol:1:3: a winner is missing: this is no number (byte 2)"),
        ("99999999999999999999999 0;", "s.sol:1:1: the game has no vertex 18446744073709551615 (byte 0)"),
    ] {
        bench.file("s.sol", solution);
        assert_eq!(bench.run(&["check", "c7.pg", "s.sol"]), ended(1, "", &format!("{sentence}\n")));
    }
}

#[test]
fn games_are_compacted_mended_and_edited() {
    let bench = Bench::new("games");
    bench.file("c7.pg", C7);
    bench.file("half.pg", "0 2 0 1,9; 1 4 1 7;");
    assert_eq!(
        bench.run_on(&["compact", "-"], b"0 3 0 0;1 7 1 0,1;2 4 0 2 \"x\";").1,
        "parity 2;\n0 1 0 0;\n1 3 1 0,1;\n2 2 0 2;\n"
    );
    let list = "half.pg: edge 1, 0 → 9, is dropped: it ends at no vertex\n\
                half.pg: edge 2, 1 → 7, is dropped: it ends at no vertex\n\
                half.pg: vertex 1 had no edge left: a self loop, and priority 0 instead of 4\n";
    assert_eq!(bench.run(&["mend", "half.pg"]), ended(0, "parity 1;\n0 2 0 1;\n1 0 1 1;\n", list));
    assert_eq!(bench.run(&["mend", "c7.pg"]), ended(0, "parity 1;\n0 2 0 1;\n1 0 1 0,1;\n", ""));
    let words = ["edit", "c7.pg", "--priority", "0=9", "--edge", "2=0", "--owner", "1=0", "--priority", "0=3"];
    assert_eq!(bench.run(&words), ended(0, "parity 1;\n0 3 0 1;\n1 0 0 0,0;\n", ""));
}

#[test]
fn a_refused_edit_writes_nothing() {
    let bench = Bench::new("edits");
    bench.file("c7.pg", C7);
    for (option, value, sentence) in [
        ("--priority", "2=0", "there is no vertex 2: the highest is 1 (41 at vertex 2)"),
        ("--edge", "3=0", "there is no edge 3: the last is 2 (41 at edge 3)"),
        ("--priority", "1=256", "priority 256 for vertex 1 is above 255 (42 at vertex 1)"),
        ("--edge", "2=2", "edge 2, 1 → 2, would end at no vertex (43 at edge 2)"),
        ("--owner", "1=2", "owner 2 for vertex 1 is neither 0 nor 1 (48 at vertex 1)"),
        (
            "--owner",
            "18446744073709551615=0",
            "there is no vertex 18446744073709551615: the highest is 1 (41 at vertex 18446744073709551615)",
        ),
    ] {
        let words = ["edit", "c7.pg", "--priority", "0=1", option, value];
        assert_eq!(bench.run(&words), ended(1, "", &format!("c7.pg: {sentence}\n")));
    }
}

#[test]
fn loops_and_pictures() {
    let bench = Bench::new("loops");
    bench.file("c7.pg", C7);
    bench.file("c8.pg", C8);
    bench.file("c7.sol", "paritysol 1; 0 0 1; 1 0;");
    assert_eq!(bench.run(&["loop", "c8.pg", "0"]), ended(0, "0 → (1 → 2 → 1)\n", ""));
    // every other vertex has a self loop that Odd wins
    let way = |v| [(17, 4), (4, 9), (9, 2), (2, 9)].iter().find(|(from, _)| *from == v).map_or(v, |(_, to)| *to);
    let long: String = (0..18).map(|v| format!("{v} {} 0 {};", if v == 9 { 2 } else { 1 }, way(v))).collect();
    assert_eq!(bench.run_on(&["loop", "-", "17"], long.as_bytes()), ended(0, "17 → 4 → (9 → 2 → 9)\n", ""));
    let none = "c8.pg: no cycle that Even wins can be reached from vertex 3 (46 at vertex 3)\n";
    assert_eq!(bench.run(&["loop", "c8.pg", "3"]), ended(1, "", none));
    assert_eq!(
        bench.run(&["loop", "c8.pg", "4"]).2,
        "c8.pg: there is no vertex 4: the highest is 3 (44 at vertex 4)\n"
    );
    assert_eq!(bench.run(&["loop", "c7.pg", "0"]).0, 1);
    let picture = "digraph game {\n  node [style=filled, fillcolor=white];\n  \
                   0 [label=\"0: 2\", shape=ellipse, fillcolor=\"#a6cee3\"];\n  0 -> 1 [style=bold];\n  \
                   1 [label=\"1: 0\", shape=box, fillcolor=\"#a6cee3\"];\n  1 -> 0;\n  1 -> 1;\n}\n";
    assert_eq!(bench.run(&["dot", "c7.pg", "--solution", "c7.sol"]), ended(0, picture, ""));
    let drawn = bench.run(&["dot", "c8.pg", "--loop", "0"]);
    assert_eq!((drawn.0, drawn.1.matches("style=bold, color").count()), (0, 3));
    bench.file("c7.sol", "0 0 0; 1 0;");
    assert_eq!(bench.run(&["dot", "c7.pg", "--solution", "c7.sol"]).0, 1);
}
