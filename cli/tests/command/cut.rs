//! Texts cut in the middle: every cut is answered, and what is refused is said.

use crate::{Bench, Ended};
use reckonbough::Game;

#[test]
fn a_text_cut_after_each_byte() {
    let bench = Bench::new("cut");
    let text = b"parity 2;\n0 12 0 1,2 \"first\";\n1 255 1 0 , 1;\n2 0 0 2;\n";
    let names: Vec<String> = (0..=text.len()).map(|length| format!("{length}.pg")).collect();
    names.iter().enumerate().for_each(|(length, name)| bench.file(name, &text[..length]));
    let words: Vec<&str> = ["solve"].into_iter().chain(names.iter().map(String::as_str)).collect();
    let Ended(status, out, err) = bench.run(&words);
    assert_eq!(status, 1);
    let mut refused = 0;
    for (length, line) in out.lines().enumerate() {
        match Game::read(&text[..length]).map_err(|refusal| refusal.number_and_place()) {
            Ok(_) => assert!(line.starts_with(&format!("{length}.pg 0")), "{line}"),
            Err((number, place)) => {
                refused += 1;
                assert_eq!(line, format!("{length}.pg refused {number} {place}"));
            }
        }
    }
    assert_eq!((out.lines().count(), err.lines().count()), (text.len() + 1, refused));
    assert!(refused > 40);
}
