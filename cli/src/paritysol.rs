//! Solutions as PGSolver's `paritysol` text: for each vertex its identifier, its winner and, where its owner wins it, the target
//! that it chooses.

use crate::{grammar, input};
use reckonbough::{Solved, MAX_READ};
use std::path::Path;

/// Who is said to win where, by which choices. A vertex that the text does not name has no winner.
pub struct Claim {
    pub even: Vec<bool>,
    pub odd: Vec<bool>,
    pub strategy: Vec<Option<usize>>,
}

impl Claim {
    pub fn of(solved: &Solved) -> Claim {
        Claim { even: solved.even.clone(), odd: solved.odd.clone(), strategy: solved.strategy.clone() }
    }

    /// Winners without choices.
    pub fn without_choices(odd: &[bool]) -> Claim {
        let even = odd.iter().map(|odd| !odd).collect();
        Claim { even, odd: odd.to_vec(), strategy: vec![None; odd.len()] }
    }

    /// The solution as text.
    pub fn text(&self) -> String {
        let mut text = format!("paritysol {};\n", self.odd.len().max(1) - 1);
        for (vertex, (odd, choice)) in self.odd.iter().zip(&self.strategy).enumerate() {
            let choice = choice.map_or(String::new(), |target| format!(" {target}"));
            text += &format!("{vertex} {}{choice};\n", u8::from(*odd));
        }
        text
    }

    /// The solution of a game of that many vertices in the file, or a sentence that says why it is none.
    pub fn read(path: &Path, vertices: usize) -> Result<Claim, String> {
        let text = input::read(path)?;
        parse(&text, vertices).map_err(|(byte, why)| {
            let at = grammar::position(&input::name(path), &text, byte);
            format!("{at}: {why} (byte {byte})")
        })
    }
}

/// A byte, and what is wrong there.
type Wrong = (usize, String);

/// A word of the text, and where it begins.
type Word<'a> = (usize, &'a [u8]);

fn parse(text: &[u8], vertices: usize) -> Result<Claim, Wrong> {
    if text.len() as u64 > MAX_READ {
        return Err((MAX_READ as usize, "the text is longer than 16777216 bytes".into()));
    }
    let mut claim = Claim { even: vec![false; vertices], odd: vec![false; vertices], strategy: vec![None; vertices] };
    let mut begin = 0;
    for (index, part) in text.split(|byte| *byte == b';').enumerate() {
        let (end, words) = (begin + part.len(), words(part, begin));
        match &words[..] {
            [] if end == text.len() => return Ok(claim),
            _ if end == text.len() => return Err((end, "the text ends too soon: a semicolon is missing".into())),
            [(_, b"paritysol"), rest @ ..] if index == 0 => header(rest, vertices, end)?,
            words => record(&mut claim, words, end)?,
        }
        begin = end + 1;
    }
    Ok(claim)
}

fn words(part: &[u8], begin: usize) -> Vec<Word<'_>> {
    let mut words = Vec::new();
    let mut at = begin;
    for word in part.split(u8::is_ascii_whitespace) {
        if !word.is_empty() {
            words.push((at, word));
        }
        at += word.len() + 1;
    }
    words
}

fn header(words: &[Word<'_>], vertices: usize, end: usize) -> Result<(), Wrong> {
    let (at, highest) = number(words, 0, end, "the highest identifier")?;
    if highest.checked_add(1) != Some(vertices) {
        return Err((
            at,
            format!("the header says {highest}, and the game's highest vertex is {}", vertices.max(1) - 1),
        ));
    }
    no_more(words, 1)
}

fn record(claim: &mut Claim, words: &[Word<'_>], end: usize) -> Result<(), Wrong> {
    let (at, vertex) = number(words, 0, end, "an identifier")?;
    let (winner_at, winner) = number(words, 1, end, "a winner")?;
    let named = match (claim.even.get(vertex), claim.odd.get(vertex)) {
        (Some(even), Some(odd)) => *even || *odd,
        _ => return Err((at, format!("the game has no vertex {vertex}"))),
    };
    if named {
        return Err((at, format!("vertex {vertex} was named before")));
    }
    match winner {
        0 => claim.even[vertex] = true,
        1 => claim.odd[vertex] = true,
        other => return Err((winner_at, format!("the winner of vertex {vertex} is {other}, neither 0 nor 1"))),
    }
    if words.len() > 2 {
        claim.strategy[vertex] = Some(number(words, 2, end, "a target")?.1);
    }
    no_more(words, 3)
}

/// The word at the index as a number. One that is too large for any vertex is kept as one that is none.
fn number(words: &[Word<'_>], index: usize, end: usize, what: &str) -> Result<(usize, usize), Wrong> {
    let (at, word) = *words.get(index).ok_or_else(|| (end, format!("{what} is missing before the semicolon")))?;
    if !word.iter().all(u8::is_ascii_digit) {
        return Err((at, format!("{what} is missing: this is no number")));
    }
    let digit = |value: usize, byte: &u8| value.saturating_mul(10).saturating_add(usize::from(byte - b'0'));
    Ok((at, word.iter().fold(0, digit)))
}

fn no_more(words: &[Word<'_>], most: usize) -> Result<(), Wrong> {
    words.get(most).map_or(Ok(()), |(at, _)| Err((*at, "a semicolon is missing before this".into())))
}
