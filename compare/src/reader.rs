//! A plain reader of PGSolver texts, written from document 02, A1, alone: one function for each piece of the grammar, over a
//! place in the text. It gives the refusal with its place, or the tables.

use crate::game::Game;
use crate::reference::{tables, Answer};

/// The most bytes, vertices and edges that are read.
#[derive(Clone, Copy, Debug)]
pub struct Limits {
    pub bytes: usize,
    pub vertices: usize,
    pub edges: usize,
}

/// No number is above this.
const HIGHEST: u32 = 65_535;

/// A record, as it stands in the text.
struct Record {
    identifier: u32,
    priority: u32,
    owner: u32,
    targets: Vec<u16>,
}

/// What a number is counted as.
#[derive(PartialEq)]
enum Counted {
    Vertex,
    Edge,
    Neither,
}

struct Reader<'a> {
    text: &'a [u8],
    at: usize,
    limits: Limits,
    vertices: usize,
    edges: usize,
}

impl Reader<'_> {
    /// The byte at hand, none at the end; 32 where it is one too many.
    fn look(&self) -> Result<Option<u8>, Answer> {
        match self.text.get(self.at) {
            Some(_) if self.at >= self.limits.bytes => Err(Answer::no(32, self.at)),
            byte => Ok(byte.copied()),
        }
    }

    /// Takes a byte that passes, else 30 here; the end of the text is a place too.
    fn take(&mut self, passes: impl Fn(u8) -> bool) -> Result<u8, Answer> {
        match self.look()? {
            Some(byte) if passes(byte) => {
                self.at += 1;
                Ok(byte)
            }
            _ => Err(Answer::no(30, self.at)),
        }
    }

    fn is_next(&self, passes: impl Fn(u8) -> bool) -> Result<bool, Answer> {
        Ok(self.look()?.is_some_and(passes))
    }

    fn blank(&mut self) -> Result<(), Answer> {
        while self.is_next(separates)? {
            self.at += 1;
        }
        Ok(())
    }

    fn gap(&mut self) -> Result<(), Answer> {
        self.take(separates)?;
        self.blank()
    }

    /// A mark, and what separates behind it.
    fn mark(&mut self, mark: u8) -> Result<(), Answer> {
        self.take(|byte| byte == mark)?;
        self.blank()
    }

    fn number(&mut self, counted: Counted) -> Result<u32, Answer> {
        if self.is_next(|byte| byte.is_ascii_digit())? {
            let full = (counted == Counted::Vertex && self.vertices == self.limits.vertices)
                || (counted == Counted::Edge && self.edges == self.limits.edges);
            if full {
                return Err(Answer::no(32, self.at));
            }
            self.vertices += (counted == Counted::Vertex) as usize;
            self.edges += (counted == Counted::Edge) as usize;
        }
        let mut value = 0;
        loop {
            let at = self.at;
            value = 10 * value + (self.take(|byte| byte.is_ascii_digit())? - b'0') as u32;
            if value > HIGHEST {
                return Err(Answer::no(32, at));
            }
            if !self.is_next(|byte| byte.is_ascii_digit())? {
                return Ok(value);
            }
        }
    }

    /// `parity N;`, where the text begins with a p.
    fn header(&mut self) -> Result<Option<u32>, Answer> {
        self.blank()?;
        if !self.is_next(|byte| byte == b'p')? {
            return Ok(None);
        }
        for letter in *b"parity" {
            self.take(|byte| byte == letter)?;
        }
        self.gap()?;
        let highest = self.number(Counted::Neither)?;
        self.blank()?;
        self.mark(b';')?;
        Ok(Some(highest))
    }

    fn target(&mut self) -> Result<u16, Answer> {
        let target = self.number(Counted::Edge)?;
        self.blank()?;
        Ok(target as u16)
    }

    fn record(&mut self) -> Result<Record, Answer> {
        let identifier = self.number(Counted::Vertex)?;
        self.gap()?;
        let priority = self.number(Counted::Neither)?;
        self.gap()?;
        let owner = self.number(Counted::Neither)?;
        self.gap()?;
        let mut targets = vec![self.target()?];
        while self.is_next(|byte| byte == b',')? {
            self.mark(b',')?;
            targets.push(self.target()?);
        }
        if self.is_next(|byte| byte == b'"')? {
            self.at += 1;
            while self.is_next(|byte| byte != b'"')? {
                self.at += 1;
            }
            self.mark(b'"')?;
        }
        self.mark(b';')?;
        Ok(Record { identifier, priority, owner, targets })
    }
}

fn separates(byte: u8) -> bool {
    matches!(byte, b' ' | b'\t' | b'\r' | b'\n')
}

/// 31: identifiers 0 to n - 1 each once, and N is n - 1.
fn misnumbered(highest: Option<u32>, records: &[Record]) -> Option<Answer> {
    let n = records.len();
    let times = |i: usize| records.iter().filter(|record| record.identifier as usize == i).count();
    let wrong = (0..n).find(|i| times(*i) != 1);
    let wrong = wrong.or_else(|| highest.is_some_and(|highest| highest as usize + 1 != n).then_some(n));
    wrong.map(|place| Answer::no(31, place))
}

/// What the text says, or 30, 31 or 32.
pub fn read_tables(text: &[u8], limits: Limits) -> Result<Game, Answer> {
    let mut reader = Reader { text, at: 0, limits, vertices: 0, edges: 0 };
    let highest = reader.header()?;
    let mut records = vec![reader.record()?];
    while reader.look()?.is_some() {
        records.push(reader.record()?);
    }
    if let Some(refusal) = misnumbered(highest, &records) {
        return Err(refusal);
    }
    records.sort_by_key(|record| record.identifier);
    let mut game = Game::empty();
    for record in &records {
        game.push(record.owner.min(255) as u8, record.priority as u16, &record.targets);
    }
    Ok(game)
}

/// The same, then document 01's list.
pub fn read(text: &[u8], limits: Limits) -> Result<Game, Answer> {
    let game = read_tables(text, limits)?;
    tables::first_refusal(&game).map_or(Ok(game), Err)
}
