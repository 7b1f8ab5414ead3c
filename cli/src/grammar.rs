//! Why the library refused a byte of a text, in words. The library alone decides; this walks up to the byte that it named and
//! says what should have stood there.

use reckonbough::MAX_READ;

/// What is expected next. A number that is being read has `digits` set.
#[derive(Clone, Copy, PartialEq)]
enum Step {
    Start,
    Word,
    Header,
    HeaderEnd,
    Identifier,
    Priority,
    Owner,
    FirstTarget,
    NextTarget,
    Tail,
    Name,
    Close,
}

/// How far a text was walked.
struct Walk {
    step: Step,
    letters: usize,
    digits: bool,
    number: u64,
    header: Option<u64>,
    identifiers: Vec<u64>,
}

impl Walk {
    fn over(text: &[u8]) -> Walk {
        let start =
            Walk { step: Step::Start, letters: 0, digits: false, number: 0, header: None, identifiers: Vec::new() };
        text.iter().fold(start, Walk::byte)
    }

    fn byte(mut self, byte: &u8) -> Walk {
        match (self.step, byte) {
            (Step::Name, b'"') => self.step = Step::Close,
            (Step::Name, _) => {}
            (_, b'0'..=b'9') => self.digit(u64::from(byte - b'0')),
            (_, b' ' | b'\t' | b'\r' | b'\n') => self.separator(),
            (_, b';') => self.end(),
            (_, b',') => self.next(Step::NextTarget),
            (_, b'"') => self.next(Step::Name),
            _ => {
                self.step = Step::Word;
                self.letters += 1;
            }
        }
        self
    }

    fn digit(&mut self, digit: u64) {
        if self.step == Step::Start {
            self.step = Step::Identifier;
        }
        self.digits = true;
        self.number = self.number.saturating_mul(10).saturating_add(digit);
    }

    fn separator(&mut self) {
        match self.step {
            Step::Word => self.next(Step::Header),
            Step::Header if self.digits => self.next(Step::HeaderEnd),
            Step::Identifier if self.digits => self.next(Step::Priority),
            Step::Priority if self.digits => self.next(Step::Owner),
            Step::Owner if self.digits => self.next(Step::FirstTarget),
            Step::FirstTarget | Step::NextTarget if self.digits => self.next(Step::Tail),
            _ => {}
        }
    }

    /// A semicolon, behind the header or a record.
    fn end(&mut self) {
        self.next(Step::Identifier);
    }

    fn next(&mut self, step: Step) {
        match self.step {
            Step::Header if self.digits => self.header = Some(self.number),
            Step::Identifier if self.digits => self.identifiers.push(self.number),
            _ => {}
        }
        self.step = step;
        self.digits = false;
        self.number = 0;
    }

    /// What is missing where the walk stopped.
    fn missing(&self) -> &'static str {
        match (self.step, self.digits) {
            (Step::Start, _) => "the word `parity` or an identifier is missing",
            (Step::Word, _) if self.letters < 6 => "the word `parity` is misspelt",
            (Step::Word, _) => "a space is missing after the word `parity`",
            (Step::Header, false) => "the highest identifier is missing after the word `parity`",
            (Step::Header, true) | (Step::HeaderEnd, _) => "a semicolon is missing after the highest identifier",
            (Step::Identifier, false) => "an identifier is missing after the semicolon",
            (Step::Identifier, true) | (Step::Priority, false) => "a priority is missing after the identifier",
            (Step::Priority, true) | (Step::Owner, false) => "an owner is missing after the priority",
            (Step::Owner, true) | (Step::FirstTarget, false) => "a target is missing after the owner",
            (Step::NextTarget, false) => "a target is missing after the comma",
            (Step::FirstTarget | Step::NextTarget, true) | (Step::Tail, _) => {
                "a comma, a name or a semicolon is missing after the target"
            }
            (Step::Name, _) => "a quote is missing after the name",
            (Step::Close, _) => "a semicolon is missing after the name",
        }
    }
}

/// Why no text of the grammar goes on at this byte.
pub fn refused(text: &[u8], byte: usize) -> String {
    let missing = Walk::over(front(text, byte)).missing();
    if byte < text.len() {
        missing.into()
    } else {
        format!("the text ends too soon: {missing}")
    }
}

/// Which limit this byte goes beyond.
pub fn beyond(text: &[u8], byte: usize) -> &'static str {
    if byte as u64 >= MAX_READ {
        return "the text is longer than 16777216 bytes";
    }
    let walk = Walk::over(front(text, byte + 1));
    match walk.step {
        _ if walk.number > 65_535 => "the number is above 65535",
        Step::Identifier => "there are more than 4096 vertices",
        Step::FirstTarget | Step::NextTarget => "there are more than 16384 edges",
        _ => "the text goes beyond a limit",
    }
}

/// What is wrong with the identifiers of a text of the grammar, where the library named this one.
pub fn identifier(text: &[u8], named: usize) -> String {
    let walk = Walk::over(text);
    let times = walk.identifiers.iter().filter(|identifier| **identifier == named as u64).count();
    match walk.header {
        _ if times > 1 => format!("identifier {named} stands at {times} records"),
        _ if named < walk.identifiers.len() => format!("identifier {named} is missing"),
        Some(highest) => format!("the header says `parity {highest}`, and there are {named} records"),
        None => format!("identifier {named} is not there exactly once"),
    }
}

/// `name:line:column` of the byte, both counted from 1, the column in bytes.
pub fn position(name: &str, text: &[u8], byte: usize) -> String {
    let before = front(text, byte);
    let line = 1 + before.iter().filter(|b| **b == b'\n').count();
    let column = 1 + before.iter().rev().take_while(|b| **b != b'\n').count();
    format!("{name}:{line}:{column}")
}

fn front(text: &[u8], length: usize) -> &[u8] {
    text.get(..length).unwrap_or(text)
}
