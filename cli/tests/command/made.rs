//! Games and texts made by numbers that are the same on every machine.

pub struct Numbers(u64);

impl Numbers {
    pub fn from(seed: u64) -> Numbers {
        Numbers(seed.wrapping_mul(0x9e37_79b9_7f4a_7c15) | 1)
    }

    pub fn below(&mut self, bound: usize) -> usize {
        self.0 = self.0.wrapping_mul(6_364_136_223_846_793_005).wrapping_add(1_442_695_040_888_963_407);
        ((self.0 >> 33) as usize) % bound
    }

    pub fn one_of<T: Copy>(&mut self, of: &[T]) -> T {
        of[self.below(of.len())]
    }
}

/// The text of a random game: n vertices, m edges and every vertex with one at least.
pub fn game(numbers: &mut Numbers, n: usize, m: usize, priorities: usize) -> String {
    let mut targets: Vec<Vec<String>> = (0..n).map(|_| vec![numbers.below(n).to_string()]).collect();
    for _ in n..m {
        let (v, w) = (numbers.below(n), numbers.below(n));
        targets[v].push(w.to_string());
    }
    let mut text = format!("parity {};\n", n - 1);
    for (v, targets) in targets.iter().enumerate() {
        text += &format!("{v} {} {} {};\n", numbers.below(priorities), numbers.below(2), targets.join(","));
    }
    text
}

/// A text that may be whole, written in another way, damaged in one byte or cut.
pub fn text(numbers: &mut Numbers) -> Vec<u8> {
    let (n, priorities) = (1 + numbers.below(12), numbers.one_of(&[2, 4, 9, 256]));
    let mut text = game(numbers, n, n + numbers.0 as usize % 20, priorities).into_bytes();
    let at = numbers.below(text.len());
    match numbers.below(8) {
        0 => text[at] = numbers.one_of(b"0123456789,;\" \t\n\rpx\xff\0"),
        1 => text.truncate(at),
        2 => text.insert(at, numbers.one_of(b"0123456789,;\" \t\n\rpx\xff\0")),
        3 => drop(text.drain(..text.iter().position(|byte| *byte == b'\n').unwrap() + 1)),
        4 => text = spread(&text, numbers),
        _ => {}
    }
    text
}

/// The same game with other separators and names.
fn spread(text: &[u8], numbers: &mut Numbers) -> Vec<u8> {
    let mut spread = Vec::new();
    for (index, byte) in text.iter().enumerate() {
        match byte {
            b' ' | b'\n' => spread.extend_from_slice(numbers.one_of(&["  ", "\t", "\r\n", " \n "]).as_bytes()),
            // no name stands in the header
            b';' if index > 12 && numbers.below(3) == 0 => spread.extend_from_slice(b" \"a; name, 1\";"),
            b',' => spread.extend_from_slice(numbers.one_of(&[",", " ,", ", "]).as_bytes()),
            other => spread.push(*other),
        }
    }
    spread
}
