//! Each function timed alone beside its limit: millions of edges or of bytes a second, the zeroing of the W words left out.

#[cfg(not(feature = "port"))]
pub fn print() {}

#[cfg(feature = "port")]
pub use with_port::print;

#[cfg(feature = "port")]
mod with_port {
    use std::hint::black_box;

    use compare::game::{words_of, Game};
    use compare::generate::chain;
    use compare::port::{self, Lent, Rooms};
    use compare::reference::tables::set_words;
    use compare::trips::text_of;

    use crate::timing::{in_turns, zero, Times};
    use crate::{families, mark, milliseconds, targets};

    /// A Markdown table, one row a function and game.
    pub fn print() {
        println!("\n## Alone\n");
        println!("| function | on | handles | ms | of it zeroing | millions a second, less zeroing | at least | |");
        println!("|---|---|---|---|---|---|---|---|");
        let (dense, sparse, chain) = (families::dense(4_096, 0), families::sparse(4_096, 0), chain(4_096));
        for (on, game) in [("random dense", &dense), ("chain", &chain)] {
            attractor(on, game);
            checker(on, game);
            solitaire(on, game);
        }
        opinion("random dense", &dense);
        opinion("random sparse", &sparse);
        texts(&dense);
    }

    /// What is timed: a function, its input, how much a run handles and in what unit.
    struct Subject<'a> {
        function: &'a str,
        on: &'a str,
        times: usize,
        size: usize,
        unit: &'a str,
    }

    impl Subject<'_> {
        /// Times the run and the zeroing of the work area that it is lent, and prints the row.
        fn print(&self, lent: &mut Lent, mut run: impl FnMut(&mut Lent)) {
            let (mut whole, mut zeroing) = (Times::new(), Times::new());
            in_turns(|| {
                whole.time(|| run(lent));
                let words = lent.work.len();
                zeroing.time(|| zero(&mut lent.work, words));
            });
            self.print_row(whole.ms(), (!lent.work.is_empty()).then(|| zeroing.ms()));
        }

        fn print_row(&self, ms: f64, zeroing: Option<f64>) {
            let Subject { function, on, times, size, unit } = self;
            let speed = (times * size) as f64 / (ms - zeroing.unwrap_or(0.0)).max(0.000_001) / 1e3;
            let least = targets::at_least(function, on);
            let mark = mark(least.is_some_and(|least| speed < least));
            let least = least.map_or("-".to_string(), |least| least.to_string());
            let handles = if *times == 1 { format!("{size} {unit}") } else { format!("{times} × {size} {unit}") };
            let (ms, zeroing) = (milliseconds(Some(ms)), milliseconds(zeroing));
            println!("| {function} | {on} | {handles} | {ms} | {zeroing} | {speed:.1} | {least} | {mark} |");
        }
    }

    /// Even's attractor of every eighth vertex, within all of them.
    fn attractor(on: &str, game: &Game) {
        let subject = Subject { function: "attractor", on, times: 1, size: game.m(), unit: "edges" };
        let within = words_of(&vec![true; game.n()]);
        let target = words_of(&(0..game.n()).map(|v| v % 8 == 0).collect::<Vec<bool>>());
        subject.print(&mut Lent::junk(game), |lent| {
            assert_eq!(port::attractor(game, 0, &within, &target, lent).number, 0, "the game is refused");
        });
    }

    /// The claim of Zielonka's recursion: a search for each priority.
    fn checker(on: &str, game: &Game) {
        let times = game.different_priorities();
        let subject = Subject { function: "checker", on, times, size: game.m(), unit: "edges" };
        let mut lent = Lent::junk(game);
        assert_eq!(port::zielonka(game, u64::MAX, &mut lent).number, 0, "the game is refused");
        subject.print(&mut lent, |lent| assert_eq!(port::check(game, lent).number, 0, "the claim is refused"));
    }

    /// The same game with every vertex Even's: a search for each even priority.
    fn solitaire(on: &str, game: &Game) {
        let game = &Game { owners: vec![0; game.n()], ..game.clone() };
        let times = (0..256).step_by(2).filter(|p| game.priorities.contains(p)).count();
        let subject = Subject { function: "solitaire", on, times, size: game.m(), unit: "edges" };
        subject.print(&mut Lent::junk(game), |lent| {
            assert_eq!(port::solitaire(game, lent).number, 0, "the game is refused");
        });
    }

    fn opinion(on: &str, game: &Game) {
        let subject = Subject { function: "second opinion", on, times: 1, size: game.m(), unit: "edges" };
        let mut lent = Lent::junk(game);
        lent.work.resize(lent.work.len() + 2_064 * set_words(game.n()), 0);
        subject.print(&mut lent, |lent| {
            let mut work = std::mem::take(&mut lent.work);
            assert_eq!(port::quasi_polynomial(game, lent, &mut work).number, 0, "the game is refused");
            lent.work = work;
        });
    }

    /// The reader and the writer on the game's text, beside a plain loop over its bytes.
    fn texts(game: &Game) {
        let text = text_of(game);
        let mut rooms = Rooms::filled(game.n(), game.m(), 0);
        let (kept, mut out) = (port::fresh(&game.priorities), vec![0; text.len()]);
        let of = |function| Subject { function, on: "text of random dense", times: 1, size: text.len(), unit: "bytes" };
        let mut lent = Lent { work: Vec::new(), ..Lent::junk(game) };
        of("reader").print(&mut lent, |_| {
            assert_eq!(port::read(&text, 1 << 24, &mut rooms).number, 0, "the text is refused");
        });
        of("writer").print(&mut lent, |_| {
            assert_eq!(port::write(game, &kept, &mut out).number, 0, "the game is refused");
        });
        of("a plain loop").print(&mut lent, |_| {
            black_box(black_box(&text).iter().fold(0u64, |sum, byte| black_box(sum + u64::from(*byte))));
        });
    }
}
