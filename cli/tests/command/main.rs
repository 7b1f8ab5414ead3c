//! Runs the command as a user does and looks at what it prints and how it ends.
#![forbid(unsafe_code)]

mod cost;
mod cut;
mod made;
mod many;
mod random;
mod sheets;
mod statuses;
mod verbs;

use std::fs;
use std::io::Write;
use std::path::{Path, PathBuf};
use std::process::{Command, Output, Stdio};

const C7: &str = "parity 1; 0 2 0 1; 1 0 1 0,1;";
const C8: &str = "0 1 0 1; 1 2 0 2,2; 2 1 0 1; 3 3 0 3;";

/// A folder of one test's own, empty at first, in which the command is run.
struct Bench(PathBuf);

impl Bench {
    fn new(name: &str) -> Bench {
        let folder = Path::new(env!("CARGO_TARGET_TMPDIR")).join(name);
        let _ = fs::remove_dir_all(&folder);
        fs::create_dir_all(&folder).unwrap();
        Bench(folder)
    }

    fn file(&self, name: &str, text: impl AsRef<[u8]>) {
        fs::write(self.0.join(name), text).unwrap();
    }

    fn text(&self, name: &str) -> String {
        fs::read_to_string(self.0.join(name)).unwrap()
    }

    fn command(&self, words: &[&str]) -> Command {
        let mut command = Command::new(env!("CARGO_BIN_EXE_reckonbough"));
        command.args(words).current_dir(&self.0).stdin(Stdio::null());
        command
    }

    fn run(&self, words: &[&str]) -> Ended {
        Ended::of(self.command(words).output().unwrap())
    }

    fn run_on(&self, words: &[&str], input: &[u8]) -> Ended {
        let mut command = self.command(words);
        command.stdin(Stdio::piped()).stdout(Stdio::piped()).stderr(Stdio::piped());
        let mut child = command.spawn().unwrap();
        // a command that stops reading early closes its end
        let _ = child.stdin.take().unwrap().write_all(input);
        Ended::of(child.wait_with_output().unwrap())
    }
}

/// Exit status, standard output, standard error.
#[derive(Debug, PartialEq)]
struct Ended(i32, String, String);

impl Ended {
    fn of(output: Output) -> Ended {
        let text = |bytes| String::from_utf8(bytes).unwrap();
        Ended(output.status.code().unwrap_or(-1), text(output.stdout), text(output.stderr))
    }
}

fn ended(status: i32, out: &str, err: &str) -> Ended {
    Ended(status, out.into(), err.into())
}
