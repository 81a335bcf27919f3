//! Starting a program and feeding it.

use std::io::{Read, Result, Write};
use std::path::Path;
use std::process::{Command, Stdio};

/// The runner's words, if any, and then the program's path.
#[derive(Clone)]
pub struct Program {
    words: Vec<String>,
}

impl Program {
    pub fn new(path: &str, runner: &[String]) -> Program {
        let mut words = runner.to_vec();
        words.push(path.to_string());
        Program { words }
    }

    /// The program of another name that stands beside this one, where there is one.
    pub fn beside(&self, name: &str) -> Option<Program> {
        let (path, runner) = self.words.split_last()?;
        let other = Path::new(path).with_file_name(name);
        other.is_file().then(|| Program::new(&other.to_string_lossy(), runner))
    }

    /// What it writes on standard output. The input comes from a thread of its own, so that neither side waits for the other.
    pub fn run(&self, input: &[u8]) -> Result<Vec<u8>> {
        let mut child = Command::new(&self.words[0]).args(&self.words[1..]).stdin(Stdio::piped()).stdout(Stdio::piped()).spawn()?;
        let (stdin, stdout) = (child.stdin.take(), child.stdout.take());
        let mut output = Vec::new();
        let read = std::thread::scope(|scope| {
            scope.spawn(move || {
                // A program that ends early shows in what it wrote.
                let _ = stdin.map(|mut stdin| stdin.write_all(input));
            });
            stdout.map_or(Ok(0), |mut stdout| stdout.read_to_end(&mut output))
        });
        child.wait()?;
        read.map(|_| output)
    }
}

/// The programs that are compared; `travel` only where it is there.
pub struct Programs {
    pub answers: Program,
    pub sheet: Program,
    pub travel: Option<Program>,
}

impl Programs {
    /// Nothing can be compared without `answers`, which must run on no case at all, and `sheet`.
    pub fn new(path: &str, runner: &[String]) -> std::result::Result<Programs, String> {
        if !Path::new(path).is_file() {
            return Err(format!("no program {path}"));
        }
        let answers = Program::new(path, runner);
        let sheet = answers.beside("sheet").ok_or("no program sheet beside it")?;
        let travel = answers.beside("travel");
        match answers.run(&[]) {
            Ok(nothing) if nothing.is_empty() => Ok(Programs { answers, sheet, travel }),
            Ok(_) => Err("answers says something to nothing".into()),
            Err(error) => Err(format!("answers: {error}")),
        }
    }
}
