//! How a command fails: with a line, notes under it, and an exit status.

/// A failure with its line.
#[derive(Debug)]
pub enum Failure {
    /// Exit status 1: the answer is a refusal or no. Notes say why.
    No { line: String, notes: Vec<String> },
    /// Exit status 1: the answer is no, and standard output has it.
    AnswerNo,
    /// Exit status 2: bad usage, or input or output that cannot be read, parsed or written.
    Bad(String),
    /// Exit status 3: what was asked for is not there.
    NotFound(String),
}

impl Failure {
    /// Bad usage of a command, with where its help is.
    pub fn usage(command: &str, why: &str) -> Failure {
        Failure::Bad(format!("{command}: {why} (see 'snp-cpuid {command} --help')"))
    }

    /// The exit status.
    pub fn status(&self) -> u8 {
        match self {
            Failure::No { .. } | Failure::AnswerNo => 1,
            Failure::Bad(_) => 2,
            Failure::NotFound(_) => 3,
        }
    }

    /// What goes to standard error: the line, then the notes.
    pub fn lines(&self) -> Vec<String> {
        match self {
            Failure::No { line, notes } => [line.clone()].into_iter().chain(notes.iter().map(|note| format!("note: {note}"))).collect(),
            Failure::Bad(line) | Failure::NotFound(line) => vec![line.clone()],
            Failure::AnswerNo => vec![],
        }
    }
}
