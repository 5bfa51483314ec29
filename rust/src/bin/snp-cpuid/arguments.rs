//! What was given to a command: its operands and options.

use crate::option::Opt;
use std::ffi::{OsStr, OsString};

/// Operands and options, as they were given.
#[derive(Default)]
pub struct Arguments {
    /// the operands, as many as the command takes; more where its last may be given more than once
    pub operands: Vec<OsString>,
    options: Vec<(&'static str, OsString)>,
}

impl Arguments {
    /// Takes an option in, with its value; an empty one where it has none.
    pub fn put(&mut self, option: &'static Opt, value: OsString) {
        self.options.push((option.name(), value));
    }

    /// Whether an option was given.
    pub fn has(&self, option: &Opt) -> bool {
        self.value(option.name()).is_some()
    }

    /// The value that the option of this name was given.
    pub fn value(&self, option: &str) -> Option<&OsStr> {
        self.options.iter().find(|(name, _)| *name == option).map(|(_, value)| value.as_os_str())
    }
}
