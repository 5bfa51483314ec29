//! An option of a command.

/// An option: how it is written, what stands after it, and its line in the help.
#[derive(Clone, Copy)]
pub struct Opt {
    /// its spellings; messages use the first
    pub names: &'static [&'static str],
    /// what stands after it
    pub value: Value,
    /// whether it must be given
    pub required: bool,
    /// what it does, in the help
    pub help: &'static str,
}

/// What stands after an option.
#[derive(Clone, Copy)]
pub enum Value {
    /// nothing
    None,
    /// the name of a file that is written, which the help calls so
    Output(&'static str),
    /// the name of a file that is read, which the help calls so
    Input(&'static str),
    /// a hexadecimal number, which the help calls so
    Number(&'static str),
    /// a decimal number, which the help calls so
    Decimal(&'static str),
    /// a word of another form, which the help calls so, and what a message calls it
    Word(&'static str, &'static str),
}

impl Opt {
    /// An option without a value.
    pub const fn flag(names: &'static [&'static str], help: &'static str) -> Opt {
        Opt { names, value: Value::None, required: false, help }
    }

    /// An option with a hexadecimal number, which the help calls `name`.
    pub const fn number(names: &'static [&'static str], name: &'static str, required: bool, help: &'static str) -> Opt {
        Opt { names, value: Value::Number(name), required, help }
    }

    /// An option with a decimal number, which the help calls `name`.
    pub const fn decimal(names: &'static [&'static str], name: &'static str, required: bool, help: &'static str) -> Opt {
        Opt { names, value: Value::Decimal(name), required, help }
    }

    /// The spelling by which messages call it.
    pub fn name(&self) -> &'static str {
        self.names[0]
    }

    /// As the usage line has it: `-o FILE`, and `[-o FILE]` where it may be left out.
    pub fn usage(&self) -> String {
        let text = with_value(self.name(), self.value.name());
        if self.required { text } else { format!("[{text}]") }
    }

    /// As a message calls it where it is missing.
    pub fn wanted(&self) -> String {
        with_value(self.name(), self.value.kind().map(|(kind, _)| kind))
    }

    /// As its line in the help begins: `-o, --output FILE`.
    pub fn spelled(&self) -> String {
        with_value(&self.names.join(", "), self.value.name())
    }
}

impl Value {
    /// Its name in the help.
    pub fn name(&self) -> Option<&'static str> {
        match self {
            Value::None => None,
            Value::Output(name) | Value::Input(name) | Value::Number(name) | Value::Decimal(name) | Value::Word(name, _) => Some(name),
        }
    }

    /// Whether it is the name of a file.
    pub fn is_file(&self) -> bool {
        self.is_input() || self.is_output()
    }

    /// Whether it is the name of a file that is read.
    pub fn is_input(&self) -> bool {
        matches!(self, Value::Input(_))
    }

    /// Whether it is the name of a file that is written.
    pub fn is_output(&self) -> bool {
        matches!(self, Value::Output(_))
    }

    /// What a message asks for where it is missing: in capitals, and in words.
    pub fn kind(&self) -> Option<(&'static str, &'static str)> {
        match self {
            Value::None => None,
            Value::Output(_) | Value::Input(_) => Some(("FILE", "a file name")),
            Value::Number(name) => Some((name, "a hexadecimal number")),
            Value::Decimal(name) => Some((name, "a decimal number")),
            Value::Word(name, words) => Some((name, words)),
        }
    }
}

fn with_value(option: &str, value: Option<&str>) -> String {
    value.map_or(option.into(), |value| format!("{option} {value}"))
}
