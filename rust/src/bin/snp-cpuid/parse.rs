//! The arguments of a command, read from the command line.

use crate::arguments::Arguments;
use crate::command::{Command, MORE};
use crate::failure::Failure;
use crate::input::shown;
use crate::option::Opt;
use crate::suggest::nearest;
use std::ffi::OsString;

/// What was given to a command; none where its help is asked for.
pub fn parse(command: &'static Command, mut given: impl Iterator<Item = OsString>) -> Result<Option<Arguments>, Failure> {
    let usage = |text: String| Failure::usage(command.name, &text);
    let mut arguments = Arguments::default();
    let mut options = true;
    while let Some(argument) = given.next() {
        let text = argument.to_str().unwrap_or_default();
        if !options || text == "-" || !argument.as_encoded_bytes().starts_with(b"-") {
            arguments.operands.push(argument);
        } else if text == "--" {
            options = false;
        } else if text == "-h" || text == "--help" {
            return Ok(None);
        } else {
            let (option, value) = find(command, text).ok_or_else(|| usage(unknown(command, text, &shown(&argument))))?;
            take(&mut arguments, option, text, value, &mut given).map_err(usage)?;
        }
    }
    whole(command, &arguments).map_err(usage)?;
    Ok(Some(arguments))
}

/// What is said of an option that the command has not.
fn unknown(command: &'static Command, text: &str, shown: &str) -> String {
    let names = command.options().flat_map(|option| option.names.iter().copied()).filter(|name| name.starts_with("--"));
    let near = nearest(text.split('=').next().unwrap_or_default(), names);
    format!("no option '{shown}'{}", near.map_or(String::new(), |near| format!(", did you mean '{near}'?")))
}

/// The option that is written so, and the value of `--option=VALUE`.
fn find(command: &'static Command, text: &str) -> Option<(&'static Opt, Option<OsString>)> {
    let by_name = |name: &str| command.options().find(|option| option.names.contains(&name));
    by_name(text).map(|option| (option, None)).or_else(|| {
        let (name, value) = text.split_once('=').filter(|(name, _)| name.starts_with("--"))?;
        by_name(name).filter(|option| option.value.kind().is_some()).map(|option| (option, Some(value.into())))
    })
}

/// Takes an option in, where it needs a value with the one behind `=` or the next argument.
fn take(
    arguments: &mut Arguments,
    option: &'static Opt,
    text: &str,
    value: Option<OsString>,
    given: &mut impl Iterator<Item = OsString>,
) -> Result<(), String> {
    let value = match option.value.kind() {
        None => OsString::new(),
        Some((_, wanted)) => {
            let value = value.or_else(|| given.next()).ok_or_else(|| format!("{text} needs {wanted}"))?;
            if arguments.has(option) {
                return Err(format!("{} is given twice", option.name()));
            }
            value
        }
    };
    arguments.put(option, value);
    Ok(())
}

/// Whether a command has all its arguments and no more.
fn whole(command: &Command, arguments: &Arguments) -> Result<(), String> {
    if let Some(missing) = command.operands.get(arguments.operands.len()) {
        return Err(format!("{} is missing", missing.trim_end_matches(MORE)));
    }
    if let Some(more) = arguments.operands.get(command.operands.len()).filter(|_| !command.takes_more()) {
        return Err(format!("one operand too many, '{}'", shown(more)));
    }
    match command.options().find(|option| option.required && !arguments.has(option)) {
        Some(missing) => Err(format!("{} is missing", missing.wanted())),
        None => Ok(()),
    }
}
