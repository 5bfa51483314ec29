//! Completion scripts for bash, zsh and fish, from the table of commands.

use crate::command::Command;
use crate::help;
use crate::option::Opt;

/// What makes the script of a shell.
pub type Script = fn(&[Command]) -> String;

/// The script of the shell of this name.
pub fn named(shell: &str) -> Option<Script> {
    match shell {
        "bash" => Some(bash),
        "zsh" => Some(zsh),
        "fish" => Some(fish),
        _ => None,
    }
}

/// What may stand in a place of the command line.
enum Wanted {
    /// the name of a file
    File,
    /// one of these words
    Words(Vec<&'static str>),
    /// something that no shell can guess
    Other,
}

/// What stands after an option; none where nothing does.
fn value(option: &Opt) -> Option<Wanted> {
    let name = option.value.name()?;
    Some(if option.value.is_file() { Wanted::File } else { words(name).unwrap_or(Wanted::Other) })
}

/// What an operand is. A name `bash|zsh|fish` lists its words; all others may be files.
fn operand(name: &'static str) -> Wanted {
    words(name).unwrap_or(Wanted::File)
}

fn words(name: &'static str) -> Option<Wanted> {
    name.contains('|').then(|| Wanted::Words(name.split('|').collect()))
}

/// All options of a command, with the one that every command has.
fn options(command: &Command) -> impl Iterator<Item = &'static Opt> {
    command.options().chain([&help::HELP])
}

/// The words that an operand of the command may be.
fn choices(command: &Command) -> Vec<&'static str> {
    let words = |name: &&'static str| match operand(name) {
        Wanted::Words(words) => words,
        _ => vec![],
    };
    command.operands.iter().flat_map(words).collect()
}

fn names(commands: &[Command]) -> String {
    commands.iter().map(|command| command.name).collect::<Vec<_>>().join(" ")
}

/// The options of the program itself; the help's own text names them.
const PROGRAM: &str = "-h --help -V --version";

fn bash(commands: &[Command]) -> String {
    let all = names(commands);
    let arms: String = commands.iter().map(bash_arm).collect();
    format!(
        "\
# Completion of snp-cpuid in bash, made by 'snp-cpuid completion bash'.
_snp_cpuid() {{
    local current=${{COMP_WORDS[COMP_CWORD]}} before=${{COMP_WORDS[COMP_CWORD - 1]}} options= words=
    COMPREPLY=()
    case $COMP_CWORD,${{COMP_WORDS[1]}} in
    1,*) words='{all} help' options='{PROGRAM}' ;;
    2,help) words='{all}' ;;
{arms}    esac
    # a word that begins with a hyphen is an option; where no word fits, the shell itself completes file names
    if [[ $current == -* ]]; then words=$options; fi
    mapfile -t COMPREPLY < <(compgen -W \"$words\" -- \"$current\")
}}
complete -o bashdefault -o default -F _snp_cpuid snp-cpuid
"
    )
}

/// A command's arm: what may follow an option, and where none stands before, its options and words.
fn bash_arm(command: &Command) -> String {
    let after = |option: &'static Opt| {
        let what = match value(option)? {
            Wanted::File => String::new(),
            Wanted::Words(words) => format!("words='{}' ", words.join(" ")),
            Wanted::Other => "compopt +o bashdefault +o default 2>/dev/null ".into(),
        };
        Some(format!("        {}) {what};;\n", option.names.join(" | ")))
    };
    let cases: String = options(command).filter_map(after).collect();
    let all: Vec<&str> = options(command).flat_map(|option| option.names).copied().collect();
    let usual = format!("        *) options='{}' words='{}' ;;\n", all.join(" "), choices(command).join(" "));
    format!("    *,{})\n        case $before in\n{cases}{usual}        esac ;;\n", command.name)
}

fn zsh(commands: &[Command]) -> String {
    let described: String = commands.iter().map(|command| format!("        '{}:{}'\n", command.name, quoted(command.summary))).collect();
    let arms: String = commands.iter().map(zsh_arm).collect();
    let all = names(commands);
    format!(
        "\
#compdef snp-cpuid
# Completion of snp-cpuid in zsh, made by 'snp-cpuid completion zsh'.
_snp_cpuid() {{
    local -a commands=(
{described}        'help:print the help of a command'
    )
    if (( CURRENT == 2 )); then
        if [[ $PREFIX == -* ]]; then compadd -- {PROGRAM}; else _describe command commands; fi
        return
    fi
    shift words
    (( CURRENT-- ))
    case $words[1] in
    help) compadd -- {all} ;;
{arms}    esac
}}
if [ \"$funcstack[1]\" = _snp-cpuid ]; then _snp_cpuid \"$@\"; else compdef _snp_cpuid snp-cpuid; fi
"
    )
}

fn zsh_arm(command: &Command) -> String {
    let wanted = |name: &str, wanted: Wanted| match wanted {
        Wanted::File => format!(":{name}:_files"),
        Wanted::Words(words) => format!(":{name}:({})", words.join(" ")),
        Wanted::Other => format!(":{name}: "),
    };
    let option = |option: &Opt| {
        let after = value(option).map(|value| wanted(option.value.name().unwrap_or_default(), value)).unwrap_or_default();
        let help = quoted(option.help).replace('[', "\\[").replace(']', "\\]");
        let spelled = |name: &&str| format!(" \\\n            '({}){name}[{help}]{after}'", option.names.join(" "));
        option.names.iter().map(spelled).collect::<String>()
    };
    let last = command.operands.len();
    let operand = |(at, name): (usize, &&'static str)| {
        let place = if at + 1 == last && command.takes_more() { "*".into() } else { (at + 1).to_string() };
        // brackets and colons would be read as the specification's own
        let shown = name.replace([':', '[', ']', '|'], " ");
        format!(" \\\n            '{place}{}'", wanted(shown.trim(), operand(name)))
    };
    let all: String = options(command).map(option).chain(command.operands.iter().enumerate().map(operand)).collect();
    format!("    {})\n        _arguments{all} ;;\n", command.name)
}

fn fish(commands: &[Command]) -> String {
    let first = "complete -c snp-cpuid -n __fish_use_subcommand";
    let mut text = "# Completion of snp-cpuid in fish, made by 'snp-cpuid completion fish'.\ncomplete -c snp-cpuid -f\n".to_string();
    text += &format!("{first} -s h -l help -d 'print the help'\n{first} -s V -l version -d 'print the version'\n");
    text += &format!("{first} -a help -d 'print the help of a command'\n");
    text += &format!("complete -c snp-cpuid -n '__fish_seen_subcommand_from help' -a '{}'\n", names(commands));
    for command in commands {
        text += &format!("{first} -a {} -d '{}'\n", command.name, fish_quoted(command.summary));
        // after 'help' the name of a command is a word like any other
        let seen = format!("complete -c snp-cpuid -n '__fish_seen_subcommand_from {}; and not __fish_seen_subcommand_from help'", command.name);
        match choices(command)[..] {
            [] => text += &format!("{seen} -F\n"),
            ref words => text += &format!("{seen} -a '{}'\n", words.join(" ")),
        }
        text += &options(command).map(|option| format!("{seen} {}\n", fish_option(option))).collect::<String>();
    }
    text
}

fn fish_option(option: &Opt) -> String {
    let spelled = |name: &&str| name.strip_prefix("--").map_or_else(|| format!("-s {}", &name[1..]), |long| format!("-l {long}"));
    let names = option.names.iter().map(spelled).collect::<Vec<_>>().join(" ");
    let after = match value(option) {
        None => String::new(),
        Some(Wanted::File) => " -r -F".into(),
        Some(Wanted::Words(words)) => format!(" -x -a '{}'", words.join(" ")),
        Some(Wanted::Other) => " -x".into(),
    };
    format!("{names}{after} -d '{}'", fish_quoted(option.help))
}

/// Text within single quotes of bash and zsh.
fn quoted(text: &str) -> String {
    text.replace('\'', "'\\''").replace(':', "\\:")
}

/// Text within single quotes of fish.
fn fish_quoted(text: &str) -> String {
    text.replace('\\', "\\\\").replace('\'', "\\'")
}
