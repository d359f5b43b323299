//! `completion`: what a shell completes behind `pasetone`, made from the tables of words/, so that it holds every command and every option that there is.
use crate::printed::out::Out;
use crate::words::commands::{COMMANDS, Command};
use crate::words::given::Given;
use crate::words::options::{OPTIONS, Opt, option};

/// Words behind a command that are no option.
enum Operands {
    None,
    Commands,
    Files,
    /// The first is one of these, the others are files.
    Words(Vec<&'static str>),
}

pub fn run(given: &Given, out: &mut Out) {
    let shells: Vec<Option<&str>> = given.operands.iter().map(|word| word.to_str()).collect();
    match shells.as_slice() {
        _ if out.is_mistaken() => {}
        [Some("bash")] => bash(out),
        [Some("zsh")] => zsh(out),
        _ => out.mistake("completion wants one shell: bash or zsh"),
    }
}

/// By what stands behind the command's name on its page.
fn operands(command: &Command) -> Operands {
    match command.operands.split(' ').next().unwrap_or("") {
        "[COMMAND]" => Operands::Commands,
        "" | "[HZ]" | "LO" => Operands::None,
        words if words.contains('|') => Operands::Words(words.split('|').collect()),
        _ => Operands::Files,
    }
}

/// The values that an option may have, where they are few words.
fn values(row: &Opt) -> Option<Vec<&'static str>> {
    row.value.filter(|value| value.contains('|')).map(|value| value.split('|').collect())
}

fn is_file(row: &Opt) -> bool {
    row.value == Some("FILE")
}

fn names() -> String {
    COMMANDS.iter().map(|command| command.name).collect::<Vec<_>>().join(" ")
}

/// The options of a command, help and version with them.
fn options(command: &Command) -> String {
    let own = command.keys().map(|key| option(key).name);
    own.chain(["--help", "--version"]).collect::<Vec<_>>().join(" ")
}

/// The names of all options that are so, once each.
fn those(is: impl Fn(&Opt) -> bool) -> Vec<&'static str> {
    let named: Vec<&str> = OPTIONS.iter().filter(|row| is(row)).map(|row| row.name).collect();
    named.iter().enumerate().filter(|(at, name)| !named[..*at].contains(name)).map(|(_, name)| *name).collect()
}

const BASH_HEAD: &str = r#"# bash completion for pasetone, made by `pasetone completion bash`.
_pasetone() {
    local cur=${COMP_WORDS[COMP_CWORD]} before=${COMP_WORDS[COMP_CWORD - 1]} words='' files=no
    # --option=value is three words for bash.
    if [ "$cur" = = ]; then cur=; elif [ "$before" = = ]; then before=${COMP_WORDS[COMP_CWORD - 2]}; fi
    COMPREPLY=()
    if [ "$COMP_CWORD" -eq 1 ]; then"#;

const BASH_TAIL: &str = r#"                esac ;;
        esac
    fi
    if [ $files = yes ]; then
        compopt -o filenames 2> /dev/null
        mapfile -t COMPREPLY < <(compgen -f -- "$cur")
    else
        mapfile -t COMPREPLY < <(compgen -W "$words" -- "$cur")
    fi
}
complete -F _pasetone pasetone"#;

fn bash(out: &mut Out) {
    out.line(BASH_HEAD);
    out.line(&format!("        words='{} --help --version'", names()));
    out.line("    else");
    out.line("        case $before in");
    for name in those(|row| values(row).is_some()) {
        let words = OPTIONS.iter().filter(|row| row.name == name).find_map(values).unwrap_or_default();
        out.line(&format!("            {name}) words='{}' ;;", words.join(" ")));
    }
    out.line(&format!("            {}) files=yes ;;", those(is_file).join(" | ")));
    let others = those(|row| row.value.is_some() && !is_file(row) && values(row).is_none());
    out.line(&format!("            {}) return ;;", others.join(" | ")));
    out.line("            *)");
    out.line("                case ${COMP_WORDS[1]}:$cur in");
    for command in COMMANDS {
        out.line(&format!("                    {}:-*) words='{}' ;;", command.name, options(command)));
    }
    COMMANDS.iter().for_each(|command| bash_operands(command, out));
    out.line(BASH_TAIL);
}

fn bash_operands(command: &Command, out: &mut Out) {
    let does = match operands(command) {
        Operands::None => return,
        Operands::Commands => format!("words='{}'", names()),
        Operands::Files => String::from("files=yes"),
        Operands::Words(words) => format!("if [ \"$COMP_CWORD\" -eq 2 ]; then words='{}'; else files=yes; fi", words.join(" ")),
    };
    out.line(&format!("                    {}:*) {does} ;;", command.name));
}

/// Text within single quotes, where a colon and a bracket mean something to zsh.
fn quoted(text: &str) -> String {
    let escaped = |c: char| if matches!(c, ':' | '[' | ']' | '\\') { format!("\\{c}") } else { c.to_string() };
    text.chars().map(escaped).collect::<String>().replace('\'', "'\\''")
}

fn zsh(out: &mut Out) {
    out.line("#compdef pasetone");
    out.line("# zsh completion for pasetone, made by `pasetone completion zsh`.");
    out.line("local -a commands");
    out.line("commands=(");
    for command in COMMANDS {
        out.line(&format!("    '{}:{}'", command.name, quoted(command.about)));
    }
    out.line(")");
    out.line("if (( CURRENT == 2 )); then");
    out.line("    _describe -t commands command commands");
    out.line("    return");
    out.line("fi");
    out.line("shift words");
    out.line("(( CURRENT-- ))");
    out.line("case $words[1] in");
    for command in COMMANDS {
        out.line(&format!("    {})", command.name));
        out.line("        _arguments \\");
        for key in command.keys() {
            out.line(&format!("            {} \\", zsh_option(option(key))));
        }
        out.line("            '--help[its page]' '--version[the version]' \\");
        out.line(&format!("            {} ;;", zsh_operands(command)));
    }
    out.line("esac");
}

fn zsh_option(row: &Opt) -> String {
    let (name, about) = (row.name, quoted(row.about));
    match (row.value, values(row)) {
        (None, _) => format!("'{name}[{about}]'"),
        (Some(value), Some(values)) => format!("'{name}=[{about}]:{}:({})'", quoted(value), values.join(" ")),
        (Some(value), None) if is_file(row) => format!("'{name}=[{about}]:{}:_files'", quoted(value)),
        (Some(value), None) => format!("'{name}=[{about}]:{}: '", quoted(value)),
    }
}

fn zsh_operands(command: &Command) -> String {
    match operands(command) {
        Operands::None => String::from("'*: : '"),
        Operands::Commands => format!("'*:command:({})'", names()),
        Operands::Files => String::from("'*:file:_files'"),
        Operands::Words(words) => format!("'1:word:({})' '*:file:_files'", words.join(" ")),
    }
}
