//! What shells complete, made of the table of commands and of their helps.

use crate::help::{all, Help};
use crate::program::Command;

/// The options of a command, the two that every command has behind them.
fn options(command: &Command) -> Vec<&'static str> {
    let own = command.options.iter().map(|option| option.name);
    own.chain(["--help", "--version"]).collect()
}

/// The options that have a value.
fn valued(command: &Command) -> impl Iterator<Item = &'static str> + '_ {
    let with = command
        .options
        .iter()
        .filter(|option| option.value.is_some());
    with.map(|option| option.name)
}

fn about(help: &Help, option: &str) -> String {
    match option {
        "--help" => "says how it is used".into(),
        "--version" => "says the version".into(),
        _ => help.about_option(option),
    }
}

fn names() -> String {
    let names: Vec<&str> = all().map(|(command, _)| command.name).collect();
    names.join(" ")
}

/// For bash. After an option with a value, and wherever no option is begun, it completes files.
pub fn bash() -> String {
    let mut cases = String::new();
    for (command, _) in all() {
        let name = command.name;
        let values: Vec<&str> = valued(command).collect();
        if !values.is_empty() {
            cases += &format!(
                "        {name}:{}) return ;;\n",
                values.join(&format!(" | {name}:"))
            );
        }
    }
    let mut words = String::new();
    for (command, _) in all() {
        words += &format!(
            "        {}) words='{}' ;;\n",
            command.name,
            options(command).join(" ")
        );
    }
    format!(
        "# bash completion of calzundi, made by `calzundi completion bash`
_calzundi() {{
    local word=${{COMP_WORDS[COMP_CWORD]}} before=${{COMP_WORDS[COMP_CWORD - 1]}} words=
    COMPREPLY=()
    if [ \"$COMP_CWORD\" -eq 1 ]; then
        COMPREPLY=($(compgen -W '{} help --help --version' -- \"$word\"))
        return
    fi
    case ${{COMP_WORDS[1]}}:$before in
{cases}    esac
    case ${{COMP_WORDS[1]}} in
        help) COMPREPLY=($(compgen -W '{}' -- \"$word\")) ;;
{words}    esac
    case $word in
        -*) COMPREPLY=($(compgen -W \"$words\" -- \"$word\")) ;;
    esac
}}
complete -o default -F _calzundi calzundi
",
        names(),
        names()
    )
}

/// Text between single quotes for a shell of the Bourne family.
fn in_quotes(text: &str) -> String {
    text.replace('\'', "'\\''")
}

/// For zsh.
pub fn zsh() -> String {
    let (mut commands, mut cases) = (String::new(), String::new());
    for (command, help) in all() {
        commands += &format!("        '{}:{}'\n", command.name, in_quotes(&help.about));
        let mut words = String::new();
        for option in options(command) {
            let about = about(&help, option).replace('[', "(").replace(']', ")");
            let value = command.options.iter().find(|own| own.name == option);
            let value = match value.and_then(|own| own.value) {
                Some(value) => format!(":{}:_files", value.replace(':', " ")),
                None => String::new(),
            };
            words += &format!(
                " \\\n                '{option}[{}]{value}'",
                in_quotes(&about)
            );
        }
        cases += &format!("        {})\n            _arguments{words} \\\n                '*:file:_files'\n            ;;\n", command.name);
    }
    format!(
        "#compdef calzundi
# zsh completion of calzundi, made by `calzundi completion zsh`
_calzundi() {{
    local -a commands
    commands=(
{commands}    )
    if (( CURRENT == 2 )); then
        _describe command commands
        return
    fi
    local command=$words[2]
    shift words
    (( CURRENT -= 1 ))
    case $command in
{cases}    esac
}}
if [ \"$funcstack[1]\" = _calzundi ]; then
    _calzundi \"$@\"
else
    compdef _calzundi calzundi
fi
"
    )
}

/// For fish.
pub fn fish() -> String {
    let quoted = |text: &str| text.replace('\\', "\\\\").replace('\'', "\\'");
    let mut lines =
        String::from("# fish completion of calzundi, made by `calzundi completion fish`\n");
    for (command, help) in all() {
        let (name, about_it) = (command.name, quoted(&help.about));
        lines += &format!(
            "complete -c calzundi -n __fish_use_subcommand -f -a {name} -d '{about_it}'\n"
        );
        for option in options(command) {
            let about = quoted(&about(&help, option));
            let has_value = valued(command).any(|name| name == option);
            let value = if has_value { " -r" } else { "" };
            let letter = match option.strip_prefix("--") {
                Some(long) => format!("-l {long}"),
                None => format!("-s {}", &option[1..]),
            };
            lines += &format!(
                "complete -c calzundi -n '__fish_seen_subcommand_from {name}' {letter}{value} -d '{about}'\n"
            );
        }
    }
    lines
}
