//! Completions for the shells, from the table of verbs.

use crate::{
    explain,
    verbs::{Kind, Opt, VERBS, Verb, after, first_words},
};

/// A shell.
#[derive(Debug, Clone, Copy, PartialEq, Eq)]
pub enum Shell {
    /// bash
    Bash,
    /// zsh
    Zsh,
    /// fish
    Fish,
}

/// The completions of a shell.
pub fn of(shell: Shell) -> String {
    match shell {
        Shell::Bash => bash(),
        Shell::Zsh => zsh(),
        Shell::Fish => fish(),
    }
}

/// What completes a word of this kind.
enum Completes {
    Files,
    Words(Vec<String>),
    Nothing,
}

fn completes(kind: Kind) -> Completes {
    match kind {
        Kind::File | Kind::Sound | Kind::Folder | Kind::NewFile => Completes::Files,
        Kind::OneOf(words) => Completes::Words(words.iter().map(|w| (*w).into()).collect()),
        Kind::Verb => Completes::Words(first_words().iter().map(|w| (*w).into()).collect()),
        Kind::Meaning => Completes::Words(explain::words()),
        Kind::Number(..)
        | Kind::Decimal
        | Kind::Place
        | Kind::Part
        | Kind::Pattern
        | Kind::Name => Completes::Nothing,
    }
}

/// First words that need a second word, each once.
fn two_words() -> impl Iterator<Item = (&'static str, Vec<&'static str>)> {
    let firsts = first_words().into_iter();
    firsts
        .map(|first| (first, after(first)))
        .filter(|(_, seconds)| !seconds.is_empty())
}

fn says_of(first: &str) -> String {
    let verb = VERBS.iter().find(|verb| verb.name == first);
    verb.map_or_else(
        || {
            after(first)
                .iter()
                .map(|second| format!("{first} {second}"))
                .collect::<Vec<_>>()
                .join(", ")
        },
        |verb| verb.says.into(),
    )
}

fn bash() -> String {
    let names: Vec<&str> = first_words();
    let mut text =
        String::from("# bash completion for cableowl, printed by 'cableowl completions bash'\n");
    text += "_cableowl() {\n";
    text += "    local cur=${COMP_WORDS[COMP_CWORD]} prev=${COMP_WORDS[COMP_CWORD-1]} verb=${COMP_WORDS[1]}\n";
    text += "    COMPREPLY=()\n";
    // bash splits a word at '='.
    text += "    if [[ $cur == = ]]; then cur=; elif [[ $prev == = ]]; then prev=${COMP_WORDS[COMP_CWORD-2]}; fi\n";
    text += &format!(
        "    if ((COMP_CWORD == 1)); then\n        mapfile -t COMPREPLY < <(compgen -W '{} --help --version' -- \"$cur\")\n        return\n    fi\n",
        names.join(" ")
    );
    for (first, seconds) in two_words() {
        text += &format!(
            "    if [[ $verb == {first} ]]; then\n        if ((COMP_CWORD == 2)); then\n            mapfile -t COMPREPLY < <(compgen -W '{}' -- \"$cur\")\n            return\n        fi\n        verb+=\" ${{COMP_WORDS[2]}}\"\n    fi\n",
            seconds.join(" ")
        );
    }
    text += "    case \"$verb $prev\" in\n";
    for verb in VERBS {
        for option in verb.options {
            if let Some((_, kind)) = option.value {
                let name = option.name;
                text += &format!(
                    "    '{} {name}')\n        {}\n        return\n        ;;\n",
                    verb.name,
                    bash_words(kind)
                );
            }
        }
    }
    text += "    esac\n    case $verb in\n";
    for verb in VERBS {
        let options: Vec<&str> = verb.all_options().map(|option| option.name).collect();
        let words = verb
            .arguments
            .last()
            .map_or(":".into(), |last| bash_words(last.kind));
        text += &format!(
            "    '{}')\n        if [[ $cur == -* ]]; then\n            mapfile -t COMPREPLY < <(compgen -W '{}' -- \"$cur\")\n        else\n            {words}\n        fi\n        ;;\n",
            verb.name,
            options.join(" ")
        );
    }
    text + "    esac\n}\ncomplete -F _cableowl cableowl\n"
}

fn bash_words(kind: Kind) -> String {
    match completes(kind) {
        Completes::Files => {
            "compopt -o filenames 2>/dev/null || :; mapfile -t COMPREPLY < <(compgen -f -- \"$cur\")"
                .into()
        }
        Completes::Words(words) => format!(
            "mapfile -t COMPREPLY < <(compgen -W '{}' -- \"$cur\")",
            words.join(" ")
        ),
        Completes::Nothing => ":".into(),
    }
}

fn zsh() -> String {
    let mut text = String::from(
        "#compdef cableowl\n# zsh completion for cableowl, printed by 'cableowl completions zsh'\n",
    );
    text += "_cableowl() {\n    local verb=$words[2]\n    local -a verbs\n    if (( CURRENT == 2 )); then\n        verbs=(\n";
    for first in first_words() {
        text += &format!("            '{first}:{}'\n", zsh_quoted(&says_of(first)));
    }
    text += "        )\n        _describe 'verb' verbs\n        return\n    fi\n";
    for (first, seconds) in two_words() {
        text += &format!(
            "    if [[ $verb == {first} ]]; then\n        if (( CURRENT == 3 )); then\n            verbs=(\n"
        );
        for second in seconds {
            let says = says_of(&format!("{first} {second}"));
            text += &format!("                '{second}:{}'\n", zsh_quoted(&says));
        }
        text += "            )\n            _describe 'verb' verbs\n            return\n        fi\n        verb+=\" $words[3]\"\n        shift words\n        (( CURRENT-- ))\n    fi\n";
    }
    text += "    shift words\n    (( CURRENT-- ))\n    case $verb in\n";
    for verb in VERBS {
        text += &format!("    '{}')\n        _arguments", verb.name);
        for option in verb.all_options() {
            text += &format!(" \\\n            '{}'", zsh_option(option));
        }
        for argument in verb.all_arguments() {
            let (name, kind) = (argument.name, zsh_words(argument.kind));
            text += &match argument.many {
                crate::verbs::Many::One => format!(" \\\n            ':{name}:{kind}'"),
                _ => format!(" \\\n            '*:{name}:{kind}'"),
            };
        }
        text += "\n        ;;\n";
    }
    text + "    esac\n}\n_cableowl \"$@\"\n"
}

fn zsh_option(option: &Opt) -> String {
    let says = zsh_quoted(option.says).replace('[', "(").replace(']', ")");
    let star = if option.repeats() { "*" } else { "" };
    match option.value {
        Some((value, kind)) => {
            format!("{star}{}=[{says}]:{value}:{}", option.name, zsh_words(kind))
        }
        None => format!("{}[{says}]", option.name),
    }
}

fn zsh_words(kind: Kind) -> String {
    match completes(kind) {
        Completes::Files => "_files".into(),
        Completes::Words(words) => format!("({})", words.join(" ")),
        Completes::Nothing => " ".into(),
    }
}

/// Escapes text for single quotes, where a colon separates.
fn zsh_quoted(text: &str) -> String {
    text.replace('\'', "'\\''").replace(':', "\\:")
}

fn fish() -> String {
    let mut text = String::from(
        "# fish completion for cableowl, printed by 'cableowl completions fish'\ncomplete -c cableowl -f\n",
    );
    for first in first_words() {
        text += &format!(
            "complete -c cableowl -n __fish_use_subcommand -a {first} -d '{}'\n",
            fish_quoted(&says_of(first))
        );
    }
    for (first, seconds) in two_words() {
        let none = seconds.join(" ");
        for second in seconds {
            text += &format!(
                "complete -c cableowl -n '__fish_seen_subcommand_from {first}; and not __fish_seen_subcommand_from {none}' -a {second} -d '{}'\n",
                fish_quoted(&says_of(&format!("{first} {second}")))
            );
        }
    }
    for verb in VERBS {
        let seen = fish_seen(verb);
        for option in verb.all_options() {
            let (name, says) = (
                option.name.trim_start_matches('-'),
                fish_quoted(option.says),
            );
            let value = option
                .value
                .map_or(String::new(), |(_, kind)| match completes(kind) {
                    Completes::Files => " -r -F".into(),
                    Completes::Words(words) => format!(" -x -a '{}'", words.join(" ")),
                    Completes::Nothing => " -x".into(),
                });
            text += &format!("complete -c cableowl -n '{seen}' -l {name}{value} -d '{says}'\n");
        }
        for argument in verb.arguments {
            match completes(argument.kind) {
                Completes::Files => text += &format!("complete -c cableowl -n '{seen}' -F\n"),
                Completes::Words(words) => {
                    text += &format!(
                        "complete -c cableowl -n '{seen}' -a '{}'\n",
                        words.join(" ")
                    );
                }
                Completes::Nothing => {}
            }
        }
    }
    text
}

fn fish_seen(verb: &Verb) -> String {
    let words = verb.name.split(' ');
    let seen: Vec<String> = words
        .map(|word| format!("__fish_seen_subcommand_from {word}"))
        .collect();
    seen.join("; and ")
}

fn fish_quoted(text: &str) -> String {
    text.replace('\\', "\\\\").replace('\'', "\\'")
}
