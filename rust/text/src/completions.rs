//! `whatif-text completions`: what a shell offers after a part of a word, from the same list as the help.

use crate::args::options;
use crate::verbs::{Verb, ALL};

/// bash, zsh or fish.
#[derive(Clone, Copy, Debug, PartialEq, Eq)]
pub enum Shell {
    Bash,
    Zsh,
    Fish,
}

pub fn of(shell: Shell) -> String {
    match shell {
        Shell::Bash => bash(),
        Shell::Zsh => zsh(),
        Shell::Fish => fish(),
    }
}

/// The words that stand in a verb's form as they are: those of small letters alone.
fn choices(verb: &Verb) -> Vec<&'static str> {
    let words = verb.form.split([' ', '[', ']', '|']);
    let is_word = |word: &&str| !word.is_empty() && word.bytes().all(|letter| letter.is_ascii_lowercase());
    words.filter(is_word).collect()
}

fn all_options(verb: &Verb) -> Vec<&'static str> {
    match verb.name {
        "random" => crate::random::OPTIONS.to_vec(),
        "exercise" => crate::lessons::exercise::OPTIONS.to_vec(),
        _ => options(verb),
    }
}

/// Those that are followed by a file's name.
fn takes_file(option: &str) -> bool {
    crate::args::FILES.contains(&option)
}

fn bash() -> String {
    let names: Vec<&str> = ALL.iter().map(|verb| verb.name).chain(["help"]).collect();
    let case = |verb: &Verb| {
        let (options, words) = (all_options(verb).join(" "), choices(verb).join(" "));
        format!("        {}) options=\"{}\" words=\"{}\" ;;\n", verb.name, options, words)
    };
    let cases: String = ALL.iter().map(case).collect();
    format!(
        "# bash completion of whatif-text, written by 'whatif-text completions bash'
_whatif_text() {{
    local word=${{COMP_WORDS[COMP_CWORD]}} before=${{COMP_WORDS[COMP_CWORD-1]}} options='' words=''
    local verbs=\"{}\"
    if [ \"$COMP_CWORD\" = 1 ] || [ \"$before\" = help ]; then
        mapfile -t COMPREPLY < <(compgen -W \"$verbs -h -V\" -- \"$word\")
        return
    fi
    case $before in
        {}) mapfile -t COMPREPLY < <(compgen -f -- \"$word\"); return ;;
        --colour) mapfile -t COMPREPLY < <(compgen -W \"auto always never\" -- \"$word\"); return ;;
    esac
    case ${{COMP_WORDS[1]}} in
{}    esac
    case $word in
        -*) mapfile -t COMPREPLY < <(compgen -W \"$options\" -- \"$word\") ;;
        *) mapfile -t COMPREPLY < <(compgen -W \"$words\" -- \"$word\"; compgen -f -- \"$word\") ;;
    esac
}}
complete -o filenames -F _whatif_text whatif-text
",
        names.join(" "),
        crate::args::FILES.join("|"),
        cases
    )
}

fn zsh() -> String {
    let quoted = |words: &str| words.replace('\'', "'\\''").replace(':', "\\:");
    let described: String = ALL.iter().map(|verb| format!("        '{}:{}'\n", verb.name, quoted(verb.what))).collect();
    let case = |verb: &Verb| {
        let (options, words) = (all_options(verb).join(" "), choices(verb).join(" "));
        format!("        {}) options=({}) choices=({}) ;;\n", verb.name, options, words)
    };
    let cases: String = ALL.iter().map(case).collect();
    format!(
        "#compdef whatif-text
# zsh completion of whatif-text, written by 'whatif-text completions zsh'
_whatif_text() {{
    local -a verbs options choices
    verbs=(
{}        'help:all verbs, or one with an example'
    )
    if (( CURRENT == 2 )) || [[ $words[2] == help ]]; then
        _describe verb verbs
        return
    fi
    case $words[CURRENT-1] in
        {}) _files; return ;;
        --colour) compadd auto always never; return ;;
    esac
    case $words[2] in
{}    esac
    if [[ $PREFIX == -* ]]; then
        compadd -- $options
    else
        compadd -- $choices
        _files
    fi
}}
_whatif_text \"$@\"
",
        described,
        crate::args::FILES.join("|"),
        cases
    )
}

fn fish() -> String {
    let quoted = |words: &str| words.replace('\\', "\\\\").replace('\'', "\\'");
    let mut text = "# fish completion of whatif-text, written by 'whatif-text completions fish'\n".to_string();
    for verb in ALL {
        let (name, what) = (verb.name, quoted(verb.what));
        text += &format!("complete -c whatif-text -n __fish_use_subcommand -f -a {} -d '{}'\n", name, what);
        let seen = format!("complete -c whatif-text -n '__fish_seen_subcommand_from {}'", name);
        for word in choices(verb) {
            text += &format!("{} -a {}\n", seen, word);
        }
        for option in all_options(verb) {
            let value = match option {
                "--json" | "--bytes" | "--robust" | "--allowed" => "",
                "--colour" => " -x -a 'auto always never'",
                option if takes_file(option) => " -r -F",
                _ => " -x",
            };
            text += &format!("{} -l {}{}\n", seen, option.trim_start_matches('-'), value);
        }
    }
    text + "complete -c whatif-text -n __fish_use_subcommand -f -a help -d 'all verbs, or one with an example'\n"
}
