//! `kz completions`: a script by which a shell completes commands, options and files, made from the table of commands.

use crate::fail::Fail;
use crate::given::Given;
use crate::{answer, COMMANDS};

pub const HELP: &str = "\
kz completions bash

Prints a script by which bash completes the commands of kz, the options of
each, and files. In a shell, or as a line of ~/.bashrc:

  eval \"$(kz completions bash)\"
";

pub fn run(given: &Given) -> Result<(), Fail> {
    match &given.files[..] {
        [shell] if shell.as_os_str() == "bash" => answer(format_args!("{}", bash().trim_end())),
        _ => Err(Fail::usage("completions takes one word, bash: there are none for other shells")),
    }
}

/// Where a word has no match here, bash completes it as the name of a file.
fn bash() -> String {
    let names: Vec<&str> = COMMANDS.iter().map(|(name, ..)| *name).collect();
    let names = names.join(" ");
    let option = |(name, _, known, _): &crate::Command| format!("    {name}) words='{} --help' ;;\n", known.join(" "));
    let options: String = COMMANDS.iter().map(option).collect();
    format!(
        "\
# Completes the words of kz: eval \"$(kz completions bash)\"
_kz() {{
    local word=${{COMP_WORDS[COMP_CWORD]}} words=
    COMPREPLY=()
    case $COMP_CWORD:${{COMP_WORDS[1]}} in
    1:*) words='{names} help --help --version' ;;
    2:help) words='{names}' ;;
    2:completions) words=bash ;;
    *) [[ $word != -* ]] || words=$(_kz_options \"${{COMP_WORDS[1]}}\") ;;
    esac
    COMPREPLY=($(compgen -W \"$words\" -- \"$word\"))
}}
_kz_options() {{
    local words=
    case $1 in
{options}    esac
    echo \"$words\"
}}
complete -o bashdefault -o default -F _kz kz
"
    )
}
