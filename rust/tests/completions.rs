//! `kz help COMMAND`, and what bash completes: it is what the help texts say.

mod common;

use common::tool::Folder;
use std::collections::BTreeSet;
use std::process::Command;

/// The commands that `kz --help` lists, and `help` does not.
fn commands(folder: &Folder) -> BTreeSet<String> {
    let help = folder.done("--help");
    let listed = help.lines().filter_map(|line| line.strip_prefix("  kz "));
    let names = listed.map(|line| line.split(' ').next().unwrap().to_string());
    names.chain(["completions".into()]).collect()
}

#[test]
fn help_of_a_command() {
    let folder = Folder::new("help-of");
    assert_eq!(folder.done("help"), folder.done("--help"));
    let commands = commands(&folder);
    assert!(commands.len() > 5);
    for name in commands {
        let text = folder.done(&format!("help {name}"));
        assert_eq!(text, folder.done(&format!("{name} --help")));
        assert!(text.starts_with(&format!("kz {name}")) && text.lines().count() <= 24, "{name}");
    }
    folder.fails(2, "help frobnicate", &["no command frobnicate"]);
    folder.fails(2, "help encode patches", &["one command"]);
}

/// What bash offers for the last of the words, by the script that kz prints.
fn offered(script: &str, words: &str) -> BTreeSet<String> {
    let count = words.split(' ').count() - 1;
    let asked = format!("{script}\nCOMP_WORDS=({words}) COMP_CWORD={count}\n_kz\nprintf '%s\\n' \"${{COMPREPLY[@]}}\"");
    let output = Command::new("bash").args(["-c", &asked]).output().unwrap();
    assert!(output.status.success() && output.stderr.is_empty(), "{}", String::from_utf8_lossy(&output.stderr));
    let said = String::from_utf8(output.stdout).unwrap();
    said.lines().filter(|line| !line.is_empty()).map(String::from).collect()
}

/// The options of a command's form, which stands before the first line that is neither a form nor its rest.
fn options(help: &str) -> BTreeSet<String> {
    let form = help.lines().take_while(|line| line.starts_with("kz ") || line.starts_with("    "));
    let words = form.flat_map(|line| line.split(|c: char| c.is_whitespace() || "[]|".contains(c)).collect::<Vec<_>>());
    words.filter(|word| word.starts_with('-')).map(String::from).collect()
}

#[test]
fn every_option_is_completed() {
    let folder = Folder::new("completions");
    let script = folder.done("completions bash");
    if Command::new("bash").arg("--version").output().is_err() {
        eprintln!("the completions were not tried: there is no bash");
        return;
    }
    let commands = commands(&folder);
    let first = offered(&script, "kz ''");
    let more = ["help", "--help", "--version"].map(String::from);
    assert_eq!(first, commands.iter().cloned().chain(more).collect());
    assert_eq!(offered(&script, "kz help ''"), commands);
    assert_eq!(offered(&script, "kz pa"), ["patches".to_string()].into());
    assert_eq!(offered(&script, "kz completions ''"), ["bash".to_string()].into());
    for name in commands {
        let mut right = options(&folder.done(&format!("{name} --help")));
        right.insert("--help".into());
        assert_eq!(offered(&script, &format!("kz {name} a.ppm -")), right, "{name}");
        // A word that is no option is a file, which bash completes by itself.
        assert!(name == "completions" || offered(&script, &format!("kz {name} a")).is_empty(), "{name}");
    }
    assert!(offered(&script, "kz frobnicate -").is_empty());
    folder.fails(2, "completions", &["bash"]);
    folder.fails(2, "completions zsh", &["bash"]);
}
