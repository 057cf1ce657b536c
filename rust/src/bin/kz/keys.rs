//! The list of `--settings`: its keys, and which of them a command uses.

use crate::fail::Fail;
use crate::shown::shown;

const PICTURE: [&str; 6] = ["patch", "merge", "image", "rule", "mean", "deviation"];
const SIZES: [&str; 9] = ["patch", "merge", "image", "hidden", "heads", "head", "layers", "intermediate", "text"];
const LENT: [&str; 5] = ["rule", "mean", "deviation", "bias", "scale"];

const FORM: &str = "a list of KEY=NUMBER, parted by commas; keys: patch merge image rule mean deviation hidden heads \
                    head layers intermediate text bias scale; mean and deviation take one number, or three as \
                    0.5/0.4/0.3";

/// What is said of a part of the list that kz cannot read.
pub fn unread(pair: &str) -> Fail {
    Fail::usage(format!("--settings: {}: {FORM}", shown(pair)))
}

/// Whether a config.json says what a key is about.
pub fn configured(key: &str) -> bool {
    SIZES.contains(&key)
}

/// Whether a command uses a key. What `kz config` and others read in a config.json is told of there.
fn uses(command: &str, key: &str) -> bool {
    match command {
        "patches" | "restore" | "salvage" | "compare" | "copies" => PICTURE.contains(&key),
        "weights" => configured(key) || key == "bias",
        _ => true,
    }
}

/// The list's pairs, as they stand and by key and value: each key is one that the command uses, and is given once.
pub fn pairs<'a>(list: &'a str, command: &str) -> Result<Vec<(&'a str, &'a str, &'a str)>, Fail> {
    let mut pairs: Vec<(&str, &str, &str)> = vec![];
    for pair in list.split(',').map(str::trim).filter(|pair| !pair.is_empty()) {
        let (key, value) = pair.split_once('=').unwrap_or((pair, ""));
        if !SIZES.contains(&key) && !LENT.contains(&key) {
            return Err(unread(pair));
        }
        if !uses(command, key) {
            let used: Vec<&str> = SIZES.into_iter().chain(LENT).filter(|key| uses(command, key)).collect();
            let words = format!("--settings: {key} is not used by {command}, which takes {}", used.join(" "));
            return Err(Fail::usage(format!("{words}; leave it out")));
        }
        if pairs.iter().any(|(_, other, _)| *other == key) {
            return Err(Fail::usage(format!("--settings: {key} is given twice; give it once")));
        }
        pairs.push((pair, key, value));
    }
    Ok(pairs)
}

#[cfg(test)]
mod tests {
    use super::*;

    fn said(list: &str, command: &str) -> String {
        match pairs(list, command) {
            Ok(pairs) => pairs.iter().map(|(_, key, value)| format!("{key}:{value} ")).collect(),
            Err(Fail::Usage(words)) => words,
            Err(_) => unreachable!(),
        }
    }

    #[test]
    fn each_key_once_and_used() {
        assert_eq!(said("patch=2, merge=4 ,,\tmean=1/2/3,", "patches"), "patch:2 merge:4 mean:1/2/3 ");
        assert!(said("patch=2,merge=4,patch=2", "encode").contains("patch is given twice"));
        assert!(said("rule=1,scale=1", "weights").contains("rule is not used by weights, which takes patch"));
        for command in ["patches", "restore", "salvage", "compare", "copies"] {
            let words = said("image=28,hidden=8", command);
            let used = format!("hidden is not used by {command}, which takes patch merge image rule mean deviation;");
            assert!(words.contains(&used), "{words}");
        }
        for command in ["encode", "bench", "config"] {
            assert_eq!(said("text=8,bias=1,scale=2", command), "text:8 bias:1 scale:2 ");
        }
    }

    #[test]
    fn unknown_keys() {
        for list in ["colour=1", "patch=1,colour=1", "patch =1", "=1", "patch=1,=", "Patch=1"] {
            assert!(said(list, "patches").contains("a list of KEY=NUMBER"), "{list}");
        }
    }
}
