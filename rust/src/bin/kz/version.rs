//! `kz --version`: the version, and what the archives were made for and by, where the build says it.

use kyzgultam::{Level, VERSION};

/// The kit that proved the archives, as `rt version` prints it; empty where that is not known.
const KIT: &str = match option_env!("KZ_KIT") {
    Some(kit) => kit,
    None => "",
};

/// The level of processors for which the calls run; empty where that is not known.
fn level() -> &'static str {
    kyzgultam::level().ok().flatten().map_or("", Level::name)
}

pub fn lines() -> String {
    said(level(), KIT)
}

/// A line for each that is known. The version stands in the first, whatever follows.
fn said(level: &str, kit: &str) -> String {
    let line = |name: &str, text: &str| match text.trim() {
        "" => String::new(),
        text => format!("\n{name} {text}"),
    };
    format!("kz {VERSION}{}{}", line("level", level), line("kit", kit))
}

#[cfg(test)]
mod tests {
    use super::*;

    #[test]
    fn what_is_known() {
        let version = env!("CARGO_PKG_VERSION");
        assert_eq!(said("", " \n"), format!("kz {version}"));
        let all = format!("kz {version}\nlevel x86-64-v3\nkit rattle-kit-5b-plain logic 097e");
        assert_eq!(said("x86-64-v3", "rattle-kit-5b-plain logic 097e\n"), all);
        assert_eq!(said("", "rattle-kit"), format!("kz {version}\nkit rattle-kit"));
    }
}
