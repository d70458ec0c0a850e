//! Texts for a person who asks: the help as a whole and of each command, the version, completions.

use crate::places::{Places, OWN};
use crate::say::{quoted, reason};
use crate::status::{failed, Stop};
use crate::usage;
use std::path::Path;

const WHOLE: &str = include_str!("../help/whole.txt");
const EACH: [(&str, &str); 25] = [
    ("plan", include_str!("../help/plan.txt")),
    ("field", include_str!("../help/field.txt")),
    ("buys", include_str!("../help/buys.txt")),
    ("price", include_str!("../help/price.txt")),
    ("check", include_str!("../help/check.txt")),
    ("explain", include_str!("../help/explain.txt")),
    ("rewrite", include_str!("../help/rewrite.txt")),
    ("mend", include_str!("../help/mend.txt")),
    ("month", include_str!("../help/month.txt")),
    ("ltfs", include_str!("../help/ltfs.txt")),
    ("pick", include_str!("../help/pick.txt")),
    ("recall", include_str!("../help/recall.txt")),
    ("desk", include_str!("../help/desk.txt")),
    ("serve", include_str!("../help/serve.txt")),
    ("ask", include_str!("../help/ask.txt")),
    ("record", include_str!("../help/record.txt")),
    ("audit", include_str!("../help/audit.txt")),
    ("build", include_str!("../help/build.txt")),
    ("test", include_str!("../help/test.txt")),
    ("install", include_str!("../help/install.txt")),
    ("deb", include_str!("../help/deb.txt")),
    ("uninstall", include_str!("../help/uninstall.txt")),
    ("completions", include_str!("../help/completions.txt")),
    ("version", include_str!("../help/version.txt")),
    ("help", include_str!("../help/help.txt")),
];

/// Before the lines of the help that are on files by name.
const BY_NAME: &str = "{by name}";

/// Installed, the command has another name, and builds nothing.
pub fn whole(places: &Places) -> String {
    let for_checkouts = |line: &&str| usage::FOR_CHECKOUTS.iter().any(|name| line.starts_with(&format!("       {{me}} {name} ")));
    let by_name = usage::by_name(places);
    let lines = WHOLE.lines().filter(|line| !places.installed || !for_checkouts(line)).filter(|line| by_name || !line.starts_with(BY_NAME));
    let text: String = lines.map(|line| format!("{}\n", line.strip_prefix(BY_NAME).unwrap_or(line))).collect();
    let text = if places.installed { text.replace("Run sheets and their plan sheets stand in examples/. ", "") } else { text };
    text.replace("{me}", places.me())
}

/// A command on one screen.
pub fn of(command: &str, places: &Places) -> String {
    let text = EACH.iter().find(|(name, _)| *name == command).map_or(WHOLE, |(_, text)| text);
    text.replace("{me}", places.me())
}

/// The product's version, as the header has it, and the identity of the kit that the proofs are for.
pub fn version(places: &Places) -> Result<String, Stop> {
    if places.installed {
        return read(&places.root.join(OWN).join("version"));
    }
    let header = read(&places.root.join("include/violstream.h"))?;
    let readme = read(&places.root.join("README.md"))?;
    let number = between(&header, "#define VIOLSTREAM_VERSION \"", "\"");
    let kit = between(&readme, "Pinned kit: `", "`");
    Ok(format!("violstream {number} ({kit})\n"))
}

/// What stands on a line between its beginning and its end.
fn between<'a>(text: &'a str, begin: &str, end: &str) -> &'a str {
    text.lines().find_map(|line| line.strip_prefix(begin)?.strip_suffix(end)).unwrap_or_default()
}

fn read(path: &Path) -> Result<String, Stop> {
    match std::fs::read_to_string(path) {
        Ok(text) => Ok(text),
        Err(error) => failed(format!("cannot read {}: {}", quoted(path.as_os_str()), reason(&error))),
    }
}

pub fn completions(shell: &str, places: &Places) -> String {
    let mut out = Vec::new();
    let mut command = usage::whole(places);
    match shell {
        "zsh" => clap_complete::generate(clap_complete::shells::Zsh, &mut command, "violstream", &mut out),
        "fish" => clap_complete::generate(clap_complete::shells::Fish, &mut command, "violstream", &mut out),
        _ => clap_complete::generate(clap_complete::shells::Bash, &mut command, "violstream", &mut out),
    }
    String::from_utf8_lossy(&out).into_owned()
}

#[cfg(test)]
mod tests {
    use super::*;

    #[test]
    fn the_whole_has_every_refusal_in_the_words_of_the_table() {
        let text = WHOLE.replace(BY_NAME, "");
        let text = text.split_whitespace().collect::<Vec<_>>().join(" ");
        for (number, words) in crate::words::table::REFUSALS {
            assert!(text.contains(&format!("{number} {words}")), "{number}");
        }
    }

    #[test]
    fn every_command_has_a_screen() {
        for known in usage::COMMANDS {
            assert!(
                EACH.iter().any(|(name, text)| *name == known.name && text.starts_with(&format!("usage: {{me}} {}", known.name))),
                "{}",
                known.name
            );
        }
    }
}
