//! Where this command stands: in a checkout of the sources, where it builds what it needs, or installed, where everything is beside it.

use crate::status::{failed, Stop};
use std::path::{Path, PathBuf};

pub struct Places {
    pub installed: bool,
    /// The checkout, or the folder below which all was installed.
    pub root: PathBuf,
}

/// In a checkout the command is `target/command/violstream`.
pub const BUILT: &str = "target/command/violstream";
/// What was installed for this command alone, below the root.
pub const OWN: &str = "libexec/violstream";

impl Places {
    pub fn find() -> Result<Places, Stop> {
        let exe = match std::env::current_exe() {
            Ok(exe) => exe,
            Err(error) => return failed(format!("cannot find this program by /proc/self/exe: {}", crate::say::reason(&error))),
        };
        let folder = exe.parent().unwrap_or_else(|| Path::new("/"));
        if let Some(root) = folder.parent() {
            if folder.ends_with("bin") && root.join(OWN).is_dir() {
                return Ok(Places { installed: true, root: root.to_path_buf() });
            }
        }
        match exe.ancestors().nth(BUILT.split('/').count()) {
            Some(root) if exe.ends_with(BUILT) && root.join("crates.txt").is_file() => Ok(Places { installed: false, root: root.to_path_buf() }),
            _ => failed(format!("{} stands neither in a checkout nor where it was installed, beside {OWN}", crate::say::quoted(exe.as_os_str()))),
        }
    }

    /// How a person calls this command.
    pub fn me(&self) -> &'static str {
        if self.installed {
            "violstream"
        } else {
            "./violstream"
        }
    }

    pub fn program(&self, name: &str) -> PathBuf {
        self.root.join(if self.installed { OWN } else { "target/bin" }).join(name)
    }

    /// The library that was there when this command was compiled, as the script at the top of the checkout has kept it.
    pub fn linked(&self) -> PathBuf {
        self.root.join("target/command/linked.a")
    }

    /// The library for C, from the archives that rt makes.
    pub fn archive(&self) -> PathBuf {
        self.root.join("target/staticlib/libviolstream.a")
    }
}
