//! What is installed: the command with its programs, its manual page and its pages, a unit for systemd, and for other programs the library, with its header and
//! violstream.pc for C, a module for Python and a file for Rust.

use crate::build::PROGRAMS;
use crate::commands::Call;
use crate::help;
use crate::output::put;
use crate::places::{BUILT, OWN};
use crate::programs::on_path;
use crate::say::{quoted, reason};
use crate::status::{failed, Stop};
use std::fs;
use std::path::Path;
use std::process::Command;

pub struct Item {
    /// Its place below the root.
    pub to: String,
    pub mode: u32,
    pub bytes: Vec<u8>,
    /// Another name of a file beside it, and nothing else.
    pub other_name_of: Option<String>,
}

fn item(to: impl Into<String>, mode: u32, bytes: Vec<u8>) -> Item {
    Item { to: to.into(), mode, bytes, other_name_of: None }
}

const PAGES: [&str; 3] = ["OPERATOR.md", "REFUSALS.md", "RULES.md"];

pub fn everything(prefix: &Path, call: &Call) -> Result<Vec<Item>, Stop> {
    let root = &call.places.root;
    let from = |name: &str| read(&root.join(name));
    let version = help::version(&call.places)?;
    let mut items = vec![item("bin/violstream", 0o755, from(BUILT)?), item(format!("{OWN}/version"), 0o644, version.clone().into_bytes())];
    for (name, _) in PROGRAMS {
        items.push(item(format!("{OWN}/{name}"), 0o755, read(&call.places.program(name))?));
    }
    items.push(item("share/man/man1/violstream.1", 0o644, from("docs/violstream.1")?));
    for page in PAGES {
        items.push(item(format!("share/doc/violstream/{page}"), 0o644, from(&format!("docs/{page}"))?));
    }
    for name in examples(&root.join("examples"))? {
        items.push(item(format!("share/doc/violstream/examples/{name}"), 0o644, from(&format!("examples/{name}"))?));
    }
    items.push(item("lib/systemd/system/violstream-desk@.service", 0o644, unit(prefix)));
    let completions = [
        ("bash", "share/bash-completion/completions/violstream"),
        ("zsh", "share/zsh/site-functions/_violstream"),
        ("fish", "share/fish/vendor_completions.d/violstream.fish"),
    ];
    items.extend(completions.map(|(shell, to)| item(to, 0o644, help::completions(shell, &call.places).into_bytes())));
    library(&mut items, prefix, &version, call)?;
    Ok(items)
}

pub fn read(path: &Path) -> Result<Vec<u8>, Stop> {
    match fs::read(path) {
        Ok(bytes) => Ok(bytes),
        Err(error) => failed(format!("cannot read {}: {}", quoted(path.as_os_str()), reason(&error))),
    }
}

/// The server for systemd, by the name that the command has there.
fn unit(prefix: &Path) -> Vec<u8> {
    include_str!("../../systemd/violstream-desk@.service").replace("@PREFIX@", &prefix.to_string_lossy()).into_bytes()
}

/// Sheets, lists, days, labels and indexes: what an operator tries.
fn examples(folder: &Path) -> Result<Vec<String>, Stop> {
    let cannot = |error| Stop::Failed(format!("cannot read {}: {}", quoted(folder.as_os_str()), reason(&error)));
    let mut names = Vec::new();
    for entry in fs::read_dir(folder).map_err(cannot)? {
        let entry = entry.map_err(cannot)?;
        let name = entry.file_name().to_string_lossy().into_owned();
        if entry.file_type().map_err(cannot)?.is_dir() {
            names.extend(examples(&entry.path())?.into_iter().map(|inner| format!("{name}/{inner}")));
        } else {
            names.push(name);
        }
    }
    names.sort();
    Ok(names)
}

// ---- For other programs ----

fn library(items: &mut Vec<Item>, prefix: &Path, version: &str, call: &Call) -> Result<(), Stop> {
    let number = version.split(' ').nth(1).unwrap_or_default();
    let own = [
        ("include/violstream.h", "include/violstream.h"),
        ("python/violstream.py", "lib/python3/dist-packages/violstream.py"),
        ("command/src/violstream.rs", "share/violstream/violstream.rs"),
    ];
    for (from, to) in own {
        items.push(item(to, 0o644, read(&call.places.root.join(from))?));
    }
    items.push(item("lib/libviolstream.a", 0o644, read(&call.places.archive())?));
    let shared = format!("libviolstream.so.{number}");
    let soname = format!("libviolstream.so.{}", number.split('.').next().unwrap_or_default());
    if on_path(compiler()).is_some() {
        items.push(item(format!("lib/{shared}"), 0o755, link(&soname, call)?));
        for name in [soname, "libviolstream.so".to_string()] {
            items.push(Item { to: format!("lib/{name}"), mode: 0o777, bytes: Vec::new(), other_name_of: Some(shared.clone()) });
        }
    } else {
        put(format!("left out: lib/libviolstream.so, which {} would link, and that is not here\n", compiler()).as_bytes())?;
    }
    items.push(item("lib/pkgconfig/violstream.pc", 0o644, package_config(prefix, number).into_bytes()));
    Ok(())
}

fn compiler() -> &'static str {
    if cfg!(target_arch = "x86_64") {
        "gcc"
    } else {
        "x86_64-linux-gnu-gcc"
    }
}

/// The shared library, from the archive: the functions for C and nothing else are seen from outside.
fn link(soname: &str, call: &Call) -> Result<Vec<u8>, Stop> {
    // Of this call alone: another may be installing too.
    let folder = call.places.root.join(format!("target/command/shared.{}", std::process::id()));
    let linked = link_in(&folder, soname, call);
    let _ = fs::remove_dir_all(&folder);
    linked
}

fn link_in(folder: &Path, soname: &str, call: &Call) -> Result<Vec<u8>, Stop> {
    let (map, made) = (folder.join("map"), folder.join(soname));
    let prepared = fs::create_dir_all(folder).and_then(|()| fs::write(&map, "{ global: violstream_*; local: *; };\n"));
    if let Err(error) = prepared {
        return failed(format!("cannot write {}: {}", quoted(folder.as_os_str()), reason(&error)));
    }
    let mut command = Command::new(compiler());
    command.args(["-shared", &format!("-Wl,-soname,{soname}")]).arg(format!("-Wl,--version-script,{}", map.display()));
    command.args(["-Wl,-z,defs", "-Wl,--whole-archive"]).arg(call.places.archive()).args(["-Wl,--no-whole-archive", "-o"]).arg(&made);
    match command.status() {
        Ok(ended) if ended.success() => read(&made),
        _ => failed(format!("{} could not link {soname}", compiler())),
    }
}

fn package_config(prefix: &Path, number: &str) -> String {
    format!(
        "prefix={}
includedir=${{prefix}}/include
libdir=${{prefix}}/lib

Name: violstream
Description: Plans the recall of files from tape, and proves its answers (x86-64 Linux)
Version: {number}
Cflags: -I${{includedir}}
Libs: -L${{libdir}} -l:libviolstream.a
",
        prefix.display()
    )
}
