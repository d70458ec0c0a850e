//! deb: a Debian package of what `install` puts in place, below /usr. What dpkg has installed, dpkg removes: the package has no list of ours.

use crate::build;
use crate::commands::Call;
use crate::help;
use crate::install::contents::{self, Item};
use crate::output::put;
use crate::programs::on_path;
use crate::say::{is_plain, quoted, reason};
use crate::status::{failed, Status, Stop};
use std::fs;
use std::io::{self, Read};
use std::os::unix::fs::{symlink, PermissionsExt};
use std::path::{Path, PathBuf};
use std::process::{Command, Stdio};

const LIBRARIES: &str = "lib/x86_64-linux-gnu";

pub fn make(call: &Call) -> Result<Status, Stop> {
    if !cfg!(target_arch = "x86_64") {
        return failed("the package is for amd64, and this machine is not");
    }
    for tool in ["dpkg-deb", "gzip", "strip"] {
        if on_path(tool).is_none() {
            return failed(format!("{tool} is not on PATH; on Debian, as root: apt-get install dpkg gzip binutils"));
        }
    }
    let version = help::version(&call.places)?;
    let number = version.split(' ').nth(1).unwrap_or_default().to_string();
    let folder = call.places.root.join("target/command/deb");
    let package = Package { stage: folder.join("stage"), made: folder.join(format!("violstream_{number}-1_amd64.deb")), number };
    let _lock = build::alone(call)?;
    package.fill(call)?;
    package.run("dpkg-deb", &["--root-owner-group", "--build"], &[&package.stage, &package.made])?;
    put(format!("made {}\n", quoted(package.made.as_os_str())).as_bytes())?;
    Ok(Status::Answered)
}

struct Package {
    stage: PathBuf,
    made: PathBuf,
    number: String,
}

impl Package {
    fn fill(&self, call: &Call) -> Result<(), Stop> {
        if let Err(error) = self.empty() {
            return self.cannot(&self.stage, &error);
        }
        for item in contents::everything(Path::new("/usr"), call)? {
            self.put(&item)?;
        }
        let changes = contents::read(&call.places.root.join("CHANGELOG.md"))?;
        self.write("usr/share/doc/violstream/changelog", &changes, 0o644)?;
        self.write("usr/share/doc/violstream/changelog.Debian", self.made_now()?.as_bytes(), 0o644)?;
        self.write("usr/share/doc/violstream/copyright", COPYRIGHT.as_bytes(), 0o644)?;
        self.press("usr/share/doc/violstream/changelog")?;
        self.press("usr/share/doc/violstream/changelog.Debian")?;
        self.press("usr/share/man/man1/violstream.1")?;
        self.write("DEBIAN/triggers", b"activate-noawait ldconfig\n", 0o644)?;
        self.write("DEBIAN/shlibs", format!("libviolstream {} violstream\n", self.major()).as_bytes(), 0o644)?;
        self.write("DEBIAN/control", self.control().as_bytes(), 0o644)
    }

    fn major(&self) -> &str {
        self.number.split('.').next().unwrap_or_default()
    }

    fn empty(&self) -> io::Result<()> {
        if self.stage.exists() {
            fs::remove_dir_all(&self.stage)?;
        }
        fs::create_dir_all(&self.stage)
    }

    fn put(&self, item: &Item) -> Result<(), Stop> {
        let to = match item.to.strip_prefix("lib/") {
            Some(name) if name.starts_with("systemd/") || name.starts_with("python3/") => format!("usr/lib/{name}"),
            Some(name) => format!("usr/{LIBRARIES}/{name}"),
            None => format!("usr/{}", item.to),
        };
        if let Some(other) = &item.other_name_of {
            let path = self.stage.join(&to);
            return symlink(other, &path).or_else(|error| self.cannot(&path, &error));
        }
        let pc = String::from_utf8_lossy(&item.bytes).replace("${prefix}/lib\n", &format!("${{prefix}}/{LIBRARIES}\n")).into_bytes();
        let is_shared = to.contains("/libviolstream.so");
        self.write(&to, if to.ends_with(".pc") { &pc } else { &item.bytes }, if is_shared { 0o644 } else { item.mode })?;
        match item.mode {
            0o755 => self.run("strip", &["--strip-unneeded", "--remove-section=.comment", "--remove-section=.note"], &[&self.stage.join(to)]),
            _ if to.ends_with(".a") => self.run("strip", &["--strip-debug", "--enable-deterministic-archives"], &[&self.stage.join(to)]),
            _ => Ok(()),
        }
    }

    fn write(&self, to: &str, bytes: &[u8], mode: u32) -> Result<(), Stop> {
        let path = self.stage.join(to);
        let written = self
            .make_folders(&path)
            .and_then(|()| fs::write(&path, bytes))
            .and_then(|()| fs::set_permissions(&path, fs::Permissions::from_mode(mode)));
        written.or_else(|error| self.cannot(&path, &error))
    }

    /// For everybody, whatever the umask is.
    fn make_folders(&self, path: &Path) -> io::Result<()> {
        let mut folders: Vec<&Path> = path.ancestors().skip(1).take_while(|folder| folder.starts_with(&self.stage)).collect();
        folders.reverse();
        for folder in folders {
            if !folder.is_dir() {
                fs::create_dir(folder)?;
            }
            fs::set_permissions(folder, fs::Permissions::from_mode(0o755))?;
        }
        Ok(())
    }

    fn press(&self, name: &str) -> Result<(), Stop> {
        self.run("gzip", &["-9nf"], &[&self.stage.join(name)])
    }

    fn run(&self, program: &str, words: &[&str], paths: &[&Path]) -> Result<(), Stop> {
        self.ask(program, words, paths).map(drop)
    }

    /// What a program prints; what it says stands on standard error by itself.
    fn ask(&self, program: &str, words: &[&str], paths: &[&Path]) -> Result<String, Stop> {
        let started = Command::new(program).args(words).args(paths).stdin(Stdio::null()).stdout(Stdio::piped()).spawn();
        let mut running = started.or_else(|error| failed(format!("cannot run {program}: {}", reason(&error))))?;
        let mut printed = Vec::new();
        let read = running.stdout.take().map_or(Ok(0), |mut out| out.read_to_end(&mut printed));
        match (read, running.wait()) {
            (Ok(_), Ok(status)) if status.success() => Ok(String::from_utf8_lossy(&printed).into_owned()),
            (Ok(_), Ok(status)) => failed(format!("{program} failed: {status}")),
            (Err(error), _) | (_, Err(error)) => failed(format!("cannot tell what {program} did: {}", reason(&error))),
        }
    }

    fn cannot<T>(&self, path: &Path, error: &io::Error) -> Result<T, Stop> {
        failed(format!("cannot write {}: {}", quoted(path.as_os_str()), reason(error)))
    }

    fn made_now(&self) -> Result<String, Stop> {
        let date = self.ask("date", &["-u", "-R"], &[])?;
        let (version, maintainer) = (self.version(), maintainer());
        Ok(format!("violstream ({version}) unstable; urgency=medium\n\n  * Made from the sources by ./violstream deb.\n\n -- {maintainer}  {date}"))
    }

    /// With the number of the package, of which there is one for each version of the sources.
    fn version(&self) -> String {
        format!("{}-1", self.number)
    }

    fn control(&self) -> String {
        format!(
            "Package: violstream
Version: {}
Architecture: amd64
Maintainer: {}
Section: utils
Priority: optional
Depends: libc6
Recommends: python3
Description: plan the recall of files from tape, with proved answers
 Violstream reads where files lie on a tape, where the head stands and how many
 wait for which file, and prints how the head is to move: no other way makes the
 waiting of all, added up, shorter. That is proved, and so is every time that it
 prints. The package has the command, and for programs in C, Python and Rust the
 library.
",
            self.version(),
            maintainer()
        )
    }
}

/// Who answers for the package: whoever makes it says so.
fn maintainer() -> String {
    let given = std::env::var("VIOLSTREAM_MAINTAINER").ok().filter(|text| !text.is_empty() && text.chars().all(is_plain));
    given.unwrap_or_else(|| "Violstream <violstream@example.org>".to_string())
}

const COPYRIGHT: &str = "This package was made by ./violstream deb from the sources of Violstream.

Copyright (C) 2026 the authors of Violstream

License: the package grants no rights; the sources say under which terms they
are used.
";
