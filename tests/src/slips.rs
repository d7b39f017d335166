//! Slips planted in copies of the second program: small edits, each wrong in a way that its words say.
//!
//! A slip's file: what it gets wrong in words; `found by:` and the comparison that has to find it; then edits. An
//! edit names a file of second/ (or stands under the one named last), its old text on lines that begin with `-`, and
//! the new text on lines that begin with `+`. The old text stands once in its file.

use std::fs;
use std::io;
use std::path::{Path, PathBuf};
use std::process::{Command, Stdio};

pub struct Slip {
    pub name: String,
    pub wrong: String,
    pub found_by: Comparison,
    edits: Vec<Edit>,
}

#[derive(Clone, Copy, Debug, PartialEq, Eq)]
pub enum Comparison {
    Rehearsals,
    Calls,
}

#[derive(Default)]
struct Edit {
    file: String,
    old: Vec<String>,
    new: Vec<String>,
}

/// All slips of a folder, by name.
fn read_all(folder: &Path) -> io::Result<Vec<Slip>> {
    let mut slips = Vec::new();
    for found in fs::read_dir(folder)? {
        let path = found?.path();
        if path.extension().is_some_and(|extension| extension == "slip") {
            let name = path.file_stem().unwrap_or_default().to_string_lossy().into_owned();
            let text = fs::read_to_string(&path)?;
            slips.push(read(&name, &text).ok_or_else(|| wrong(&name, "its file does not have the form of a slip"))?);
        }
    }
    slips.sort_by(|one, other| one.name.cmp(&other.name));
    Ok(slips)
}

fn wrong(name: &str, words: &str) -> io::Error {
    io::Error::new(io::ErrorKind::InvalidData, format!("{name}: {words}"))
}

fn read(name: &str, text: &str) -> Option<Slip> {
    let mut lines = text.lines();
    let wrong = lines.next()?.to_string();
    let found_by = match lines.next()?.strip_prefix("found by: ")? {
        "rehearsals" => Comparison::Rehearsals,
        "calls" => Comparison::Calls,
        _ => return None,
    };
    let mut edits: Vec<Edit> = Vec::new();
    let mut file = String::new();
    for line in lines {
        let text = |mark| line.strip_prefix(mark).map(|text| text.strip_prefix(' ').unwrap_or(text).to_string());
        if let Some(old) = text('-') {
            if edits.last().is_none_or(|edit| !edit.new.is_empty()) {
                edits.push(Edit { file: file.clone(), ..Edit::default() });
            }
            edits.last_mut()?.old.push(old);
        } else if let Some(new) = text('+') {
            edits.last_mut()?.new.push(new);
        } else {
            file = line.into();
        }
    }
    let whole = |edit: &Edit| !edit.file.is_empty() && !edit.old.is_empty() && !edit.new.is_empty();
    (!edits.is_empty() && edits.iter().all(whole)).then(|| Slip { name: name.into(), wrong, found_by, edits })
}

impl Slip {
    /// Whether a call can show it: something other than the rehearsal is edited.
    pub fn concerns_calls(&self) -> bool {
        self.edits.iter().any(|edit| !edit.file.starts_with("src/rehearsal/"))
    }

    /// Puts the edits into a copy of second/.
    fn plant(&self, copy: &Path) -> io::Result<()> {
        for edit in &self.edits {
            let path = copy.join(&edit.file);
            let text = fs::read_to_string(&path)?;
            let (old, new) = (edit.old.join("\n"), edit.new.join("\n"));
            if text.matches(&old).count() != 1 {
                return Err(wrong(&self.name, &format!("its old text does not stand once in {}:\n{old}", edit.file)));
            }
            fs::write(&path, text.replacen(&old, &new, 1))?;
        }
        Ok(())
    }
}

/// Copies a folder without what was built or is to be planted. A file that is the same already stays as it is, so that
/// cargo builds only what has changed.
fn copy(from: &Path, to: &Path) -> io::Result<()> {
    fs::create_dir_all(to)?;
    for found in fs::read_dir(from)? {
        let found = found?;
        let name = found.file_name();
        let (from, to) = (found.path(), to.join(&name));
        if found.file_type()?.is_dir() {
            if name != "target" && name != "slips" {
                copy(&from, &to)?;
            }
        } else {
            let contents = fs::read(from)?;
            if fs::read(&to).ok().as_ref() != Some(&contents) {
                fs::write(to, contents)?;
            }
        }
    }
    Ok(())
}

/// A copy of the folders that the comparisons are built from, to be slipped.
pub struct Copies {
    root: PathBuf,
    copy: PathBuf,
}

const FOLDERS: [&str; 3] = ["second", "tests", "bindings/rust"];

impl Copies {
    pub fn of(root: &Path) -> Copies {
        Copies { root: root.into(), copy: root.join("target/slips") }
    }

    pub fn slips(&self) -> io::Result<Vec<Slip>> {
        read_all(&self.root.join("second/slips"))
    }

    /// Copies anew, plants the slip, and builds the slipped program and its call comparisons.
    pub fn build(&self, slip: &Slip) -> io::Result<()> {
        for folder in FOLDERS {
            copy(&self.root.join(folder), &self.copy.join(folder))?;
        }
        slip.plant(&self.copy.join("second"))?;
        let built = self.cargo("second", "second")? && (!slip.concerns_calls() || self.cargo("tests", "calls")?);
        built.then_some(()).ok_or_else(|| wrong(&slip.name, "the slipped program does not build"))
    }

    /// Builds a program of a copied folder, quickly rather than for speed; whether it could be built.
    fn cargo(&self, folder: &str, program: &str) -> io::Result<bool> {
        let mut cargo = Command::new("cargo");
        cargo.args(["build", "-j1", "--quiet", "--offline", "--bin", program]);
        cargo
            .arg("--manifest-path")
            .arg(self.copy.join(folder).join("Cargo.toml"))
            .arg("--target-dir")
            .arg(self.copy.join("built"));
        cargo.env("RAUDOKIIN_LIB", self.root.join("crates/host/out"));
        cargo.env("CARGO_PROFILE_DEV_OPT_LEVEL", "0").env("CARGO_PROFILE_DEV_DEBUG", "0");
        Ok(cargo.stdout(Stdio::null()).stderr(Stdio::null()).status()?.success())
    }

    pub fn program(&self, name: &str) -> PathBuf {
        self.copy.join("built/debug").join(name)
    }
}
