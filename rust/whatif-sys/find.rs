//! Where the library is, how it is linked, and whether it is of this crate's version. For build.rs and for
//! tests/find.rs.

use std::env;
use std::fs;
use std::path::{Path, PathBuf};
use std::process::Command;

/// The version of this crate, which is that of the library it declares.
pub const OWN_VERSION: &str = env!("CARGO_PKG_VERSION");

/// How the library is linked.
#[derive(Clone, Copy, Debug, PartialEq, Eq)]
pub enum Link {
    Static,
    Shared,
}

/// A library that was found.
#[derive(Debug, PartialEq, Eq)]
pub struct Found {
    pub folder: PathBuf,
    pub link: Link,
    /// As its pkg-config file names it; none where there is no such file.
    pub version: Option<String>,
}

impl Found {
    pub fn file(&self) -> PathBuf {
        self.folder.join(file_name(self.link))
    }
}

fn file_name(link: Link) -> &'static str {
    match link {
        Link::Static => "libwhatif.a",
        Link::Shared => "libwhatif.so",
    }
}

/// What `WHATIF_LINK` asks for; nothing where it is not set or empty.
pub fn wanted(word: Option<&str>) -> Result<Option<Link>, String> {
    match word {
        None | Some("") => Ok(None),
        Some("static") => Ok(Some(Link::Static)),
        Some("shared") => Ok(Some(Link::Shared)),
        Some(other) => Err(format!("WHATIF_LINK is '{}', and can be 'static' or 'shared'", other)),
    }
}

/// The library of a folder: of the wanted kind, else the static one, else the shared one.
pub fn in_folder(folder: &Path, wanted: Option<Link>) -> Option<Found> {
    let kinds = wanted.map_or(vec![Link::Static, Link::Shared], |link| vec![link]);
    let link = kinds.into_iter().find(|&link| folder.join(file_name(link)).exists())?;
    Some(Found { folder: folder.to_path_buf(), link, version: version_in(folder) })
}

/// The version of the pkg-config file that belongs to a folder: tools/archive writes it into the folder itself,
/// tools/install below it.
fn version_in(folder: &Path) -> Option<String> {
    let files = [folder.join("whatif.pc"), folder.join("pkgconfig/whatif.pc")];
    let text = files.iter().find_map(|file| fs::read_to_string(file).ok())?;
    text.lines().find_map(|line| line.strip_prefix("Version:")).map(|version| version.trim().to_string())
}

/// The library that pkg-config knows. The folders of the system, which pkg-config leaves out by itself, are asked for.
pub fn by_pkg_config(wanted: Option<Link>) -> Option<Found> {
    let folders = said_by_pkg_config("--libs-only-L")?;
    let mut named = folders.split_whitespace().filter_map(|word| word.strip_prefix("-L"));
    let found = named.find_map(|folder| in_folder(Path::new(folder), wanted))?;
    Some(Found { version: said_by_pkg_config("--modversion"), ..found })
}

fn said_by_pkg_config(word: &str) -> Option<String> {
    let program = env::var_os("PKG_CONFIG").unwrap_or_else(|| "pkg-config".into());
    let done = Command::new(program).args([word, "whatif"]).env("PKG_CONFIG_ALLOW_SYSTEM_LIBS", "1").output().ok()?;
    let said = String::from_utf8(done.stdout).ok()?;
    Some(said.trim().to_string()).filter(|_| done.status.success())
}

/// By semantic versioning, may a library of this version be linked: is it of the same major version, and not older?
pub fn may_link(version: &str) -> Result<(), String> {
    let (theirs, own) = (numbers(version), numbers(OWN_VERSION));
    if theirs.len() == 3 && theirs[0] == own[0] && theirs >= own {
        return Ok(());
    }
    let why = "it must be of the same major version, and not older";
    Err(format!("the library is version {}, and this crate is for {}: {}", version, OWN_VERSION, why))
}

/// Major, minor and patch; fewer where the text is no version.
fn numbers(version: &str) -> Vec<u32> {
    version.split('.').map_while(|number| number.parse().ok()).collect()
}
