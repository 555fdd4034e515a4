//! What build.rs does with a folder, with the word of WHATIF_LINK, and with another version.

#[path = "../find.rs"]
mod find;

use find::{by_pkg_config, in_folder, may_link, wanted, Found, Link, OWN_VERSION};
use std::env;
use std::fs;
use std::path::{Path, PathBuf};
use std::process::Command;

/// A folder of this test's own, removed at its end.
struct Folder(PathBuf);

impl Folder {
    fn with(name: &str, files: &[&str]) -> Folder {
        let path = env::temp_dir().join(format!("whatif-find-{}-{}", std::process::id(), name));
        for file in files {
            let file = path.join(file);
            fs::create_dir_all(file.parent().unwrap()).unwrap();
            fs::write(file, "Name: whatif\nVersion: 1.0.0\n").unwrap();
        }
        Folder(path)
    }
}

impl Drop for Folder {
    fn drop(&mut self) {
        let _ = fs::remove_dir_all(&self.0);
    }
}

fn found(folder: &Path, link: Link, version: Option<&str>) -> Option<Found> {
    Some(Found { folder: folder.to_path_buf(), link, version: version.map(String::from) })
}

#[test]
fn the_static_library_before_the_shared_one() {
    let both = Folder::with("both", &["libwhatif.a", "libwhatif.so", "whatif.pc"]);
    let version = Some("1.0.0");
    assert_eq!(in_folder(&both.0, None), found(&both.0, Link::Static, version));
    assert_eq!(in_folder(&both.0, Some(Link::Static)), found(&both.0, Link::Static, version));
    assert_eq!(in_folder(&both.0, Some(Link::Shared)), found(&both.0, Link::Shared, version));
    assert_eq!(in_folder(&both.0, Some(Link::Shared)).unwrap().file(), both.0.join("libwhatif.so"));
}

#[test]
fn one_of_them_alone() {
    let shared = Folder::with("shared", &["libwhatif.so", "pkgconfig/whatif.pc"]);
    assert_eq!(in_folder(&shared.0, None), found(&shared.0, Link::Shared, Some("1.0.0")));
    assert_eq!(in_folder(&shared.0, Some(Link::Static)), None);
    let bare = Folder::with("bare", &["libwhatif.a"]);
    assert_eq!(in_folder(&bare.0, None), found(&bare.0, Link::Static, None));
}

#[test]
fn no_library() {
    let none = Folder::with("none", &["whatif.pc"]);
    assert_eq!(in_folder(&none.0, None), None);
    assert_eq!(in_folder(Path::new("/no such folder"), None), None);
}

#[test]
fn the_word_of_whatif_link() {
    assert_eq!((wanted(None), wanted(Some(""))), (Ok(None), Ok(None)));
    assert_eq!((wanted(Some("static")), wanted(Some("shared"))), (Ok(Some(Link::Static)), Ok(Some(Link::Shared))));
    assert!(wanted(Some("dynamic")).unwrap_err().contains("'dynamic'"));
}

/// A later patch or minor version is taken. Another major version or an older one is not, nor what is no version.
#[test]
fn versions() {
    assert_eq!(may_link(OWN_VERSION), Ok(()));
    let numbers: Vec<u32> = OWN_VERSION.split('.').map(|number| number.parse().unwrap()).collect();
    assert_eq!(may_link(&format!("{}.{}.99", numbers[0], numbers[1])), Ok(()));
    assert_eq!(may_link(&format!("{}.{}.0", numbers[0], numbers[1] + 1)), Ok(()));
    for other in [
        format!("{}.99.99", numbers[0] - 1),
        format!("{}.{}.0", numbers[0] + 1, numbers[1]),
        format!("{}0.{}.0", numbers[0], numbers[1]),
        format!("{}.{}", numbers[0], numbers[1]),
        format!("{}.{}.x", numbers[0], numbers[1]),
        format!("{}.{}.0.1", numbers[0], numbers[1]),
        String::new(),
    ] {
        assert!(may_link(&other).unwrap_err().contains(OWN_VERSION), "{}", other);
    }
}

/// By the program that PKG_CONFIG names, in a process of its own: the environment is the process's.
#[test]
fn pkg_config() {
    if env::var_os("WHATIF_FIND_CHILD").is_some() {
        let folder = PathBuf::from(env::var_os("PKG_CONFIG_LIBDIR").unwrap());
        let there = found(&folder, Link::Static, Some(OWN_VERSION)).filter(|_| folder.join("libwhatif.a").exists());
        assert_eq!(by_pkg_config(None), there);
        return;
    }
    assert!(
        Command::new("pkg-config").arg("--version").output().is_ok(),
        "this test needs pkg-config (Debian's pkgconf)"
    );
    let text = format!("Name: whatif\nDescription: x\nVersion: {}\nLibs: -L${{pcfiledir}} -lwhatif\n", OWN_VERSION);
    let (whole, empty) = (Folder::with("pc", &["libwhatif.a", "whatif.pc"]), Folder::with("no-pc", &["other"]));
    fs::write(whole.0.join("whatif.pc"), text).unwrap();
    for (folder, program) in [(&whole, "pkg-config"), (&empty, "pkg-config"), (&empty, "no such program")] {
        let mut child = Command::new(env::current_exe().unwrap());
        child.args(["pkg_config", "--exact"]).env("WHATIF_FIND_CHILD", "1");
        child.env("PKG_CONFIG", program).env("PKG_CONFIG_LIBDIR", &folder.0).env_remove("PKG_CONFIG_PATH");
        let done = child.output().unwrap();
        assert!(done.status.success(), "{}", String::from_utf8_lossy(&done.stdout));
    }
}
