//! Debian's chromium, headless: a page with a driver at its end is opened from a file, and what the driver wrote is read
//! from the page. Where chromium is missing a test fails; `browser` in WHATIF_SKIP leaves these tests out, and they say so.
//!
//! The browser has a folder of its own for all that it writes, which is removed, and it finds no other host.

use std::env;
use std::fs::{self, File};
use std::io::{self, Write};
use std::path::{Path, PathBuf};
use std::process::{Child, Command, Stdio};
use std::sync::atomic::{AtomicUsize, Ordering};
use std::sync::Mutex;
use std::thread::sleep;
use std::time::{Duration, Instant};

/// Notes what goes wrong in the page, before any other script.
const FIRST: &str = "<script>window.faults = [];
addEventListener('error', event => faults.push(event.message));
addEventListener('securitypolicyviolation', event => faults.push('not allowed: ' + event.blockedURI));
</script>";

/// The sandbox can't be had by root, nor shared memory in small containers.
const FLAGS: [&str; 11] = [
    "--headless",
    "--no-sandbox",
    "--disable-gpu",
    "--disable-dev-shm-usage",
    "--no-first-run",
    "--disable-background-networking",
    "--disable-component-update",
    "--host-resolver-rules=MAP * ~NOTFOUND",
    "--enable-logging=stderr",
    "--log-level=0",
    "--window-size=1200,900",
];

/// A browser that takes longer than this hangs. No page takes a hundredth of it.
const PATIENCE: Duration = Duration::from_secs(600);

/// One browser at a time: they are large.
static ALONE: Mutex<()> = Mutex::new(());
static FOLDERS: AtomicUsize = AtomicUsize::new(0);

/// Said past the test harness, which shows nothing of tests that pass.
pub fn skipped() -> bool {
    let names = env::var("WHATIF_SKIP").unwrap_or_default();
    let skipped = names.split_whitespace().any(|name| name == "browser");
    if skipped {
        io::stderr().write_all(b"NOT TRIED in a browser, as WHATIF_SKIP says\n").unwrap();
    }
    skipped
}

/// The lines that a driver wrote by `note`.
pub fn written(page: &str, driver: &str) -> Vec<String> {
    let (lines, faults) = opened(page, driver);
    assert!(faults.is_empty(), "{:?}", faults);
    lines
}

/// The lines, and what went wrong in the page. The driver runs when everything is loaded.
pub fn opened(page: &str, driver: &str) -> (Vec<String>, Vec<String>) {
    assert_eq!((page.matches("<head>").count(), page.matches("</body>").count()), (1, 1));
    let note = "const seen = []; const note = (...words) => seen.push(words.join('\\t').replace(/\\n/g, ' '));";
    let written = "document.body.innerHTML = ''; const all = document.createElement('pre'); all.id = 'seen';
        const lines = [...seen, ...faults.map(fault => 'fault ' + fault.replace(/\\n/g, ' ')), 'end'];
        all.textContent = lines.join('\\n'); document.body.append(all);";
    let end = format!(
        "<script>addEventListener('load', () => {{ {}\n try {{ {} }} catch (error) {{ faults.push(error.stack) }}\n {} \
         }});</script></body>",
        note, driver, written
    );
    let page = page.replace("<head>", &format!("<head>{}", FIRST)).replace("</body>", &end);
    let [dom, log] = run(&page);
    let text = dom.split("<pre id=\"seen\">").nth(1).and_then(|rest| rest.split("</pre>").next());
    let text = text.unwrap_or_else(|| panic!("the driver wrote nothing: {} {}", dom, log));
    let text = text.replace("&lt;", "<").replace("&gt;", ">").replace("&nbsp;", "\u{a0}").replace("&amp;", "&");
    let mut lines: Vec<String> = text.lines().map(String::from).collect();
    assert_eq!(lines.pop().as_deref(), Some("end"), "the driver did not come to its end");
    let console = log.lines().filter(|line| line.contains("CONSOLE")).map(String::from);
    let (faults, lines): (Vec<String>, Vec<String>) = lines.into_iter().partition(|line| line.starts_with("fault "));
    (lines, faults.into_iter().chain(console).collect())
}

/// A folder that is removed at the end, whatever happens.
struct Folder(PathBuf);

impl Folder {
    fn new() -> Folder {
        let number = FOLDERS.fetch_add(1, Ordering::Relaxed);
        let folder = env::temp_dir().join(format!("whatif-text-{}-{}", std::process::id(), number));
        fs::create_dir_all(&folder).unwrap();
        Folder(folder)
    }
}

impl Drop for Folder {
    fn drop(&mut self) {
        // a process of the browser may still write
        let removed = (0..50).any(|_| {
            let gone = fs::remove_dir_all(&self.0).is_ok() || !self.0.exists();
            if !gone {
                sleep(Duration::from_millis(100));
            }
            gone
        });
        if !removed {
            eprintln!("{} is left", self.0.display());
        }
    }
}

/// The page as it is when everything is loaded, and the browser's log.
fn run(page: &str) -> [String; 2] {
    let _alone = ALONE.lock().unwrap_or_else(|poisoned| poisoned.into_inner());
    let folder = Folder::new();
    let [file, dom, log] = ["page.html", "dom", "log"].map(|name| folder.0.join(name));
    fs::write(&file, page).unwrap();
    let mut started = Command::new(browser())
        .args(FLAGS)
        .arg("--dump-dom")
        .arg(format!("--user-data-dir={}", folder.0.join("profile").display()))
        .arg(format!("file://{}", file.display()))
        .envs(["HOME", "XDG_CONFIG_HOME", "XDG_CACHE_HOME", "XDG_DATA_HOME"].map(|name| (name, &folder.0)))
        .stdin(Stdio::null())
        .stdout(File::create(&dom).unwrap())
        .stderr(File::create(&log).unwrap())
        .spawn()
        .expect("the browser starts");
    let ended = ends(&mut started);
    let read = |file: &Path| String::from_utf8_lossy(&fs::read(file).unwrap()).into_owned();
    let [dom, log] = [read(&dom), read(&log)];
    assert!(ended, "the browser does not end: {}", log);
    [dom, log]
}

fn ends(started: &mut Child) -> bool {
    let began = Instant::now();
    while started.try_wait().unwrap().is_none() {
        if began.elapsed() > PATIENCE {
            started.kill().unwrap();
            started.wait().unwrap();
            return false;
        }
        sleep(Duration::from_millis(20));
    }
    true
}

fn browser() -> PathBuf {
    let folders = env::var_os("PATH").unwrap_or_default();
    let found = env::split_paths(&folders).map(|folder| folder.join("chromium")).find(|file| file.exists());
    found.expect("chromium is not there: .ci/tools installs it (WHATIF_SKIP=browser does without it)")
}
