//! The folder that a test works in, and what it puts there.

use std::collections::{BTreeMap, BTreeSet};
use std::ffi::OsString;
use std::fs;
use std::os::unix::fs::{MetadataExt, PermissionsExt};
use std::path::{Path, PathBuf};
use std::sync::atomic::{AtomicUsize, Ordering};

/// The texts of a batch.
pub const TEXTS: [&str; 3] = ["programs.txt", "trace.txt", "report.txt"];

/// How many lines an audit prints before the order.
pub const VERDICT_LINES: usize = 6;

/// A fresh folder below the one for temporary files; it is removed at its end.
pub struct Room(PathBuf);

impl Room {
    pub fn new() -> Room {
        static NUMBER: AtomicUsize = AtomicUsize::new(0);
        let number = NUMBER.fetch_add(1, Ordering::Relaxed);
        let name = format!("teaselshears-test-{}-{number}", std::process::id());
        let path = std::env::temp_dir().join(name);
        fs::create_dir(&path).expect("a folder for the test");
        // Tests of what may not be read run the program as another user, who has to get here.
        fs::set_permissions(&path, fs::Permissions::from_mode(0o755)).unwrap();
        Room(fs::canonicalize(path).unwrap())
    }

    pub fn path(&self, name: &str) -> PathBuf {
        self.0.join(name)
    }

    /// A new empty folder.
    pub fn folder(&self, name: &str) -> PathBuf {
        let path = self.path(name);
        fs::create_dir_all(&path).unwrap();
        path
    }

    /// A new folder with the files of an example.
    pub fn batch(&self, name: &str, of: &str) -> PathBuf {
        let path = self.path(name);
        copy_folder(&example(of), &path);
        path
    }

    /// A file with these bytes.
    pub fn file(&self, name: &str, bytes: impl AsRef<[u8]>) -> PathBuf {
        let path = self.path(name);
        fs::write(&path, bytes).unwrap();
        path
    }

    /// A spool of so many copies of an example.
    pub fn spool(&self, name: &str, of: &str, batches: usize) -> PathBuf {
        let path = self.folder(name);
        for number in 1..=batches {
            copy_folder(&example(of), &path.join(format!("batch-{number}")));
        }
        path
    }
}

impl Drop for Room {
    fn drop(&mut self) {
        let _ = fs::remove_dir_all(&self.0);
    }
}

/// The repository.
pub fn root() -> PathBuf {
    let cli = Path::new(env!("CARGO_MANIFEST_DIR"));
    cli.parent()
        .expect("the folder of the program lies in the repository")
        .to_path_buf()
}

pub fn example(name: &str) -> PathBuf {
    root().join("examples").join(name)
}

/// The names of the examples, in order.
pub fn examples() -> Vec<String> {
    let names = names_in(&root().join("examples"));
    assert!(names.len() >= 20, "the examples are there");
    names
        .into_iter()
        .map(|name| name.into_string().unwrap())
        .collect()
}

/// The examples that can be audited.
pub fn audited_examples() -> Vec<String> {
    let mut names = examples();
    names.retain(|name| example(name).join("trace.txt").exists());
    names
}

/// What the proved program prints of an example.
pub fn expected(name: &str) -> Vec<u8> {
    read(example(name).join("expected"))
}

/// What the proved program prints of a schedule that means the trace and the report of this folder.
pub fn recorded(folder: &Path) -> Vec<u8> {
    let texts = ["trace.txt", "report.txt"].map(|text| read(folder.join(text)));
    [b"verdict=0\nline=0\n".to_vec(), texts.concat()].concat()
}

/// What is said of an accepted batch that has no request.
pub const EMPTY: &str = "accepted, but with no request in it";

/// The state of an example that is audited, and the status.
pub fn state_of(name: &str) -> (&'static str, i32) {
    let printed = expected(name);
    if !printed.starts_with(b"verdict=0\n") {
        return ("refused", 1);
    }
    match printed.starts_with(b"verdict=0\nline=0\nrequests=0\n") {
        true => ("empty", 3),
        false => ("accepted", 0),
    }
}

/// The order that an example must be printed with, line by line; none where it is refused.
pub fn expected_order(name: &str) -> Vec<String> {
    let printed = String::from_utf8(expected(name)).unwrap();
    let lines = printed.lines().skip(VERDICT_LINES);
    lines.map(String::from).collect()
}

/// How many requests of a folder's trace have no response with their rid.
pub fn left_open(folder: &Path) -> usize {
    let trace = String::from_utf8(read(folder.join("trace.txt"))).unwrap();
    let rids = |word: &str| -> BTreeSet<&str> {
        let numbers = trace.lines().filter_map(|line| line.strip_prefix(word));
        numbers.filter_map(|n| n.split(',').next()).collect()
    };
    rids("request=").difference(&rids("response=")).count()
}

pub fn read(path: impl AsRef<Path>) -> Vec<u8> {
    let path = path.as_ref();
    fs::read(path).unwrap_or_else(|error| panic!("{}: {error}", path.display()))
}

pub fn copy_folder(from: &Path, to: &Path) {
    fs::create_dir_all(to).unwrap();
    for name in names_in(from) {
        fs::write(to.join(&name), read(from.join(&name))).unwrap();
    }
}

/// OUT holds the three texts of an example, and nothing else.
#[track_caller]
pub fn check_recorded(name: &str, out: &Path) {
    assert_eq!(names_in(out), names(TEXTS), "{}", out.display());
    for text in TEXTS {
        let (written, own) = (read(out.join(text)), read(example(name).join(text)));
        assert!(written == own, "{text} of {name} in {}", out.display());
    }
}

/// The names in a folder; none where it is not there.
pub fn names_in(folder: &Path) -> BTreeSet<OsString> {
    let Ok(entries) = fs::read_dir(folder) else {
        return BTreeSet::new();
    };
    entries.map(|entry| entry.unwrap().file_name()).collect()
}

/// A set of names, for comparison with what is in a folder.
pub fn names<const N: usize>(names: [&str; N]) -> BTreeSet<OsString> {
    names.into_iter().map(OsString::from).collect()
}

/// Everything at and below a place: what each is, its bytes, and the inode and time by which one that was made again is seen.
pub fn tree(path: &Path) -> BTreeMap<PathBuf, String> {
    let mut found = BTreeMap::new();
    let mut open = vec![path.to_path_buf()];
    while let Some(path) = open.pop() {
        let Ok(about) = fs::symlink_metadata(&path) else {
            continue;
        };
        let kind = about.file_type();
        let held = if kind.is_dir() {
            open.extend(names_in(&path).into_iter().map(|name| path.join(name)));
            String::from("folder")
        } else if kind.is_symlink() {
            format!("link to {}", fs::read_link(&path).unwrap().display())
        } else {
            format!(
                "{} at {}.{} {:?}",
                about.ino(),
                about.mtime(),
                about.mtime_nsec(),
                read(&path)
            )
        };
        found.insert(path, held);
    }
    found
}
