//! The built program `crates/nx/out/nx`, run by `tools/run nx` from the root of the
//! repository.

use super::without_native;
use std::fs;
use std::io::Write;
use std::path::{Path, PathBuf};
use std::process::{Command, Stdio};

/// The root of the repository, where the program is; `None` without it, where
/// that is said aloud.
pub fn root() -> Option<PathBuf> {
    let root = Path::new(env!("CARGO_MANIFEST_DIR")).join("..");
    if root.join("crates/nx/out/nx").exists() {
        Some(root)
    } else if without_native() {
        println!("NX_WITHOUT_NATIVE=1: nx is not run (crates/nx/out/nx not there)");
        None
    } else {
        panic!("crates/nx/out/nx is not there: build it first; NX_WITHOUT_NATIVE=1 goes without");
    }
}

/// A folder of its own for a test's files.
pub fn folder(name: &str) -> PathBuf {
    let folder = Path::new(env!("CARGO_TARGET_TMPDIR")).join(name);
    let _ = fs::remove_dir_all(&folder);
    fs::create_dir_all(&folder).expect("a folder for files");
    folder
}

/// What a run gave: the digit on descriptor 3, standard output and error.
#[derive(PartialEq, Eq, Debug)]
pub struct Ran {
    pub digit: String,
    pub out: Vec<u8>,
    pub error: String,
}

impl Ran {
    /// All is told on standard output.
    pub fn told(digit: &str, out: impl Into<Vec<u8>>) -> Ran {
        Ran { digit: digit.into(), out: out.into(), error: String::new() }
    }

    /// All is told on standard error.
    pub fn failed(digit: &str, error: &str) -> Ran {
        Ran { digit: digit.into(), out: vec![], error: error.into() }
    }
}

pub fn run(root: &Path, words: &[&str], input: &[u8]) -> Ran {
    let status = Path::new(env!("CARGO_TARGET_TMPDIR")).join("nx.status");
    let mut child = Command::new("sh")
        .args(["-c", "exec tools/run nx \"$@\" 3>\"$NX_STATUS\"", "sh"])
        .args(words)
        .env("NX_STATUS", &status)
        .current_dir(root)
        .stdin(Stdio::piped())
        .stdout(Stdio::piped())
        .stderr(Stdio::piped())
        .spawn()
        .expect("sh starts");
    // It may have gone before it was fed.
    let _ = child.stdin.take().expect("piped").write_all(input);
    let ran = child.wait_with_output().expect("it ends");
    assert!(ran.status.success(), "{words:?}: {}", ran.status);
    Ran {
        digit: fs::read_to_string(&status).expect("a digit"),
        out: ran.stdout,
        error: String::from_utf8(ran.stderr).expect("text"),
    }
}
