//! What the tests that start a command share.

use std::fs;
use std::io::Write;
use std::path::{Path, PathBuf};
use std::process::{Child, ChildStdin, Command, Stdio};
use std::sync::atomic::{AtomicUsize, Ordering};
use std::thread::{self, JoinHandle};

pub const ROOT: &str = concat!(env!("CARGO_MANIFEST_DIR"), "/..");

/// A folder for work files, removed at the end.
pub struct Folder(PathBuf);

impl Folder {
    pub fn new() -> Folder {
        static COUNT: AtomicUsize = AtomicUsize::new(0);
        let count = COUNT.fetch_add(1, Ordering::Relaxed);
        let name = format!("spoutgarden-{}-{count}", std::process::id());
        let path = std::env::temp_dir().join(name);
        fs::create_dir(&path).expect("a new folder");
        Folder(path)
    }

    pub fn path(&self) -> &Path {
        &self.0
    }

    pub fn file(&self, name: &str, bytes: &[u8]) -> PathBuf {
        let path = self.0.join(name);
        fs::write(&path, bytes).expect("a new file");
        path
    }
}

impl Drop for Folder {
    fn drop(&mut self) {
        let _ = fs::remove_dir_all(&self.0);
    }
}

/// A command without input, whose output and standard error are kept. A test may ask for others.
pub fn command(program: impl AsRef<Path>) -> Command {
    let mut command = Command::new(program.as_ref());
    command.stdin(Stdio::null());
    command.stdout(Stdio::piped()).stderr(Stdio::piped());
    command
}

/// What a command wrote, and its status.
pub struct Ended {
    pub out: Vec<u8>,
    pub err: String,
    pub status: i32,
}

impl Ended {
    pub fn of(child: Child) -> Ended {
        let ended = child.wait_with_output().expect("the command ends");
        Ended {
            out: ended.stdout,
            err: String::from_utf8_lossy(&ended.stderr).into_owned(),
            status: ended.status.code().expect("no signal ends the launcher"),
        }
    }

    #[track_caller]
    pub fn is(&self, out: &[u8], err: &str, status: i32) {
        assert_eq!((self.err.as_str(), self.status), (err, status));
        let same = self.out.iter().zip(out).take_while(|(a, b)| a == b).count();
        assert!(
            self.out == out,
            "{} bytes where {} are right; the first {same} agree",
            self.out.len(),
            out.len()
        );
    }
}

pub fn run(mut command: Command) -> Ended {
    println!("{command:?}");
    Ended::of(command.spawn().expect("the command starts"))
}

/// Starts a command on a pipe. Somebody reads what it writes while the pipe is filled.
pub fn start(mut command: Command) -> (ChildStdin, JoinHandle<Ended>) {
    println!("{command:?}");
    let spawned = command.stdin(Stdio::piped()).spawn();
    let mut child = spawned.expect("the command starts");
    let pipe = child.stdin.take().expect("a pipe");
    (pipe, thread::spawn(|| Ended::of(child)))
}

/// Runs a command on a pipe that has this input.
pub fn fed(command: Command, input: &[u8]) -> Ended {
    println!("on {} bytes:", input.len());
    let (mut pipe, ended) = start(command);
    // a command that stops early does not take it all
    let _ = pipe.write_all(input);
    drop(pipe);
    ended.join().expect("the command ends")
}
