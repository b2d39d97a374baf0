//! The programs, which `tools/build` leaves in target/bin.

use std::io::Write;
use std::os::fd::OwnedFd;
use std::os::unix::net::UnixStream;
use std::path::PathBuf;
use std::process::{Child, Command, Output, Stdio};

/// A program, with pipes for what it reads and writes.
pub fn start(name: &str) -> Child {
    let program = path(name);
    let mut command = Command::new(&program);
    let child = command.stdin(Stdio::piped()).stdout(Stdio::piped()).stderr(Stdio::piped()).spawn();
    child.unwrap_or_else(|e| panic!("{}: {e}: run `tools/build {name}` first", program.display()))
}

/// What a program writes where a read fails behind these bytes, of which there are few.
pub fn interrupt(name: &str, bytes: &[u8]) -> Output {
    let (mut ours, theirs) = UnixStream::pair().expect("a pair of sockets");
    theirs.set_nonblocking(true).expect("a socket that does not wait");
    ours.write_all(bytes).expect("room for the bytes");
    Command::new(path(name)).stdin(OwnedFd::from(theirs)).output().expect("the program runs")
}

/// Where a program stands.
fn path(name: &str) -> PathBuf {
    PathBuf::from(env!("CARGO_MANIFEST_DIR")).join("../target/bin").join(name)
}
