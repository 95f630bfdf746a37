//! The programs that `make` builds, or `rt ci`: `crates/NAME/out/NAME`.

use std::io::Write;
use std::path::Path;
use std::process::{Command, Stdio};

/// What a built program prints of its input.
pub fn printed(name: &str, input: &[u8]) -> String {
    let program = Path::new(env!("CARGO_MANIFEST_DIR")).join("../crates").join(name).join("out").join(name);
    assert!(program.exists(), "run `make {name}` first: {} is missing", program.display());
    let mut child = Command::new(program).stdin(Stdio::piped()).stdout(Stdio::piped()).spawn().expect("a program starts");
    // One that refuses the length may close its input early.
    let _ = child.stdin.take().expect("piped").write_all(input);
    let output = child.wait_with_output().expect("it ends");
    String::from_utf8(output.stdout).expect("it prints text")
}
