//! The small program, as its user meets it: bytes in, one line out. `AWL_GATE`
//! names it.

use second::make::{bytes, NOP};
use second::regions::BENCH_LAYOUT;
use second::rows::checks;
use second::Outcome;
use std::env;
use std::fs::{self, File};
use std::io::{ErrorKind, Write};
use std::path::Path;
use std::process::{Child, Command, Output, Stdio};

/// Memory for the program, its libraries and an emulator beneath it, which takes
/// up to 280 MiB as it starts, and not for a gigabyte of input.
const KIB_ALLOWED: u32 = 524_288;

/// Starts the program with no more memory than it is allowed.
fn start(input: Stdio) -> Child {
    let gate = env::var_os("AWL_GATE").expect("AWL_GATE names the small program");
    Command::new("sh")
        .arg("-c")
        .arg(format!("ulimit -v {KIB_ALLOWED} && exec \"$0\""))
        .arg(gate)
        .stdin(input)
        .stdout(Stdio::piped())
        .stderr(Stdio::piped())
        .spawn()
        .unwrap()
}

/// Writes the bytes until the program takes no more, and tells whether it took
/// all.
fn feed(gate: &mut Child, parts: impl Iterator<Item = Vec<u8>>) -> bool {
    let mut input = gate.stdin.take().unwrap();
    for part in parts {
        match input.write_all(&part) {
            Err(error) if error.kind() == ErrorKind::BrokenPipe => return false,
            result => result.unwrap(),
        }
    }
    true
}

/// What a run that went well wrote.
fn line(output: Output) -> String {
    assert!(output.status.success() && output.stderr.is_empty(), "{output:?}");
    String::from_utf8(output.stdout).unwrap()
}

fn line_for(code: &[u8]) -> String {
    let mut gate = start(Stdio::piped());
    feed(&mut gate, [code.to_vec()].into_iter());
    line(gate.wait_with_output().unwrap())
}

#[test]
fn bench_rows() {
    let fitting = checks().into_iter().filter(|row| row.call.layout == BENCH_LAYOUT);
    let mut rows = 0;
    for row in fitting {
        let says = match row.says {
            Ok(_) => format!("accepted {} bytes\n", row.call.code.len()),
            Err(Outcome::Refused { number, address: Some(address), .. }) => {
                format!("refused {number} at {address}\n")
            }
            Err(refusal) => format!("refused {}\n", refusal.number()),
        };
        assert_eq!(line_for(&row.call.code), says, "{:02X?}", row.call.code);
        rows += 1;
    }
    assert!(rows > 115);
}

#[test]
fn lengths() {
    let nops = bytes(&[NOP; 16_385]);
    for len in [0, 15, 65_537, 65_540] {
        assert_eq!(line_for(&nops[..len]), "refused 2\n", "{len}");
    }
    for len in [16, 65_536] {
        assert_eq!(line_for(&nops[..len]), format!("accepted {len} bytes\n"));
    }
}

/// Bytes that come one by one are one region.
#[test]
fn trickle() {
    let mut gate = start(Stdio::piped());
    assert!(feed(&mut gate, bytes(&[NOP; 8]).into_iter().map(|byte| vec![byte])));
    assert_eq!(line(gate.wait_with_output().unwrap()), "accepted 32 bytes\n");
}

/// Too long an input is answered before it ends.
#[test]
fn gigabyte() {
    let mut gate = start(Stdio::piped());
    let part = vec![0; 1 << 20];
    assert!(!feed(&mut gate, (0..1024).map(|_| part.clone())), "it read a gigabyte");
    assert_eq!(line(gate.wait_with_output().unwrap()), "refused 2\n");
}

#[test]
fn samples() {
    let samples = Path::new(env!("CARGO_MANIFEST_DIR")).join("../samples");
    let mut names = 0;
    for entry in fs::read_dir(samples).unwrap() {
        let path = entry.unwrap().path();
        if path.extension().is_some_and(|extension| extension == "bin") {
            let says = fs::read_to_string(path.with_extension("txt")).unwrap();
            assert_eq!(line_for(&fs::read(&path).unwrap()), says, "{path:?}");
            names += 1;
        }
    }
    assert_eq!(names, 2);
}

/// What can't be read gets no verdict.
#[test]
fn unreadable() {
    let output = start(File::open("/").unwrap().into()).wait_with_output().unwrap();
    assert!(output.stdout.is_empty());
    assert!(output.stderr.starts_with(b"standard input: "), "{output:?}");
}
