//! The program as a user runs it: what it prints, and with which exit status.

use std::io::Write;
use std::path::{Path, PathBuf};
use std::process::{Command, Output, Stdio};

/// Runs the program in the repository's root.
fn run(arguments: &[&str], input: &[u8]) -> Output {
    let mut child = Command::new(env!("CARGO_BIN_EXE_savorylatch"))
        .args(arguments)
        .current_dir(root())
        .stdin(Stdio::piped())
        .stdout(Stdio::piped())
        .stderr(Stdio::piped())
        .spawn()
        .unwrap();
    // A program that stops before it has read its input is looked at by its status.
    let _ = child.stdin.take().unwrap().write_all(input);
    child.wait_with_output().unwrap()
}

fn root() -> PathBuf {
    Path::new(env!("CARGO_MANIFEST_DIR")).join("../..")
}

fn out(output: &Output) -> &str {
    std::str::from_utf8(&output.stdout).unwrap()
}

fn err(output: &Output) -> &str {
    std::str::from_utf8(&output.stderr).unwrap()
}

/// What `samples/frames` makes of a sample.
fn sample(what: &str, name: &str) -> Vec<u8> {
    let output = Command::new("samples/frames")
        .args([what, &format!("samples/{name}.txt")])
        .current_dir(root())
        .output()
        .unwrap();
    assert!(output.status.success());
    output.stdout
}

const ALL: [&str; 13] = [
    "atomic-move",
    "clean-up",
    "document-01",
    "failover",
    "five-events",
    "five-events-atomic",
    "p2-p3-p4",
    "p5",
    "p9",
    "refusals",
    "roles",
    "tenant-moved",
    "values-and-widths",
];

/// The samples that have their bytes too.
const IN_BYTES: [&str; 7] = [
    "atomic-move",
    "clean-up",
    "document-01",
    "five-events",
    "p2-p3-p4",
    "p5",
    "p9",
];

/// The reasons that a trace shows, by their numbers.
fn reasons(trace: &str) -> Vec<&str> {
    let answers = trace
        .lines()
        .filter_map(|line| line.trim_start().strip_prefix("answer "));
    let number = |answer: &'_ str| answer.find('(').zip(answer.find(')'));
    let answers = answers.filter_map(|answer| number(answer).map(|(a, b)| &answer[a + 1..b]));
    answers.collect()
}

#[test]
fn samples_have_their_traces() {
    for name in ALL {
        let output = run(&[&format!("samples/{name}.txt")], &[]);
        assert_eq!(output.status.code(), Some(0), "{name}");
        let expected = std::fs::read_to_string(root().join(format!("samples/{name}.trace")));
        assert_eq!(out(&output), expected.unwrap(), "{name}");
    }
}

#[test]
fn frames_are_the_samples_bytes() {
    for name in IN_BYTES {
        let output = run(&["--frames", &format!("samples/{name}.txt")], &[]);
        assert_eq!(output.stdout, sample("in", name), "{name}");
    }
}

#[test]
fn traces_have_the_samples_reasons() {
    for name in IN_BYTES {
        let output = run(&["--explain", "-"], &sample("in", name));
        let lines = String::from_utf8(sample("out", name)).unwrap();
        let expected: Vec<&str> = lines.lines().filter_map(|l| l.split(' ').nth(1)).collect();
        assert_eq!(reasons(out(&output)), expected, "{name}");
    }
}

#[test]
fn frames_are_explained_with_the_same_reasons() {
    for name in ALL {
        let file = format!("samples/{name}.txt");
        let frames = run(&["--frames", &file], &[]).stdout;
        let explained = run(&["--explain", "-"], &frames);
        assert_eq!(explained.status.code(), Some(0));
        let played = run(&[&file], &[]);
        assert_eq!(reasons(out(&explained)), reasons(out(&played)), "{name}");
    }
}

#[test]
fn the_resent_batch_is_explained() {
    let output = run(&["samples/five-events.txt"], &[]);
    let why =
        "not-primary (10), PERMISSION_DENIED (7): id 5 is not the mark of role 0, which is 6; \
               nobody holds the mark, so role 0 has no primary";
    assert!(out(&output).contains(why));
}

#[test]
fn an_expectation_that_does_not_hold_is_status_1() {
    let script = b"open 1\nexpect 0\nopen 1\nexpect 0\n";
    let trace = run(&["-"], script);
    assert_eq!(trace.status.code(), Some(1));
    let line = "NOT HELD   line 4: expect 0; but the reason is already-open (3)";
    assert!(out(&trace).contains(line), "{}", out(&trace));
    assert!(out(&trace).ends_with("2 calls, 2 expectations, of which 1 did not hold\n"));

    let quiet = run(&["--quiet", "-"], script);
    assert_eq!(quiet.status.code(), Some(1));
    let expected = "standard input:4: call 2: expect 0; but the reason is already-open (3)\n\
                    2 calls, 2 expectations, of which 1 did not hold\n";
    assert_eq!(out(&quiet), expected);
}

#[test]
fn a_mistake_is_status_2_and_plays_nothing() {
    for way in [
        &["-"][..],
        &["--quiet", "-"],
        &["--frames", "-"],
        &["--timeline", "-"],
    ] {
        let output = run(way, b"open 1\narbitrate 1 role x id 5\n");
        assert_eq!(output.status.code(), Some(2));
        assert_eq!(out(&output), "");
        let message = "standard input:2:18: expected a role, 0 to 255, found 'x'\n    \
                       arbitrate 1 role x id 5\n                     ^\n";
        assert_eq!(err(&output), message);
    }
}

#[test]
fn bytes_that_are_no_text_are_a_mistake_in_their_line() {
    let output = run(&["-"], b"open 1\nopen \xff\n");
    assert_eq!(output.status.code(), Some(2));
    assert!(
        err(&output).starts_with("standard input:2:6: expected UTF-8 text, found other bytes\n")
    );
}

#[test]
fn the_command_line_is_checked() {
    for arguments in [&[][..], &["--nonsense"], &["a", "b"], &["no/such/file.txt"]] {
        let output = run(arguments, &[]);
        assert_eq!(output.status.code(), Some(2), "{arguments:?}");
        assert!(err(&output).starts_with("savorylatch: "));
        assert!(output.stdout.is_empty());
    }
}

#[test]
fn help_has_every_reason() {
    let output = run(&["--help"], &[]);
    assert_eq!(output.status.code(), Some(0));
    for word in [
        "not-primary",
        "table-full",
        "rolled-back       ABORTED (10) ",
        "[atomic | atomicity 0|1|2]",
        "--timeline",
        "expect told count",
        "> HEX ..",
        "< ORDINAL REASON CODE COUNT RECORD ..",
        "Exit status",
    ] {
        assert!(out(&output).contains(word), "{word}");
    }
    assert!(!out(&output).contains("\n    24 "));
    assert_eq!(out(&run(&["--version"], &[])), "savorylatch 0.1.0\n");
}

#[test]
fn hex_is_explained() {
    let text = b"01 03 # stream 3\n03 03 00*7.01 00 01 00*15.05\n07\n";
    let output = run(&["--explain", "--hex", "-"], text);
    assert_eq!(output.status.code(), Some(0));
    assert_eq!(reasons(out(&output)), ["0", "0", "1"]);
    assert!(out(&output).contains("\n2  arbitrate 3 role 0 id 5\n"));
    assert!(out(&output).contains("command 07 is unknown"));
    assert!(out(&output).ends_with("\n3 calls\n"));
    assert_eq!(
        run(&["--explain", "--hex", "-"], b"0").status.code(),
        Some(2)
    );
}

#[test]
fn another_device_is_explained() {
    let frames = run(&["--frames", "-"], b"device 7\nread role 0\n");
    assert!(err(&frames).contains("the script's device is 7"));
    let other = run(&["--explain", "-"], &frames.stdout);
    assert_eq!(reasons(out(&other)), ["5"]);
    let own = run(&["--explain", "--device", "7", "-"], &frames.stdout);
    assert_eq!(reasons(out(&own)), ["12"]);
}

#[test]
fn an_input_that_breaks_off_is_said_to() {
    let output = run(&["--explain", "-"], &[0, 2, 1, 1, 0, 2, 2]);
    assert_eq!(reasons(out(&output)), ["0"]);
    assert!(out(&output).contains("the input breaks off: 3 bytes are left, which is no call\n"));
}

#[test]
fn the_picture_shows_what_it_should() {
    let output = run(&["--timeline", "samples/five-events.txt"], &[]);
    assert_eq!(output.status.code(), Some(0));
    let picture = out(&output);
    for text in [
        "five-events",
        "stream 1",
        "stream 2",
        "id 5 (role 0)",
        "nobody",
        "told 6",
        "primary</text>",
    ] {
        assert!(picture.contains(text), "{text}");
    }
    assert!(
        picture.contains("Call 10, not-primary (10): id 5 is not the mark of role 0, which is 6;")
    );
    let committed = std::fs::read_to_string(root().join("docs/five-events.svg")).unwrap();
    assert_eq!(picture, committed);
}
