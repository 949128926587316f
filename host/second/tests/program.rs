//! The event program as a process.

use std::io::{Read, Write};
use std::process::{Child, Command, Stdio};

fn start() -> Child {
    Command::new(env!("CARGO_BIN_EXE_second_events"))
        .stdin(Stdio::piped())
        .stdout(Stdio::piped())
        .stderr(Stdio::piped())
        .spawn()
        .expect("the program starts")
}

#[test]
fn prints_the_printed_example() {
    let mut program = start();
    let input = [0x01, 0x0E, 0xA5, 0x00, 0x00, 0x0E, 0x00, 0x00, 0x01, 0x0C, 0x01, 0x00, 0x00, 0x40, 0x00, 0x00];
    program.stdin.take().unwrap().write_all(&input).unwrap();
    let output = program.wait_with_output().unwrap();
    assert!(output.status.success());
    assert_eq!(output.stdout, b"1 0 0 0 0\n2 0 165 0 0\n3 5 0 0 0\n4 2 255 0 0\n");
    assert!(output.stderr.is_empty());
}

#[test]
fn prints_nothing_for_empty_input() {
    let mut program = start();
    drop(program.stdin.take());
    let output = program.wait_with_output().unwrap();
    assert!(output.status.success());
    assert!(output.stdout.is_empty() && output.stderr.is_empty());
}

#[test]
fn answers_before_the_input_ends() {
    let mut program = start();
    let mut input = program.stdin.take().unwrap();
    let mut output = program.stdout.take().unwrap();
    for number in 1..=3 {
        input.write_all(&[0, 10, 0, 0]).unwrap();
        input.flush().unwrap();
        let mut line = [0; 11];
        output.read_exact(&mut line).unwrap();
        assert_eq!(line.as_slice(), format!("{number} 0 96 0 0\n").as_bytes());
    }
    drop(input);
    assert!(program.wait().unwrap().success());
}

#[test]
fn stops_quietly_on_a_closed_pipe() {
    let mut program = start();
    drop(program.stdout.take());
    let mut input = program.stdin.take().unwrap();
    // The program may already have stopped, so a failing write is in order here.
    for _ in 0..100 {
        if input.write_all(&[0; 65_536]).is_err() {
            break;
        }
    }
    drop(input);
    let output = program.wait_with_output().unwrap();
    assert!(output.status.success());
    assert!(output.stderr.is_empty());
}
