//! The trace program: the sample traces through the program itself, and every
//! kind of line that does not read, at every place of a trace.

mod common;

use std::fs;
use std::io::{self, Read, Write};
use std::path::{Path, PathBuf};
use std::process::{Command, Stdio};

use peer::trace::{play, read_line};

fn play_text(input: &[u8]) -> String {
    let mut output = Vec::new();
    play(input, &mut output).unwrap();
    String::from_utf8(output).unwrap()
}

/// Runs the program. It may stop reading before the end of the input.
fn run_program(input: &[u8]) -> String {
    let mut program = Command::new(env!("CARGO_BIN_EXE_peer"))
        .stdin(Stdio::piped())
        .stdout(Stdio::piped())
        .spawn()
        .unwrap();
    let mut stdin = program.stdin.take().unwrap();
    let input = input.to_vec();
    let writer = std::thread::spawn(move || drop(stdin.write_all(&input)));
    let output = program.wait_with_output().unwrap();
    writer.join().unwrap();
    assert!(output.status.success());
    String::from_utf8(output.stdout).unwrap()
}

fn traces() -> PathBuf {
    Path::new(env!("CARGO_MANIFEST_DIR")).join("traces")
}

#[test]
fn sample_traces() {
    let mut count = 0;
    for file in fs::read_dir(traces()).unwrap() {
        let path = file.unwrap().path();
        if path.extension().is_some_and(|extension| extension == "in") {
            let input = fs::read(&path).unwrap();
            let expected = fs::read_to_string(path.with_extension("out")).unwrap();
            assert_eq!(run_program(&input), expected, "{path:?}");
            assert_eq!(play_text(&input), expected, "{path:?}");
            count += 1;
        }
    }
    assert!(count >= 4);
}

#[test]
fn whole_case() {
    let input = "H 1/O 0/A 0 0 17 1/A 0 1 17 1/S 0 0 0 1/Z 0 1/T/K 0/Q/N/N/N/F/E/E/Z 0 0/T/K 0/Q/\
                 F/E/E/A 0 0 1,5 0/";
    let expected = "ok/ok/ok 8192/ok 8224/ok/ok 0/ok/ok 1/ok 0/ok 8192/ok 8224/ok 0/ok/ok 1 0 0/\
                    ok 0 0 0/ok 0/ok/ok 0/ok 0/ok/ok 1 2 1/ok 0 0 0/bad 23/";
    let output = run_program(input.replace('/', "\n").as_bytes());
    assert_eq!(output, expected.replace('/', "\n"));
}

#[test]
fn answers_have_their_numbers() {
    let input = "H 2/O 0/A 0 0 24 1/M 0 1 0/Z 0 0/L 0 2 1 0/S 0 1 0 1/W 0 1 1 77/R 0 1 1/P 0 3 1/\
                 G 0 4 3/T/K 0/Q/N/N/F/E/E/C 0/";
    let expected = "ok/ok/ok 8192/ok 8192/ok 0/ok 0/ok/ok/ok 77/ok/ok 8192/ok/ok 1/ok 0/ok 8192/\
                    ok 0/ok/ok 1 0 0/ok 0 0 0/ok/";
    assert_eq!(play_text(input.replace('/', "\n").as_bytes()), expected.replace('/', "\n"));
}

/// Lines that do not read.
#[rustfmt::skip]
const BAD_TEXTS: &[&str] = &[
    "", " ", "o 0", "B 0", "V", "0", "O", "O ", "O  0", " O 0", "O 0 ", "O 0 0", "O\t0", "O 0\r",
    "O\u{0}0", "O 0\u{0}", "O -1", "O +1", "O 01", "O 00", "O 1,5", "O 0x1", "O a", "O 1.0", "O0",
    "O 18446744073709551616", "O 99999999999999999999", "O 100000000000000000000", "OO 0", "O 0;",
    "A 0 0 8", "A 0 0 8 0 0", "M 0 0", "M 0 0 0 0", "Z 0", "Z 0 0 0", "L 0 0 0", "L 0 0 0 0 0",
    "S 0 0 0", "S 0 0 0 0 0", "W 0 0 0", "W 0 0 0 0 0", "R 0 0", "R 0 0 0 0", "G 0 0", "G 0 0 0 0",
    "P 0 0", "P 0 0 0 0", "C", "C 0 0", "T 0", "K", "K 0 0", "Q 0", "N 0", "F 0", "E 0", "T ",
    "\u{e9} 0", "O \u{661}", "#", "O 0 # note", "ok", "\u{feff}O 0",
];

/// The same and others that are no text, without their line feed.
fn bad_lines() -> Vec<Vec<u8>> {
    let mut lines: Vec<Vec<u8>> = Vec::new();
    lines.extend(BAD_TEXTS.iter().map(|text| text.as_bytes().to_vec()));
    lines.extend([vec![0xff], vec![b'O', b' ', 0x80], vec![b'O'; 81], vec![b'0'; 200_000]]);
    let long = "W 18446744073709551615 18446744073709551615 18446744073709551615 1000000000000000";
    assert_eq!(long.len(), 81);
    lines.push(long.as_bytes().to_vec());
    lines
}

#[test]
fn bad_lines_at_every_place() {
    let good = ["H 1", "O 0", "A 0 0 17 1", "S 0 0 0 0", "R 0 0 9", "T", "K 0", "Q", "N", "F", "E"];
    let outputs = ["ok", "ok", "ok 8192", "ok", "no 7", "ok", "ok 1", "ok 0", "ok 8192", "ok"];
    let mut bad = bad_lines();
    bad.extend(["H 0", "H 9", "H", "H 1 1"].map(|text| text.as_bytes().to_vec()));
    bad.push(b"H 1".to_vec());
    for place in 0..good.len() {
        // A first line with H and one number is not bad.
        for line in bad.iter().filter(|line| place > 0 || !line.starts_with(b"H ")) {
            let mut input = good[..place].join("\n").into_bytes();
            input.extend_from_slice(if place > 0 { b"\n" } else { b"" });
            input.extend_from_slice(line);
            input.extend_from_slice(b"\nO 1\n");
            let mut expected: String = outputs[..place].iter().map(|o| format!("{o}\n")).collect();
            expected.push_str(&format!("bad {}\n", place + 1));
            assert_eq!(play_text(&input), expected, "{:?}", String::from_utf8_lossy(&input));
        }
    }
}

#[test]
fn first_line_has_to_be_h() {
    for line in ["O 0", "T", "Q", "E", "A 0 0 8 0", "h 1", "H", "H 1 2", "H 01", "H  1", "H 1,0"] {
        assert_eq!(play_text(format!("{line}\nH 1\n").as_bytes()), "bad 1\n", "{line}");
    }
    for pages in ["0", "9", "256", "4294967297", "18446744073709551615"] {
        assert_eq!(play_text(format!("H {pages}\nO 0\nrubbish").as_bytes()), "no 1\n");
        assert_eq!(play_text(format!("H {pages}\n").as_bytes()), "no 1\n");
    }
    assert_eq!(play_text(b"H 18446744073709551616\n"), "bad 1\n");
    for pages in 1..=8 {
        assert_eq!(play_text(format!("H {pages}\n").as_bytes()), "ok\n");
    }
}

#[test]
fn ends_of_the_input() {
    assert_eq!(play_text(b""), "bad 1\n");
    assert_eq!(play_text(b"\n"), "bad 1\n");
    assert_eq!(play_text(b"H 1"), "bad 1\n");
    assert_eq!(play_text(b"H 9"), "bad 1\n");
    assert_eq!(play_text(b"H 1\n"), "ok\n");
    assert_eq!(play_text(b"H 1\nO 0"), "ok\nbad 2\n");
    assert_eq!(play_text(b"H 1\nO 0\n\n"), "ok\nok\nbad 3\n");
    assert_eq!(run_program(b""), "bad 1\n");
    assert_eq!(run_program(b"H 1\nO 0"), "ok\nbad 2\n");
}

#[test]
fn a_line_of_eighty_bytes_reads() {
    let line = "W 18446744073709551615 18446744073709551615 18446744073709551615 100000000000000";
    assert_eq!(line.len(), 80);
    assert_eq!(play_text(format!("H 1\n{line}\n").as_bytes()), "ok\nno 3\n");
    assert_eq!(play_text(format!("H 1\n{line}0\n").as_bytes()), "ok\nbad 2\n");
    assert!(read_line(line.as_bytes()).is_some());
}

/// The same bytes over and over, given out in pieces of odd lengths.
struct Endless {
    text: &'static [u8],
    given: usize,
    limit: usize,
}

impl Read for Endless {
    fn read(&mut self, block: &mut [u8]) -> io::Result<usize> {
        let count = block.len().min(1 + self.given % 977).min(self.limit - self.given);
        for byte in &mut block[..count] {
            *byte = self.text[self.given % self.text.len()];
            self.given += 1;
        }
        Ok(count)
    }
}

#[test]
fn a_line_without_end_is_given_up() {
    let mut input = Endless { text: b"A", given: 0, limit: usize::MAX };
    let mut output = Vec::new();
    play(&mut input, &mut output).unwrap();
    assert_eq!(output, b"bad 1\n");
    assert!(input.given < 1 << 17);
}

#[test]
fn a_long_trace_in_small_pieces() {
    let first = play_text(b"H 1\n");
    let cycle = b"O 0\nA 0 0 8 0\nW 0 0 0 5\nR 0 0 0\nZ 0 0\nT\nK 0\nQ\nN\nF\nE\nE\nC 0\n";
    let mut output = Vec::new();
    let start = io::Cursor::new(b"H 1\n");
    let limit = cycle.len() * 20_000;
    play(start.chain(Endless { text: cycle, given: 0, limit }), &mut output).unwrap();
    let answer = "ok\nok 8192\nok\nok 5\nok 0\nok\nok 0\nok 0\nok 0\nok\nok 1 1 1\nok 0 0 0\nok\n";
    assert!(output == (first + &answer.repeat(20_000)).into_bytes());
}
