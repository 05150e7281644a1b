//! Runs the proved program on listings, good and damaged, and compares what it writes with the model. Its status is not 0 on any mismatch.
//!
//! program BINARY [LISTINGS [SEED]], or the variables KERMEZHUL_LISTINGS and KERMEZHUL_SEED.

use against_rust::{
    number,
    drawings::{directed, kind, random},
    model::program::{listing, program},
    rng::Rng,
};
use std::{
    io::Write,
    process::{Command, Stdio},
};

fn run(binary: &str, input: &[u8]) -> Vec<u8> {
    let mut child = Command::new(binary).stdin(Stdio::piped()).stdout(Stdio::piped()).spawn().unwrap_or_else(|e| panic!("{binary}: {e}"));
    let mut to = child.stdin.take().unwrap();
    let bytes = input.to_vec();
    let writer = std::thread::spawn(move || {
        // a program that answers 11 stops reading, and the pipe is closed at its end
        let _ = to.write_all(&bytes);
    });
    let out = child.wait_with_output().unwrap();
    writer.join().unwrap();
    out.stdout
}

fn main() {
    let binary = std::env::args().nth(1).expect("program BINARY [LISTINGS [SEED]]");
    let listings = number(2, "KERMEZHUL_LISTINGS", 3000);
    let mut rng = Rng(number(3, "KERMEZHUL_SEED", 1));
    let directed = directed();
    let mut answers = [0u64; 12];
    let mut mismatches = 0;
    for i in 0..listings {
        let mut input = match rng.below(4) {
            0 => listing(&directed[rng.below(directed.len() as u64) as usize]),
            _ => {
                let k = kind(&mut rng);
                let calls = random(&mut rng, k);
                listing(&calls)
            }
        }
        .into_bytes();
        if rng.one_in(16) {
            // about the limits on bytes and points
            while input.len() < 17_000 {
                let more = listing(&random(&mut rng, 0));
                input.extend_from_slice(more.as_bytes());
            }
            input.truncate(rng.pick(&[16_383, 16_384, 16_385, 15_000]));
        }
        if i == 0 {
            input.clear();
        }
        if i % 2 == 1 && !input.is_empty() {
            for _ in 0..1 + rng.below(2) {
                let at = rng.below(input.len() as u64) as usize;
                match rng.below(8) {
                    0 => input[at] = rng.next() as u8,
                    1 => input.truncate(at),
                    2 => input.insert(at, rng.pick(b"\n\r 0afx=\0")),
                    3 => {
                        input.remove(at);
                    }
                    4 => input[at] = input[at].to_ascii_uppercase(),
                    5 => {
                        input.pop();
                    }
                    6 => input.push(rng.pick(b"\n\r o")),
                    // a NaN, an infinity or a large number instead of a field's first digits
                    _ => {
                        if let Some(e) = input[at..].iter().position(|b| *b == b'=').map(|e| e + at) {
                            if e + 9 <= input.len() && input[e - 1] != b'p' {
                                input[e + 1..e + 9].copy_from_slice(rng.pick(&[b"7fc00000", b"ff800001", b"47800001", b"7f800000", b"c7800000", b"80000000"]));
                            }
                        }
                    }
                }
                if input.is_empty() {
                    break;
                }
            }
        }
        let expected = program(&input);
        let got = run(&binary, &input);
        let answer: usize = expected.lines().next().unwrap()[7..].parse().unwrap();
        answers[answer] += 1;
        if got != expected.as_bytes() {
            mismatches += 1;
            if mismatches <= 5 {
                println!("MISMATCH on\n{}\ngot\n{}\nexpected\n{expected}", String::from_utf8_lossy(&input), String::from_utf8_lossy(&got));
            }
        }
    }
    println!("{listings} listings through the program, by answer 0 to 11: {answers:?}");
    println!("{mismatches} mismatches");
    if mismatches > 0 {
        std::process::exit(1);
    }
}
