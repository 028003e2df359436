//! Measures what names cost `orgviews` that a writer of files chose so that they collide under the hash of the toolchain's
//! maps, which starts from a fixed number. Built by `rustc -O`, std alone:
//!
//!     collide PROGRAM
//!
//! Keywords, names of blocks, of files' properties and of drawers' properties, and tags are measured at 16,000 to 128,000
//! names. It fails where a doubling costs more than 2.5 times as much, or 131,000 keywords take 0.3 s.
use std::io::{self, Read, Write};
use std::process::{Command, ExitCode, Stdio};
use std::thread;
use std::time::Instant;

const COUNTS: [usize; 4] = [16_000, 32_000, 64_000, 128_000];
const MANY: usize = 131_000;
const RUNS: usize = 5;
const MOST_RUNS: usize = 30;
const MOST_GROWTH: f64 = 2.5;
const MOST_SECONDS: f64 = 0.3;

// Names collide whose hashes agree in so many low bits, by which a map chooses the place where it begins to look.
const BITS: u32 = 10;
const LETTERS: &[u8; 36] = b"abcdefghijklmnopqrstuvwxyz0123456789";
const LEN: usize = 6;

type Text = fn(&[String]) -> String;

const KINDS: [(&str, Text, &str); 5] = [
    ("keywords", keywords, "todo\n"),
    ("blocks", blocks, "todo\n"),
    ("file properties", file_properties, "inherit zz\nmatch zz=\"1\"\n"),
    ("drawer properties", drawer_properties, "inherit zz\nmatch zz=\"1\"\n"),
    ("tags", tags, "todo\n"),
];

fn main() -> ExitCode {
    let Some(program) = std::env::args().nth(1) else {
        eprintln!("collide PROGRAM");
        return ExitCode::from(2);
    };
    match measure(&program) {
        Ok(true) => ExitCode::SUCCESS,
        Ok(false) => ExitCode::FAILURE,
        Err(error) => {
            eprintln!("collide: {error}");
            ExitCode::from(2)
        }
    }
}

fn measure(program: &str) -> io::Result<bool> {
    let begun = Instant::now();
    let names = colliding(MANY);
    println!("{MANY} colliding names, found in {:.2} s: {} .. {}", begun.elapsed().as_secs_f64(), names[0], names[MANY - 1]);
    println!("{:18}{}", "seconds", COUNTS.map(|count| format!("{count:>10}")).concat());
    let mut passes = true;
    for (kind, text, question) in KINDS {
        let streams = COUNTS.map(|count| stream(&text(&names[..count]), question));
        let costs = least_costs(program, &streams)?;
        println!("{kind:18}{}", costs.iter().map(|cost| format!("{cost:>10.3}")).collect::<String>());
        for pair in costs.windows(2) {
            if is_dear(pair) {
                println!("    a doubling costs {:.1} times as much", pair[1] / pair[0]);
                passes = false;
            }
        }
    }
    let seconds = least_costs(program, &[stream(&keywords(&names), "todo\n")])?[0];
    println!("{MANY} keywords take {seconds:.3} s");
    passes &= seconds < MOST_SECONDS;
    println!("collide: {}", if passes { "passed" } else { "FAILED" });
    Ok(passes)
}

// The first of all words of these letters whose hashes begin at the same place.
fn colliding(count: usize) -> Vec<String> {
    let mut found = Vec::with_capacity(count);
    let mut word = Vec::with_capacity(LEN);
    extend(&mut word, of_length(LEN), &mut found, count);
    found
}

fn extend(word: &mut Vec<u8>, state: u64, found: &mut Vec<String>, count: usize) {
    if word.len() == LEN {
        if (state ^ state >> 32) & ((1 << BITS) - 1) == 0 {
            found.push(String::from_utf8(word.clone()).unwrap());
        }
        return;
    }
    for letter in LETTERS {
        if found.len() == count {
            return;
        }
        word.push(*letter);
        extend(word, with_byte(state, *letter), found, count);
        word.pop();
    }
}

// The hash of a list of bytes takes its length, and then byte by byte.
fn of_length(len: usize) -> u64 {
    folded(0x243f_6a88_85a3_08d3 ^ len as u64, MULTIPLIER ^ 16)
}

fn with_byte(state: u64, byte: u8) -> u64 {
    folded(state ^ u64::from(byte) * 0x1_0101, MULTIPLIER ^ 2)
}

const MULTIPLIER: u64 = 0x9e37_79b9_7f4a_7c15;

fn folded(a: u64, b: u64) -> u64 {
    let product = u128::from(a) * u128::from(b);
    product as u64 ^ (product >> 64) as u64
}

fn keywords(names: &[String]) -> String {
    format!("#+TODO: {}\n* {} a\n", names.join(" "), names[0])
}

fn blocks(names: &[String]) -> String {
    let blocks = names.iter().map(|name| format!("#+BEGIN_{name}\n#+END_{name}\n"));
    format!("* TODO a\n{}", blocks.collect::<String>())
}

// As many headings as names, each of which looks for one name.
fn file_properties(names: &[String]) -> String {
    let lines = names.iter().map(|name| format!("#+PROPERTY: {name} v\n"));
    format!("{}{}", lines.collect::<String>(), "* a\n".repeat(names.len()))
}

fn drawer_properties(names: &[String]) -> String {
    let lines = names.iter().map(|name| format!(":{name}: v\n"));
    format!("* a\n:PROPERTIES:\n{}:END:\n{}", lines.collect::<String>(), "** a\n".repeat(names.len()))
}

fn tags(names: &[String]) -> String {
    format!("#+FILETAGS: :{}:\n* TODO a\n", names.join(":"))
}

fn stream(text: &str, question: &str) -> String {
    format!("add a.org {}\n{text}{question}", text.len())
}

// Whether the second of two takes more than a doubling may.
fn is_dear(pair: &[f64]) -> bool {
    pair[1] > MOST_GROWTH * pair[0]
}

// The least seconds of several runs of each stream. On a busy machine a run may take long for other reasons, so where a
// doubling seems dear there are more of them.
fn least_costs(program: &str, streams: &[String]) -> io::Result<Vec<f64>> {
    let mut least = vec![f64::MAX; streams.len()];
    for run in 1..=MOST_RUNS {
        for (least, stream) in least.iter_mut().zip(streams) {
            *least = least.min(seconds(program, stream)?);
        }
        if run >= RUNS && !least.windows(2).any(is_dear) {
            break;
        }
    }
    Ok(least)
}

fn seconds(program: &str, stream: &str) -> io::Result<f64> {
    let begun = Instant::now();
    let mut child = Command::new(program)
        .args(["--at", "2024-02-28 10:30"])
        .stdin(Stdio::piped())
        .stdout(Stdio::piped())
        .spawn()?;
    let mut input = child.stdin.take().unwrap();
    let mut replies = Vec::new();
    thread::scope(|scope| {
        scope.spawn(move || input.write_all(stream.as_bytes()));
        child.stdout.take().unwrap().read_to_end(&mut replies)
    })?;
    let took = begun.elapsed().as_secs_f64();
    if !child.wait()?.success() || !replies.windows(5).any(|bytes| bytes == b"view ") {
        return Err(io::Error::other("the program gave no view"));
    }
    Ok(took)
}
