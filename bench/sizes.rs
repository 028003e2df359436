//! Files of 1, 8 and 64 MiB: time and memory of each question, beside the same in plain Rust where that answers it.
use crate::{Cost, MIB, cost, text};
use std::io;

const RUNS: usize = 3;

const QUESTIONS: [(&str, &str); 6] = [
    ("add", ""),
    ("todo", "todo\n"),
    ("match work", "match work\n"),
    ("agenda, a day", "agenda 2024-02-28 1\n"),
    ("clock", "clock block=thisyear maxlevel=3\n"),
    ("edit, then a day", "edit 1 a.org 1 0 0 1\n\nagenda 2024-02-28 1\n"),
];

pub fn measure(program: &str, own: &str) -> io::Result<()> {
    let path = std::env::temp_dir().join(format!("orgviews-sizes-{}", std::process::id()));
    let stream = path.to_string_lossy().into_owned();
    println!("least of {RUNS} runs; seconds, peak memory of the process, and its bytes for a byte of text");
    for size in [MIB, 8 * MIB, 64 * MIB] {
        for (kind, text) in [("ordinary", text(size)), ("* alone", "* \n".repeat(size / 3))] {
            for (what, question) in QUESTIONS {
                std::fs::write(&stream, format!("add a.org {}\n{text}{question}", text.len()))?;
                let ours = least(own, &stream, &[program, "--at", "2024-02-28 10:30"])?;
                let plain = if question.starts_with("edit") { None } else { Some(least(own, &stream, &[own, "plain"])?) };
                row(size, kind, what, ours, plain, text.len());
            }
        }
    }
    std::fs::remove_file(&path)
}

fn least(own: &str, stream: &str, command: &[&str]) -> io::Result<Cost> {
    let mut least = cost(own, stream, command)?;
    for _run in 1..RUNS {
        least = least.least(cost(own, stream, command)?);
    }
    Ok(least)
}

fn row(size: usize, kind: &str, what: &str, ours: Cost, plain: Option<Cost>, bytes: usize) {
    let of_a_byte = |cost: Cost| cost.kib as f64 * 1024.0 / bytes as f64;
    print!(
        "{:>3} MiB  {kind:<9} {what:<17} {:>8.3} s {:>8.1} MiB {:>6.1}",
        size / MIB,
        ours.seconds,
        ours.kib as f64 / 1024.0,
        of_a_byte(ours)
    );
    match plain {
        Some(plain) => println!("   plain {:>8.3} s {:>8.1} MiB {:>6.1}", plain.seconds, plain.kib as f64 / 1024.0, of_a_byte(plain)),
        None => println!(),
    }
}
