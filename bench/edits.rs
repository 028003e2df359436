//! Streams of edits and pins, and the same work in plain Rust, over texts in trees of shared nodes.
use crate::rope::{next, Rope};
use std::io::{self, BufRead, BufReader, Read, Write};

const SESSIONS: usize = 64;

// A stream that adds a text, and edits it so many times by one byte at a random place; before every hundredth edit the
// sessions pin the world in turn, where that is wanted.
pub fn stream(text: &str, count: usize, has_pins: bool) -> Vec<u8> {
    let mut out = format!("add a.org {}\n{text}", text.len()).into_bytes();
    let mut seed = 1;
    for edit in 0..count {
        if has_pins && edit % 100 == 0 {
            let session = edit / 100 % SESSIONS + 1;
            out.extend(format!("unpin {session}\npin {session}\n").into_bytes());
        }
        push_edit(&mut out, edit, next(&mut seed) as usize % (text.len() + edit + 1));
    }
    out
}

// A stream that adds a text, and lets all sessions pin it, with an edit between two pins.
pub fn pins(text: &str) -> Vec<u8> {
    let mut out = format!("add a.org {}\n{text}", text.len()).into_bytes();
    for edit in 0..SESSIONS {
        out.extend(format!("pin {}\n", edit + 1).into_bytes());
        push_edit(&mut out, edit, text.len() / 2);
    }
    out
}

fn push_edit(out: &mut Vec<u8>, edit: usize, at: usize) {
    out.extend(format!("edit 1 a.org {} {at} 0 1\nx", edit + 1).into_bytes());
}

/// Answers the commands `add`, `edit` (nothing goes), `pin` and `unpin` of standard input, over one file.
pub fn plain() -> io::Result<()> {
    let mut input = BufReader::with_capacity(1 << 16, io::stdin().lock());
    let mut output = io::stdout().lock();
    let mut rope = Rope::of(b"");
    let mut pins: Vec<Option<Rope>> = vec![None; SESSIONS];
    let mut serial = 0;
    let mut line = String::new();
    loop {
        line.clear();
        if input.read_line(&mut line)? == 0 {
            return Ok(());
        }
        let words: Vec<&str> = line.trim_end_matches('\n').split(' ').collect();
        let is_done = match words[..] {
            ["add", _, len] => {
                rope = Rope::of(&payload(&mut input, len)?);
                serial += 1;
                true
            }
            ["edit", _, _, seen, at, "0", len] => {
                let bytes = payload(&mut input, len)?;
                assert!(seen.parse() == Ok(serial) && std::str::from_utf8(&bytes).is_ok());
                rope.insert(at.parse().expect("a place"), &bytes);
                serial += 1;
                true
            }
            ["pin", session] => {
                pins[session.parse::<usize>().expect("a session") - 1] = Some(rope.clone());
                true
            }
            ["unpin", session] => pins[session.parse::<usize>().expect("a session") - 1].take().is_some(),
            _ => panic!("no command of these streams"),
        };
        if is_done {
            writeln!(output, "ok {serial}")?;
        } else {
            writeln!(output, "err 18 unpinned")?;
        }
        output.flush()?;
    }
}

fn payload(input: &mut impl Read, len: &str) -> io::Result<Vec<u8>> {
    let mut bytes = vec![0; len.parse().expect("a length")];
    input.read_exact(&mut bytes)?;
    Ok(bytes)
}
