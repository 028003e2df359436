//! What a text takes that was edited: random edits, and edits that leave as little of each block as the rules of texts in
//! pieces let them (a block has at most four times the bytes of each piece in it, neighbours have 1,024 bytes together).
use crate::rope::next;
use crate::{MIB, cost, text};
use std::fs::File;
use std::io::{self, BufWriter, Write};

const SIZE: usize = 8 * MIB;
const EDITS: usize = 2_000_000;

// A stream of edits of one file, and how long the text is behind them.
struct Edits {
    out: BufWriter<File>,
    count: usize,
    len: usize,
}

impl Edits {
    fn new(path: &str, text: &str) -> io::Result<Edits> {
        let mut out = BufWriter::new(File::create(path)?);
        write!(out, "add a.org {}\n{text}", text.len())?;
        Ok(Edits { out, count: 0, len: text.len() })
    }

    fn edit(&mut self, at: usize, del: usize, ins: &str) -> io::Result<()> {
        self.count += 1;
        self.len = self.len - del + ins.len();
        write!(self.out, "edit 1 a.org {} {at} {del} {}\n{ins}", self.count, ins.len())
    }
}

// A byte put in at a random place.
fn bytes(edits: &mut Edits) -> io::Result<()> {
    let mut seed = 1;
    for _edit in 0..EDITS {
        edits.edit(next(&mut seed) as usize % (edits.len + 1), 0, "x")?;
    }
    Ok(())
}

// Up to 40 bytes at a random place replaced by up to 40 others, which begin a heading: a text without headings would be one
// section, which each edit would have to look at whole.
fn parts(edits: &mut Edits) -> io::Result<()> {
    const WORDS: &str = "\n* milk report call\nplan review budget ga";
    let mut seed = 1;
    for _edit in 0..EDITS {
        let at = next(&mut seed) as usize % (edits.len - 40);
        let (del, ins) = (next(&mut seed) as usize % 41, next(&mut seed) as usize % 41);
        edits.edit(at, del, &WORDS[..ins])?;
    }
    Ok(())
}

// Blocks put in at the end, of which a quarter stays, until the text is full. Each is a heading, so that each is a section.
fn quarters(edits: &mut Edits, block: usize) -> io::Result<()> {
    let (ins, stays) = (format!("* {}", "x".repeat(block - 2)), block / 4);
    while edits.len < SIZE {
        let at = edits.len;
        edits.edit(at, 0, &ins)?;
        edits.edit(at + stays, block - stays, "")?;
        edits.edit(at + stays, 0, "\n")?;
    }
    Ok(())
}

pub fn measure(program: &str, own: &str) -> io::Result<()> {
    let path = std::env::temp_dir().join(format!("orgviews-memory-{}", std::process::id()));
    let stream = path.to_string_lossy().into_owned();
    let ordinary = text(SIZE);
    println!("peak memory of the process, the text's length behind the edits, and the first for a byte of the second");
    for (what, begin) in [
        ("added alone", &*ordinary),
        ("a byte in", &ordinary),
        ("up to 40 bytes replaced", &ordinary),
        ("65,536 in, a quarter stays", ""),
        ("4,092 in, a quarter stays", ""),
        ("1,024 in, a quarter stays", ""),
    ] {
        let mut edits = Edits::new(&stream, begin)?;
        match what {
            "a byte in" => bytes(&mut edits)?,
            "up to 40 bytes replaced" => parts(&mut edits)?,
            "65,536 in, a quarter stays" => quarters(&mut edits, 65_536)?,
            "4,092 in, a quarter stays" => quarters(&mut edits, 4_092)?,
            "1,024 in, a quarter stays" => quarters(&mut edits, 1_024)?,
            _ => {}
        }
        edits.out.flush()?;
        let peak = cost(own, &stream, &[program, "--at", "2024-02-28 10:30"])?.kib as f64 / 1024.0;
        let len = edits.len as f64 / MIB as f64;
        println!("{what:<28} {:>9} edits {peak:>8.1} MiB {len:>8.1} MiB {:>6.2}", edits.count, peak / len);
    }
    std::fs::remove_file(&path)
}
