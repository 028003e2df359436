//! Measures `orgviews` beside the same work in plain Rust, std alone. Built by `rustc -O`; see `bench/run.sh`.
//!
//!     bench measure PROGRAM      texts that are hard for a reader, and lists and agendas of many rows: both programs in turn, the
//!                                least of several runs. How ordinary texts do beside what they need is said by `bench/limit.sh`
//!     bench parts PARTS PROGRAM  parts of the engine on their own, by the program `org_measure`, and the program, which keeps
//!                                texts in pieces, beside streams of that, over texts in one string each
//!     bench changes PROGRAM      the rows of edits and pins alone
//!     bench sizes PROGRAM        files of 1, 8 and 64 MiB
//!     bench memory PROGRAM       what edited texts take
//!     bench kept PROGRAM [SCALE] edits and questions in turn, background steps, pins, settings; with SCALE all of it so many
//!                                times smaller, to see that it runs
//!     bench plain                answers the commands `add`, `text`, `todo`, `agenda`, some `match` and some `clock` of standard
//!                                input
//!     bench typed                answers the commands `add`, `edit`, `pin` and `unpin` of standard input, over one file
//!     bench text BYTES           an Org file of that many bytes
//!     bench years BYTES NUMBER   another of a person's years, with all that Org has; one number, one file
//!     bench KIND PLACE COUNT READS  the lines of the text of standard input after so many edits, read so many times: KIND
//!                                is `vector` or `rope`
//!     bench list ITEMS COUNT     how many items a tree of so many has after so many of them were replaced
//!     bench cost FILE PROGRAM .. seconds and KiB of one run of a program over a file
mod agenda;
mod clocks;
mod days;
mod edits;
mod kept;
mod memory;
mod rope;
mod sizes;
mod years;

use rope::Rope;
use std::collections::{HashMap, HashSet};
use std::fs::File;
use std::hint::black_box;
use std::io::{self, BufRead, BufReader, Read, Write};
use std::os::unix::process::ExitStatusExt;
use std::process::{Child, Command, Stdio};
use std::time::Instant;

const MIB: usize = 1 << 20;
const RUNS: usize = 15;
const QUESTIONS: usize = 10;

fn main() -> io::Result<()> {
    let args: Vec<String> = std::env::args().collect();
    match args.get(1).map(String::as_str) {
        Some("measure") => measure(&args[2], &args[0]),
        Some("parts") => parts(&args[2], &args[3], &args[0]),
        Some("plain") => plain(),
        Some("typed") => edits::plain(),
        Some("changes") => measure_changes(&args[2], &args[0]),
        Some("sizes") => sizes::measure(&args[2], &args[0]),
        Some("memory") => memory::measure(&args[2], &args[0]),
        Some("kept") => kept::measure(&args[2], &args[0], args.get(3).map_or(1, |scale| scale.parse().expect("a scale"))),
        Some("days") => days::measure(&args[2], &args[0], args.get(3).map_or(1, |scale| scale.parse().expect("a scale"))),
        Some("years") => io::stdout().write_all(years::text(args[2].parse().unwrap(), args[3].parse().unwrap()).as_bytes()),
        Some("text") => io::stdout().write_all(text(args[2].parse().unwrap()).as_bytes()),
        Some("cost") => print_cost(&args[2], &args[3..]),
        Some("list") => {
            println!("{}", rope::size_after(args[2].parse().unwrap(), args[3].parse().unwrap()));
            Ok(())
        }
        Some(kind @ ("vector" | "rope")) => edited_lines(kind, &args[2], args[3].parse().unwrap(), args[4].parse().unwrap()),
        _ => panic!("bench measure PROGRAM | parts PARTS PROGRAM | plain | text BYTES | cost FILE PROGRAM .."),
    }
}

// A generator of numbers with a fixed start, so that each run measures the same files.
struct Numbers(u64);

impl Numbers {
    fn below(&mut self, n: u64) -> usize {
        self.0 ^= self.0 << 13;
        self.0 ^= self.0 >> 7;
        self.0 ^= self.0 << 17;
        (self.0 % n) as usize
    }

    fn words(&mut self, count: usize) -> String {
        const WORDS: [&str; 16] = [
            "milk", "report", "call", "plan", "review", "budget", "garden", "train", "ticket",
            "letter", "meeting", "draft", "paper", "window", "north", "quiet",
        ];
        let words: Vec<&str> = (0..count).map(|_| WORDS[self.below(16)]).collect();
        words.join(" ")
    }
}

// An ordinary Org file: headings of four levels, two in five with the keyword TODO, a third with tags, some text.
fn text(bytes: usize) -> String {
    let mut numbers = Numbers(88172645463325252);
    let mut out = String::with_capacity(bytes);
    while out.len() < bytes {
        out.push_str(&"*".repeat(1 + numbers.below(4)));
        out.push_str([" TODO ", " TODO ", " DONE ", " ", " "][numbers.below(5)]);
        out.push_str(["[#A] ", "[#C] ", "", "", "", ""][numbers.below(6)]);
        let count = 3 + numbers.below(5);
        out.push_str(&numbers.words(count));
        out.push_str(["", "", "", "", " :work:", " :home:urgent:"][numbers.below(6)]);
        out.push('\n');
        if numbers.below(3) == 0 {
            out.push_str(&format!("SCHEDULED: <2024-02-{:02} Wed>\n", 1 + numbers.below(28)));
        }
        for _line in 0..numbers.below(5) {
            let count = 5 + numbers.below(8);
            out.push_str(&numbers.words(count));
            out.push('\n');
        }
    }
    out.truncate(bytes - 1);
    out.push('\n');
    out
}

// What one run took.
#[derive(Clone, Copy)]
struct Cost {
    seconds: f64,
    kib: u64,
    // Pages of memory that were touched for the first time: the system has to find each of them.
    pages: u64,
}

impl Cost {
    fn least(self, other: Cost) -> Cost {
        Cost {
            seconds: self.seconds.min(other.seconds),
            kib: self.kib.min(other.kib),
            pages: self.pages.min(other.pages),
        }
    }
}

#[repr(C)]
#[derive(Default)]
struct Usage {
    times: [i64; 4],
    max_rss_kib: i64,
    unused: [i64; 3],
    minor_faults: i64,
    rest: [i64; 9],
}

extern "C" {
    fn wait4(pid: i32, status: *mut i32, options: i32, usage: *mut Usage) -> i32;
}

fn finish(child: Child) -> (u64, u64) {
    let (mut status, mut usage) = (0, Usage::default());
    unsafe { wait4(child.id() as i32, &mut status, 0, &mut usage) };
    assert!(std::process::ExitStatus::from_raw(status).success(), "a run failed");
    (usage.max_rss_kib as u64, usage.minor_faults as u64)
}

fn print_cost(stream: &str, command: &[String]) -> io::Result<()> {
    let start = Instant::now();
    let child = Command::new(&command[0]).args(&command[1..]).stdin(File::open(stream)?).stdout(Stdio::null()).spawn()?;
    let (kib, pages) = finish(child);
    println!("{} {kib} {pages}", start.elapsed().as_secs_f64());
    Ok(())
}

// What one run takes. A process of its own starts it, since the system counts to a program the memory that its parent
// had, and this process holds large texts.
fn cost(own: &str, stream: &str, command: &[&str]) -> io::Result<Cost> {
    let output = Command::new(own).args(["cost", stream]).args(command).output()?;
    assert!(output.status.success(), "a run failed");
    let figures = String::from_utf8_lossy(&output.stdout);
    let [seconds, kib, pages] = figures.split_whitespace().collect::<Vec<_>>()[..] else { panic!("three figures") };
    Ok(Cost {
        seconds: seconds.parse().expect("seconds"),
        kib: kib.parse().expect("KiB"),
        pages: pages.parse().expect("pages"),
    })
}

fn both(program: &str, own: &str, stream: &str) -> io::Result<(Cost, Cost)> {
    both_of(program, own, stream, "plain")
}

fn both_of(program: &str, own: &str, stream: &str, mode: &str) -> io::Result<(Cost, Cost)> {
    let mut least = None;
    for _run in 0..RUNS {
        let proved = cost(own, stream, &[program, "--at", "2024-02-28 10:30"])?;
        let plain = cost(own, stream, &[own, mode])?;
        least = Some(match least {
            None => (proved, plain),
            Some((a, b)) => (proved.least(a), plain.least(b)),
        });
    }
    Ok(least.unwrap())
}

// Both programs are to write the same, or they don't do the same work.
fn compare(program: &str, own: &str, stream: &str) -> io::Result<()> {
    compare_with(program, own, stream, "plain")
}

fn compare_with(program: &str, own: &str, stream: &str, mode: &str) -> io::Result<()> {
    let proved = Command::new(program).args(["--at", "2024-02-28 10:30"]).stdin(File::open(stream)?).output()?;
    let plain = Command::new(own).arg(mode).stdin(File::open(stream)?).output()?;
    assert!(proved.stdout == plain.stdout, "the two programs write different replies");
    Ok(())
}

fn row(size: usize, what: &str, proved: Cost, plain: Cost) {
    let mib = size as f64 / MIB as f64;
    println!(
        "{mib:>4.0} MiB  {what:<22} {:>8.4} s {:>7.0} MiB/s {:>6.1} MiB {:>6} pages   plain {:>8.4} s {:>6.1} MiB {:>6} pages   ratio {:.2}",
        proved.seconds,
        mib / proved.seconds,
        proved.kib as f64 / 1024.0,
        proved.pages,
        plain.seconds,
        plain.kib as f64 / 1024.0,
        plain.pages,
        proved.seconds / plain.seconds
    );
}

fn measure(program: &str, own: &str) -> io::Result<()> {
    let folder = std::env::temp_dir().join(format!("orgviews-bench-{}", std::process::id()));
    std::fs::create_dir_all(&folder)?;
    let stream = folder.join("stream").to_string_lossy().into_owned();
    println!("least of {RUNS} runs; seconds, speed, peak memory and pages touched for the first time, of a whole process");
    for (what, line) in [
        ("blocks that never end", "#+BEGIN_X\n"),
        ("drawers that never end", ":PROPERTIES:\n"),
        ("stars without a space", "*"),
        ("one-byte lines", "\n"),
        ("headings of one star", "* \n"),
    ] {
        measure_text(program, own, &stream, what, &line.repeat(8 * MIB / line.len()))?;
    }
    for (what, text) in [
        ("a section, 4 MiB", section_of(4 * MIB)),
        ("a section, 8 MiB", section_of(8 * MIB)),
        ("a drawer, 50,000 names", drawer_of(50_000)),
        ("a drawer, 100,000 names", drawer_of(100_000)),
        ("rows under a drawer", format!("{}{}", drawer_of(50_000), "** TODO a\n".repeat(100_000))),
        ("rows under properties", properties_of(50_000) + &"* TODO a\n".repeat(100_000)),
    ] {
        measure_text(program, own, &stream, what, &text)?;
    }
    measure_text(program, own, &stream, "headings of one level", &headings_of_one_level())?;
    measure_text(program, own, &stream, "levels to 4,090 and back", &levels_up_and_down())?;
    measure_text(program, own, &stream, "headings of one tree", &one_tree())?;
    let text = text(8 * MIB);
    for question in ["match LEVEL>0", "match work", "match {^w}", "match Effort<2"] {
        measure_question(program, own, &stream, question, &text, question)?;
    }
    let text = many_tags(100_000, 100_000);
    for question in ["match x", "match {x}"] {
        measure_question(program, own, &stream, &format!("{question}, many tags"), &text, question)?;
    }
    agenda::measure(program, own, &stream)?;
    let text = clocks::with_clocks(&self::text(8 * MIB - 20_000 * 70), 20_000);
    for question in ["clock block=thisyear maxlevel=3", "clock block=thisyear maxlevel=3 step=day"] {
        measure_question(program, own, &stream, &question[6..], &text, question)?;
    }
    let question = "clock block=thisyear maxlevel=3 step=day";
    measure_question(program, own, &stream, "a clock of 9,000 years", &clocks::long_clock(), question)?;
    measure_edits(program, own, &stream)?;
    std::fs::remove_dir_all(&folder)
}

fn measure_changes(program: &str, own: &str) -> io::Result<()> {
    let path = std::env::temp_dir().join(format!("orgviews-changes-{}", std::process::id()));
    measure_edits(program, own, &path.to_string_lossy())?;
    std::fs::remove_file(&path)
}

// Edits and pins of a session, of texts of three sizes. What adding the text takes is taken off.
fn measure_edits(program: &str, own: &str, stream: &str) -> io::Result<()> {
    const EDITS: usize = 20_000;
    println!("{EDITS} edits of one byte at random places by commands: microseconds for each, and the peak memory");
    for bytes in [80_000, 800_000, 8_000_000] {
        let text = text(bytes);
        std::fs::write(stream, edits::stream(&text, 0, false))?;
        let none = both_of(program, own, stream, "typed")?;
        for (what, has_pins) in [("", false), ("with pins", true)] {
            std::fs::write(stream, edits::stream(&text, EDITS, has_pins))?;
            compare_with(program, own, stream, "typed")?;
            let all = both_of(program, own, stream, "typed")?;
            edit_row(bytes, what, EDITS, (all.0, none.0), (all.1, none.1));
        }
    }
    let text = text(8_000_000);
    std::fs::write(stream, edits::stream(&text, 0, false))?;
    let none = both_of(program, own, stream, "typed")?;
    std::fs::write(stream, edits::pins(&text))?;
    compare_with(program, own, stream, "typed")?;
    let all = both_of(program, own, stream, "typed")?;
    edit_row(8_000_000, "64 pins", 64, (all.0, none.0), (all.1, none.1));
    Ok(())
}

fn edit_row(bytes: usize, what: &str, count: usize, proved: (Cost, Cost), plain: (Cost, Cost)) {
    let each = |(all, none): (Cost, Cost)| (all.seconds - none.seconds) / count as f64 * 1e6;
    println!(
        "{:>6} KB  {what:<10} {:>7.2} {:>6.1} MiB   plain {:>7.2} {:>6.1} MiB   ratio {:.2}",
        bytes / 1000,
        each(proved),
        proved.0.kib as f64 / 1024.0,
        each(plain),
        plain.0.kib as f64 / 1024.0,
        each(proved) / each(plain)
    );
}

fn measure_text(program: &str, own: &str, stream: &str, what: &str, text: &str) -> io::Result<()> {
    measure_question(program, own, stream, what, text, "todo")
}

fn measure_question(program: &str, own: &str, stream: &str, what: &str, text: &str, question: &str) -> io::Result<()> {
    measure_behind(program, own, stream, "", what, text, question)
}

// The same behind commands that come before the file.
fn measure_behind(
    program: &str,
    own: &str,
    stream: &str,
    front: &str,
    what: &str,
    text: &str,
    question: &str,
) -> io::Result<()> {
    std::fs::write(stream, format!("{front}add a.org {}\n{text}{question}\n", text.len()))?;
    compare(program, own, stream)?;
    let (proved, plain) = both(program, own, stream)?;
    row(text.len(), what, proved, plain);
    Ok(())
}

// One section: a heading and lines of words, a clock among ten of them.
fn section_of(bytes: usize) -> String {
    let mut numbers = Numbers(88172645463325252);
    let mut out = String::from("* TODO a\n");
    while out.len() + 100 < bytes {
        if numbers.below(10) == 0 {
            out.push_str("CLOCK: [2024-02-27 Tue 23:30]--[2024-02-28 Wed 00:45]\n");
        }
        out.push_str(&format!("{}\n", numbers.words(6)));
    }
    out
}

// A heading with a drawer of so many names.
fn drawer_of(names: usize) -> String {
    let lines: Vec<String> = (0..names).map(|name| format!(":name{name}: value\n")).collect();
    format!("* TODO a\n:PROPERTIES:\n{}:END:\n", lines.concat())
}

// Setting lines that give values to so many names.
fn properties_of(names: usize) -> String {
    (0..names).map(|name| format!("#+PROPERTY: name{name} value\n")).collect()
}

// 8 MiB of nearly 200,000 headings of one level.
fn headings_of_one_level() -> String {
    let mut numbers = Numbers(88172645463325252);
    let mut out = String::new();
    while out.len() + 42 <= 8 * MIB {
        let line = format!("* TODO {}", numbers.words(6));
        out.push_str(&format!("{line:<41.41}\n"));
    }
    out
}

// 8 MiB of headings of levels 1 to 4,090 and back, each level once on the way down and once on the way up.
fn levels_up_and_down() -> String {
    let mut out = String::new();
    for level in (1..=4090).chain((1..4090).rev()) {
        let line = format!("{} TODO a\n", "*".repeat(level));
        if out.len() + line.len() > 8 * MIB {
            break;
        }
        out.push_str(&line);
    }
    out
}

// So many headings under one with so many tags.
fn many_tags(headings: usize, tags: usize) -> String {
    let tags: Vec<String> = (0..tags).map(|tag| format!("t{tag}")).collect();
    format!("* TODO a :{}:\n{}", tags.join(":"), "** TODO b\n".repeat(headings))
}

// 8 MiB of ordinary headings, all under the first.
fn one_tree() -> String {
    let below = text(8 * MIB - MIB / 8).replace("\n*", "\n**");
    format!("* a\n*{below}")
}

// The least time of a part of the engine over a text on standard input.
fn part(own: &str, program: &str, words: &[&str], path: &str) -> io::Result<Cost> {
    let command = [&[program], words].concat();
    let mut least = cost(own, path, &command)?;
    for _run in 1..RUNS {
        least = least.least(cost(own, path, &command)?);
    }
    Ok(least)
}

fn parts(program: &str, in_pieces: &str, own: &str) -> io::Result<()> {
    let path = std::env::temp_dir().join(format!("orgviews-parts-{}", std::process::id()));
    let path = path.to_string_lossy().into_owned();
    println!("parts of the engine, least of {RUNS} runs of a whole process");
    for (what, piece) in [
        ("stamps that never end", "<2024-02-28 "),
        ("brackets alone", "<<<<"),
        ("stamps one after another", "<2024-02-28 Wed 9:05 +1w -3d>"),
    ] {
        let text = piece.repeat(8 * MIB / piece.len());
        std::fs::write(&path, &text)?;
        let cost = part(own, program, &["stamps"], &path)?;
        let mib = text.len() as f64 / MIB as f64;
        println!("{mib:>4.0} MiB  {what:<25} {:>8.4} s {:>7.0} MiB/s", cost.seconds, mib / cost.seconds);
    }
    std::fs::write(&path, "")?;
    for unit in ["h", "d", "w", "m", "y"] {
        let near = part(own, program, &["occurrences", unit, "near"], &path)?;
        let far = part(own, program, &["occurrences", unit, "far"], &path)?;
        println!(
            "1,000,000 questions whether +1{unit} of 0001-01-01 occurs: on its first days {:.4} s, on the calendar's last {:.4} s",
            near.seconds, far.seconds
        );
    }
    both_kinds(program, in_pieces, own, &path)?;
    edit_parts(program, own, &path)?;
    std::fs::remove_file(&path)
}

// Texts that were never edited, in pieces and in one string each.
fn both_kinds(in_strings: &str, in_pieces: &str, own: &str, path: &str) -> io::Result<()> {
    let text = text(8 * MIB);
    for question in ["add", "text", "todo"] {
        let mut stream = format!("add a.org {}\n{text}", text.len());
        match question {
            "text" => stream.push_str(&"text a.org\n".repeat(QUESTIONS)),
            "todo" => stream.push_str(&"todo\n".repeat(QUESTIONS)),
            _ => {}
        }
        std::fs::write(path, &stream)?;
        let pieces = part(own, in_pieces, &["--at", "2024-02-28 10:30"], path)?;
        let strings = part(own, in_strings, &["stream", "2024-02-28", "10:30"], path)?;
        println!(
            "8 MiB  {question:<5} in pieces {:.4} s, in one string {:.4} s, ratio {:.3}",
            pieces.seconds,
            strings.seconds,
            pieces.seconds / strings.seconds
        );
    }
    Ok(())
}

// Edits of one byte in both kinds of text and in plain Rust, and lines of what came out; then lists. The least of several
// runs, with that of a run that does the rest alone taken off.
fn edit_parts(program: &str, own: &str, path: &str) -> io::Result<()> {
    const EDITS: u64 = 20_000;
    const READS: u64 = 20;
    let (edits, reads) = (EDITS.to_string(), READS.to_string());
    println!("{EDITS} edits of one byte: microseconds for each, milliseconds for the lines afterwards, and the peak memory");
    for bytes in [80_000, 800_000, 8_000_000] {
        std::fs::write(path, text(bytes))?;
        for place in ["typed", "random"] {
            print!("{:>6} KB {place:<7}", bytes / 1000);
            for (command, kind) in [(program, "pieces"), (program, "whole"), (own, "vector"), (own, "rope")] {
                let none = part(own, command, &[kind, place, "0", "0"], path)?;
                let edited = part(own, command, &[kind, place, &edits, "0"], path)?;
                let read = part(own, command, &[kind, place, &edits, &reads], path)?;
                let each = (edited.seconds - none.seconds) / EDITS as f64 * 1e6;
                let lines = (read.seconds - edited.seconds) / READS as f64 * 1e3;
                print!("   {kind} {each:>8.3} {lines:>6.2} {:>5.1} MiB", edited.kib as f64 / 1024.0);
            }
            println!();
        }
    }
    std::fs::write(path, "")?;
    for items in ["65000", "1300000"] {
        for (name, command, kind) in [("sequence", program, "sequence"), ("tree of Rc", own, "list")] {
            let none = part(own, command, &[kind, items, "0"], path)?;
            let all = part(own, command, &[kind, items, &edits], path)?;
            let each = (all.seconds - none.seconds) / EDITS as f64 * 1e6;
            let room = none.kib as f64 * 1024.0 / items.parse::<f64>().unwrap();
            println!("{items:>8} items, {name:<10} made in {:.4} s, {room:.0} bytes an item, one replaced in {each:.3} microseconds", none.seconds);
        }
    }
    Ok(())
}

// The lines of the text of standard input after so many edits, each of which puts one byte in, read so many times.
fn edited_lines(kind: &str, place: &str, count: u64, reads: u64) -> io::Result<()> {
    let mut text = Vec::new();
    io::stdin().read_to_end(&mut text)?;
    let middle = text.len() / 2;
    let mut seed = 1;
    let mut at = |edit: u64, len: usize| {
        let random = rope::next(&mut seed) as usize;
        if place == "typed" { middle + edit as usize } else { random % (len + 1) }
    };
    let mut lines = 0;
    if kind == "rope" {
        let mut rope = Rope::of(&text);
        for edit in 0..count {
            rope.insert(at(edit, rope.len()), b"x");
        }
        for _read in 0..reads {
            lines = black_box(&rope).lines();
        }
    } else {
        for edit in 0..count {
            let place = at(edit, text.len());
            text.splice(place..place, *b"x");
        }
        for _read in 0..reads {
            lines = black_box(&text).split_inclusive(|byte| *byte == b'\n').count();
        }
    }
    println!("{lines}");
    Ok(())
}

// The same work in plain Rust: files in a list, everything read anew at each question.
fn plain() -> io::Result<()> {
    let mut input = BufReader::with_capacity(1 << 16, io::stdin().lock());
    let mut output = io::stdout().lock();
    let mut files: Vec<(String, String)> = Vec::new();
    let mut repeats = false;
    let mut line = String::new();
    loop {
        line.clear();
        if input.read_line(&mut line)? == 0 {
            return Ok(());
        }
        let words: Vec<&str> = line.trim_end_matches('\n').split(' ').collect();
        match words[..] {
            ["add", name, len] => {
                let len: usize = len.parse().expect("a number");
                let mut bytes = Vec::with_capacity(len);
                input.by_ref().take(len as u64).read_to_end(&mut bytes)?;
                let text = String::from(std::str::from_utf8(&bytes).expect("UTF-8"));
                files.push((name.to_string(), text));
                writeln!(output, "ok {}", files.len())?;
            }
            ["profile", number] => {
                repeats = number == "2";
                writeln!(output, "ok {}", files.len())?;
            }
            ["text", name] => {
                let text = files.iter().find(|file| file.0 == name).map_or("", |file| &file.1);
                write!(output, "view {}\n{text}", text.len())?;
            }
            ["todo"] => {
                let view = list(&files, Question::Open);
                write!(output, "view {}\n{view}", view.len())?;
            }
            ["match", expression] => {
                let view = list(&files, Question::of(expression));
                write!(output, "view {}\n{view}", view.len())?;
            }
            ["agenda", date, days] => {
                let (first, count) = (agenda::day_of(date).expect("a date"), days.parse().expect("days"));
                let view = agenda::agenda(&files, repeats, first, count);
                write!(output, "view {}\n{view}", view.len())?;
            }
            ["clock", "block=thisyear", "maxlevel=3", ref steps @ ..] => {
                let view = clocks::table(&files, *steps == ["step=day"]);
                write!(output, "view {}\n{view}", view.len())?;
            }
            _ => writeln!(output, "err 2 command")?,
        }
        output.flush()?;
    }
}

// Which headings a list shows: those of the TODO list, or those for which an expression of one term holds.
#[derive(Clone, Copy)]
enum Question<'a> {
    Open,
    Level,
    Tag(&'a str),
    TagFront(&'a str),
    TagPart(&'a str),
    Effort,
}

impl<'a> Question<'a> {
    fn of(expression: &'a str) -> Question<'a> {
        match expression.strip_prefix('{').and_then(|rest| rest.strip_suffix('}')) {
            Some(pattern) => match pattern.strip_prefix('^') {
                Some(front) => Question::TagFront(front),
                None => Question::TagPart(pattern),
            },
            None if expression == "LEVEL>0" => Question::Level,
            None if expression == "Effort<2" => Question::Effort,
            None => Question::Tag(expression),
        }
    }

    fn holds_of_tag(self, tag: &str) -> bool {
        match self {
            Question::Tag(wanted) => tag == wanted,
            Question::TagFront(front) => tag.starts_with(front),
            Question::TagPart(part) => tag.contains(part),
            _ => false,
        }
    }
}

// A heading above others, whether it or one above it is hidden, and whether one of their tags is asked for.
struct Above<'a> {
    heading: Heading<'a>,
    hides: bool,
    is_tagged: bool,
}

fn list(files: &[(String, String)], question: Question) -> String {
    let mut rows: Vec<(u32, String)> = Vec::new();
    for (name, text) in files {
        let settings = settings(text);
        let category = settings.category.unwrap_or_else(|| stem(name));
        let label = format!("{category}:");
        let column = format!("  {label:<11} ");
        let file_is_tagged = settings.file_tags.iter().any(|tag| question.holds_of_tag(tag));
        let mut above: Vec<Above> = Vec::new();
        let mut lines = text.lines().peekable();
        while let Some(line) = lines.next() {
            let Some(heading) = heading(line, &settings) else { continue };
            while above.last().is_some_and(|ancestor| ancestor.heading.level >= heading.level) {
                above.pop();
            }
            let hides = heading.hides || above.last().is_some_and(|ancestor| ancestor.hides);
            let is_tagged = above.last().map_or(file_is_tagged, |ancestor| ancestor.is_tagged)
                || heading.tags.iter().any(|tag| question.holds_of_tag(tag));
            let is_shown = !hides
                && match question {
                    Question::Open => heading.keyword.is_some_and(|keyword| !settings.done[keyword]),
                    Question::Level => heading.level > 0,
                    Question::Effort => effort_below(&mut lines, 2.0),
                    _ => is_tagged,
                };
            above.push(Above { heading, hides, is_tagged });
            if is_shown {
                rows.push(row_of(&above, &settings, &column));
            }
        }
    }
    rows.sort_by_key(|row| row.0);
    rows.into_iter().map(|row| row.1).collect()
}

// Whether the effort of a heading, whose lines come next, is a smaller number; none counts as 0.
fn effort_below<'a>(lines: &mut std::iter::Peekable<std::str::Lines<'a>>, most: f64) -> bool {
    while lines.peek().is_some_and(|line| ["SCHEDULED:", "DEADLINE:", "CLOSED:"].iter().any(|word| line.starts_with(word))) {
        lines.next();
    }
    if lines.peek().is_none_or(|line| !line.trim().eq_ignore_ascii_case(":PROPERTIES:")) {
        return 0.0 < most;
    }
    while let Some(line) = lines.next_if(|line| !line.trim().eq_ignore_ascii_case(":END:") && !is_heading(line)) {
        if let Some(value) = line.trim().strip_prefix(":Effort:") {
            let value = value.trim();
            let end = value.find(|c: char| !c.is_ascii_digit() && c != '.').unwrap_or(value.len());
            return value[..end].parse::<f64>().unwrap_or(0.0) < most;
        }
    }
    0.0 < most
}

// The row of the last of these headings, each of which is an ancestor of those behind it.
fn row_of(above: &[Above], settings: &Settings, column: &str) -> (u32, String) {
    let heading = &above[above.len() - 1].heading;
    let mut seen = HashSet::new();
    let named = settings.file_tags.iter().chain(above.iter().flat_map(|ancestor| &ancestor.heading.tags));
    let tags: Vec<&str> = named.copied().filter(|tag| seen.insert(*tag)).collect();
    let shown = if tags.is_empty() { String::new() } else { format!(":{}:", tags.join(":")) };
    let parts = [heading.keyword.unwrap_or(""), heading.cookie, heading.title, &shown];
    let parts: Vec<&str> = parts.iter().copied().filter(|part| !part.is_empty()).collect();
    (heading.priority, format!("{column}{}\n", parts.join(" ")))
}

// The last part of a file's name, without its extension.
fn stem(name: &str) -> &str {
    let base = name.rsplit('/').next().unwrap_or("");
    match base.rsplit_once('.') {
        Some((stem, _)) if !stem.is_empty() => stem,
        _ => base,
    }
}

// The name behind such a mark, if the text begins with it, whatever the case of its letters.
fn behind<'a>(text: &'a str, mark: &str) -> Option<&'a str> {
    let front = text.get(..mark.len())?;
    front.eq_ignore_ascii_case(mark).then(|| &text[mark.len()..])
}

fn end_name(line: &str) -> Option<&str> {
    behind(line.trim(), "#+END_")
}

fn begin_name(line: &str) -> Option<&str> {
    behind(first_word(line).0, "#+BEGIN_").filter(|name| !name.is_empty())
}

// The key and the value of a setting line.
fn setting(line: &str) -> Option<(&str, &str)> {
    let (key, value) = line.trim_start().strip_prefix("#+")?.split_once(':')?;
    (!key.is_empty() && !key.contains([' ', '\t', '\r'])).then(|| (key, value.trim()))
}

// The settings of a section that stand in none of its blocks.
fn section_settings<'a>(lines: &[&'a str], found: &mut Vec<(&'a str, &'a str)>) {
    let mut ends = HashMap::new();
    for (place, line) in lines.iter().enumerate() {
        if let Some(name) = end_name(line) {
            ends.insert(name.to_ascii_lowercase(), place);
        }
    }
    let mut open: Option<&str> = None;
    for (place, line) in lines.iter().enumerate() {
        if let Some(name) = open {
            if end_name(line).is_some_and(|end| end.eq_ignore_ascii_case(name)) {
                open = None;
            }
        } else if let Some(name) = begin_name(line).filter(|name| ends.get(&name.to_ascii_lowercase()).is_some_and(|end| *end > place)) {
            open = Some(name);
        } else {
            found.extend(setting(line));
        }
    }
}

fn is_heading(line: &str) -> bool {
    let behind = line.trim_start_matches('*');
    behind.len() < line.len() && behind.starts_with(' ')
}

// What the setting lines of a file say: each keyword with whether it is done, the priority of a heading without a cookie,
// the tags of all headings, the category.
struct Settings<'a> {
    done: HashMap<&'a str, bool>,
    priority: u32,
    file_tags: Vec<&'a str>,
    category: Option<&'a str>,
}

fn settings(text: &str) -> Settings<'_> {
    let mut found = Vec::new();
    let mut section = Vec::new();
    for line in text.split_inclusive('\n') {
        if is_heading(line) {
            section_settings(&section, &mut found);
            section.clear();
        }
        section.push(line);
    }
    section_settings(&section, &mut found);
    let mut settings = Settings { done: HashMap::new(), priority: 0, file_tags: Vec::new(), category: None };
    for (key, value) in found {
        match key.to_ascii_uppercase().as_str() {
            "TODO" | "SEQ_TODO" | "TYP_TODO" => {
                let words: Vec<&str> = value.split_whitespace().collect();
                let bar = words.iter().position(|word| *word == "|").unwrap_or(words.len().max(1) - 1);
                for (place, word) in words.into_iter().enumerate() {
                    let word = if word.ends_with(')') { word.split('(').next().unwrap_or("") } else { word };
                    if !word.is_empty() && word != "|" {
                        settings.done.entry(word).or_insert(place >= bar);
                    }
                }
            }
            "PRIORITIES" if settings.priority == 0 => {
                let words: Vec<&str> = value.split_whitespace().collect();
                settings.priority = words.get(2).and_then(|word| priority_of(&format!("[#{word}]"))).unwrap_or(0);
            }
            "FILETAGS" => settings.file_tags.extend(value.split([':', ' ', '\t', '\r']).filter(|tag| !tag.is_empty())),
            "CATEGORY" if settings.category.is_none() => settings.category = Some(value),
            _ => {}
        }
    }
    if settings.done.is_empty() {
        settings.done = HashMap::from([("TODO", false), ("DONE", true)]);
    }
    if settings.priority == 0 {
        settings.priority = 66;
    }
    settings
}

fn first_word(text: &str) -> (&str, &str) {
    let text = text.trim_start();
    let end = text.find([' ', '\t', '\r']).unwrap_or(text.len());
    text.split_at(end)
}

fn priority_of(cookie: &str) -> Option<u32> {
    let value = cookie.strip_prefix("[#")?.strip_suffix(']')?;
    match value.as_bytes() {
        [letter @ b'A'..=b'Z'] => Some(u32::from(*letter)),
        _ => value.parse().ok().filter(|n| *n <= 64),
    }
}

fn is_tags(word: &str) -> bool {
    word.len() > 1
        && word.starts_with(':')
        && word.ends_with(':')
        && word.chars().any(|c| c != ':')
        && word.chars().all(|c| c.is_alphanumeric() || "_@#%:".contains(c))
}

// A heading line's parts.
struct Heading<'a> {
    level: usize,
    keyword: Option<&'a str>,
    cookie: &'a str,
    priority: u32,
    hides: bool,
    title: &'a str,
    tags: Vec<&'a str>,
}

fn heading<'a>(line: &'a str, settings: &Settings) -> Option<Heading<'a>> {
    let level = line.bytes().take_while(|b| *b == b'*').count();
    let mut rest = line[level..].strip_prefix(' ').filter(|_| level > 0)?;
    let (word, behind) = first_word(rest);
    let keyword = settings.done.contains_key(word).then_some(word);
    if keyword.is_some() {
        rest = behind;
    }
    let (mut cookie, mut priority) = ("", settings.priority);
    let (word, behind) = first_word(rest);
    if let Some(number) = priority_of(word) {
        (cookie, priority, rest) = (word, number, behind);
    }
    let (word, behind) = first_word(rest);
    let is_comment = word == "COMMENT";
    let rest = if is_comment { behind } else { rest }.trim();
    let last = rest.rsplit([' ', '\t', '\r']).next().unwrap_or("");
    let (title, tags) = if is_tags(last) {
        (rest[..rest.len() - last.len()].trim_end(), last)
    } else {
        (rest, "")
    };
    let tags: Vec<&str> = tags.split(':').filter(|tag| !tag.is_empty()).collect();
    let hides = is_comment || tags.contains(&"ARCHIVE");
    Some(Heading { level, keyword, cookie, priority, hides, title, tags })
}
