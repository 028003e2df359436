//! An engine that keeps what it read: edits and questions in turn, background steps, pins, settings, and what is held.
use crate::rope::next;
use crate::{Cost, MIB, Numbers, cost, text};
use std::io::{self, Write};

const RUNS: usize = 5;
const MOMENT: &str = "2024-02-28 10:30";
const IN_TURN: usize = 200;
const SESSIONS: usize = 64;
const SETTINGS: usize = 20_000;

/// All of it. Where `scale` is over 1, texts and numbers of edits are that much smaller, to see that the measurement runs.
pub fn measure(program: &str, own: &str, scale: usize) -> io::Result<()> {
    let path = std::env::temp_dir().join(format!("orgviews-kept-{}", std::process::id()));
    let bench = Bench { program, own, path: path.to_string_lossy().into_owned() };
    println!("least of {RUNS} runs; what a run without the measured commands takes is taken off, but for memory");
    let ordinary = text(8 * MIB / scale);
    let three: Vec<String> = (0..3).map(|_| headings(33_334 / scale)).collect();
    bench.in_turn("8 MiB, one file", &[&ordinary])?;
    bench.in_turn("100,000 headings, three files", &three.iter().map(String::as_str).collect::<Vec<_>>())?;
    bench.first_reading(&ordinary)?;
    bench.pins(&text(8_000_000 / scale))?;
    bench.settings(&text(6_300_000 / scale))?;
    for bytes in [80_000, 8 * MIB] {
        bench.edits("ordinary", &text(bytes / scale), 5_000)?;
    }
    bench.edits("one section", &"a line without a heading, of fifty-two bytes or so.\n".repeat(8 * MIB / scale / 52), 20)?;
    bench.held("ordinary text", &ordinary)?;
    bench.held("headings of three bytes", &"* \n".repeat(8 * MIB / scale / 3))?;
    std::fs::remove_file(&path)
}

// So many headings of some 210 bytes, a third with a planning line in 2024.
fn headings(count: usize) -> String {
    let mut numbers = Numbers(88172645463325252);
    let mut out = String::new();
    for _heading in 0..count {
        out.push_str(&"*".repeat(1 + numbers.below(3)));
        out.push_str([" TODO ", " DONE ", " ", " "][numbers.below(4)]);
        out.push_str(&numbers.words(5));
        out.push_str(["", "", " :work:"][numbers.below(3)]);
        out.push('\n');
        if numbers.below(3) == 0 {
            let keyword = ["SCHEDULED", "DEADLINE"][numbers.below(2)];
            out.push_str(&format!("{keyword}: <2024-{:02}-{:02}>\n", 1 + numbers.below(12), 1 + numbers.below(28)));
        }
        for _line in 0..2 {
            out.push_str(&numbers.words(11));
            out.push('\n');
        }
    }
    out
}

// A stream over some files, with the serials and lengths that it leads to.
struct Stream {
    out: Vec<u8>,
    serials: Vec<usize>,
    lens: Vec<usize>,
    last: usize,
    seed: u64,
}

impl Stream {
    fn of(texts: &[&str]) -> Stream {
        let mut stream = Stream { out: Vec::new(), serials: Vec::new(), lens: Vec::new(), last: 0, seed: 1 };
        for (place, text) in texts.iter().enumerate() {
            stream.line(&format!("add {place}.org {}", text.len()));
            stream.out.extend(text.as_bytes());
            stream.last += 1;
            stream.serials.push(stream.last);
            stream.lens.push(text.len());
        }
        stream
    }

    fn line(&mut self, line: &str) {
        writeln!(self.out, "{line}").expect("a vector takes all");
    }

    // Puts a byte into a file, at a random place from one on.
    fn edit(&mut self, file: usize, from: usize) {
        let at = from + next(&mut self.seed) as usize % (self.lens[file] - from + 1);
        self.line(&format!("edit 1 {file}.org {} {at} 0 1", self.serials[file]));
        self.out.push(b'x');
        self.last += 1;
        self.serials[file] = self.last;
        self.lens[file] += 1;
    }
}

struct Bench<'a> {
    program: &'a str,
    own: &'a str,
    path: String,
}

impl Bench<'_> {
    fn run(&self, stream: &Stream, idle: &str) -> io::Result<Cost> {
        std::fs::write(&self.path, &stream.out)?;
        let command = [self.program, "--at", MOMENT, "--idle", idle];
        let mut least = cost(self.own, &self.path, &command)?;
        for _run in 1..RUNS {
            least = least.least(cost(self.own, &self.path, &command)?);
        }
        Ok(least)
    }

    // Edits of one byte at random places, in all files in turn, with a question behind each.
    fn in_turn(&self, what: &str, texts: &[&str]) -> io::Result<()> {
        for question in ["todo", "match work", "agenda 2024-02-28 1", "agenda 2024-02-28 7"] {
            let (mut none, mut all) = (Stream::of(texts), Stream::of(texts));
            none.line(question);
            all.line(question);
            for edit in 0..IN_TURN {
                none.edit(edit % texts.len(), 0);
                all.edit(edit % texts.len(), 0);
                all.line(question);
            }
            let (none, all) = (self.run(&none, "0")?, self.run(&all, "0")?);
            println!(
                "{what:<30} {IN_TURN} times an edit and {question:<20} {:>8.3} ms for each question {:>7.1} MiB",
                (all.seconds - none.seconds) / IN_TURN as f64 * 1e3,
                mib(all)
            );
        }
        Ok(())
    }

    // The first reading, by background steps alone, and by one question.
    fn first_reading(&self, text: &str) -> io::Result<()> {
        let (mut steps, mut todo) = (Stream::of(&[text]), Stream::of(&[text]));
        for _line in 0..rounds(text) {
            steps.line(&format!("at {MOMENT}"));
        }
        todo.line("todo");
        let added = self.run(&Stream::of(&[text]), "0")?;
        let (none, steps) = (self.run(&steps, "0")?, self.run(&steps, "1000")?);
        let todo = self.run(&todo, "0")?;
        println!(
            "8 MiB read first by background steps {:>8.4} s {:>7.1} MiB, by one todo {:>8.4} s {:>7.1} MiB, with its answer",
            steps.seconds - none.seconds,
            mib(steps),
            todo.seconds - added.seconds,
            mib(todo)
        );
        Ok(())
    }

    // Pins of all sessions, with an edit between two of them, and with a question behind each edit.
    fn pins(&self, text: &str) -> io::Result<()> {
        let mut none = Stream::of(&[text]);
        none.line("todo");
        let none = self.run(&none, "0")?;
        for (what, has_questions) in [("an edit", false), ("an edit and a todo", true)] {
            let mut all = Stream::of(&[text]);
            all.line("todo");
            for session in 1..=SESSIONS {
                all.line(&format!("pin {session}"));
                all.edit(0, 0);
                if has_questions {
                    all.line("todo");
                }
            }
            let all = self.run(&all, "0")?;
            println!(
                "{SESSIONS} pins of 8 MB, all read, {what:<18} between two: {:>9.1} microseconds each {:>7.1} MiB, without {:>7.1} MiB",
                (all.seconds - none.seconds) / SESSIONS as f64 * 1e6,
                mib(all),
                mib(none)
            );
        }
        Ok(())
    }

    // Edits of a file whose front section has many setting lines: in sections without any, and in that one.
    fn settings(&self, text: &str) -> io::Result<()> {
        let lines: String = (0..SETTINGS).map(|line| format!("#+PROPERTY: p{line} v\n")).collect();
        let whole = format!("{lines}{text}");
        let mut none = Stream::of(&[&whole]);
        none.line("todo");
        let none = self.run(&none, "0")?;
        // The last line in front of the first heading is no setting.
        for (what, edits, from) in [("elsewhere", 2_000, lines.len() + 200), ("among them", 20, 0)] {
            let mut all = Stream::of(&[&whole]);
            all.line("todo");
            for _edit in 0..edits {
                match from {
                    0 => all.value_edit(),
                    from => all.edit(0, from),
                }
            }
            let all = self.run(&all, "0")?;
            println!(
                "{SETTINGS} setting lines in the front section, {edits:>5} edits {what:<10} {:>9.1} microseconds each",
                (all.seconds - none.seconds) / edits as f64 * 1e6
            );
        }
        Ok(())
    }

    // Edits of one byte at random places, behind a question that has read all.
    fn edits(&self, what: &str, text: &str, edits: usize) -> io::Result<()> {
        let (mut none, mut all) = (Stream::of(&[text]), Stream::of(&[text]));
        none.line("todo");
        all.line("todo");
        for _edit in 0..edits {
            all.edit(0, 0);
        }
        let (none, all) = (self.run(&none, "0")?, self.run(&all, "0")?);
        println!(
            "{:>7} KB, {what:<11} all read, {edits:>5} edits {:>9.2} microseconds each",
            text.len() / 1000,
            (all.seconds - none.seconds) / edits as f64 * 1e6
        );
        Ok(())
    }

    // The peak of the process for a byte of text: added, read by one question, read by background steps.
    fn held(&self, what: &str, text: &str) -> io::Result<()> {
        let (mut todo, mut steps) = (Stream::of(&[text]), Stream::of(&[text]));
        todo.line("todo");
        for _line in 0..rounds(text) {
            steps.line(&format!("at {MOMENT}"));
        }
        let added = self.run(&Stream::of(&[text]), "0")?;
        let (todo, steps) = (self.run(&todo, "0")?, self.run(&steps, "1000")?);
        let of_a_byte = |cost: Cost| cost.kib as f64 * 1024.0 / text.len() as f64;
        println!(
            "bytes of memory for a byte of {what:<24} added {:>6.1}, read by one todo {:>6.1}, by background steps {:>6.1}",
            of_a_byte(added),
            of_a_byte(todo),
            of_a_byte(steps)
        );
        Ok(())
    }
}

impl Stream {
    // Puts a byte behind the value of the first setting line, which so is another.
    fn value_edit(&mut self) {
        let at = "#+PROPERTY: p0 v".len();
        self.line(&format!("edit 1 0.org {} {at} 0 1", self.serials[0]));
        self.out.push(b'x');
        self.last += 1;
        self.serials[0] = self.last;
        self.lens[0] += 1;
    }
}

// How many commands with 1,000 steps behind each read all sections of a text.
fn rounds(text: &str) -> usize {
    1 + text.lines().filter(|line| line.trim_start_matches('*').starts_with(' ') && line.starts_with('*')).count() / 1000
}

fn mib(cost: Cost) -> f64 {
    cost.kib as f64 / 1024.0
}
