//! Agendas over years of stamps: what a question takes, alone and behind edits, beside the stamps that it examines and its rows.
use crate::{Cost, Numbers, cost};
use std::fs::File;
use std::io::{self, Write};
use std::process::Command;

const RUNS: usize = 5;
const MOMENT: &str = "2024-02-28 10:30";
const TODAY: usize = 1519;
const STAMPS: usize = 100_000;
const YEARS: usize = 3653;
const IN_TURN: usize = 50;

/// All of it, with so many stamps that repeat. Where `scale` is over 1, there are that many fewer headings.
pub fn measure(program: &str, own: &str, scale: usize) -> io::Result<()> {
    let path = std::env::temp_dir().join(format!("orgviews-days-{}", std::process::id()));
    let path = path.to_string_lossy().into_owned();
    println!("{} stamps over ten years, a tenth of them ranges; least of {RUNS} runs", STAMPS / scale);
    for repeating in [100, 5_000] {
        let years = Years::of(STAMPS / scale, repeating / scale);
        Bench { program, own, path: &path, years: &years }.questions(repeating)?;
    }
    std::fs::remove_file(&path)
}

// What the stamp of a heading says: its first and its last day, counted from 2020-01-01, and how the heading stands to it.
struct Stamp {
    first: usize,
    last: usize,
    repeats: bool,
    is_pressing: bool,
}

impl Stamp {
    // Whether it is near the days from one to another: the rule of the engine's contract, for stamps without delays.
    fn is_near(&self, from: usize, to: usize) -> bool {
        let touches = self.first <= to && (self.repeats || from <= self.last);
        touches || (self.is_pressing && from <= TODAY && TODAY <= to && self.first <= TODAY + 14)
    }
}

// A text with a heading for each stamp, some 60 bytes each, and where each heading begins.
struct Years {
    text: String,
    starts: Vec<usize>,
    stamps: Vec<Stamp>,
}

impl Years {
    fn of(count: usize, repeating: usize) -> Years {
        let mut numbers = Numbers(88172645463325252);
        let mut years = Years { text: String::new(), starts: Vec::new(), stamps: Vec::new() };
        for place in 0..count {
            let first = numbers.below(YEARS as u64);
            let is_range = place % 10 == 0;
            let repeats = !is_range && place % (count / repeating.max(1)) == 1;
            let last = if is_range { first + 1 + numbers.below(30) } else { first };
            let is_planned = !is_range && numbers.below(5) < 2;
            let is_pressing = is_planned && (first >= TODAY || numbers.below(100) == 0);
            years.starts.push(years.text.len());
            let keyword = if is_pressing { "TODO " } else if is_planned { "DONE " } else { "" };
            years.text.push_str(&format!("* {keyword}{}\n", numbers.words(4)));
            let role = if !is_planned { "" } else { ["SCHEDULED: ", "DEADLINE: "][numbers.below(2)] };
            let repeater = if repeats { [" +1w", " +1m", " +1y"][numbers.below(3)] } else { "" };
            let end = if is_range { format!("--<{}>", date(last)) } else { String::new() };
            years.text.push_str(&format!("{role}<{}{repeater}>{end}\n", date(first)));
            years.stamps.push(Stamp { first, last, repeats, is_pressing });
        }
        years
    }

    fn near(&self, from: usize, days: usize) -> usize {
        self.stamps.iter().filter(|stamp| stamp.is_near(from, from + days - 1)).count()
    }
}

// The date so many days after 2020-01-01.
fn date(mut days: usize) -> String {
    let mut year = 2020;
    loop {
        let leap = year % 4 == 0;
        let months = [31, if leap { 29 } else { 28 }, 31, 30, 31, 30, 31, 31, 30, 31, 30, 31];
        for (month, &length) in months.iter().enumerate() {
            if days < length {
                return format!("{year}-{:02}-{:02}", month + 1, days + 1);
            }
            days -= length;
        }
        year += 1;
    }
}

// What stands behind each question.
#[derive(Clone, Copy)]
enum Edit {
    Types,
    MakesAHeading,
}

struct Bench<'a> {
    program: &'a str,
    own: &'a str,
    path: &'a str,
    years: &'a Years,
}

impl Bench<'_> {
    fn run(&self, stream: &[u8]) -> io::Result<Cost> {
        std::fs::write(self.path, stream)?;
        let command = [self.program, "--at", MOMENT, "--idle", "0"];
        let mut least = cost(self.own, self.path, &command)?;
        for _run in 1..RUNS {
            least = least.least(cost(self.own, self.path, &command)?);
        }
        Ok(least)
    }

    fn added(&self) -> Vec<u8> {
        let mut stream = format!("add y.org {}\n", self.years.text.len()).into_bytes();
        stream.extend(self.years.text.as_bytes());
        stream
    }

    // How many lines the answer to a question has, but for one for each day.
    fn rows(&self, question: &str, days: usize) -> io::Result<usize> {
        let mut stream = self.added();
        writeln!(stream, "{question}")?;
        std::fs::write(self.path, &stream)?;
        let output = Command::new(self.program).args(["--at", MOMENT]).stdin(File::open(self.path)?).output()?;
        Ok(output.stdout.iter().filter(|byte| **byte == b'\n').count() - 2 - days)
    }

    fn questions(&self, repeating: usize) -> io::Result<()> {
        let years = self.years;
        let mut todo = self.added();
        todo.extend(b"todo\n");
        let mut first = todo.clone();
        first.extend(b"agenda 2024-02-28 1\n");
        let (added, todo, first) = (self.run(&self.added())?, self.run(&todo)?, self.run(&first)?);
        println!(
            "{repeating} repeat: first read by a list {:.1} ms, and its stamps kept by days {:.1} ms more; at most {:.1} MiB",
            (todo.seconds - added.seconds) * 1e3,
            (first.seconds - todo.seconds) * 1e3,
            mib(first)
        );
        let asked = [("2024-02-28", TODAY, 1), ("2024-02-28", TODAY, 7), ("2024-02-28", TODAY, 366), ("2026-05-05", 2316, 1), ("2026-05-05", 2316, 7)];
        for (date, from, days) in asked {
            let question = format!("agenda {date} {days}");
            println!(
                "{repeating} repeat: {question:<21} {:>6} examined {:>6} rows {:>9.3} ms alone {:>9.3} ms behind a key {:>9.3} ms behind a new heading",
                years.near(from, days),
                self.rows(&question, days)?,
                self.alone(&question)?,
                self.behind(&question, Edit::Types)?,
                self.behind(&question, Edit::MakesAHeading)?
            );
        }
        self.pins()
    }

    // The time of a question, of many asked one after the other.
    fn alone(&self, question: &str) -> io::Result<f64> {
        let mut one = self.added();
        writeln!(one, "{question}")?;
        let mut all = one.clone();
        for _time in 0..IN_TURN {
            writeln!(all, "{question}")?;
        }
        Ok((self.run(&all)?.seconds - self.run(&one)?.seconds) / IN_TURN as f64 * 1e3)
    }

    // The time of a question behind an edit, with that of the edit taken off.
    fn behind(&self, question: &str, edit: Edit) -> io::Result<f64> {
        let mut none = self.added();
        writeln!(none, "{question}")?;
        let mut all = none.clone();
        // From the last heading to the first, so that none of the places that follow moves.
        for serial in 1..=IN_TURN {
            let place = self.years.starts.len() / IN_TURN * (IN_TURN - serial);
            let (at, text) = match edit {
                Edit::Types => (self.years.starts[place] + 2, "x"),
                Edit::MakesAHeading => (self.years.starts[place], "* new\n"),
            };
            let line = format!("edit 1 y.org {serial} {at} 0 {}\n{text}", text.len());
            none.extend(line.as_bytes());
            all.extend(line.as_bytes());
            writeln!(all, "{question}")?;
        }
        Ok((self.run(&all)?.seconds - self.run(&none)?.seconds) / IN_TURN as f64 * 1e3)
    }

    // A pin, and the first key and agenda behind it.
    fn pins(&self) -> io::Result<()> {
        let mut none = self.added();
        none.extend(b"agenda 2026-05-05 1\n");
        let (mut pins, mut all) = (none.clone(), none.clone());
        for serial in 1..=IN_TURN {
            writeln!(pins, "pin {serial}")?;
            writeln!(all, "pin {serial}")?;
            all.extend(format!("edit 1 y.org {serial} 2 0 1\nx").as_bytes());
            all.extend(b"agenda 2026-05-05 1\n");
        }
        let (none, pins, all) = (self.run(&none)?, self.run(&pins)?, self.run(&all)?);
        println!(
            "{IN_TURN} pins: {:.3} ms each, {:.3} ms with a key and an agenda behind each, by which each has {:.0} bytes of its own for a heading with its stamp",
            (pins.seconds - none.seconds) / IN_TURN as f64 * 1e3,
            (all.seconds - none.seconds) / IN_TURN as f64 * 1e3,
            (mib(all) - mib(pins)) * 1024.0 * 1024.0 / (IN_TURN * self.years.stamps.len()) as f64
        );
        Ok(())
    }
}

fn mib(cost: Cost) -> f64 {
    cost.kib as f64 / 1024.0
}
