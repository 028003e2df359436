//! Clock tables in plain Rust, and files with clocks.
use crate::{heading, is_heading, settings};

// A day of the Gregorian calendar by its number, 1 for 0001-01-01, and back.
fn day_number(year: i64, month: i64, day: i64) -> i64 {
    let years = if month <= 2 { year - 1 } else { year };
    let months = (month + 9) % 12;
    365 * years + years / 4 - years / 100 + years / 400 + (153 * months + 2) / 5 + day - 306
}

fn date_text(number: i64) -> String {
    let mut year = number / 365 + 1;
    while day_number(year, 1, 1) > number {
        year -= 1;
    }
    let mut month = 12;
    while day_number(year, month, 1) > number {
        month -= 1;
    }
    format!("{year:04}-{month:02}-{:02}", number - day_number(year, month, 1) + 1)
}

// A text with so many clocks of 45 minutes, each at the end of a section, on days of the year 2024.
pub fn with_clocks(text: &str, clocks: usize) -> String {
    let headings = text.lines().filter(|line| is_heading(line)).count();
    let mut out = String::with_capacity(text.len() + 70 * clocks);
    let (mut seen, mut put) = (0, 0);
    for line in text.lines() {
        if is_heading(line) {
            while seen > 0 && put < clocks * seen / headings {
                let date = date_text(day_number(2024, 1, 1) + (put * 7 % 366) as i64);
                out.push_str(&format!("CLOCK: [{date} Day 09:10]--[{date} Day 09:55] =>  0:45\n"));
                put += 1;
            }
            seen += 1;
        }
        out.push_str(line);
        out.push('\n');
    }
    out
}

// A heading whose clock runs for 9,000 years.
pub fn long_clock() -> String {
    String::from("* a\nCLOCK: [0001-01-01 Mon]--[9001-01-01 Thu]\n")
}

struct Entry<'a> {
    level: usize,
    title: &'a str,
    parent: Option<usize>,
}

struct Clock {
    heading: usize,
    from: i64,
    to: i64,
}

fn minute(stamp: &str) -> Option<i64> {
    let number = |part: &str| part.parse::<i64>().ok();
    let day = day_number(number(stamp.get(1..5)?)?, number(stamp.get(6..8)?)?, number(stamp.get(9..11)?)?);
    let time = stamp.trim_end_matches(']').rsplit(' ').next()?;
    let minutes = match time.split_once(':') {
        Some((hours, minutes)) => number(hours)? * 60 + number(minutes)?,
        None => 0,
    };
    Some((day - 1) * 1440 + minutes)
}

fn clock(line: &str) -> Option<(i64, i64)> {
    let (from, rest) = line.trim().strip_prefix("CLOCK:")?.trim_start().split_once("--")?;
    Some((minute(from)?, minute(rest.split_inclusive(']').next()?)?))
}

fn line(out: &mut String, minutes: i64, name: &str) {
    let sum = format!("{}:{:02}", minutes / 60, minutes % 60);
    out.push_str(&format!("{sum:<8} {name}\n"));
}

// The table of this year with headings of three levels, in one step or a step for each day.
pub fn table(files: &[(String, String)], by_days: bool) -> String {
    let read: Vec<(&str, Vec<Entry>, Vec<Clock>)> = files.iter().map(|(name, text)| read(name, text)).collect();
    let (first, last) = (day_number(2024, 1, 1), day_number(2024, 12, 31));
    let mut out = String::new();
    if by_days {
        for day in first..=last {
            step(&mut out, &read, day, day);
        }
    } else {
        step(&mut out, &read, first, last);
    }
    out
}

fn read<'a>(name: &'a str, text: &'a str) -> (&'a str, Vec<Entry<'a>>, Vec<Clock>) {
    let settings = settings(text);
    let mut entries: Vec<Entry> = Vec::new();
    let mut clocks = Vec::new();
    for line in text.lines() {
        if let Some(own) = heading(line, &settings) {
            let mut parent = entries.len().checked_sub(1);
            while let Some(above) = parent.filter(|above| entries[*above].level >= own.level) {
                parent = entries[above].parent;
            }
            entries.push(Entry { level: own.level, title: own.title, parent });
        } else if let (Some((from, to)), Some(heading)) = (clock(line), entries.len().checked_sub(1)) {
            clocks.push(Clock { heading, from, to });
        }
    }
    (name, entries, clocks)
}

fn step(out: &mut String, files: &[(&str, Vec<Entry>, Vec<Clock>)], first: i64, last: i64) {
    out.push_str(&format!("{} {}\n", date_text(first), date_text(last)));
    let mut total = 0;
    let mut lines = String::new();
    for (name, entries, clocks) in files {
        let mut sums: Vec<(usize, i64)> = Vec::new();
        let mut sum = 0;
        for clock in clocks {
            let own = clock.to.min(last * 1440) - clock.from.max((first - 1) * 1440);
            if own > 0 {
                sum += own;
                let mut at = Some(clock.heading);
                while let Some(heading) = at {
                    sums.push((heading, own));
                    at = entries[heading].parent;
                }
            }
        }
        total += sum;
        if sum == 0 {
            continue;
        }
        line(&mut lines, sum, name);
        sums.sort_by_key(|own| own.0);
        for same in sums.chunk_by(|a, b| a.0 == b.0) {
            let entry = &entries[same[0].0];
            if entry.level <= 3 {
                line(&mut lines, same.iter().map(|own| own.1).sum(), &format!("{}{}", "  ".repeat(entry.level), entry.title));
            }
        }
    }
    line(out, total, "*");
    out.push_str(&lines);
}
