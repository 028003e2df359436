//! Agendas: the files that are measured, and as much of agendas in plain Rust as these files need.
use crate::{Above, heading, is_heading, measure_behind, measure_question, row_of, settings, stem};
use std::io;

// The moment's day, 2024-02-28, and the days of a year.
const TODAY: i64 = 19_781;
const NAMES: [&str; 7] = ["Mon", "Tue", "Wed", "Thu", "Fri", "Sat", "Sun"];

pub fn measure(program: &str, own: &str, stream: &str) -> io::Result<()> {
    for (what, text, days) in [
        ("100,000 deadlines", &deadlines(100_000), 1),
        ("100,000 daily stamps", &daily(100_000), 7),
        ("10,000 ranges, a day", &ranges(10_000), 1),
        ("10,000 ranges, a year", &ranges(10_000), 366),
    ] {
        measure_question(program, own, stream, what, text, &format!("agenda 2024-02-28 {days}"))?;
    }
    let repeated = repeated_ranges(100_000);
    for (what, days) in [("100,000 repeated ranges, a day", 1), ("100,000 repeated ranges, a year", 366)] {
        let question = format!("agenda 2024-02-28 {days}");
        measure_behind(program, own, stream, "profile 2\n", what, &repeated, &question)?;
    }
    Ok(())
}

// So many headings whose deadlines lie within the next fourteen days.
fn deadlines(count: i64) -> String {
    (0..count).map(|n| format!("* TODO a\nDEADLINE: <{}>\n", date(TODAY + 1 + n % 14))).collect()
}

// So many headings with a stamp that occurs every day.
fn daily(count: i64) -> String {
    (0..count).map(|n| format!("* a\n<{} +1d>\n", date(TODAY - n % 1000))).collect()
}

// So many headings with a range of some years.
fn ranges(count: i64) -> String {
    (0..count).map(|n| format!("* a\n<{}>--<{}>\n", date(TODAY - n % 1000), date(TODAY + 1000))).collect()
}

// So many headings with a range of two days that repeats every 60 to 89 days, begun within the last years.
fn repeated_ranges(count: i64) -> String {
    let range = |n: i64| {
        let day = TODAY - n % 3000;
        format!("* a\n<{} +{}d>--<{}>\n", date(day), 60 + n % 30, date(day + 1))
    };
    (0..count).map(range).collect()
}

// Days since 1970-01-01 of a date of the Gregorian calendar, and back.
pub fn day_of(text: &str) -> Option<i64> {
    let digits = |from: usize, to: usize| text.get(from..to)?.parse::<i64>().ok();
    let (year, month, day) = (digits(0, 4)?, digits(5, 7)?, digits(8, 10)?);
    let (year, month) = if month > 2 { (year, month - 3) } else { (year - 1, month + 9) };
    Some(365 * year + year.div_euclid(4) - year.div_euclid(100) + year.div_euclid(400) + (153 * month + 2) / 5 + day - 719_469)
}

pub fn date(day: i64) -> String {
    let day = day + 719_468;
    let era = day.div_euclid(146_097);
    let of_era = day.rem_euclid(146_097);
    let year = (of_era - of_era / 1_460 + of_era / 36_524 - of_era / 146_096) / 365;
    let of_year = of_era - (365 * year + year / 4 - year / 100);
    let month = (5 * of_year + 2) / 153;
    let (year, month, day) = (year + era * 400, (month + 2) % 12 + 1, of_year - (153 * month + 2) / 5 + 1);
    format!("{:04}-{month:02}-{day:02}", year + i64::from(month <= 2))
}

// The day's line: a week belongs to the year of its Thursday.
fn day_line(day: i64) -> String {
    let weekday = (day + 3).rem_euclid(7);
    let thursday = date(day - weekday + 3);
    let first = day_of(&format!("{}-01-01", &thursday[..4])).unwrap();
    format!("{} {} W{:02}\n", date(day), NAMES[weekday as usize], (day - weekday + 3 - first) / 7 + 1)
}

#[derive(Clone, Copy, PartialEq)]
enum Role {
    Plain,
    Scheduled,
    Deadline,
}

#[derive(Clone, Copy)]
struct Stamp {
    role: Role,
    day: i64,
    last: Option<i64>,
    every: i64,
}

// The stamps of a line, `<YYYY-MM-DD ..>` with at most a repeater by days, or two of them with dashes between.
fn stamps(role: Role, line: &str, found: &mut Vec<Stamp>) {
    let mut rest = line;
    while let Some(at) = rest.find('<') {
        rest = &rest[at + 1..];
        let Some(end) = rest.find('>') else { return };
        let Some(day) = day_of(&rest[..end]) else { continue };
        let repeater = rest[..end].split(' ').find_map(|word| word.strip_prefix('+')?.strip_suffix('d')?.parse().ok());
        let mut stamp = Stamp { role, day, last: None, every: repeater.unwrap_or(0) };
        rest = &rest[end + 1..];
        if let Some(second) = rest.strip_prefix("--<").filter(|_| role == Role::Plain) {
            stamp.last = day_of(second);
            rest = second;
        }
        found.push(stamp);
    }
}

// The rows of a heading's stamps: which day from the first on, and the label. Ranges with a repeater may repeat.
fn rows(stamp: Stamp, is_open: bool, repeats: bool, first: i64, count: i64, mut push: impl FnMut(i64, String)) {
    let label = match stamp.role {
        Role::Plain => "",
        Role::Scheduled => "Scheduled: ",
        Role::Deadline => "Deadline: ",
    };
    if let Some(last) = stamp.last.filter(|_| repeats && stamp.every > 0) {
        let length = last - stamp.day;
        let mut day = first.max(stamp.day);
        while day < first + count {
            let begins = day - (day - stamp.day) % stamp.every;
            if day > begins + length {
                day = begins + stamp.every;
                continue;
            }
            push(day - first, format!("({}/{}): ", day - begins + 1, length + 1));
            day += 1;
        }
        return;
    }
    if let Some(last) = stamp.last {
        for day in first.max(stamp.day)..(first + count).min(last + 1) {
            push(day - first, format!("({}/{}): ", day - stamp.day + 1, last - stamp.day + 1));
        }
        return;
    }
    let mut day = stamp.day;
    if stamp.every > 0 && day < first {
        day += (first - day + stamp.every - 1) / stamp.every * stamp.every;
    }
    while day >= first && day < first + count {
        push(day - first, label.to_string());
        if stamp.every == 0 {
            break;
        }
        day += stamp.every;
    }
    if is_open && stamp.role != Role::Plain && first <= TODAY && TODAY < first + count {
        let late = TODAY - stamp.day;
        match stamp.role {
            Role::Scheduled if late > 0 => push(TODAY - first, format!("Sched. {late} d.: ")),
            Role::Deadline if late > 0 => push(TODAY - first, format!("{late} d. ago: ")),
            Role::Deadline if late < 0 && late >= -14 => push(TODAY - first, format!("In {} d.: ", -late)),
            _ => {}
        }
    }
}

// The agenda of files: each day's rows by priority. Ranges with a repeater may repeat.
pub fn agenda(files: &[(String, String)], repeats: bool, first: i64, count: i64) -> String {
    let mut days: Vec<Vec<(u32, usize, String)>> = vec![Vec::new(); count as usize];
    let mut heads: Vec<(String, String)> = Vec::new();
    for (name, text) in files {
        let settings = settings(text);
        let category = settings.category.unwrap_or_else(|| stem(name));
        let column = format!("  {:<11} {:12}", format!("{category}:"), "");
        let mut above: Vec<Above> = Vec::new();
        let mut lines = text.lines().peekable();
        let mut found = Vec::new();
        while let Some(line) = lines.next() {
            let Some(heading) = heading(line, &settings) else { continue };
            while above.last().is_some_and(|ancestor| ancestor.heading.level >= heading.level) {
                above.pop();
            }
            let hides = heading.hides || above.last().is_some_and(|ancestor| ancestor.hides);
            let is_open = heading.keyword.is_none_or(|keyword| !settings.done[keyword]);
            found.clear();
            stamps(Role::Plain, heading.title, &mut found);
            above.push(Above { heading, hides, is_tagged: false });
            if let Some(line) = lines.next_if(|line| line.starts_with("SCHEDULED:") || line.starts_with("DEADLINE:")) {
                let role = if line.starts_with('S') { Role::Scheduled } else { Role::Deadline };
                stamps(role, line, &mut found);
            }
            while let Some(line) = lines.next_if(|line| !is_heading(line)) {
                stamps(Role::Plain, line, &mut found);
            }
            if hides || found.is_empty() {
                continue;
            }
            let (priority, head) = row_of(&above, &settings, "");
            for stamp in &found {
                rows(*stamp, is_open, repeats, first, count, |day, label| days[day as usize].push((priority, heads.len(), label)));
            }
            heads.push((column.clone(), head));
        }
    }
    let mut out = String::new();
    for (ahead, mut rows) in days.into_iter().enumerate() {
        out.push_str(&day_line(first + ahead as i64));
        rows.sort_by_key(|row| row.0);
        for (_, head, label) in rows {
            let (column, head) = &heads[head];
            out.push_str(column);
            out.push_str(&label);
            out.push_str(head);
        }
    }
    out
}
