//! A person's file of some years: headings of six levels, and of what Org has as much as large files have: for each heading five
//! lines, 210 bytes; of twenty headings six have a planning line, five a drawer, nine a clock line, three another stamp.
use crate::Numbers;
use crate::agenda::date;

// 2024-02-28 in days since 1970-01-01.
const TODAY: i64 = 19_781;

/// A file of that many bytes at least; one number, one file.
pub fn text(bytes: usize, number: u64) -> String {
    let mut years = Years { numbers: Numbers(88172645463325252 + number), out: String::with_capacity(bytes + 4096) };
    years.out.push_str("#+TITLE: Notes of some years\n#+TODO: TODO NEXT WAITING | DONE CANCELLED\n#+FILETAGS: :notes:\n\n");
    let mut level = 1;
    while years.out.len() < bytes {
        level = (level + years.numbers.below(4)).saturating_sub(1 + years.numbers.below(3)).clamp(1, 6);
        years.heading(level);
    }
    years.out
}

struct Years {
    numbers: Numbers,
    out: String,
}

impl Years {
    fn one_of<'a>(&mut self, choices: &[&'a str]) -> &'a str {
        choices[self.numbers.below(choices.len() as u64)]
    }

    fn is_one_in(&mut self, count: u64) -> bool {
        self.numbers.below(count) == 0
    }

    fn push_words(&mut self, least: usize, more: u64) {
        let count = least + self.numbers.below(more);
        let words = self.numbers.words(count);
        self.out.push_str(&words);
    }

    fn heading(&mut self, level: usize) {
        self.out.push_str(&"*".repeat(level));
        let keyword = self.one_of(&[" TODO", " TODO", " TODO", " NEXT", " WAITING", " DONE", " DONE", "", "", ""]);
        self.out.push_str(keyword);
        let cookie = self.one_of(&["", "", "", "", " [#A]", " [#C]"]);
        self.out.push_str(cookie);
        if self.is_one_in(300) {
            self.out.push_str(" COMMENT");
        }
        self.out.push(' ');
        self.push_words(3, 5);
        if self.is_one_in(40) {
            self.out.push(' ');
            self.stamp('<', '>');
        }
        let tags = self.one_of(&["", "", "", "", " :work:", " :home:errand:"]);
        self.out.push_str(tags);
        if tags.is_empty() && self.is_one_in(300) {
            self.out.push_str(" :ARCHIVE:");
        }
        self.out.push('\n');
        if self.numbers.below(10) < 3 {
            self.planning(keyword == " DONE");
        }
        if self.is_one_in(4) {
            self.drawer();
        }
        if self.is_one_in(6) {
            self.clocks();
        }
        for _line in 0..self.numbers.below(5) {
            self.line();
        }
    }

    fn planning(&mut self, is_done: bool) {
        if is_done {
            self.out.push_str("CLOSED: ");
            self.stamp('[', ']');
            self.out.push(' ');
        }
        let has_schedule = !self.is_one_in(3);
        if has_schedule {
            self.out.push_str("SCHEDULED: ");
            self.stamp('<', '>');
        }
        if !has_schedule || self.is_one_in(6) {
            self.out.push_str(if has_schedule { " DEADLINE: " } else { "DEADLINE: " });
            self.stamp('<', '>');
        }
        self.out.push('\n');
    }

    fn drawer(&mut self) {
        self.out.push_str(":PROPERTIES:\n");
        if self.is_one_in(8) {
            let category = self.one_of(&["garden", "letters", "house"]);
            self.out.push_str(&format!(":CATEGORY: {category}\n"));
        }
        let (hours, quarter) = (self.numbers.below(9), self.numbers.below(4));
        self.out.push_str(&format!(":Effort:   {hours}:{:02}\n", 15 * quarter));
        let owner = self.one_of(&["ann", "ben", "cleo"]);
        self.out.push_str(&format!(":Owner:    {owner}\n:END:\n"));
    }

    fn clocks(&mut self) {
        self.out.push_str(":LOGBOOK:\n");
        for _clock in 0..1 + self.numbers.below(4) {
            let day = date(TODAY - self.numbers.below(700) as i64);
            let (hour, minute, minutes) = (8 + self.numbers.below(9), self.numbers.below(60), 10 + self.numbers.below(90));
            let end = 60 * hour + minute + minutes;
            let (end_hour, end_minute) = (end / 60, end % 60);
            self.out.push_str(&format!(
                "CLOCK: [{day} Wed {hour:02}:{minute:02}]--[{day} Wed {end_hour:02}:{end_minute:02}] => {:2}:{:02}\n",
                minutes / 60,
                minutes % 60
            ));
        }
        self.out.push_str(":END:\n");
    }

    fn line(&mut self) {
        match self.numbers.below(40) {
            0 => {
                self.out.push_str("Until ");
                self.stamp('<', '>');
                self.out.push_str("--");
                self.stamp('<', '>');
            }
            1 | 2 => {
                self.push_words(2, 4);
                self.out.push(' ');
                self.stamp('<', '>');
            }
            3 => {
                self.out.push_str("#+BEGIN_SRC sh\necho ");
                self.stamp('<', '>');
                self.out.push_str("\n#+END_SRC");
            }
            4 => {
                self.out.push_str("# ");
                self.stamp('<', '>');
            }
            _ => self.push_words(5, 8),
        }
        self.out.push('\n');
    }

    fn stamp(&mut self, open: char, close: char) {
        let day = date(TODAY - 900 + self.numbers.below(1000) as i64);
        let hour = 7 + self.numbers.below(12);
        let time = match self.numbers.below(6) {
            0 => format!(" {hour:02}:30"),
            1 => format!(" {hour:02}:15-{:02}:45", hour + 1),
            _ => String::new(),
        };
        let repeater = self.one_of(&["", "", "", "", "", "", " +1w", " .+10d", " ++1m", " +1y", " +1d", " +36h"]);
        let delay = self.one_of(&["", "", "", "", "", "", "", "", " -3d", " --2d", " -1w"]);
        self.out.push_str(&format!("{open}{day} Wed{time}{repeater}{delay}{close}"));
    }
}
