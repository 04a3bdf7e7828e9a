//! Which logs belong together: by their names, or by a table.

use std::{
    collections::BTreeMap,
    fmt,
    path::{Path, PathBuf},
};

use crate::{
    fault::{Fault, Result},
    input::Input,
    out::shown,
};

/// How to group logs and traces, as the user asked.
#[derive(Debug, PartialEq, Eq)]
pub enum Asked {
    /// By their names.
    Named(By, Pattern),
    /// By a file of lines `file,group`.
    Table(PathBuf),
}

impl Asked {
    /// What it groups by, in a word.
    pub fn name(&self) -> &'static str {
        match self {
            Self::Named(by, _) => by.name(),
            Self::Table(_) => "group",
        }
    }
}

/// What logs are grouped by.
#[derive(Debug, Clone, Copy, PartialEq, Eq)]
pub enum By {
    /// The box.
    Box,
    /// The day.
    Day,
    /// The week, from Monday to Sunday, numbered as ISO 8601 does.
    Week,
}

impl By {
    /// Its name.
    pub fn name(self) -> &'static str {
        match self {
            Self::Box => "box",
            Self::Day => "day",
            Self::Week => "week",
        }
    }
}

/// A day.
#[derive(Debug, Clone, Copy, PartialEq, Eq, PartialOrd, Ord)]
pub struct Date {
    year: i64,
    month: i64,
    day: i64,
}

impl fmt::Display for Date {
    fn fmt(&self, f: &mut fmt::Formatter<'_>) -> fmt::Result {
        write!(f, "{:04}-{:02}-{:02}", self.year, self.month, self.day)
    }
}

impl Date {
    /// A day as `2026-11-15` or `20261115`.
    pub fn read(text: &str) -> Option<Self> {
        let digits: String = match text.len() {
            8 => text.into(),
            10 if [4, 7].map(|at| text.as_bytes().get(at)) == [Some(&b'-'); 2] => {
                text.chars().filter(|letter| *letter != '-').collect()
            }
            _ => return None,
        };
        if digits.len() != 8 || !digits.bytes().all(|byte| byte.is_ascii_digit()) {
            return None;
        }
        let number = |from: usize, until: usize| digits.get(from..until)?.parse().ok();
        let date = Self {
            year: number(0, 4)?,
            month: number(4, 6)?,
            day: number(6, 8)?,
        };
        date.exists().then_some(date)
    }

    fn exists(self) -> bool {
        let leap = self.year % 4 == 0 && (self.year % 100 != 0 || self.year % 400 == 0);
        let days = match self.month {
            4 | 6 | 9 | 11 => 30,
            2 => 28 + i64::from(leap),
            1..=12 => 31,
            _ => 0,
        };
        (1..=days).contains(&self.day)
    }

    /// Days since a Monday long ago, by the proleptic Gregorian calendar.
    fn days(self) -> i64 {
        let year = self.year - i64::from(self.month <= 2);
        let month = (self.month + 9) % 12;
        let of_years =
            365 * year + year.div_euclid(4) - year.div_euclid(100) + year.div_euclid(400);
        // The first of March of year 0 was a Wednesday.
        of_years + (153 * month + 2) / 5 + self.day - 1 + 2
    }

    /// The year and the number of its week: a week belongs to the year of its Thursday.
    pub fn week(self) -> (i64, i64) {
        let thursday = self.days().div_euclid(7) * 7 + 3;
        let first = |year| Self {
            year,
            month: 1,
            day: 1,
        };
        let year = (self.year - 1..=self.year + 1)
            .rev()
            .find(|year| first(*year).days() <= thursday)
            .unwrap_or(self.year);
        (year, (thursday - first(year).days()) / 7 + 1)
    }
}

/// How a file's name contains its box and its day: `{box}_{date}`. `{any}` matches anything.
#[derive(Debug, Clone, PartialEq, Eq)]
pub struct Pattern {
    parts: Vec<Part>,
}

#[derive(Debug, Clone, PartialEq, Eq)]
enum Part {
    Text(String),
    Box,
    Date,
    Any,
}

/// What a name contains.
#[derive(Debug, Clone, PartialEq, Eq, Default)]
pub struct Named {
    /// The box.
    pub box_name: Option<String>,
    /// The day.
    pub date: Option<Date>,
}

impl fmt::Display for Pattern {
    fn fmt(&self, f: &mut fmt::Formatter<'_>) -> fmt::Result {
        self.parts.iter().try_for_each(|part| match part {
            Part::Text(text) => f.write_str(text),
            Part::Box => f.write_str("{box}"),
            Part::Date => f.write_str("{date}"),
            Part::Any => f.write_str("{any}"),
        })
    }
}

impl Pattern {
    /// Reads a pattern. The error says what is wrong with it.
    pub fn read(text: &str) -> std::result::Result<Self, String> {
        let mut parts = Vec::new();
        let mut rest = text;
        while !rest.is_empty() {
            let open = rest.find('{').unwrap_or(rest.len());
            let (before, field) = rest.split_at(open);
            if !before.is_empty() {
                parts.push(Part::Text(before.into()));
            }
            if field.is_empty() {
                break;
            }
            let Some((name, after)) = field[1..].split_once('}') else {
                return Err("a '{' without its '}'".into());
            };
            parts.push(match name {
                "box" => Part::Box,
                "date" => Part::Date,
                "any" => Part::Any,
                _ => {
                    return Err(format!(
                        "'{{{name}}}' is none of {{box}}, {{date}} and {{any}}"
                    ));
                }
            });
            rest = after;
        }
        let open = |part: &Part| matches!(part, Part::Box | Part::Any);
        if parts.windows(2).any(|pair| pair.iter().all(open)) {
            return Err("two open parts without a text between them".into());
        }
        Ok(Self { parts })
    }

    /// What a name contains, if it fits the pattern.
    pub fn fit(&self, name: &str) -> Option<Named> {
        fit(&self.parts, name)
    }
}

fn fit(parts: &[Part], name: &str) -> Option<Named> {
    let Some((part, rest)) = parts.split_first() else {
        return name.is_empty().then(Named::default);
    };
    match part {
        Part::Text(text) => fit(rest, name.strip_prefix(text.as_str())?),
        Part::Date => [10, 8].into_iter().find_map(|length| {
            let date = Date::read(name.get(..length)?)?;
            let mut named = fit(rest, name.get(length..)?)?;
            named.date.get_or_insert(date);
            Some(named)
        }),
        // The longest match with which the rest fits.
        Part::Box | Part::Any => {
            let ends = name
                .char_indices()
                .map(|(at, letter)| at + letter.len_utf8());
            let ends: Vec<usize> = ends.collect();
            ends.into_iter().rev().find_map(|end| {
                let (open, after) = name.split_at(end);
                let mut named = fit(rest, after)?;
                if *part == Part::Box {
                    named.box_name.get_or_insert(open.into());
                }
                Some(named)
            })
        }
    }
}

/// The rule by which a log gets its group.
#[derive(Debug, Clone, PartialEq, Eq)]
pub enum Grouping {
    /// By its name.
    Named(By, Pattern),
    /// By a table of names and groups.
    Table(BTreeMap<String, String>),
}

impl Grouping {
    /// What the user asked for, with its table read.
    pub fn read(asked: &Asked) -> Result<Self> {
        match asked {
            Asked::Named(by, pattern) => Ok(Self::Named(*by, pattern.clone())),
            Asked::Table(path) => {
                let mut input = Input::open(path)?;
                let text = String::from_utf8_lossy(&input.all()?).into_owned();
                Self::table(&text).map_err(|words| input.wrong(words))
            }
        }
    }

    /// The group of a file.
    pub fn of_file(&self, file: &Path) -> Result<String> {
        let name = file.file_name().unwrap_or_default().to_string_lossy();
        let bare = name.strip_suffix(".log").or(name.strip_suffix(".trace"));
        let group = self.of(bare.unwrap_or(&name));
        group.map_err(|words| Fault::refused(format!("{}: {words}", shown(file))))
    }

    /// The group of a file with this name, without its folder and `.log` or `.trace`. The error says why it has none.
    fn of(&self, name: &str) -> std::result::Result<String, String> {
        match self {
            Self::Table(table) => {
                let group = table
                    .get(name)
                    .or_else(|| table.get(&format!("{name}.log")))
                    .or_else(|| table.get(&format!("{name}.trace")));
                group
                    .cloned()
                    .ok_or_else(|| "the table of groups has no line for it: add one".into())
            }
            Self::Named(by, pattern) => {
                let named = pattern.fit(name);
                let named = named.ok_or_else(|| {
                    format!("its name does not fit the pattern {pattern}: give its own with --name")
                })?;
                let date = named.date.ok_or("its name has no date");
                match by {
                    By::Box => named.box_name.ok_or_else(|| "its name has no box".into()),
                    By::Day => Ok(date?.to_string()),
                    By::Week => {
                        let (year, week) = date?.week();
                        Ok(format!("{year:04}-W{week:02}"))
                    }
                }
            }
        }
    }

    /// A table of lines `file,group`. The error says what is wrong with it.
    fn table(text: &str) -> std::result::Result<Self, String> {
        let mut table = BTreeMap::new();
        for (index, line) in text.lines().enumerate() {
            let number = index + 1;
            let Some((file, group)) = line.split_once(',') else {
                return Err(format!(
                    "line {number}: a file, a comma and its group must stand here"
                ));
            };
            if table.insert(file.to_owned(), group.to_owned()).is_some() {
                return Err(format!("line {number}: '{file}' has a group already"));
            }
        }
        Ok(Self::Table(table))
    }
}

#[cfg(test)]
mod tests {
    use super::*;

    #[test]
    fn weeks_are_those_of_iso_8601() {
        for (day, week) in [
            ("2026-11-15", (2026, 46)),
            ("2026-11-16", (2026, 47)),
            ("20260101", (2026, 1)),
            ("2025-12-29", (2026, 1)),
            ("2025-12-28", (2025, 52)),
            ("2021-01-03", (2020, 53)),
            ("2021-01-04", (2021, 1)),
            ("2024-12-30", (2025, 1)),
            ("2000-02-29", (2000, 9)),
        ] {
            assert_eq!(Date::read(day).map(Date::week), Some(week), "{day}");
        }
        for none in [
            "2026-02-29",
            "2026-13-01",
            "2026-00-10",
            "2026/11/15",
            "261115",
            "2026-1-015",
        ] {
            assert_eq!(Date::read(none), None, "{none}");
        }
    }

    #[test]
    fn names_are_read_by_a_pattern() {
        let fit = |pattern: &str, name: &str| {
            let named = Pattern::read(pattern).expect("a pattern").fit(name)?;
            let date = named.date.map_or(String::new(), |date| date.to_string());
            Some((named.box_name.unwrap_or_default(), date))
        };
        let found = |name: &str, date: &str| Some((name.to_owned(), date.to_owned()));
        assert_eq!(
            fit("{box}_{date}", "hall_7_2026-11-15"),
            found("hall_7", "2026-11-15")
        );
        assert_eq!(
            fit("{date}-{box}", "20261115-b2"),
            found("b2", "2026-11-15")
        );
        assert_eq!(fit("{any}.{box}", "a.b.c"), found("c", ""));
        assert_eq!(fit("{box}_{date}", "hall7"), None);
        assert_eq!(fit("{box}_{date}", "_2026-11-15"), None);
        for pattern in ["{box}_{date}", "{any}-{date}.{box}", "a"] {
            assert_eq!(Pattern::read(pattern).expect("one").to_string(), pattern);
        }
        let by_box = Grouping::Named(By::Box, Pattern::read("{box}_{date}").expect("one"));
        assert_eq!(
            by_box.of("hall7"),
            Err("its name does not fit the pattern {box}_{date}: give its own with --name".into())
        );
        for (pattern, wrong) in [
            ("{box", "a '{' without its '}'"),
            ("{hall}", "'{hall}' is none of {box}, {date} and {any}"),
            ("{box}{any}", "two open parts without a text between them"),
        ] {
            assert_eq!(Pattern::read(pattern), Err(wrong.into()));
        }
    }
}
