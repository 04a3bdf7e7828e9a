//! What `help` prints, from the table of verbs.

use crate::verbs::{ABOUT, PURPOSE, VERBS, Verb};

/// The longest line.
const WIDTH: usize = 78;

/// What the whole command does: each verb in two lines.
pub fn all() -> String {
    let mut text = format!("cableowl: {PURPOSE}\n\n");
    for verb in VERBS {
        text += &synopsis(verb, 2, 6);
        text += &lines(verb.says, 6, 6);
    }
    text += "\n";
    for paragraph in ABOUT {
        text += &lines(paragraph, 0, 0);
    }
    text += &lines("'cableowl help VERB' says more about one of them.", 0, 0);
    text
}

/// What one verb does.
pub fn of(verb: &'static Verb) -> String {
    let mut text = synopsis(verb, 0, 4);
    text += &lines(verb.says, 4, 4);
    for paragraph in verb.about {
        text += "\n";
        text += &lines(paragraph, 0, 0);
    }
    if !verb.arguments.is_empty() {
        text += "\nWords:\n";
        text += &columns(verb.all_arguments().map(|a| (a.name.into(), a.says)));
    }
    text += "\nOptions:\n";
    text += &columns(
        verb.all_options()
            .map(|option| (option.spelt(), option.says)),
    );
    if !verb.examples.is_empty() {
        text += "\nExamples:\n";
        for (words, says) in verb.examples {
            text += &format!("  cableowl {words}\n");
            text += &lines(says, 6, 6);
        }
    }
    text += "\nExit status:\n";
    let statuses = verb.statuses.iter();
    text += &columns(statuses.map(|(status, says)| (status.to_string(), *says)));
    text
}

/// The usage of a verb, at least one line per form; no line ends inside brackets.
fn synopsis(verb: &Verb, first: usize, others: usize) -> String {
    const HELD: &str = "\u{a0}";
    let held = |way: &String| {
        let mut inside = false;
        way.chars().fold(String::new(), |mut held, letter| {
            inside = (inside || letter == '[') && letter != ']';
            match letter == ' ' && inside {
                true => held.push_str(HELD),
                false => held.push(letter),
            }
            held
        })
    };
    let ways = verb.synopses();
    let ways = ways.iter().map(|way| lines(&held(way), first, others));
    ways.collect::<String>().replace(HELD, " ")
}

/// Names on the left, their descriptions on the right.
fn columns(rows: impl Iterator<Item = (String, &'static str)>) -> String {
    let rows: Vec<(String, &str)> = rows.collect();
    let widest = rows.iter().map(|(name, _)| name.len()).max().unwrap_or(0);
    let right = widest + 4;
    let mut text = String::new();
    for (name, says) in rows {
        let wrapped = lines(says, right, right);
        text += &format!("  {name:<widest$}  {}", wrapped.trim_start());
    }
    text
}

/// A paragraph in lines, with the indents of the first line and of the others.
fn lines(text: &str, first: usize, others: usize) -> String {
    let mut wrapped = String::new();
    let mut line = " ".repeat(first);
    let mut begun = false;
    for word in text.split(' ') {
        if begun && line.chars().count() + 1 + word.chars().count() > WIDTH {
            wrapped += &line;
            wrapped.push('\n');
            line = " ".repeat(others);
            begun = false;
        }
        if begun {
            line.push(' ');
        }
        line += word;
        begun = true;
    }
    wrapped + &line + "\n"
}
