//! Man pages in groff's language, from the table of verbs.

use crate::verbs::{ABOUT, PURPOSE, VERBS, Verb};

/// The page cableowl(1).
pub fn all() -> String {
    let mut page = head("CABLEOWL", "cableowl", PURPOSE);
    page += ".SH SYNOPSIS\n.B cableowl\n.I VERB\n.RI [ WORDS ]\n.SH DESCRIPTION\n";
    page += &paragraphs(ABOUT);
    page += ".SH VERBS\n";
    for verb in VERBS {
        let (name, says) = (escaped(verb.name), escaped(verb.says));
        page += &format!(".TP\n.B {name}\n{says}\n");
    }
    page += ".SH EXIT STATUS\n";
    page += "0 where a verb did what it was asked, 2 where the words were not understood. The page of a verb has the others.\n";
    let pages: Vec<String> = VERBS.iter().map(Verb::page).collect();
    page + &see_also(pages.iter().map(String::as_str))
}

/// The page of a verb.
pub fn of(verb: &'static Verb) -> String {
    let mut page = head(&verb.page().to_uppercase(), &verb.page(), verb.says);
    let ways = verb.synopses();
    let ways = ways.iter().map(|way| {
        let words = way.strip_prefix("cableowl").unwrap_or_default();
        format!(".B cableowl\n{}\n", escaped(words.trim()))
    });
    page += ".SH SYNOPSIS\n";
    page += &ways.collect::<Vec<_>>().join(".br\n");
    page += ".SH DESCRIPTION\n";
    match verb.about {
        [] => page += &format!("{}.\n", escaped(&capital(verb.says))),
        about => page += &paragraphs(about),
    }
    for argument in verb.all_arguments() {
        let (name, says) = (escaped(argument.name), escaped(argument.says));
        page += &format!(".TP\n.I {name}\n{says}\n");
    }
    page += ".SH OPTIONS\n";
    for option in verb.all_options() {
        let name = escaped(option.name);
        page += &match option.value {
            Some((value, _)) => format!(".TP\n.BI {name} \" {value}\"\n"),
            None => format!(".TP\n.B {name}\n"),
        };
        page += &format!("{}\n", escaped(option.says));
    }
    if !verb.examples.is_empty() {
        page += ".SH EXAMPLES\n";
        for (words, says) in verb.examples {
            let (words, says) = (escaped(words), escaped(says));
            page += &format!(".TP\n.B cableowl {words}\n{says}\n");
        }
    }
    page += ".SH EXIT STATUS\n";
    for (status, says) in verb.statuses {
        page += &format!(".TP\n.B {status}\n{}\n", escaped(says));
    }
    page + &see_also(["cableowl"].into_iter())
}

fn head(title: &str, name: &str, says: &str) -> String {
    let version = env!("CARGO_PKG_VERSION");
    let (title, name, says) = (escaped(title), escaped(name), escaped(says));
    format!(".TH {title} 1 \"\" \"Cableowl {version}\" \"Cableowl\"\n.SH NAME\n{name} \\- {says}\n")
}

fn see_also<'a>(pages: impl Iterator<Item = &'a str>) -> String {
    let pages: Vec<String> = pages
        .map(|page| format!(".BR {} (1)", escaped(page)))
        .collect();
    format!(".SH SEE ALSO\n{}\n", pages.join(",\n"))
}

fn paragraphs(about: &[&str]) -> String {
    let each = about.iter().map(|text| format!("{}\n", escaped(text)));
    each.collect::<Vec<_>>().join(".PP\n")
}

fn capital(text: &str) -> String {
    let mut letters = text.chars();
    let first = letters.next().map(|letter| letter.to_ascii_uppercase());
    first.into_iter().chain(letters).collect()
}

/// Text escaped for groff.
fn escaped(text: &str) -> String {
    let text = text.replace('\\', "\\e").replace('-', "\\-");
    match text.starts_with(['.', '\'']) {
        true => format!("\\&{text}"),
        false => text,
    }
}
