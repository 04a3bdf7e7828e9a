//! What all pages share: one file that fetches nothing, for light, dark and print. A page can be read without its
//! script, which sorts tables and opens a row's plots below it.

use crate::{fault::Result, out::PAGE_MARK, plot::escaped, table::spaced};

/// The style of the pages. A plot is drawn 1,440 units wide and scaled to the page, so its text is enlarged on a narrow
/// page: no text is below 11 px.
const STYLE: &str = include_str!("page/style.css");

const SCRIPT: &str = include_str!("page/script.js");

/// The number of columns that a table shows before all are asked for, including the first.
pub const FEW: usize = 11;

/// Where a page's text is written.
pub type Sink<'a> = dyn FnMut(&str) -> Result<()> + 'a;

/// A page's beginning.
pub fn head(title: &str, put: &mut Sink<'_>) -> Result<()> {
    let title = escaped(title);
    put(PAGE_MARK)?;
    put("<html lang=\"en\">\n<head>\n<meta charset=\"utf-8\">\n")?;
    put("<meta name=\"viewport\" content=\"width=device-width, initial-scale=1\">\n")?;
    put(&format!(
        "<title>{title}</title>\n<style>\n{STYLE}</style>\n</head>\n<body>\n<h1>{title}</h1>\n"
    ))
}

/// A page's end.
pub fn foot(put: &mut Sink<'_>) -> Result<()> {
    put(&format!("<script>\n{SCRIPT}</script>\n</body>\n</html>\n"))
}

/// A paragraph in smaller letters.
pub fn note(says: &str) -> String {
    format!("<p class=\"note\">{}</p>\n", escaped(says))
}

/// A table that can be sorted, and saved as comma separated values.
pub struct Table<'a> {
    /// Its name, which is also its file's name without `.csv`.
    pub id: &'a str,
    /// More classes.
    pub class: &'a str,
    /// The columns: the name in comma separated values, and the heading for people.
    pub columns: Vec<(&'a str, &'a str)>,
    /// The rows that are sorted.
    pub rows: Vec<Row>,
    /// Rows for all of them together.
    pub over: Vec<Row>,
    /// The same figures as comma separated values.
    pub csv: String,
}

/// A row of a page's table.
pub struct Row {
    /// The number of the section that it opens.
    pub opens: Option<usize>,
    /// Its cells as in the comma separated values; `None` if the log does not contain the figure.
    pub cells: Vec<Option<String>>,
}

impl Table<'_> {
    /// Writes it.
    pub fn put(&self, put: &mut Sink<'_>) -> Result<()> {
        let (id, class) = (self.id, self.class);
        put("<div>\n")?;
        let few = match self.columns.len() > FEW {
            true => {
                put(&format!(
                    "<input type=\"checkbox\" class=\"all\" id=\"{id}-all\"> <label class=\"tools\" for=\"{id}-all\">All columns</label>\n"
                ))?;
                " few"
            }
            false => "",
        };
        put(&format!(
            "<div class=\"scroll\"><table id=\"{id}\" class=\"sorts{few} {class}\">\n<thead><tr>"
        ))?;
        for (column, words) in &self.columns {
            put(&format!(
                "<th data-column=\"{column}\">{}</th>",
                escaped(words)
            ))?;
        }
        put("</tr></thead>\n<tbody>\n")?;
        for row in &self.rows {
            put(&row.text())?;
        }
        put("</tbody>\n")?;
        if !self.over.is_empty() {
            put("<tbody class=\"over\">\n")?;
            for row in &self.over {
                put(&row.text())?;
            }
            put("</tbody>\n")?;
        }
        put("</table></div>\n")?;
        let csv = escaped_lines(&self.csv);
        put(&format!(
            "<pre class=\"csv\" hidden data-file=\"{id}.csv\">{csv}</pre>\n</div>\n"
        ))
    }
}

impl Row {
    fn text(&self) -> String {
        let mut text = String::from("<tr>");
        for (index, cell) in self.cells.iter().enumerate() {
            let says = match (cell, index) {
                (None, _) => "–".to_owned(),
                (Some(name), 0) => escaped(name),
                (Some(figure), _) => escaped(&spaced(figure)),
            };
            text += &match self.opens.filter(|_| index == 0) {
                Some(number) => format!("<td><a href=\"#evening-{number}\">{says}</a>"),
                None => format!("<td>{says}"),
            };
        }
        text + "\n"
    }
}

/// A section that a row opens. A section that is alone on its page is always open. With a script, a browser takes what
/// is inside `noscript` as text, and does not draw it until it is asked for.
pub fn section(number: usize, alone: bool, title: &str, body: &str) -> String {
    let title = escaped(title);
    let section = |class| {
        format!(
            "<section class=\"{class}\" id=\"evening-{number}\"><h3>{title}</h3>\n{body}</section>"
        )
    };
    match alone {
        true => section("evening alone") + "\n",
        false => format!(
            "<noscript data-of=\"#evening-{number}\">{}</noscript>\n",
            section("evening")
        ),
    }
}

fn escaped_lines(text: &str) -> String {
    let lines: Vec<String> = text.split('\n').map(escaped).collect();
    lines.join("\n")
}

#[cfg(test)]
mod tests {
    use super::*;

    #[test]
    fn the_style_hides_the_columns_after_the_few() {
        let rule = format!(".few tr>:nth-child(n+{})", FEW + 1);
        assert!(STYLE.contains(&rule), "{rule}");
    }
}
