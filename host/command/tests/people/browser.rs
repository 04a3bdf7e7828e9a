//! The page in a real browser: it shows what the comma separated values contain.

use std::{
    fs,
    path::Path,
    process::{Command, Stdio},
};

use crate::{
    report::{busy, cell, csv},
    room::{Room, looped, three},
};

/// A browser from the system's packages, or none, with a loud message.
fn browser() -> Option<&'static str> {
    let names = ["chromium", "chromium-browser", "google-chrome"];
    let is_there = |name: &&&str| {
        let mut version = Command::new(name);
        version
            .arg("--version")
            .stdout(Stdio::null())
            .stderr(Stdio::null());
        version.status().is_ok_and(|status| status.success())
    };
    let found = names.iter().find(is_there).copied();
    if found.is_none() {
        eprintln!("SKIPPED: no chromium here, so no page was opened in a browser");
    }
    found
}

/// The page's elements after the browser has loaded it.
fn opened(browser: &str, room: &Room, page: &str, words: &[&str]) -> String {
    let profile = room.0.join("profile");
    let output = Command::new(browser)
        .args([
            "--headless",
            "--no-sandbox",
            "--disable-gpu",
            "--disable-dev-shm-usage",
            "--dump-dom",
        ])
        .args(words.iter().filter(|word| !word.is_empty()))
        .arg(format!("--user-data-dir={}", profile.display()))
        .arg(format!("file://{}", room.0.join(page).display()))
        .output()
        .expect("a browser");
    let dom = String::from_utf8_lossy(&output.stdout).into_owned();
    assert!(output.status.success() && dom.contains("</html>"), "{dom}");
    dom
}

/// The rows of the table with this name in the browser: each column's name and its text.
fn rows(dom: &str, id: &str) -> Vec<Vec<(String, String)>> {
    let table = dom.split(&format!("<table id=\"{id}\"")).nth(1);
    let table = table.and_then(|rest| rest.split("</table>").next());
    let (head, body) = table
        .expect("the table")
        .split_once("</thead>")
        .expect("its head");
    let columns = head.split("data-column=\"").skip(1);
    let columns: Vec<&str> = columns.filter_map(|rest| rest.split('"').next()).collect();
    let row = |row: &str| {
        let cells = row.split("<td").skip(1).map(|cell| {
            let (_, rest) = cell.split_once('>').expect("a cell");
            let (inside, _) = rest.split_once("</td>").expect("its end");
            let text = match inside
                .strip_prefix("<a ")
                .and_then(|link| link.split_once('>'))
            {
                Some((_, text)) => text.trim_end_matches("</a>"),
                None => inside,
            };
            text.trim_end().replace(',', "")
        });
        let cells: Vec<String> = cells.collect();
        assert_eq!(cells.len(), columns.len(), "{row}");
        let named = columns.iter().map(|column| (*column).to_owned());
        named.zip(cells).collect()
    };
    body.split("<tr").skip(1).map(row).collect()
}

/// Compares each figure of a page's table with the comma separated values. Returns how many there are.
fn same_figures(values: &[Vec<(String, String)>], shown: &[Vec<(String, String)>]) -> usize {
    assert_eq!(values.len(), shown.len());
    let mut compared = 0;
    for (values, shown) in values.iter().zip(shown) {
        for (column, text) in shown {
            let expected = cell(values, column);
            let expected = if expected.is_empty() && column != "form" {
                "–"
            } else {
                expected
            };
            assert_eq!(text, expected, "{column}");
            compared += 1;
        }
    }
    compared
}

/// Three evenings, one in a form that contains fewer figures.
fn three_logs(room: &Room) {
    for (name, trace, form) in [
        ("a", looped(), "3"),
        ("b", three(), "3"),
        ("c", looped(), "1"),
    ] {
        let log = room.run_on(&["replay", "--log", form, "-"], &trace).out;
        room.put(&format!("{name}_2026-11-09.log"), log);
    }
}

const THREE: [&str; 3] = ["a_2026-11-09.log", "b_2026-11-09.log", "c_2026-11-09.log"];

#[test]
fn the_page_shows_the_figures_of_the_values() {
    let Some(browser) = browser() else {
        return;
    };
    let room = Room::new("browser");
    three_logs(&room);
    let words = ["report", "--rate", "1", "--csv", "--html", "page.html"];
    let ran = room.run(&[&words[..], &THREE].concat());
    assert_eq!((ran.status, &*ran.err), (0, ""));
    let dom = opened(browser, &room, "page.html", &[]);
    let mut compared = same_figures(&csv(&ran.out), &rows(&dom, "figures"));
    assert_eq!(dom.matches("<svg ").count(), 3);
    assert_eq!(dom.matches("</svg>").count(), 3);
    assert!(!dom.contains("parsererror"));
    draws(browser, &room);
    let words = [&words[..], &["--by", "box"]].concat();
    let values = csv(&room.run(&[&words[..], &THREE].concat()).out);
    let dom = opened(browser, &room, "page.html", &[]);
    compared += same_figures(&values[..3], &rows(&dom, "groups-table"));
    room.put("a.trace", looped());
    fs::create_dir(room.0.join("week")).unwrap();
    room.put("week/a.trace", looped());
    room.put(
        "week/a.log",
        room.read(THREE[2]).replace("steps=5", "steps=4"),
    );
    room.put("week/b.log", room.read(THREE[1]));
    let values = room
        .run(&["audit", "--csv", "--html", "page.html", "week"])
        .out;
    let values = csv(&values.replace(", ", " ").replace('"', ""));
    let dom = opened(browser, &room, "page.html", &[]);
    let shown = rows(&dom, "evenings");
    compared += same_figures(&values[..2], &shown);
    eprintln!("{compared} figures of three pages are those of the values");
}

/// A script at the end of a copy of a page. It does things, and puts the results in the page's title.
fn with_script(room: &Room, page: &str, script: &str) {
    let text = room.read(page);
    let end = format!("<script>{script}</script></body>");
    room.put(page, text.replace("</body>", &end));
}

fn title(dom: &str) -> String {
    let title = dom.split("<title>").nth(1).expect("a title");
    title.split("</title>").next().expect("its end").to_owned()
}

#[test]
fn tables_are_sorted_rows_open_their_plots_and_figures_are_saved() {
    let Some(browser) = browser() else {
        return;
    };
    let room = Room::new("browser-script");
    three_logs(&room);
    let words = ["report", "--rate", "1", "--csv", "--html", "page.html"];
    let values = room.run(&[&words[..], &THREE].concat()).out;
    with_script(
        &room,
        "page.html",
        "const table = document.getElementById('figures'), body = table.tBodies[0];
        const order = () => [...body.rows].map(row => row.cells[0].textContent[0]).join('');
        const click = column => table.querySelector(`th[data-column=${column}] button`).click();
        const shown = () => [...document.querySelectorAll('svg')].filter(svg => svg.checkVisibility()).length;
        const said = [order()];
        for (const column of ['name', 'name', 'seeks', 'seeks', 'minutes']) { click(column); said.push(order()); }
        said.push(shown());
        body.rows[1].cells[3].click();
        said.push(shown(), body.rows[2].className, body.rows[2].querySelectorAll('svg').length);
        body.rows[1].querySelector('a').click();
        said.push(shown(), body.rows.length);
        document.title = said.join(' ');
        fetch(document.querySelector('a[download]').href).then(file => file.text()).then(text => {
          const saved = document.createElement('pre');
          saved.id = 'saved';
          saved.textContent = text;
          document.body.append(saved);
        });",
    );
    let dom = opened(browser, &room, "page.html", &["--virtual-time-budget=3000"]);
    // By name in both directions; by seeks, which c does not contain; by minutes, of which b has fewest.
    assert_eq!(title(&dom), "abc abc cba abc bac acb 0 1 opened 1 0 3");
    let saved = dom
        .split("<pre id=\"saved\">")
        .nth(1)
        .expect("the saved file");
    assert_eq!(saved.split("</pre>").next(), Some(&*values));
}

#[test]
fn a_page_of_300_evenings_opens_without_drawing_them() {
    let Some(browser) = browser() else {
        return;
    };
    let room = Room::new("browser-large");
    let names = busy(&room, 300);
    let words: Vec<&str> = names.iter().map(String::as_str).collect();
    room.run(&[&["report", "--html", "page.html"], &words[..]].concat());
    with_script(
        &room,
        "page.html",
        "const elements = document.querySelectorAll('*').length + ' elements, ';
        document.body.offsetHeight;
        document.title = elements + Math.round(performance.now()) + ' ms';",
    );
    let title = title(&opened(browser, &room, "page.html", &[]));
    // The time depends on the machine's load; the elements do not.
    eprintln!("300 evenings are opened and laid out: {title}");
    let elements = title
        .split(' ')
        .next()
        .and_then(|count| count.parse::<u32>().ok());
    assert!(elements.is_some_and(|count| count < 12_000), "{title}");
}

/// Returns the smallest text as it is drawn, and whether the colours are dark.
const MEASURES: &str = "
for (const link of document.querySelectorAll('td a')) link.click();
let smallest = 1000;
const walk = document.createTreeWalker(document.body, NodeFilter.SHOW_TEXT);
while (walk.nextNode()) {
  const text = walk.currentNode, holder = text.parentElement;
  if (!text.data.trim() || ['SCRIPT', 'STYLE', 'TITLE', 'title'].includes(holder.tagName)) continue;
  const scale = holder.getScreenCTM && holder.ownerSVGElement ? holder.getScreenCTM().a : 1;
  smallest = Math.min(smallest, scale * parseFloat(getComputedStyle(holder).fontSize));
}
const dark = matchMedia('(prefers-color-scheme: dark)').matches;
document.title = 'smallest=' + smallest.toFixed(2) + ' back=' + getComputedStyle(document.body).backgroundColor + ' dark=' + dark;
";

#[test]
fn no_text_is_under_11_px_at_any_width_and_there_is_a_dark_mode() {
    let Some(browser) = browser() else {
        return;
    };
    let room = Room::new("browser-sizes");
    room.put("a.trace", looped());
    room.put("b.log", room.run(&["replay", "a.trace"]).out);
    room.run(&[
        "report",
        "--rate",
        "1",
        "--html",
        "report.html",
        "a.trace",
        "b.log",
    ]);
    room.run(&["audit", "--html", "audit.html", "a.trace", "b.log"]);
    for page in ["report.html", "audit.html"] {
        with_script(&room, page, MEASURES);
        for (width, mode, back) in [
            (1_100, "", "rgb(255, 255, 255)"),
            (800, "", "rgb(255, 255, 255)"),
            (500, "", "rgb(255, 255, 255)"),
            (500, "--force-dark-mode", "rgb(20, 24, 30)"),
        ] {
            let size = format!("--window-size={width},900");
            let dom = opened(browser, &room, page, &[&size, mode]);
            let title = title(&dom);
            let (smallest, rest) = title.split_once(" back=").expect("what was measured");
            let smallest = smallest.trim_start_matches("smallest=").parse::<f64>();
            let smallest = smallest.expect("a number");
            assert!(
                (11.0..30.0).contains(&smallest),
                "{page} at {width}: {title}"
            );
            let dark = !mode.is_empty();
            assert_eq!(rest, format!("{back} dark={dark}"), "{page} at {width}");
            eprintln!("{page} at {width} px, dark {dark}: the smallest text has {smallest} px");
        }
    }
}

/// The browser draws the page as well.
fn draws(browser: &str, room: &Room) {
    let picture = room.0.join("page.png");
    let status = Command::new(browser)
        .args([
            "--headless",
            "--no-sandbox",
            "--disable-gpu",
            "--disable-dev-shm-usage",
            "--window-size=1100,1600",
        ])
        .arg(format!(
            "--user-data-dir={}",
            room.0.join("profile").display()
        ))
        .arg(format!("--screenshot={}", picture.display()))
        .arg(format!("file://{}", room.0.join("page.html").display()))
        .stdout(Stdio::null())
        .stderr(Stdio::null())
        .status();
    assert!(status.is_ok_and(|status| status.success()));
    let size = Path::new(&picture)
        .metadata()
        .map_or(0, |picture| picture.len());
    assert!(size > 10_000, "a picture of {size} bytes");
}
