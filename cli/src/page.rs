//! The test sheet as plain text of a page's width, and as one HTML file.

use crate::sheet::{Outcome, Part};
use reckonbough::VERSION;

const WIDTH: usize = 80;
const LABEL: usize = 12;
const TITLE: &str = "Reckonbough: test sheet";

/// The line at the end: `PASSED`, or `FAILED` with the reason.
pub fn verdict(parts: &[Part]) -> String {
    let many = |outcome| parts.iter().filter(|part| part.outcome == outcome).count();
    let kinds = [
        (Outcome::Unreadable, "unreadable"),
        (Outcome::Refused, "refused"),
        (Outcome::OverBudget, "over budget"),
        (Outcome::Disagree, "with engines that disagree"),
        (Outcome::FailedCheck, "failed its check"),
    ];
    let counted = kinds.map(|(outcome, word)| (many(outcome), word));
    let reasons: Vec<String> =
        counted.iter().filter(|(many, _)| *many > 0).map(|(many, word)| format!("{many} {word}")).collect();
    if reasons.is_empty() {
        "PASSED".into()
    } else {
        format!("FAILED: {}", reasons.join(", "))
    }
}

/// What stands at the end, before the verdict.
fn closing(parts: &[Part]) -> [(&'static str, String); 2] {
    [("library", format!("reckonbough {VERSION}")), ("files", parts.len().to_string())]
}

pub fn text(parts: &[Part]) -> String {
    let mut text = format!("{TITLE}\n\n");
    for part in parts {
        text += &wrapped("", 0, &part.name);
        part.rows.iter().for_each(|(label, value)| text += &row(label, value));
        text.push('\n');
    }
    closing(parts).iter().for_each(|(label, value)| text += &row(label, value));
    text + &verdict(parts) + "\n"
}

fn row(label: &str, value: &str) -> String {
    wrapped(&format!("  {label}"), LABEL + 2, value)
}

/// The value behind its label, in lines of the page's width: cut at spaces, and inside a word that is longer than a line.
fn wrapped(label: &str, indent: usize, value: &str) -> String {
    let mut lines = vec![String::new()];
    for word in value.split(' ') {
        let mut rest: Vec<char> = word.chars().collect();
        let used = lines.last().map_or(0, |line| line.chars().count());
        if used > 0 && used + 1 + rest.len() > WIDTH - indent {
            lines.push(String::new());
        } else if used > 0 {
            push(&mut lines, " ");
        }
        while rest.len() > WIDTH - indent {
            let tail = rest.split_off(WIDTH - indent);
            push(&mut lines, &rest.iter().collect::<String>());
            lines.push(String::new());
            rest = tail;
        }
        push(&mut lines, &rest.iter().collect::<String>());
    }
    let mut text = String::new();
    for (index, line) in lines.iter().enumerate() {
        let label = if index == 0 { label } else { "" };
        text += format!("{label:indent$}{line}").trim_end();
        text.push('\n');
    }
    text
}

fn push(lines: &mut [String], piece: &str) {
    if let Some(line) = lines.last_mut() {
        line.push_str(piece);
    }
}

const STYLE: &str = "body{font:16px/1.4 sans-serif;max-width:50em;margin:2em auto;padding:0 1em}\
h2{font-size:1em;margin:1.5em 0 .2em;overflow-wrap:anywhere}table{border-collapse:collapse}\
th{text-align:left;font-weight:normal;color:#555;padding-right:1.5em;vertical-align:top}\
td{font-family:monospace;overflow-wrap:anywhere}.verdict{font-weight:bold;margin-top:1.5em}";

pub fn html(parts: &[Part]) -> String {
    let mut text = format!(
        "<!DOCTYPE html>\n<html lang=\"en\">\n<head>\n<meta charset=\"utf-8\">\n<title>{TITLE}</title>\n\
         <style>{STYLE}</style>\n</head>\n<body>\n<h1>{TITLE}</h1>\n"
    );
    for part in parts {
        text += &format!("<h2>{}</h2>\n{}", escaped(&part.name), table(&part.rows));
    }
    text += &format!("<h2>All files</h2>\n{}", table(&closing(parts)));
    text + &format!("<p class=\"verdict\">{}</p>\n</body>\n</html>\n", escaped(&verdict(parts)))
}

fn table(rows: &[(&'static str, String)]) -> String {
    let row = |(label, value): &(&str, String)| format!("<tr><th>{label}</th><td>{}</td></tr>\n", escaped(value));
    format!("<table>\n{}</table>\n", rows.iter().map(row).collect::<String>())
}

fn escaped(text: &str) -> String {
    text.replace('&', "&amp;").replace('<', "&lt;").replace('>', "&gt;").replace('"', "&quot;")
}
