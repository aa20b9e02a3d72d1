//! An explanation as one page for a browser, with nothing outside it.
use super::{words, Explanation};
use std::fmt::Write as _;

const STYLE: &str = "
:root { color-scheme: light dark; --paper: #fff; --ink: #1c2430; --faint: #6b7684; --line: #e3e7ec;
  --card: #f6f8fa; --bad: #b42318; --bad-paper: #fdecea; --near: #8a5a00; --near-paper: #fff6dd; }
@media (prefers-color-scheme: dark) { :root { --paper: #14181d; --ink: #dde3ea; --faint: #8d98a5;
  --line: #2a323b; --card: #1b2128; --bad: #ff8f84; --bad-paper: #3a1b19; --near: #f2c261;
  --near-paper: #33290f; } }
* { box-sizing: border-box; }
body { margin: 0; background: var(--paper); color: var(--ink);
  font: 16px/1.55 system-ui, -apple-system, 'Segoe UI', Roboto, 'Helvetica Neue', Arial, sans-serif; }
main { max-width: 76rem; margin: 0 auto; padding: 2.5rem 1.5rem 5rem; }
h1 { font-size: 1.7rem; line-height: 1.25; margin: 0 0 .3rem; }
h2 { font-size: 1rem; margin: 0 0 .4rem; }
p { margin: 0; max-width: 46rem; }
.file { color: var(--faint); margin-bottom: 1.6rem; overflow-wrap: anywhere; }
.cards { display: grid; gap: 1rem; grid-template-columns: repeat(auto-fit, minmax(20rem, 1fr));
  margin-bottom: 1.6rem; }
.card { background: var(--card); border: 1px solid var(--line); border-radius: .6rem;
  padding: 1rem 1.2rem; }
a { color: inherit; }
.scroll { overflow-x: auto; border: 1px solid var(--line); border-radius: .6rem;
  margin-bottom: 1.6rem; }
table { border-collapse: collapse; width: 100%; font: .85rem/1.5 ui-monospace, SFMono-Regular,
  Menlo, Consolas, 'DejaVu Sans Mono', monospace; }
th { font-weight: 600; text-align: left; color: var(--faint); border-bottom: 1px solid var(--line); }
th, td { padding: .1rem .8rem; vertical-align: top; }
td.n, th.n { text-align: right; color: var(--faint); white-space: nowrap;
  font-variant-numeric: tabular-nums; }
td.b { color: var(--faint); min-width: 15rem; max-width: 24rem; }
td.t { white-space: pre-wrap; overflow-wrap: anywhere; min-width: 24rem; }
tr:target, tr.bad { background: var(--bad-paper); }
tr.bad td { padding-top: .35rem; padding-bottom: .35rem; }
tr.bad td.n:first-child { color: var(--bad); font-weight: 700; box-shadow: inset 4px 0 var(--bad); }
tr.near { background: var(--near-paper); }
tr.near td.n:first-child { box-shadow: inset 4px 0 var(--near); }
mark { background: none; color: var(--bad); font-weight: 700; text-decoration: underline wavy
  var(--bad) 1px; text-underline-offset: .25em; }
.note { display: block; white-space: normal; font-family: system-ui, sans-serif; }
.bad .note { color: var(--bad); }
.near .note { color: var(--near); }
";

/// Bytes of a record that are shown.
const BYTES: usize = 48;

/// Letters of a record's text that are shown.
const TEXT: usize = 600;

/// Text as a page may have it.
fn escaped(text: &str) -> String {
    let mut out = String::new();
    for letter in text.chars() {
        match letter {
            '&' => out.push_str("&amp;"),
            '<' => out.push_str("&lt;"),
            '>' => out.push_str("&gt;"),
            '"' => out.push_str("&quot;"),
            _ => out.push(letter),
        }
    }
    out
}

impl Explanation<'_> {
    /// A page that shows the whole template with the record at fault marked.
    /// `file` is what the template is called.
    pub fn html(&self, file: &str) -> String {
        let title = self.title();
        let mut page = format!(
            "<!DOCTYPE html>\n<html lang=\"en\">\n<head>\n<meta charset=\"utf-8\">\n\
             <meta name=\"viewport\" content=\"width=device-width, initial-scale=1\">\n\
             <title>{}: {}</title>\n<style>{STYLE}</style>\n</head>\n<body>\n<main>\n",
            escaped(file),
            escaped(&title)
        );
        self.body(&mut page, file, &title)
            .expect("a string takes all");
        page + "</main>\n</body>\n</html>\n"
    }

    fn body(&self, page: &mut String, file: &str, title: &str) -> std::fmt::Result {
        writeln!(page, "<h1>{}</h1>", escaped(&capital(title)))?;
        writeln!(page, "<p class=\"file\">{}</p>", escaped(file))?;
        if let Some(words) = words(self.refusal.number) {
            writeln!(page, "<div class=\"cards\">")?;
            for (head, text) in [
                ("What it means", &words.meaning),
                ("What to do", &words.advice),
            ] {
                writeln!(
                    page,
                    "<section class=\"card\"><h2>{head}</h2><p>{}</p></section>",
                    escaped(text)
                )?;
            }
            writeln!(page, "</div>")?;
        }
        let shown = self.shown();
        if !shown.is_empty() || self.bytes().is_some() {
            writeln!(page, "<h2>The record, and what stands around it</h2>")?;
            self.table(page, &shown, false)?;
        }
        writeln!(page, "<h2>The whole template</h2>")?;
        let all: Vec<usize> = (0..self.account.rows.len()).collect();
        self.table(page, &all, true)
    }

    /// Some rows, and what could not be read. Of the whole template each row has
    /// a mark of its own, to which those of the other table lead.
    fn table(&self, page: &mut String, rows: &[usize], whole: bool) -> std::fmt::Result {
        writeln!(
            page,
            "<div class=\"scroll\"><table>\n<tr><th class=\"n\">record</th>\
             <th class=\"n\">offset</th><th>bytes</th><th>what it says</th></tr>"
        )?;
        let gap = "<tr><td class=\"n\">..</td><td></td><td></td><td></td></tr>";
        let mut next = 0;
        for &at in rows {
            if at > next {
                writeln!(page, "{gap}")?;
            }
            next = at + 1;
            self.html_row(page, at, whole)?;
        }
        if let (Some((bytes, at)), Some(fault)) = (self.bytes(), self.account.fault) {
            let (before, rest) = bytes.split_at(at.min(bytes.len()));
            let (byte, after) = rest.split_at(rest.len().min(2));
            let byte = if byte.is_empty() { "(nothing)" } else { byte };
            writeln!(
                page,
                "<tr class=\"bad\"{0}<td class=\"n\">{1}</td>\
                 <td class=\"b\">{before}<mark>{byte}</mark>{after}</td>\
                 <td class=\"t\"><span class=\"note\">{2}</span></td></tr>",
                number(fault.refusal.record as usize, whole),
                self.account.read(),
                escaped(&self.finding.note)
            )?;
        }
        writeln!(page, "</table></div>")
    }

    /// A record of the template.
    fn html_row(&self, page: &mut String, at: usize, whole: bool) -> std::fmt::Result {
        let row = &self.account.rows[at];
        let is_bad = Some(at) == self.row();
        let near: Vec<&str> = self
            .finding
            .beside
            .iter()
            .filter(|(row, _)| *row == at)
            .map(|(_, why)| why.as_str())
            .collect();
        let class = match (is_bad, near.is_empty()) {
            (true, _) => " class=\"bad\"",
            (false, false) => " class=\"near\"",
            (false, true) => "",
        };
        let indent = "  ".repeat(row.depth);
        let mut text = match row.text.get(..TEXT) {
            Some(start) if !is_bad => escaped(start) + " ..",
            _ => escaped(&row.text),
        };
        if is_bad {
            let (from, length) = self.marked(&row.text);
            text = format!(
                "{}<mark>{}</mark>{}",
                escaped(&row.text[..from]),
                escaped(&row.text[from..from + length]),
                escaped(&row.text[from + length..])
            );
        }
        let notes = near
            .into_iter()
            .chain(is_bad.then_some(&*self.finding.note));
        for note in notes.filter(|note| !note.is_empty()) {
            write!(text, "<span class=\"note\">{}</span>", escaped(note))?;
        }
        let bytes = row.record.bytes;
        let more = if bytes.len() > BYTES { " .." } else { "" };
        writeln!(
            page,
            "<tr{class}{}<td class=\"n\">{}</td>\
             <td class=\"b\">{}{more}</td><td class=\"t\">{indent}{text}</td></tr>",
            number(at, whole),
            row.record.offset,
            crate::stream::hex(&bytes[..bytes.len().min(BYTES)])
        )
    }
}

/// The end of a row's mark, and the cell with its record's number.
fn number(at: usize, whole: bool) -> String {
    match whole {
        true => format!(" id=\"r{at}\"><td class=\"n\">{at}</td>"),
        false => format!("><td class=\"n\"><a href=\"#r{at}\">{at}</a></td>"),
    }
}

/// With a capital letter.
fn capital(text: &str) -> String {
    let mut letters = text.chars();
    match letters.next() {
        Some(first) => first.to_uppercase().chain(letters).collect(),
        None => String::new(),
    }
}
