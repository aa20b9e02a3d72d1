//! Why a stream was refused, in words: the record as a line of the template with
//! the lines around it, what the refusal means, and what to do.
//!
//! ```
//! use barrizuppa::{explain::explain, Refusal};
//!
//! // A function with a parameter x, and an instruction that says y.
//! let stream = b"\x03\0\0\0\0\x01\x01x\x7F\x01\x7F\0\x20\x02\x01y\xFF";
//! let explained = explain(stream, Refusal::new(14, 1)).to_string();
//! assert!(explained.starts_with("refused 14 at 1: nothing has that name\n"));
//! assert!(explained.contains("no parameter or local of this function is named y"));
//! ```
mod finding;
mod html;
mod words;

pub use words::{words, Words};

use crate::stream::{account, Account, Row};
use crate::Refusal;
use finding::Finding;
use std::fmt;

/// Lines of the template that are shown before and after a record.
const AROUND: usize = 3;

/// The longest line of the template that is shown whole.
const LINE: usize = 100;

/// Bytes that are shown before and after the one at fault.
const BYTES: usize = 12;

/// A refusal of a stream, explained. Shown, it is a text of some lines;
/// [`html`](Explanation::html) is a page.
#[derive(Clone, Debug)]
pub struct Explanation<'a> {
    refusal: Refusal,
    account: Account<'a>,
    finding: Finding,
}

/// Explains the refusal that the assembler gave of a stream.
pub fn explain(stream: &[u8], refusal: Refusal) -> Explanation<'_> {
    let account = account(stream);
    let finding = finding::find(&account, refusal);
    Explanation {
        refusal,
        account,
        finding,
    }
}

impl<'a> Explanation<'a> {
    /// What is explained.
    pub fn refusal(&self) -> Refusal {
        self.refusal
    }

    /// The stream's records.
    pub fn account(&self) -> &Account<'a> {
        &self.account
    }

    /// The refusal in a line.
    pub fn title(&self) -> String {
        let words = words(self.refusal.number);
        let title = words.map_or(self.refusal.meaning().to_string(), |words| words.title);
        format!("{}: {title}", self.refusal.line())
    }

    /// The record's row, if it could be read.
    fn row(&self) -> Option<usize> {
        let row = self.refusal.record as usize;
        (row < self.account.rows.len() && self.has_record()).then_some(row)
    }

    /// Does a record hold the fault?
    fn has_record(&self) -> bool {
        !matches!(self.refusal.number, 1 | 10 | 18)
    }

    /// The rows to show, in order: those beside the record, the head of its
    /// function, and those around it.
    fn shown(&self) -> Vec<usize> {
        let rows = &self.account.rows;
        if !self.has_record() || rows.is_empty() {
            return Vec::new();
        }
        let row = (self.refusal.record as usize).min(rows.len());
        let last = (row + AROUND).min(rows.len() - 1);
        let mut shown: Vec<usize> = (row.saturating_sub(AROUND)..=last).collect();
        shown.extend(self.finding.beside.iter().map(|(row, _)| *row));
        shown.extend(
            (0..row.min(rows.len()))
                .rev()
                .find(|at| rows[*at].depth == 0),
        );
        shown.sort_unstable();
        shown.dedup();
        shown
    }

    /// Where in a record's text the part at fault stands, and its length. The
    /// text is ASCII, so bytes are letters.
    fn marked(&self, text: &str) -> (usize, usize) {
        let part = self.finding.marked.as_deref();
        part.and_then(|part| find_word(text, part, self.finding.last))
            .unwrap_or((0, text.len()))
    }

    /// A line of the template; of the record at fault also what to mark in it.
    /// A long line is cut, so that the mark is to be seen.
    fn line(&self, row: usize) -> (String, Option<(usize, usize)>) {
        let Row { text, depth, .. } = &self.account.rows[row];
        let is_fault = Some(row) == self.row();
        let (at, length) = if is_fault { self.marked(text) } else { (0, 0) };
        let from = if at + length > LINE {
            at.saturating_sub(LINE / 2)
        } else {
            0
        };
        let to = text.len().min(from + LINE);
        let indent = "  ".repeat(*depth);
        let before = if from > 0 { ".. " } else { "" };
        let after = if to < text.len() { " .." } else { "" };
        let line = format!("{indent}{before}{}{after}", &text[from..to]);
        let mark = (indent.len() + before.len() + at - from, length.min(to - at));
        (line, is_fault.then_some(mark))
    }

    /// The bytes around a reading fault, and where among them it stands.
    fn bytes(&self) -> Option<(String, usize)> {
        let fault = self.account.fault?;
        if fault.refusal != self.refusal || !self.has_record() {
            return None;
        }
        let at = fault.offset - self.account.read();
        let from = at.saturating_sub(BYTES);
        let to = (at + BYTES).min(self.account.rest.len());
        let before = if from > 0 { ".. " } else { "" };
        let after = if to < self.account.rest.len() {
            " .."
        } else {
            ""
        };
        let bytes = crate::stream::hex(&self.account.rest[from..to]);
        Some((
            format!("{before}{bytes}{after}"),
            before.len() + 3 * (at - from),
        ))
    }
}

/// Where a part stands as a word of its own in a text, in characters: the first
/// place, or the last.
fn find_word(text: &str, part: &str, last: bool) -> Option<(usize, usize)> {
    let ends = |byte: Option<&u8>| byte.map_or(true, |byte| matches!(byte, b' ' | b'(' | b')'));
    let mut places = text.match_indices(part).map(|(at, _)| at).filter(|at| {
        let (before, after) = (&text.as_bytes()[..*at], &text.as_bytes()[at + part.len()..]);
        ends(before.last()) && ends(after.first())
    });
    let at = if last { places.last() } else { places.next() }?;
    Some((at, part.len()))
}

/// A paragraph in lines of at most so many characters.
fn wrapped(text: &str, width: usize) -> String {
    let mut lines = vec![String::new()];
    for word in text.split_whitespace() {
        let line = lines.last_mut().expect("there is a line");
        if line.is_empty() {
            line.push_str(word);
        } else if line.chars().count() + 1 + word.chars().count() <= width {
            line.push(' ');
            line.push_str(word);
        } else {
            lines.push(word.to_string());
        }
    }
    lines.join("\n")
}

impl fmt::Display for Explanation<'_> {
    fn fmt(&self, f: &mut fmt::Formatter<'_>) -> fmt::Result {
        writeln!(f, "{}", self.title())?;
        let shown = self.shown();
        let number = self.refusal.record as usize;
        let bytes = self.bytes();
        if !shown.is_empty() || bytes.is_some() {
            writeln!(f)?;
        }
        let mut next = 0;
        for row in shown {
            if row > next {
                writeln!(f, "{:>6} |", "..")?;
            }
            next = row + 1;
            let (line, span) = self.line(row);
            writeln!(f, "{row:6} | {line}")?;
            for (_, why) in self.finding.beside.iter().filter(|(at, _)| *at == row) {
                let indent = "  ".repeat(self.account.rows[row].depth);
                writeln!(f, "{:6} | {indent}- {why}", "")?;
            }
            if let Some((at, length)) = span {
                let mark = "^".repeat(length.max(1));
                let line = format!("{:at$}{mark} {}", "", self.finding.note);
                writeln!(f, "{:6} | {}", "", line.trim_end())?;
            }
        }
        if let Some((bytes, at)) = bytes {
            if number > next {
                writeln!(f, "{:>6} |", "..")?;
            }
            writeln!(f, "{number:6} | {bytes}")?;
            writeln!(f, "{:6} | {:at$}^^ {}", "", "", self.finding.note)?;
        }
        let Some(words) = words(self.refusal.number) else {
            return Ok(());
        };
        writeln!(f, "\n{}", wrapped(&words.meaning, 80))?;
        writeln!(
            f,
            "\n{}",
            wrapped(&format!("What to do: {}", words.advice), 80)
        )
    }
}
