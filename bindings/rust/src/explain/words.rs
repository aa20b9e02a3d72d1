//! What docs/REFUSALS.md says of a number.

const DOCUMENT: &str = include_str!("../../../../docs/REFUSALS.md");

/// A refusal's number in words, for people.
#[derive(Clone, Debug, PartialEq, Eq)]
#[non_exhaustive]
pub struct Words {
    /// In a line.
    pub title: String,
    /// What it means.
    pub meaning: String,
    /// What to do.
    pub advice: String,
}

/// The words for a number; None if there is no such refusal.
pub fn words(number: u32) -> Option<Words> {
    let heading = format!("\n## {number}: ");
    let start = DOCUMENT.find(&heading)? + heading.len();
    let section = DOCUMENT[start..].split("\n## ").next()?;
    let (title, rest) = section.split_once('\n')?;
    let mut meaning = Vec::new();
    let mut advice = String::new();
    for paragraph in rest.split("\n\n") {
        let paragraph = paragraph.trim_matches('\n');
        // Streams in hex, and a table.
        if paragraph.starts_with("    ") || paragraph.starts_with('|') {
            continue;
        }
        let text = plain(paragraph);
        match text.strip_prefix("What to do. ") {
            Some(text) => advice = text.to_string(),
            None => meaning.push(text),
        }
    }
    meaning.retain(|text| !text.is_empty());
    Some(Words {
        title: title.to_string(),
        meaning: meaning.join(" "),
        advice,
    })
}

/// A paragraph in one line, without its marks.
fn plain(paragraph: &str) -> String {
    let text = paragraph.split_whitespace().collect::<Vec<_>>().join(" ");
    let mut out = String::new();
    // A backquote is itself among the characters that the document shows between two.
    for (at, part) in text.split("``").enumerate() {
        if at % 2 == 1 {
            out.push_str(part);
        } else {
            out.push_str(&part.replace("**", "").replace('`', ""));
        }
    }
    out
}

#[cfg(test)]
mod tests {
    use super::words;

    #[test]
    fn every_number_has_words() {
        for number in 1..=20 {
            let words = words(number).unwrap();
            assert!(!words.title.is_empty(), "{number}");
            assert!(
                words.meaning.ends_with(['.', ')', ':']),
                "{number}: {}",
                words.meaning
            );
            assert!(
                words.advice.ends_with(['.', '~']),
                "{number}: {}",
                words.advice
            );
        }
        for number in [0, 99] {
            assert_eq!(words(number), None);
        }
    }

    #[test]
    fn marks_are_left_out() {
        let words = words(5).unwrap();
        assert_eq!(words.title, "a name that cannot be one");
        assert!(words.advice.ends_with(r"any of !#$%&'*+-./:<=>?@\^_`|~."));
    }
}
