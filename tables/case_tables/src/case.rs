//! A case of a table, and its parts.

use crate::fault::{CaseFault, malformed};
use std::alloc::{AllocError, Global};

/// The word of the part with what a case gives.
const GIVES: &str = "gives";

/// Whether a line outside all parts is ignored.
pub(crate) fn is_aside(line: &str) -> bool {
    line.is_empty() || line.starts_with('#')
}

/// Whether the last line of a text is empty.
fn ends_blank(text: &str) -> bool {
    match text.strip_suffix('\n') {
        Some(lines) => lines.is_empty() || lines.ends_with('\n'),
        None => false,
    }
}

/// A named text of a case.
#[derive(Drop)]
pub struct Part {
    word: String,
    arguments: String,
    text: String,
    line: u64,
}

impl Part {
    /// Creates a part with this title and an empty text.
    fn open(alloc: Global, title: &str, line: u64) -> Result<Part, AllocError> {
        let (word, arguments) = title.split_once(' ').unwrap_or((title, ""));
        Ok(Part {
            word: String::from_str(alloc, word)?,
            arguments: String::from_str(alloc, arguments)?,
            text: String::new(alloc),
            line,
        })
    }

    /// Appends a line to the text.
    fn push_line(&mut self, line: &str) -> Result<(), AllocError> {
        self.text.push_str(line.strip_prefix('\\').unwrap_or(line))?;
        self.text.push('\n')
    }

    /// Whether the part holds what its case gives.
    fn gives(&self) -> bool {
        self.word.as_str() == GIVES
    }

    /// Returns the word that names the part.
    pub fn word(&self) -> &str {
        self.word.as_str()
    }

    /// Returns what follows the word.
    pub fn arguments(&self) -> &str {
        self.arguments.as_str()
    }

    /// Returns the lines of the part, each with its line feed.
    pub fn text(&self) -> &str {
        self.text.as_str()
    }

    /// Returns the lines of the part, the last one without its line feed.
    pub fn lines(&self) -> &str {
        let text = self.text.as_str();
        text.strip_suffix('\n').unwrap_or(text)
    }

    /// Returns the number of the line that begins the part; the first line of a file is 1.
    pub fn line(&self) -> u64 {
        self.line
    }

    /// Returns the fault of a part that does not contain what it must.
    pub fn malformed(&self, what: &'static str) -> CaseFault {
        malformed(self.line, what)
    }
}

/// A case: its parts, and what it should give. While it is read, `gives` is one of the parts.
#[derive(Drop)]
pub struct Case {
    name: String,
    parts: Vec<Part>,
    wanted: String,
    line: u64,
}

impl Case {
    /// Creates a case with this name and no parts.
    pub(crate) fn open(alloc: Global, name: &str, line: u64) -> Result<Case, AllocError> {
        Ok(Case {
            name: String::from_str(alloc, name)?,
            parts: Vec::new(alloc),
            wanted: String::new(alloc),
            line,
        })
    }

    /// Checks that another part may follow.
    fn check_open(&self) -> Result<(), CaseFault> {
        match self.parts.last() {
            Some(part) if part.gives() => Err(part.malformed("a part gives that is not the last")),
            _ => Ok(()),
        }
    }

    /// Opens a part with this title.
    fn open_part(&mut self, alloc: Global, title: &str, line: u64) -> Result<(), CaseFault> {
        self.check_open()?;
        let part = Part::open(alloc, title, line)?;
        Ok(self.parts.push(part)?)
    }

    /// Takes the line of the case with this number.
    pub(crate) fn take_line(
        &mut self,
        alloc: Global,
        line: &str,
        number: u64,
    ) -> Result<(), CaseFault> {
        if let Some(title) = line.strip_prefix("-- ") {
            return self.open_part(alloc, title, number);
        }
        match self.parts.last_mut() {
            Some(part) => Ok(part.push_line(line)?),
            None if is_aside(line) => Ok(()),
            None => Err(malformed(number, "a line outside a part")),
        }
    }

    /// Removes the empty line before the next case.
    pub(crate) fn drop_blank_line(&mut self) {
        if let Some(part) = self.parts.last_mut() {
            if ends_blank(part.text.as_str()) {
                part.text.pop();
            }
        }
    }

    /// Ends the case, whose last part must hold what it gives.
    pub(crate) fn close(&mut self) -> Result<(), CaseFault> {
        match self.parts.pop() {
            Some(part) if part.gives() => {
                self.wanted = part.text;
                Ok(())
            }
            _ => Err(malformed(self.line, "a case that does not end with a part gives")),
        }
    }

    /// Returns the name of the case.
    pub fn name(&self) -> &str {
        self.name.as_str()
    }

    /// Returns the parts in their order, without `gives`.
    pub fn parts(&self) -> &[Part] {
        self.parts.as_slice()
    }

    /// Returns the first part with this word.
    pub fn part(&self, word: &str) -> Option<&Part> {
        for part in self.parts.iter() {
            if part.word() == word {
                return Some(part);
            }
        }
        None
    }

    /// Returns the text of the part `gives`.
    pub fn wanted(&self) -> &str {
        self.wanted.as_str()
    }

    /// Returns the number of the line that begins the case.
    pub fn line(&self) -> u64 {
        self.line
    }
}
