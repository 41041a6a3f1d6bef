//! What a case gives, while it is being written.

use crate::fault::CaseFault;
use std::alloc::Global;
use std::fmt::{Debug, Display};
use std::str;

/// Text that is being written. If an allocation fails, it accepts no more and reports that at its
/// end, so a writer need not check after each word.
#[derive(Drop)]
pub struct Given {
    alloc: Global,
    text: String,
    is_cut: bool,
}

impl Given {
    /// Creates an empty text.
    pub fn new(alloc: Global) -> Given {
        Given {
            alloc,
            text: String::new(alloc),
            is_cut: false,
        }
    }

    /// Appends a text.
    pub fn push(&mut self, text: &str) {
        if self.is_cut || self.text.push_str(text).is_err() {
            self.is_cut = true;
        }
    }

    /// Appends bytes as text.
    pub fn push_bytes(&mut self, bytes: &[u8]) {
        match str::from_utf8(bytes) {
            Ok(text) => self.push(text),
            Err(_) => self.push("(bytes that are no text)"),
        }
    }

    /// Appends a text as a line.
    pub fn line(&mut self, text: &str) {
        self.push(text);
        self.push("\n");
    }

    /// Appends a value in its form for people.
    pub fn print<T: Display>(&mut self, value: &T) {
        match format!(in self.alloc; "{value}") {
            Ok(text) => self.push(text.as_str()),
            Err(_) => self.is_cut = true,
        }
    }

    /// Appends a value as it is spelled in a program.
    pub fn show<T: Debug>(&mut self, value: &T) {
        match format!(in self.alloc; "{value:?}") {
            Ok(text) => self.push(text.as_str()),
            Err(_) => self.is_cut = true,
        }
    }

    /// Notes that an allocation failed for something that had to be added.
    pub fn cut(&mut self) {
        self.is_cut = true;
    }

    /// Returns what was written.
    pub fn as_str(&self) -> &str {
        self.text.as_str()
    }

    /// Returns the allocator.
    pub fn alloc(&self) -> Global {
        self.alloc
    }

    /// Checks that everything added was written.
    ///
    /// # Errors
    /// `Memory` if it was not, because an allocation failed.
    pub fn end(&self) -> Result<(), CaseFault> {
        match self.is_cut {
            true => Err(CaseFault::Memory),
            false => Ok(()),
        }
    }

    /// Appends everything that was written to a text.
    ///
    /// # Errors
    /// `Memory` if an allocation failed, now or before.
    pub fn hand_over(&self, text: &mut String) -> Result<(), CaseFault> {
        match self.is_cut || text.push_str(self.as_str()).is_err() {
            true => Err(CaseFault::Memory),
            false => Ok(()),
        }
    }
}
