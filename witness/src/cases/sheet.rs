//! The sheet on which cases are written down, with the book as it stands after them.

use super::asks::Ask;
use crate::audit::audit;
use crate::book::Book;
use crate::request::request;
use crate::{Answer, Finding};

/// The text of the cases so far and the book they lead to.
pub struct Sheet {
    pub text: String,
    pub words: Vec<u64>,
    pub requests: u64,
}

impl Sheet {
    pub fn new() -> Sheet {
        Sheet { text: String::new(), words: Vec::new(), requests: 0 }
    }

    /// Begins a new book with these words.
    pub fn lay(&mut self, words: Vec<u64>) {
        self.text += &format!("n {}\n", words.len());
        for (index, word) in words.iter().enumerate().filter(|(_, word)| **word != 0) {
            self.text += &format!("w {index} {word}\n");
        }
        self.words = words;
    }

    pub fn ask(&mut self, (kind, a, b, c): Ask) -> Answer {
        self.text += &format!("r {kind} {a} {b} {c}\n");
        self.requests += 1;
        request(&mut self.words, kind, a, b, c)
    }

    pub fn audit(&mut self) -> Finding {
        self.text += "a\n";
        audit(&self.words)
    }

    /// The book as it stands, which has to be well-formed.
    pub fn book(&self) -> Book {
        Book::read(&self.words)
    }
}
