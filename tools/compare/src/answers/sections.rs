//! Printing a list: comments at its top, then lines under titles.

use std::collections::HashSet;

#[derive(Default)]
pub struct Sections {
    printed: HashSet<String>,
}

impl Sections {
    /// A list that begins with this text, as comments.
    pub fn under(header: &str) -> Self {
        let list = Sections::default();
        for line in header.lines() {
            list.comment(line);
        }
        list
    }

    pub fn comment(&self, text: &str) {
        println!("{}", format!("# {text}").trim_end());
    }

    /// Prints the lines under a title, each once: some are the edge of two things.
    pub fn print(&mut self, title: &str, lines: Vec<String>) {
        self.comment("");
        self.comment(title);
        for line in lines {
            if self.printed.insert(line.clone()) {
                println!("{line}");
            }
        }
    }
}
