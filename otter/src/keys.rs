//! A line at a prompt, key by key: history by the arrows, words completed by Tab.

use console::{Key, Term};
use std::io::{self, Write};

/// What a key may end.
#[derive(Debug, PartialEq, Eq)]
pub enum Ended {
    Line(String),
    Input,
}

/// The line that is typed, where the cursor stands in it, and the lines before it.
pub struct Editor {
    words: &'static [&'static str],
    past: Vec<String>,
    shown: usize,
    line: Vec<char>,
    cursor: usize,
}

impl Editor {
    /// Completes from some words.
    pub fn new(words: &'static [&'static str]) -> Editor {
        Editor { words, past: Vec::new(), shown: 0, line: Vec::new(), cursor: 0 }
    }

    /// Takes a key; what comes back is the whole line, or the end of the input (Ctrl-D on an empty line).
    pub fn key(&mut self, key: Key) -> Option<Ended> {
        match key {
            Key::Enter => return Some(Ended::Line(self.entered())),
            Key::Char('\u{4}') if self.line.is_empty() => return Some(Ended::Input),
            Key::Char(letter) if !letter.is_control() => self.put(letter),
            Key::Backspace if self.cursor > 0 => self.drop(self.cursor - 1),
            Key::Del if self.cursor < self.line.len() => self.drop(self.cursor),
            Key::ArrowLeft => self.cursor = self.cursor.saturating_sub(1),
            Key::ArrowRight => self.cursor = self.line.len().min(self.cursor + 1),
            Key::Home => self.cursor = 0,
            Key::End => self.cursor = self.line.len(),
            Key::ArrowUp => self.past_line(self.shown.saturating_sub(1)),
            Key::ArrowDown => self.past_line(self.past.len().min(self.shown + 1)),
            Key::Tab => self.complete(),
            _ => {}
        }
        None
    }

    fn put(&mut self, letter: char) {
        self.line.insert(self.cursor, letter);
        self.cursor += 1;
    }

    fn drop(&mut self, place: usize) {
        self.line.remove(place);
        self.cursor = place;
    }

    /// The line is done, and goes to those before it.
    fn entered(&mut self) -> String {
        let line: String = std::mem::take(&mut self.line).into_iter().collect();
        self.cursor = 0;
        if !line.trim().is_empty() && self.past.last() != Some(&line) {
            self.past.push(line.clone());
        }
        self.shown = self.past.len();
        line
    }

    /// A line before, or behind the last of them an empty one.
    fn past_line(&mut self, place: usize) {
        self.shown = place;
        self.line = self.past.get(place).map_or(Vec::new(), |line| line.chars().collect());
        self.cursor = self.line.len();
    }

    /// As far as all words agree that begin with what is typed; a whole word gets its space. Only the first word of a line is one of them.
    fn complete(&mut self) {
        let typed: String = self.line.iter().collect();
        let fitting: Vec<&str> = self.words.iter().copied().filter(|word| word.starts_with(&typed)).collect();
        let Some(first) = fitting.first() else { return };
        let agreed = (0..=first.len()).rev().find(|end| fitting.iter().all(|word| word.starts_with(&first[..*end]))).unwrap_or(0);
        self.line = first[..agreed].chars().collect();
        if fitting.len() == 1 {
            self.line.push(' ');
        }
        self.cursor = self.line.len();
    }

    /// One line from the terminal; None at the end of the input.
    pub fn read(&mut self, prompt: &str) -> io::Result<Option<String>> {
        let mut term = Term::stdout();
        loop {
            let line: String = self.line.iter().collect();
            term.clear_line()?;
            write!(term, "{prompt}{line}")?;
            let behind = self.line.len() - self.cursor;
            if behind > 0 {
                term.move_cursor_left(behind)?;
            }
            term.flush()?;
            if let Some(ended) = self.key(term.read_key()?) {
                writeln!(term)?;
                return Ok(match ended {
                    Ended::Line(line) => Some(line),
                    Ended::Input => None,
                });
            }
        }
    }
}

#[cfg(test)]
mod tests {
    use super::{Editor, Ended};
    use console::Key;

    const WORDS: &[&str] = &["save", "suppose", "quit"];

    fn typed(editor: &mut Editor, letters: &str) -> Option<Ended> {
        letters.chars().map(|letter| editor.key(if letter == '\t' { Key::Tab } else { Key::Char(letter) })).last().flatten()
    }

    fn entered(editor: &mut Editor) -> String {
        match editor.key(Key::Enter) {
            Some(Ended::Line(line)) => line,
            other => panic!("{other:?}"),
        }
    }

    #[test]
    fn words_are_completed() {
        let mut editor = Editor::new(WORDS);
        typed(&mut editor, "s\tu\t2 8");
        assert_eq!(entered(&mut editor), "suppose 2 8");
        typed(&mut editor, "x\t");
        assert_eq!(entered(&mut editor), "x");
    }

    #[test]
    fn lines_come_back() {
        let mut editor = Editor::new(WORDS);
        for line in ["ask 1 2", "ask 1 2", "quit"] {
            typed(&mut editor, line);
            entered(&mut editor);
        }
        for key in [Key::ArrowUp, Key::ArrowUp, Key::ArrowUp, Key::Backspace] {
            editor.key(key);
        }
        typed(&mut editor, "3");
        assert_eq!(entered(&mut editor), "ask 1 3");
        editor.key(Key::ArrowUp);
        editor.key(Key::ArrowDown);
        assert_eq!(entered(&mut editor), "");
    }

    #[test]
    fn a_line_is_mended() {
        let mut editor = Editor::new(WORDS);
        typed(&mut editor, "ak 12");
        for key in [Key::Home, Key::ArrowRight, Key::Char('s'), Key::End, Key::ArrowLeft, Key::Del] {
            editor.key(key);
        }
        assert_eq!(entered(&mut editor), "ask 1");
    }

    #[test]
    fn the_input_ends_on_an_empty_line() {
        let mut editor = Editor::new(WORDS);
        assert_eq!(typed(&mut editor, "a\u{4}"), None);
        entered(&mut editor);
        assert_eq!(typed(&mut editor, "\u{4}"), Some(Ended::Input));
    }
}
