//! `otter talk`: a session at a prompt, or from a pipe.

use crate::input;
use crate::keys::Editor;
use crate::meaning::meaning;
use crate::memory::Memory;
use crate::records::{records, Record};
use crate::status::{self, Done};
use std::fs;
use std::io::{self, BufRead, IsTerminal, Write};
use std::path::PathBuf;
use wheelotter::{Answer, Asked, Session, HEAD, MARK, STANDING};

/// Talk about a trace: suppose that one record came before another, ask what then follows, take it back
///
/// At a terminal there is a prompt, the arrows bring earlier lines back, and Tab completes words. From a pipe each answer stands behind its line,
/// and the status is 2 where one was turned back.
#[derive(clap::Args)]
#[command(after_help = HELP)]
pub struct Options {
    /// The trace
    file: PathBuf,
    /// The model that the memory promises
    #[arg(short, long, value_enum, default_value = "tso")]
    model: Memory,
}

const HELP: &str = "\
Lines:
  suppose X Y   suppose that record X came before Y; at most 16 pairs stand
  back          take the latest pair back, with all that came from it
  ask X Y       is X before Y held?
  between X Y   which way round are X and Y held?
  held X        all that is held before X and behind it
  pairs         the pairs that stand
  add LINE      a record more, as a line of a trace
  waiting       the lowest record that waits for its source
  list          the records with their numbers
  save FILE     keep the session
  load FILE     take up a session that was kept, of the same trace
  help          these lines
  quit          end; so does the end of the input";

/// The words that Tab completes.
const WORDS: &[&str] = &["suppose", "back", "ask", "between", "held", "pairs", "add", "waiting", "list", "save", "load", "help", "quit"];

/// What a line is answered with; an Err is a line that was turned back, and the session is as it was.
type Reply = Result<String, String>;

struct Talk {
    records: Vec<Record>,
    session: Session,
}

fn turned_back(answer: Answer) -> String {
    format!("no: {}, {}", answer as u8, meaning(answer))
}

fn number(word: &str) -> Result<usize, String> {
    word.parse().map_err(|_| format!("no: {word:?} is no record number"))
}

impl Talk {
    fn answer(&mut self, line: &str) -> Reply {
        let words: Vec<&str> = line.split_whitespace().collect();
        match words[..] {
            ["suppose", x, y] => self.suppose(number(x)?, number(y)?),
            ["back"] => self.session.take_back().map(|()| "taken back".to_string()).map_err(turned_back),
            ["ask", x, y] => self.asked(number(x)?, number(y)?).map(|asked| word_of(asked).to_string()),
            ["between", x, y] => self.between(number(x)?, number(y)?),
            ["held", x] => self.held(number(x)?),
            ["pairs"] => Ok(self.pairs()),
            ["add", ..] => self.add(line.trim_start_matches("add").trim()),
            ["waiting"] => self.waiting(),
            ["list"] => Ok(self.list()),
            ["save", file] => {
                fs::write(file, self.session.as_bytes()).map(|()| "saved".to_string()).map_err(|error| format!("no: {file}: {error}"))
            }
            ["load", file] => self.load(file),
            ["help"] => Ok(HELP.to_string()),
            _ => Err(format!("no: {line:?} is no line of a talk; help tells which there are")),
        }
    }

    fn suppose(&mut self, x: usize, y: usize) -> Reply {
        self.session.suppose(x, y).map_err(turned_back)?;
        let contradicted = self.session.as_bytes()[MARK] == 1;
        Ok(if contradicted { "supposed, contradicted" } else { "supposed" }.to_string())
    }

    fn asked(&self, x: usize, y: usize) -> Result<Asked, String> {
        self.session.ask(x, y).map_err(turned_back)
    }

    /// Asked both ways round.
    fn between(&self, x: usize, y: usize) -> Reply {
        Ok(match (self.asked(x, y)?, self.asked(y, x)?) {
            (Asked::Contradicted, _) | (_, Asked::Contradicted) => "contradicted".to_string(),
            (Asked::Held, _) => format!("{x} before {y} is held"),
            (_, Asked::Held) => format!("{y} before {x} is held"),
            _ => "neither way is held".to_string(),
        })
    }

    /// Every other operation is asked about, both ways round. Of x itself the library is asked first: 14 says that it is an operation.
    fn held(&self, x: usize) -> Reply {
        match self.session.ask(x, x) {
            Err(Answer::SameTwice) | Ok(_) => {}
            Err(answer) => return Err(turned_back(answer)),
        }
        let others = (0..self.records.len()).filter(|y| *y != x);
        let asked: Vec<(usize, Asked, Asked)> =
            others.filter_map(|y| Some((y, self.session.ask(y, x).ok()?, self.session.ask(x, y).ok()?))).collect();
        if asked.iter().any(|(_, before, _)| *before == Asked::Contradicted) {
            return Ok("contradicted".to_string());
        }
        let before = asked.iter().filter(|(_, before, _)| *before == Asked::Held).map(|(y, _, _)| *y);
        let behind = asked.iter().filter(|(_, _, behind)| *behind == Asked::Held).map(|(y, _, _)| *y);
        Ok(format!("before {x}:{}; behind {x}:{}", listed(before), listed(behind)))
    }

    /// A record behind the others. Its form is asked of the library as a text of this one line; whatever else is wrong with it, the session tells.
    fn add(&mut self, line: &str) -> Reply {
        let text = format!("{line}\n");
        let forms = [Answer::LongLine, Answer::NoForm, Answer::PastBound, Answer::TwoAddresses];
        match wheelotter::check(text.as_bytes()) {
            Err(refusal) if forms.contains(&refusal.answer) => return Err(turned_back(refusal.answer)),
            _ => {}
        }
        let Some(record) = records(&text).first().copied() else { return Err(turned_back(Answer::LateInit)) };
        self.session.add(given(&record)).map_err(turned_back)?;
        self.records.push(record);
        let contradicted = if self.session.as_bytes()[MARK] == 1 { ", contradicted" } else { "" };
        Ok(format!("record {}{contradicted}", self.records.len() - 1))
    }

    fn waiting(&self) -> Reply {
        Ok(match self.session.waiting().map_err(turned_back)? {
            Some(record) => format!("record {record} waits for its source"),
            None => "none waits".to_string(),
        })
    }

    /// As the session's bytes have them.
    fn pairs(&self) -> String {
        let bytes = self.session.as_bytes();
        let numbers = bytes[STANDING..].chunks(2).map(|pair| u16::from_le_bytes([pair[0], pair[1]]));
        let numbers: Vec<u16> = numbers.take(2 * usize::from(bytes[1])).collect();
        if numbers.is_empty() {
            return "no pair stands".to_string();
        }
        numbers.chunks(2).map(|pair| format!("{} before {}", pair[0], pair[1])).collect::<Vec<String>>().join(", ")
    }

    fn list(&self) -> String {
        let line = |(i, record): (usize, &Record)| format!("{i:>3}  core {}  {record}", record.core);
        self.records.iter().enumerate().map(line).collect::<Vec<String>>().join("\n")
    }

    /// Bytes that are no session are told by the library; a session of another trace is not taken up, since its records are not at hand.
    fn load(&mut self, file: &str) -> Reply {
        let bytes = fs::read(file).map_err(|error| format!("no: {file}: {error}"))?;
        let session = Session::from(bytes);
        if let Err(Answer::NoSession) = session.ask(0, 0) {
            return Err(turned_back(Answer::NoSession));
        }
        if session.as_bytes()[HEAD..] != self.session.as_bytes()[HEAD..] || session.as_bytes()[0] != self.session.as_bytes()[0] {
            return Err("no: a session of another trace or model".to_string());
        }
        self.session = session;
        Ok(format!("loaded: {}", self.pairs()))
    }
}

/// A record as the library takes it: a number past its type's bound is past the record's, and the text was turned back for it.
fn given(record: &Record) -> wheelotter::Record {
    let (thread, address) = (record.core as u8, record.address as u8);
    match (record.read, record.written) {
        (None, None) => wheelotter::Record::Fence { thread },
        (Some(read), None) => wheelotter::Record::Load { thread, address, read: read as u16 },
        (None, Some(written)) => wheelotter::Record::Store { thread, address, written: written as u16 },
        (Some(read), Some(written)) => wheelotter::Record::Swap { thread, address, read: read as u16, written: written as u16 },
    }
}

fn word_of(asked: Asked) -> &'static str {
    match asked {
        Asked::Held => "held",
        Asked::NotHeld => "not held",
        Asked::Contradicted => "contradicted",
    }
}

/// Each number with a space before it, or that there is none.
fn listed(numbers: impl Iterator<Item = usize>) -> String {
    let list: String = numbers.map(|number| format!(" {number}")).collect();
    if list.is_empty() {
        return " none".to_string();
    }
    list
}

/// At a terminal: a prompt, and only the answers.
fn at_prompt(talk: &mut Talk) -> io::Result<u8> {
    let mut editor = Editor::new(WORDS);
    while let Some(line) = editor.read("otter> ")? {
        match line.trim() {
            "quit" => break,
            "" => {}
            line => println!("{}", talk.answer(line).unwrap_or_else(|error| error)),
        }
    }
    Ok(status::KEPT)
}

/// From a pipe: each line with its answer behind it.
fn from_pipe(talk: &mut Talk) -> io::Result<u8> {
    let mut status = status::KEPT;
    let mut out = io::stdout().lock();
    for line in io::stdin().lock().lines() {
        let line = line?;
        match line.trim() {
            "quit" => break,
            "" => {}
            line => {
                let answer = talk.answer(line).unwrap_or_else(|error| {
                    status = status::UNJUDGED;
                    error
                });
                let between = if answer.contains('\n') { '\n' } else { ' ' };
                writeln!(out, "{line}:{between}{answer}")?;
            }
        }
    }
    Ok(status)
}

pub fn talk(options: &Options) -> Done {
    let text = input::trace(&options.file)?;
    let name = options.file.display();
    let session = Session::open(text.as_bytes(), options.model.model())
        .map_err(|answer| format!("{name}: {} ({})", answer as u8, meaning(answer)))?;
    let mut talk = Talk { records: records(&text), session };
    if io::stdin().is_terminal() {
        return Ok(at_prompt(&mut talk)?);
    }
    Ok(from_pipe(&mut talk)?)
}
