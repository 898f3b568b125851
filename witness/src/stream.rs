//! Cases as text: one command a line, and one line of answer for each request and each audit.

use std::io::{BufRead, Error, ErrorKind, Result, Write};

use crate::audit::audit;
use crate::request::request;
use crate::{Answer, Finding};

/// No book in a stream is longer than this.
pub const LONGEST: u64 = 4700;

/// One line of a stream.
#[derive(Clone, Copy, PartialEq, Eq, Debug)]
pub enum Command {
    /// `n L`: a new book of L words, all 0.
    New(usize),
    /// `w I V`: word I of the book becomes V.
    Word(usize, u64),
    /// `r K A B C`: a request.
    Request(u64, u64, u64, u64),
    /// `a`: the audit.
    Audit,
}

/// Reads one line, or says nothing where it is no command.
pub fn parse(line: &str) -> Option<Command> {
    let mut fields = line.split(' ');
    let name = fields.next()?;
    let numbers: Vec<u64> = fields.map(parse_number).collect::<Option<_>>()?;
    match (name, numbers.as_slice()) {
        ("n", &[length]) if length <= LONGEST => Some(Command::New(length as usize)),
        ("w", &[index, value]) if index < LONGEST => Some(Command::Word(index as usize, value)),
        ("r", &[kind, a, b, c]) => Some(Command::Request(kind, a, b, c)),
        ("a", &[]) => Some(Command::Audit),
        _ => None,
    }
}

/// A number is plain decimal digits: no sign and no space, as the format says.
fn parse_number(field: &str) -> Option<u64> {
    match field.bytes().all(|byte| byte.is_ascii_digit()) {
        true => field.parse().ok(),
        false => None,
    }
}

/// Hands the commands of a stream on, one after another; a line that is no command ends the reading.
pub fn each_command(input: impl BufRead, mut step: impl FnMut(Command) -> Result<()>) -> Result<()> {
    for (index, line) in input.lines().enumerate() {
        let wrong = || Error::new(ErrorKind::InvalidData, format!("line {} is no command", index + 1));
        step(parse(&line?).ok_or_else(wrong)?)?;
    }
    Ok(())
}

/// What comes back for a command that asks something.
#[derive(Clone, Copy, PartialEq, Eq, Debug)]
pub enum Told {
    /// Of a request.
    Answer(Answer),
    /// Of an audit.
    Finding(Finding),
}

/// The book that the commands of a stream work on.
pub struct Desk {
    pub words: Vec<u64>,
}

impl Desk {
    /// Before the first `n` the book has no words.
    pub fn new() -> Desk {
        Desk { words: Vec::new() }
    }

    /// Carries out one command and tells what comes back, where something does.
    pub fn carry_out(&mut self, command: Command) -> Result<Option<Told>> {
        match command {
            Command::New(length) => self.words = vec![0; length],
            Command::Word(index, value) => {
                let outside = || Error::new(ErrorKind::InvalidData, format!("the book has no word {index}"));
                *self.words.get_mut(index).ok_or_else(outside)? = value;
            }
            Command::Request(kind, a, b, c) => {
                return Ok(Some(Told::Answer(request(&mut self.words, kind, a, b, c))));
            }
            Command::Audit => return Ok(Some(Told::Finding(audit(&self.words)))),
        }
        Ok(None)
    }
}

impl Default for Desk {
    fn default() -> Desk {
        Desk::new()
    }
}

/// Answers a whole stream.
pub fn answers(input: impl BufRead, output: &mut impl Write) -> Result<()> {
    let mut desk = Desk::new();
    each_command(input, |command| {
        let before = match command {
            Command::Request(..) => desk.words.clone(),
            _ => Vec::new(),
        };
        match desk.carry_out(command)? {
            Some(Told::Answer((number, x, y, z))) => {
                write!(output, "r {number} {x} {y} {z}")?;
                for (index, _) in before.iter().enumerate().filter(|&(index, old)| desk.words[index] != *old) {
                    write!(output, " {index} {}", desk.words[index])?;
                }
                writeln!(output)
            }
            Some(Told::Finding((number, x, y))) => writeln!(output, "a {number} {x} {y}"),
            None => Ok(()),
        }
    })
}
