//! The ten commands of a session, whatever keeps it.

use crate::lines::{Answer, answer_of, ids_of, refusal_of};
use crate::values::{Entity, Listed, Question, Record, link_of, listed, names_of, quoted, record_of};
use std::fmt;

/// How many bytes a body may have.
pub const BODY_LIMIT: usize = 1_048_576;

/// Why there is no answer.
#[derive(Clone, Debug, PartialEq, Eq)]
#[non_exhaustive]
pub enum Error {
    /// The command was refused, and nothing has changed; the word says why, as `Shape`.
    Refused(String),
    /// The body is longer than [`BODY_LIMIT`], and nothing has changed.
    TooLong,
    /// There was no memory. Where a command was given it is done; [`crate::Session::last_line`] has its line.
    Memory,
    /// The session has ended: whether the command was done isn't known.
    Ended,
    /// A line that answers no command of this kind. The session isn't to be used any more.
    Line(String),
    /// No type of entities is named so; nothing has changed.
    Type(String),
    /// The limit of depth is above [`crate::DEPTH_MAX`].
    Depth(u32),
    /// The thread's stack is too small for the limit of depth, or no thread can have so much: bytes.
    Stack(usize),
    /// The session is in the middle of a command, as where a signal handler comes into it; nothing has changed.
    Busy,
    /// The library is of another version: this one.
    Library(String),
    /// The library answers by a status that isn't known here.
    Status(u32),
}

impl fmt::Display for Error {
    fn fmt(&self, f: &mut fmt::Formatter<'_>) -> fmt::Result {
        match self {
            Error::Refused(word) => write!(f, "refused {word}"),
            Error::TooLong => f.write_str("the body is too long"),
            Error::Memory => f.write_str("no memory"),
            Error::Ended => f.write_str("the session has ended"),
            Error::Line(line) => write!(f, "no line answers the command: {line:?}"),
            Error::Type(name) => write!(f, "no type of entities is named {name:?}"),
            Error::Depth(depth) => write!(f, "the limit of depth {depth} is above the highest"),
            Error::Stack(bytes) => write!(f, "the limit of depth takes a stack of {bytes} bytes"),
            Error::Busy => f.write_str("the session is in the middle of a command"),
            Error::Library(version) => write!(f, "the library is of version {version}"),
            Error::Status(status) => write!(f, "status {status}"),
        }
    }
}

impl std::error::Error for Error {}

/// What a command does.
#[derive(Clone, Copy, Debug, PartialEq, Eq, Hash)]
#[non_exhaustive]
pub enum Verb {
    Load,
    Link,
    Unlink,
    RemoveStatic,
    RemoveTemplate,
    Add,
    Put,
    Remove,
    Ask,
    Tell,
}

impl Verb {
    /// How it is spelled.
    pub fn name(self) -> &'static str {
        match self {
            Verb::Load => "load",
            Verb::Link => "link",
            Verb::Unlink => "unlink",
            Verb::RemoveStatic => "remove-static",
            Verb::RemoveTemplate => "remove-template",
            Verb::Add => "add",
            Verb::Put => "put",
            Verb::Remove => "remove",
            Verb::Ask => "ask",
            Verb::Tell => "tell",
        }
    }
}

/// The ten commands of a session, by the line that answers a verb and a body. Each fails with [`Error::Refused`]
/// where it is refused, and with [`Error::Line`] where the line is no answer to it.
pub trait Commands {
    /// The line that answers a command, without its line feed. The body is a text that nobody else wrote a part
    /// of, as docs/ANSWERS.md has it.
    fn line(&mut self, verb: Verb, body: &str) -> Result<String, Error>;

    /// Loads policies and templates, and answers their ids.
    fn load(&mut self, policies: &str) -> Result<Vec<String>, Error> {
        read(self, Verb::Load, policies, ids_of)
    }

    /// Links a template under an id, with the entities of its slots.
    fn link(
        &mut self,
        template: &str,
        id: &str,
        principal: Option<&Entity>,
        resource: Option<&Entity>,
    ) -> Result<(), Error> {
        read(
            self,
            Verb::Link,
            &link_of(template, id, principal, resource),
            done,
        )
    }

    fn unlink(&mut self, id: &str) -> Result<(), Error> {
        read(self, Verb::Unlink, &quoted(id), done)
    }

    fn remove_static(&mut self, id: &str) -> Result<(), Error> {
        read(self, Verb::RemoveStatic, &quoted(id), done)
    }

    fn remove_template(&mut self, id: &str) -> Result<(), Error> {
        read(self, Verb::RemoveTemplate, &quoted(id), done)
    }

    /// Adds entities to those held, which stay as they are.
    fn add(&mut self, entities: &[Listed]) -> Result<(), Error> {
        read(self, Verb::Add, &listed(entities), done)
    }

    /// Puts entities in the place of those held.
    fn put(&mut self, entities: &[Listed]) -> Result<(), Error> {
        read(self, Verb::Put, &listed(entities), done)
    }

    fn remove(&mut self, entities: &[Entity]) -> Result<(), Error> {
        read(self, Verb::Remove, &names_of(entities), done)
    }

    fn ask(&mut self, question: &Question) -> Result<Answer, Error> {
        read(self, Verb::Ask, &question.text()?, answer_of)
    }

    /// Tells values by the names of the open question's unknowns.
    fn tell(&mut self, values: &Record) -> Result<Answer, Error> {
        read(self, Verb::Tell, &record_of(values), answer_of)
    }
}

/// What the line tells that answers a command.
fn read<T>(
    session: &mut (impl Commands + ?Sized),
    verb: Verb,
    body: &str,
    of: impl Fn(&str) -> Option<T>,
) -> Result<T, Error> {
    if body.len() > BODY_LIMIT {
        return Err(Error::TooLong);
    }
    let line = session.line(verb, body)?;
    match refusal_of(&line) {
        Some(word) => Err(Error::Refused(word.to_owned())),
        None => of(&line).ok_or(Error::Line(line)),
    }
}

fn done(line: &str) -> Option<()> {
    (line == "ok").then_some(())
}
