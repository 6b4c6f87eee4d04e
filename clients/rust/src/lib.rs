//! Sessions of a Cedar authorizer, by its library for C.
//!
//! A [`Session`] stays on the thread that opens it, and is closed where it is dropped. A [`SessionThread`] keeps
//! one on a thread of its own, with the stack that it needs, and may be sent to any thread. Questions and
//! entities are given as values, policies as texts of the language.
//!
//! ```no_run
//! use cedar_session::{Commands, Decision, Entity, Listed, Question, SessionThread};
//!
//! fn main() -> Result<(), cedar_session::Error> {
//!     let staff = Entity::new("Group", "staff")?;
//!     let alice = Entity::new("User", "alice")?;
//!     let mut session = SessionThread::open(cedar_session::DEPTH)?;
//!     session.put(&[Listed::new(&alice).parent(&staff)])?;
//!     session.load("permit(principal in Group::\"staff\", action, resource) when { context.hour < 18 };")?;
//!     let question = Question::new(alice, Entity::new("Action", "view")?, Entity::new("Photo", "1")?);
//!     assert_eq!(session.ask(&question.known("hour", 9))?.decision, Decision::Allow);
//!     Ok(())
//! }
//! ```

mod commands;
mod faults;
mod lines;
mod session;
mod stack;
mod values;

pub use commands::{BODY_LIMIT, Commands, Error, Verb};
pub use faults::{Fault, Place};
pub use lines::{Answer, Decision, answer_of};
pub use session::{DEPTH, DEPTH_MAX, Session, SessionThread, library_version};
pub use stack::stack_for;
pub use values::{Entity, Listed, Part, Question, Record, Value, quoted};
