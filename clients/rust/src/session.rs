//! Sessions by the library.

use crate::commands::{BODY_LIMIT, Commands, Error, Verb};
use crate::faults::{Fault, faults_of};
use crate::stack::{stack_for, stack_here};
use std::ffi::{CStr, c_char};
use std::ptr::{self, NonNull};
use std::sync::mpsc::{Sender, channel};
use std::thread::{Builder, JoinHandle};

/// The limit of depth that the program has.
pub const DEPTH: u32 = 256;

/// The highest limit of depth.
pub const DEPTH_MAX: u32 = 1024;

/// The calls are those of the libraries whose version begins so.
const VERSION: &str = "0.2.";

/// What the library keeps.
#[repr(C)]
struct Handle {
    kept: [u8; 0],
}

unsafe extern "C" {
    fn cedar_new(session: &mut *mut Handle, depth: u32) -> u32;
    fn cedar_new_standard(session: &mut *mut Handle, depth: u32) -> u32;
    fn cedar_command(
        session: *mut Handle,
        verb: *const u8,
        verb_length: usize,
        body: *const u8,
        body_length: usize,
    ) -> u32;
    fn cedar_answer(session: *mut Handle, output: *mut u8, output_length: usize, written: &mut usize) -> u32;
    fn cedar_why(
        session: *mut Handle,
        verb: *const u8,
        verb_length: usize,
        body: *const u8,
        body_length: usize,
        output: *mut u8,
        output_length: usize,
        written: &mut usize,
    ) -> u32;
    fn cedar_free(session: *mut Handle) -> u32;
    fn cedar_version() -> *const c_char;
}

/// A call that makes a handle and opens it.
type Opener = unsafe extern "C" fn(&mut *mut Handle, u32) -> u32;

const DONE: u32 = 0;
const NO_ROOM: u32 = 5;

/// What a status other than [`DONE`] and [`NO_ROOM`] stands for, by a limit of depth.
fn error_of(status: u32, depth: u32) -> Error {
    match status {
        4 => Error::Memory,
        6 => Error::Ended,
        9 => Error::TooLong,
        10 => Error::Busy,
        12 => Error::Stack(stack_for(depth)),
        other => Error::Status(other),
    }
}

/// The version of the library that is linked.
pub fn library_version() -> String {
    // SAFETY: the library answers a text that stays, and ends in a zero byte.
    let version = unsafe { CStr::from_ptr(cedar_version()) };
    version.to_string_lossy().into_owned()
}

/// A session that stays on the thread that opens it: it is neither `Send` nor `Sync`.
pub struct Session {
    handle: NonNull<Handle>,
    depth: u32,
    output: Vec<u8>,
}

impl Session {
    /// A session without policies and entities, with this limit of depth, whose texts may call the functions of
    /// Cedar's types `decimal`, `ipaddr`, `datetime` and `duration`.
    ///
    /// [`Error::Depth`] where it is above [`DEPTH_MAX`], [`Error::Stack`] where this thread's stack is too small
    /// for it, [`Error::Library`] where the library is of another version, [`Error::Memory`] where there is no
    /// memory.
    pub fn open(depth: u32) -> Result<Session, Error> {
        Session::open_by(depth, cedar_new_standard)
    }

    /// The same without these types, as the program `cedar_session` answers.
    pub fn open_without_types(depth: u32) -> Result<Session, Error> {
        Session::open_by(depth, cedar_new)
    }

    fn open_by(depth: u32, new: Opener) -> Result<Session, Error> {
        let wanted = stack_for(depth);
        if depth > DEPTH_MAX {
            return Err(Error::Depth(depth));
        }
        if stack_here().is_some_and(|here| here < wanted) {
            return Err(Error::Stack(wanted));
        }
        let version = library_version();
        if !version.starts_with(VERSION) {
            return Err(Error::Library(version));
        }
        let mut handle = ptr::null_mut();
        // SAFETY: it writes the handle, or null.
        let status = unsafe { new(&mut handle, depth) };
        let handle = NonNull::new(handle).ok_or_else(|| error_of(status, depth))?;
        Ok(Session {
            handle,
            depth,
            output: vec![0; 256],
        })
    }

    /// The line that answers the last command, without its line feed; nothing before the first. It changes nothing.
    pub fn last_line(&mut self) -> Result<String, Error> {
        let handle = self.handle.as_ptr();
        // SAFETY: the output has so much room, and the handle is this session's.
        let line = self.written_by(|at, room, written| unsafe { cedar_answer(handle, at, room, written) })?;
        Ok(line.strip_suffix('\n').unwrap_or_default().to_owned())
    }

    /// Why the session would refuse a command, which it isn't given: of policies each error of the text, of another
    /// body each by which it isn't read, or the part for which it is refused. Empty where the command wouldn't be
    /// refused, or where no place of the body shows the reason, as where an id is bound. It changes nothing.
    pub fn why(&mut self, verb: Verb, body: &str) -> Result<Vec<Fault>, Error> {
        if body.len() > BODY_LIMIT {
            return Err(Error::TooLong);
        }
        let (handle, name) = (self.handle.as_ptr(), verb.name());
        // SAFETY: each pointer is to as many bytes as are told, and the handle is this session's.
        let list = self.written_by(|at, room, written| unsafe {
            cedar_why(
                handle,
                name.as_ptr(),
                name.len(),
                body.as_ptr(),
                body.len(),
                at,
                room,
                written,
            )
        })?;
        faults_of(&list).ok_or(Error::Line(list))
    }

    /// What a call writes to an output that has room for it.
    fn written_by(&mut self, call: impl Fn(*mut u8, usize, &mut usize) -> u32) -> Result<String, Error> {
        let mut written = 0;
        loop {
            match call(self.output.as_mut_ptr(), self.output.len(), &mut written) {
                DONE => break,
                NO_ROOM => self.output.resize(written, 0),
                status => return Err(error_of(status, self.depth)),
            }
        }
        let text = self.output.get(..written).unwrap_or_default();
        Ok(String::from_utf8_lossy(text).into_owned())
    }
}

impl Commands for Session {
    fn line(&mut self, verb: Verb, body: &str) -> Result<String, Error> {
        let name = verb.name();
        // SAFETY: each pointer is to as many bytes as are told, and the handle is this session's.
        match unsafe {
            cedar_command(
                self.handle.as_ptr(),
                name.as_ptr(),
                name.len(),
                body.as_ptr(),
                body.len(),
            )
        } {
            DONE => self.last_line(),
            status => Err(error_of(status, self.depth)),
        }
    }
}

impl Drop for Session {
    fn drop(&mut self) {
        // SAFETY: the handle is this session's, on its thread.
        unsafe { cedar_free(self.handle.as_ptr()) };
    }
}

/// What a thread does with its session.
type Job = Box<dyn FnOnce(&mut Session) + Send>;

/// A session on a thread of its own, which ends where this is dropped. It is `Send`, so that it goes to any thread.
pub struct SessionThread {
    jobs: Option<Sender<Job>>,
    thread: Option<JoinHandle<()>>,
}

impl SessionThread {
    /// A session with this limit of depth, on a thread with the stack that it takes.
    ///
    /// As [`Session::open`]; [`Error::Stack`] where no thread can have so much.
    pub fn open(depth: u32) -> Result<SessionThread, Error> {
        if depth > DEPTH_MAX {
            return Err(Error::Depth(depth));
        }
        let (jobs, taken) = channel::<Job>();
        let (opened, is_open) = channel();
        let work = move || match Session::open(depth) {
            Ok(mut session) => {
                let _ = opened.send(Ok(()));
                for job in taken {
                    job(&mut session);
                }
            }
            Err(why) => drop(opened.send(Err(why))),
        };
        // (a system may count a page that guards the stack as part of it)
        let stack = stack_for(depth).saturating_add(64 << 10);
        let thread = Builder::new()
            .name("cedar".to_owned())
            .stack_size(stack)
            .spawn(work);
        let thread = thread.map_err(|_| Error::Stack(stack))?;
        is_open.recv().unwrap_or(Err(Error::Ended))?;
        Ok(SessionThread {
            jobs: Some(jobs),
            thread: Some(thread),
        })
    }
}

impl SessionThread {
    /// As [`Session::why`].
    pub fn why(&mut self, verb: Verb, body: &str) -> Result<Vec<Fault>, Error> {
        let body = body.to_owned();
        self.done(move |session| session.why(verb, &body))
    }

    /// What comes of a job of the thread.
    fn done<T: Send + 'static>(
        &self,
        job: impl FnOnce(&mut Session) -> Result<T, Error> + Send + 'static,
    ) -> Result<T, Error> {
        let (back, answered) = channel();
        let jobs = self.jobs.as_ref().ok_or(Error::Ended)?;
        // (who asked may have gone)
        let job: Job = Box::new(move |session| drop(back.send(job(session))));
        jobs.send(job).map_err(|_| Error::Ended)?;
        answered.recv().unwrap_or(Err(Error::Ended))
    }
}

impl Commands for SessionThread {
    fn line(&mut self, verb: Verb, body: &str) -> Result<String, Error> {
        let body = body.to_owned();
        self.done(move |session| session.line(verb, &body))
    }
}

impl Drop for SessionThread {
    fn drop(&mut self) {
        self.jobs = None;
        if let Some(thread) = self.thread.take() {
            let _ = thread.join();
        }
    }
}
