//! Rules of Constraint Handling Rules in a Rust program, over the C library of Cordspar.
//!
//! ```
//! use cordspar::{Program, Status, Term};
//!
//! let program = Program::new(
//!     r":- chr_constraint gcd/1.
//! zero     @ gcd(0) <=> true.
//! subtract @ gcd(N) \ gcd(M) <=> M >= N | L is M-N, gcd(L).
//! ",
//! )?;
//! let run = program.run("gcd(4), gcd(2).", 100_000)?;
//! assert_eq!(run.status(), Status::Done);
//! assert_eq!(run.store()[0].args, [Term::Int(2)]);
//! # Ok::<(), cordspar::Error>(())
//! ```
//!
//! What a call needs of the stack grows with the depth of the terms: a thread of 2 MiB, as
//! `std::thread` starts them, is enough for terms that are nested 5,000 deep, and
//! [`with_large_stack`] for a million.
mod query;
mod reading;
pub mod sys;
mod term;
#[cfg(test)]
mod tests;

pub use query::{NotSpelled, Query};
pub use reading::NoTerm;
pub use term::Term;

use std::fmt;
use std::io;
use std::panic;
use std::ptr::{null_mut, NonNull};
use std::thread;

/// The stack of `with_large_stack`; what is not used of it is no memory.
pub const STACK: usize = 512 << 20;

/// How a run stands.
#[derive(Clone, Copy, Debug, PartialEq, Eq)]
pub enum Status {
    /// The stack is empty.
    Done,
    /// Two terms are not equal, or `fail` was told.
    Failed,
    /// An expression has no value.
    Fault(Fault),
    /// The run would go on.
    Budget,
}

/// Why an expression has no value.
#[derive(Clone, Copy, Debug, PartialEq, Eq)]
pub enum Fault {
    /// A variable in it is free.
    Unbound,
    /// A term in it is no number.
    Type,
    /// A value is not from -2^127 to 2^127 - 1.
    Overflow,
    /// It divides by 0.
    ZeroDivisor,
}

/// What is refused.
#[derive(Clone, Copy, Debug, PartialEq, Eq)]
pub enum Source {
    Call,
    Program,
    Query,
}

/// What is wrong with a text or a call; `docs/LANGUAGE.md` tells of each.
#[derive(Clone, Copy, Debug, PartialEq, Eq)]
#[non_exhaustive]
pub enum Kind {
    NotUtf8,
    TooLong,
    BadChar,
    UnclosedComment,
    NumberTooLarge,
    Expected,
    TooDeep,
    Memory,
    Undeclared,
    BuiltinInHead,
    NotAGoal,
    NotATest,
    GuardVariable,
    GuardOnly,
    DuplicateName,
    TooManyHeads,
    ArityTooLarge,
    TooManyRules,
    BackslashInPropagation,
    TooManyVariables,
    BudgetTooLarge,
}

/// The kinds by their numbers, from 1.
const KINDS: [Kind; 21] = [
    Kind::NotUtf8,
    Kind::TooLong,
    Kind::BadChar,
    Kind::UnclosedComment,
    Kind::NumberTooLarge,
    Kind::Expected,
    Kind::TooDeep,
    Kind::Memory,
    Kind::Undeclared,
    Kind::BuiltinInHead,
    Kind::NotAGoal,
    Kind::NotATest,
    Kind::GuardVariable,
    Kind::GuardOnly,
    Kind::DuplicateName,
    Kind::TooManyHeads,
    Kind::ArityTooLarge,
    Kind::TooManyRules,
    Kind::BackslashInPropagation,
    Kind::TooManyVariables,
    Kind::BudgetTooLarge,
];

/// Why a text or a call is refused. It is displayed as `chr` says it: `program 2:7: Expected`.
///
/// Lines, columns and rules count from 1, and are 0 where there is none.
#[derive(Clone, Debug, PartialEq, Eq)]
pub struct Error {
    pub source: Source,
    pub kind: Kind,
    pub line: u64,
    pub column: u64,
    pub rule: u64,
    text: String,
}

impl Error {
    fn of(error: &sys::Error) -> Error {
        // SAFETY: a buffer of that size, and an error that the library set.
        let text = text_of(|buffer, size| unsafe { sys::cordspar_error_text(error, buffer, size) });
        Error {
            source: match error.source {
                0 => Source::Call,
                1 => Source::Program,
                _ => Source::Query,
            },
            kind: KINDS[error.kind as usize - 1],
            line: error.line,
            column: error.column,
            rule: error.rule,
            text,
        }
    }
}

impl fmt::Display for Error {
    fn fmt(&self, out: &mut fmt::Formatter<'_>) -> fmt::Result {
        out.write_str(&self.text)
    }
}

impl std::error::Error for Error {}

/// A constraint of a store.
#[derive(Clone, Debug, PartialEq, Eq)]
pub struct Constraint {
    pub name: String,
    pub args: Vec<Term>,
    pub id: u64,
}

/// A rule that fired, by its label, with the identities of its constraints.
#[derive(Clone, Debug, PartialEq, Eq)]
pub struct Firing {
    pub rule: String,
    pub ids: Vec<u64>,
}

/// A program that was read. It stays on the thread that read it.
#[derive(Debug)]
pub struct Program(NonNull<sys::Program>);

/// A run that was made. It outlives its program, and stays on its thread too.
#[derive(Debug)]
pub struct Run {
    handle: NonNull<sys::Run>,
    status: Status,
}

impl Program {
    /// Reads a program, which is UTF-8.
    pub fn new(text: impl AsRef<[u8]>) -> Result<Program, Error> {
        let text = text.as_ref();
        let (mut out, mut error) = (null_mut(), sys::Error::default());
        // SAFETY: each pointer is valid, and none overlap.
        let status =
            unsafe { sys::cordspar_program_new(text.as_ptr(), text.len(), &mut out, &mut error) };
        match NonNull::new(out) {
            Some(program) if status == sys::DONE => Ok(Program(program)),
            _ => Err(Error::of(&error)),
        }
    }

    /// Runs a query, a text or a [`Query`], for at most so many transitions.
    pub fn run(&self, query: impl AsRef<[u8]>, budget: u64) -> Result<Run, Error> {
        self.make_run(query.as_ref(), budget, 0)
    }

    /// Runs a query, and keeps a line for each transition.
    pub fn run_traced(&self, query: impl AsRef<[u8]>, budget: u64) -> Result<Run, Error> {
        self.make_run(query.as_ref(), budget, 1)
    }

    fn make_run(&self, query: &[u8], budget: u64, trace: u32) -> Result<Run, Error> {
        let (mut out, mut error) = (null_mut(), sys::Error::default());
        let (text, length) = (query.as_ptr(), query.len());
        // SAFETY: the program is in no other call, each pointer is valid, and none overlap.
        let status = unsafe {
            let program = self.0.as_ptr();
            sys::cordspar_run_new(program, text, length, budget, trace, &mut out, &mut error)
        };
        match NonNull::new(out) {
            Some(handle) if status != sys::REFUSED => Ok(Run::of(handle, status)),
            _ => Err(Error::of(&error)),
        }
    }
}

impl Drop for Program {
    fn drop(&mut self) {
        // SAFETY: the handle is in no call, and in none from now on.
        unsafe { sys::cordspar_program_free(self.0.as_ptr()) }
    }
}

impl Run {
    fn of(handle: NonNull<sys::Run>, status: i32) -> Run {
        let status = match status {
            sys::DONE => Status::Done,
            sys::FAILED => Status::Failed,
            sys::BUDGET => Status::Budget,
            // SAFETY: the handle is one that was set.
            _ => Status::Fault(match unsafe { sys::cordspar_run_fault(handle.as_ptr()) } {
                1 => Fault::Unbound,
                2 => Fault::Type,
                3 => Fault::Overflow,
                _ => Fault::ZeroDivisor,
            }),
        };
        Run { handle, status }
    }

    pub fn status(&self) -> Status {
        self.status
    }

    /// How many transitions were made.
    pub fn steps(&self) -> u64 {
        // SAFETY: the handle is one that was set.
        unsafe { sys::cordspar_run_steps(self.handle.as_ptr()) }
    }

    /// The constraints that are left, by ascending identity.
    pub fn store(&self) -> Vec<Constraint> {
        self.parts(sys::STORE, constraint_of)
    }

    /// What the query's variables are bound to, by their names.
    pub fn bindings(&self) -> Vec<(String, Term)> {
        self.parts(sys::BINDINGS, binding_of)
    }

    /// The lines of what is left to do, from the top.
    pub fn stack(&self) -> Vec<String> {
        self.lines(sys::STACK)
    }

    /// The firings whose constraints are left.
    pub fn history(&self) -> Vec<Firing> {
        self.parts(sys::HISTORY, firing_of)
    }

    /// A line for each transition, where the run is traced.
    pub fn trace(&self) -> Vec<String> {
        self.lines(sys::TRACE)
    }

    /// What `chr` writes for the run.
    pub fn text(&self) -> String {
        let run = self.handle.as_ptr();
        // SAFETY: the handle is one that was set, and the buffer has that size.
        text_of(|buffer, size| unsafe { sys::cordspar_run_text(run, buffer, size) })
    }

    fn lines(&self, part: i32) -> Vec<String> {
        let run = self.handle.as_ptr();
        // SAFETY: the handle is one that was set.
        let count = unsafe { sys::cordspar_run_count(run, part) };
        let line = |k| {
            // SAFETY: the handle is one that was set, and the buffer has that size.
            text_of(|buffer, size| unsafe { sys::cordspar_run_item(run, part, k, buffer, size) })
        };
        (0..count).map(line).collect()
    }

    fn parts<T>(&self, part: i32, read: fn(&str) -> Option<T>) -> Vec<T> {
        let read = |line: String| read(&line).unwrap_or_else(|| panic!("no such line: {line}"));
        self.lines(part).into_iter().map(read).collect()
    }
}

impl Drop for Run {
    fn drop(&mut self) {
        // SAFETY: the handle is in no call, and in none from now on.
        unsafe { sys::cordspar_run_free(self.handle.as_ptr()) }
    }
}

/// Of a line NAME(..)#IDENTITY.
fn constraint_of(line: &str) -> Option<Constraint> {
    let (term, id) = line.rsplit_once('#')?;
    match &mut term.parse().ok()? {
        Term::Struct(name, args) => Some(Constraint {
            name: std::mem::take(name),
            args: std::mem::take(args),
            id: id.parse().ok()?,
        }),
        _ => None,
    }
}

fn binding_of(line: &str) -> Option<(String, Term)> {
    let (name, term) = line.split_once(" = ")?;
    Some((name.to_string(), term.parse().ok()?))
}

fn firing_of(line: &str) -> Option<Firing> {
    let (rule, ids) = line.split_once(' ')?;
    let ids = ids
        .split(',')
        .map(|id| id.parse().ok())
        .collect::<Option<_>>()?;
    Some(Firing {
        rule: rule.to_string(),
        ids,
    })
}

/// The text that a function writes, which is asked again where the buffer was too small.
fn text_of(write: impl Fn(*mut u8, usize) -> usize) -> String {
    let mut buffer = vec![0; 256];
    let length = write(buffer.as_mut_ptr(), buffer.len());
    if length > buffer.len() {
        buffer.resize(length, 0);
        write(buffer.as_mut_ptr(), length);
    }
    buffer.truncate(length);
    String::from_utf8(buffer).expect("the library writes UTF-8")
}

/// The version of the library: major, minor, patch.
pub fn version() -> (u32, u32, u32) {
    // SAFETY: the call takes nothing.
    let number = unsafe { sys::cordspar_version() };
    (number >> 16, number >> 8 & 255, number & 255)
}

/// What a function answers that runs on a thread with a large stack, which is for it alone.
///
/// It fails where no such thread can be started, and panics where the function does.
pub fn with_large_stack<T: Send>(function: impl FnOnce() -> T + Send) -> io::Result<T> {
    thread::scope(|scope| {
        let thread = thread::Builder::new()
            .stack_size(STACK)
            .spawn_scoped(scope, function)?;
        Ok(thread
            .join()
            .unwrap_or_else(|panic| panic::resume_unwind(panic)))
    })
}
