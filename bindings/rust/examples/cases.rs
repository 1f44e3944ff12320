//! For scripts/try-bindings: runs the cases that stand on the input, and writes what each comes to.
//!
//! A case is a line `PROGRAM QUERY BUDGET`, of the lengths of two texts and of a number, and then
//! the two texts. An answer is a line `STATUS TEXT VALUES QUERY` and then three texts: that of the
//! run, or of the error; the parts of the run but the trace, from values; and the query that tells
//! the constraints of its store.
use cordspar::{with_large_stack, NotSpelled, Program, Query, Run, Status, Term};
use std::error::Error;
use std::io::{self, BufRead, Read, Write};

fn status_of(run: &Run) -> i32 {
    match run.status() {
        Status::Done => 0,
        Status::Failed => 3,
        Status::Fault(_) => 4,
        Status::Budget => 5,
    }
}

/// A part of the text of a run.
fn part_of(name: &str, lines: Vec<String>) -> String {
    let mut text = format!("{name} {}\n", lines.len());
    for line in lines {
        text += &line;
        text += "\n";
    }
    text
}

fn values_of(run: &Run) -> String {
    let store = run.store().into_iter().map(|constraint| {
        let id = constraint.id;
        format!("{}#{id}", Term::Struct(constraint.name, constraint.args))
    });
    let bindings = run.bindings().into_iter();
    let history = run.history().into_iter().map(|firing| {
        let ids: Vec<String> = firing.ids.iter().map(u64::to_string).collect();
        format!("{} {}", firing.rule, ids.join(","))
    });
    part_of("stack", run.stack())
        + &part_of("store", store.collect())
        + &part_of(
            "bindings",
            bindings
                .map(|(name, term)| format!("{name} = {term}"))
                .collect(),
        )
        + &part_of("history", history.collect())
}

fn query_of(run: &Run) -> Result<String, NotSpelled> {
    let mut query = Query::new();
    for constraint in run.store() {
        query = query.tell(&constraint.name, &constraint.args)?;
    }
    Ok(query.to_string())
}

/// The status and the three texts of a case.
fn answer(program: &[u8], query: &[u8], budget: u64) -> Result<(i32, [String; 3]), NotSpelled> {
    let made = Program::new(program).and_then(|program| program.run_traced(query, budget));
    Ok(match made {
        Ok(run) => (
            status_of(&run),
            [run.text(), values_of(&run), query_of(&run)?],
        ),
        Err(error) => (2, [error.to_string(), String::new(), String::new()]),
    })
}

fn bytes(input: &mut impl Read, length: u64) -> io::Result<Vec<u8>> {
    let mut bytes = Vec::new();
    input.take(length).read_to_end(&mut bytes)?;
    Ok(bytes)
}

fn run_cases() -> Result<(), Box<dyn Error + Send + Sync>> {
    let (mut input, mut output) = (io::stdin().lock(), io::stdout().lock());
    let mut line = String::new();
    while input.read_line(&mut line)? > 0 {
        let numbers: Vec<u64> = line
            .split_whitespace()
            .map(str::parse)
            .collect::<Result<_, _>>()?;
        let program = bytes(&mut input, numbers[0])?;
        let query = bytes(&mut input, numbers[1])?;
        let (status, texts) = answer(&program, &query, numbers[2])?;
        let lengths: Vec<String> = texts.iter().map(|text| text.len().to_string()).collect();
        writeln!(output, "{status} {}", lengths.join(" "))?;
        output.write_all(texts.concat().as_bytes())?;
        line.clear();
    }
    Ok(())
}

fn main() -> Result<(), Box<dyn Error + Send + Sync>> {
    with_large_stack(run_cases)?
}
