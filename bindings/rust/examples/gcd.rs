//! Greatest common divisors: a program that is read once, and a query for each pair of numbers.
use cordspar::{with_large_stack, Program, Query, Term};

const GCD: &str = r":- chr_constraint gcd/1.
zero     @ gcd(0) <=> true.
subtract @ gcd(N) \ gcd(M) <=> M >= N | L is M-N, gcd(L).
";

fn show_divisors() -> Result<(), Box<dyn std::error::Error + Send + Sync>> {
    let program = Program::new(GCD)?;
    for (one, other) in [(4, 6), (20, 30), (198, 297)] {
        let query = Query::new()
            .tell("gcd", &[Term::Int(one)])?
            .tell("gcd", &[Term::Int(other)])?;
        let run = program.run(&query, 100_000)?;
        println!(
            "{query} {:?} after {} transitions",
            run.status(),
            run.steps()
        );
        for constraint in run.store() {
            println!("    {}{:?}", constraint.name, constraint.args);
        }
    }
    if let Err(error) = program.run("lcm(1).", 100_000) {
        println!("{error}");
    }
    Ok(())
}

fn main() -> Result<(), Box<dyn std::error::Error + Send + Sync>> {
    with_large_stack(show_divisors)?
}
