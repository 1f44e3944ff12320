//! Queries from values.
use crate::reading::is_variable;
use crate::term::operation;
use crate::Term;
use std::fmt;

/// A query, goal by goal; with none it is `true.`.
///
/// ```
/// use cordspar::{Query, Term};
///
/// let query = Query::new()
///     .tell("gcd", &[Term::Int(4)])?
///     .tell("=", &[Term::var("X"), Term::atom("a")])?;
/// assert_eq!(query.to_string(), "gcd(4), X = a.");
/// # Ok::<(), cordspar::NotSpelled>(())
/// ```
#[derive(Clone, Debug, PartialEq, Eq)]
pub struct Query {
    text: String,
    is_empty: bool,
}

/// What the language cannot spell: a name or a variable that is none, or a list of a tail alone.
///
/// Which letters beyond ASCII may stand in a name the library decides when the query runs.
#[derive(Clone, Debug, PartialEq, Eq)]
pub struct NotSpelled(pub String);

impl fmt::Display for NotSpelled {
    fn fmt(&self, out: &mut fmt::Formatter<'_>) -> fmt::Result {
        write!(out, "the language cannot spell {:?}", self.0)
    }
}

impl std::error::Error for NotSpelled {}

const RELATIONS: [&str; 9] = ["=", "\\=", "<", ">", "=<", ">=", "=:=", "=\\=", "is"];

impl Query {
    pub fn new() -> Query {
        Query {
            text: "true.".to_string(),
            is_empty: true,
        }
    }

    /// Adds a goal: a constraint by its name and terms, or two terms with a relation between them,
    /// as `=`, `is` or `=<`.
    pub fn tell(mut self, name: &str, terms: &[Term]) -> Result<Query, NotSpelled> {
        terms.iter().try_for_each(check)?;
        let goal = match terms {
            [one, other] if RELATIONS.contains(&name) => format!("{one} {name} {other}"),
            _ if !is_name(name) => return Err(NotSpelled(name.to_string())),
            [] => name.to_string(),
            _ => {
                let terms: Vec<String> = terms.iter().map(Term::to_string).collect();
                format!("{name}({})", terms.join(","))
            }
        };
        self.text.pop();
        if self.is_empty {
            self.text.clear();
        } else {
            self.text.push_str(", ");
        }
        self.text.push_str(&goal);
        self.text.push('.');
        self.is_empty = false;
        Ok(self)
    }
}

impl Default for Query {
    fn default() -> Query {
        Query::new()
    }
}

impl fmt::Display for Query {
    fn fmt(&self, out: &mut fmt::Formatter<'_>) -> fmt::Result {
        out.write_str(&self.text)
    }
}

impl AsRef<[u8]> for Query {
    fn as_ref(&self) -> &[u8] {
        self.text.as_bytes()
    }
}

/// Finds what in a term cannot be spelled.
fn check(term: &Term) -> Result<(), NotSpelled> {
    let mut left = vec![term];
    while let Some(term) = left.pop() {
        let is_spelled = match term {
            Term::Int(_) | Term::List(_) => true,
            Term::Var(name) => is_word(name) && is_variable(name),
            Term::Struct(name, _) => operation(term).is_some() || is_name(name),
            Term::Partial(terms, _) => !terms.is_empty(),
        };
        if !is_spelled {
            return Err(NotSpelled(match term {
                Term::Struct(name, _) => name.clone(),
                _ => term.to_string(),
            }));
        }
        left.extend(term.parts());
    }
    Ok(())
}

fn is_name(word: &str) -> bool {
    is_word(word) && !is_variable(word) && word != "is" && word != "mod"
}

/// Whether a text is one token, as far as ASCII and white space tell.
fn is_word(text: &str) -> bool {
    let is_of_word = |letter: char| match letter.is_ascii() {
        true => letter.is_ascii_alphanumeric() || letter == '_',
        false => !letter.is_whitespace(),
    };
    !text.is_empty()
        && !text.starts_with(|first: char| first.is_ascii_digit())
        && text.chars().all(is_of_word)
}
