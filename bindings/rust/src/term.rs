//! Terms as values. Nothing here goes down a term by calls, so terms may be as deep as they like.
use std::fmt;
use std::mem;

/// A term of the language. It is printed as runs print it, and parsed from that.
pub enum Term {
    Int(i128),
    /// A variable, by its name.
    Var(String),
    /// A name with terms. An atom has none, and `1+2` is `+` with two.
    Struct(String, Vec<Term>),
    List(Vec<Term>),
    /// A list whose tail is no list, as `[1,2|T]`.
    Partial(Vec<Term>, Box<Term>),
}

impl Term {
    /// An atom, which is a name without terms.
    pub fn atom(name: impl Into<String>) -> Term {
        Term::Struct(name.into(), Vec::new())
    }

    pub fn var(name: impl Into<String>) -> Term {
        Term::Var(name.into())
    }

    /// The terms that stand in this one, the tail of a list last.
    pub(crate) fn parts(&self) -> impl DoubleEndedIterator<Item = &Term> {
        let (terms, tail) = match self {
            Term::Int(_) | Term::Var(_) => (&[][..], None),
            Term::Struct(_, terms) | Term::List(terms) => (&terms[..], None),
            Term::Partial(terms, tail) => (&terms[..], Some(&**tail)),
        };
        terms.iter().chain(tail)
    }

    /// Moves the terms that stand in this one to the end of a list.
    pub(crate) fn give_parts(&mut self, to: &mut Vec<Term>) {
        match self {
            Term::Int(_) | Term::Var(_) => {}
            Term::Struct(_, terms) | Term::List(terms) => to.append(terms),
            Term::Partial(terms, tail) => {
                to.append(terms);
                to.push(mem::replace(&mut **tail, Term::Int(0)));
            }
        }
    }

    /// The same term over these parts, which are as many.
    fn with_parts(&self, mut parts: Vec<Term>) -> Term {
        match self {
            Term::Int(value) => Term::Int(*value),
            Term::Var(name) => Term::Var(name.clone()),
            Term::Struct(name, _) => Term::Struct(name.clone(), parts),
            Term::List(_) => Term::List(parts),
            Term::Partial(..) => {
                let tail = parts.pop().expect("a partial list has a tail");
                Term::Partial(parts, Box::new(tail))
            }
        }
    }

    /// Whether two terms are the same but for their parts, which are as many.
    fn is_like(&self, other: &Term) -> bool {
        match (self, other) {
            (Term::Int(one), Term::Int(other)) => one == other,
            (Term::Var(one), Term::Var(other)) => one == other,
            (Term::Struct(one, terms), Term::Struct(other, others)) => {
                one == other && terms.len() == others.len()
            }
            (Term::List(terms), Term::List(others)) => terms.len() == others.len(),
            (Term::Partial(terms, _), Term::Partial(others, _)) => terms.len() == others.len(),
            _ => false,
        }
    }
}

impl Drop for Term {
    fn drop(&mut self) {
        let mut left = Vec::new();
        self.give_parts(&mut left);
        while let Some(mut term) = left.pop() {
            term.give_parts(&mut left);
        }
    }
}

impl Clone for Term {
    fn clone(&self) -> Term {
        // The terms in their order, each before its parts; from the last one on they are made.
        let (mut order, mut left) = (Vec::new(), vec![self]);
        while let Some(term) = left.pop() {
            order.push(term);
            left.extend(term.parts());
        }
        let mut made: Vec<Term> = Vec::new();
        for term in order.into_iter().rev() {
            let parts = made.split_off(made.len() - term.parts().count());
            made.push(term.with_parts(parts));
        }
        made.pop().expect("a term was made")
    }
}

impl PartialEq for Term {
    fn eq(&self, other: &Term) -> bool {
        let mut left = vec![(self, other)];
        while let Some((one, other)) = left.pop() {
            if !one.is_like(other) {
                return false;
            }
            left.extend(one.parts().zip(other.parts()));
        }
        true
    }
}

impl Eq for Term {}

/// An operator of two terms.
#[derive(Clone, Copy)]
pub(crate) struct Operator {
    pub(crate) name: &'static str,
    text: &'static str,
    /// Whether it is `*`, `//` or `mod`, which bind tighter than the others.
    pub(crate) is_product: bool,
}

const OPERATORS: [Operator; 5] = [
    Operator::new("+", "+", false),
    Operator::new("-", "-", false),
    Operator::new("*", "*", true),
    Operator::new("//", "//", true),
    Operator::new("mod", " mod ", true),
];

impl Operator {
    const fn new(name: &'static str, text: &'static str, is_product: bool) -> Operator {
        Operator {
            name,
            text,
            is_product,
        }
    }
}

pub(crate) fn operator(name: &str) -> Option<Operator> {
    OPERATORS.into_iter().find(|operator| operator.name == name)
}

/// The operator of a term, with its operands.
pub(crate) fn operation(term: &Term) -> Option<(Operator, &Term, &Term)> {
    match term {
        Term::Struct(name, terms) => match &terms[..] {
            [one, other] => operator(name).map(|operator| (operator, one, other)),
            _ => None,
        },
        _ => None,
    }
}

/// What is left to write.
enum Piece<'a> {
    Text(&'static str),
    Term(&'a Term),
}

impl fmt::Display for Term {
    fn fmt(&self, out: &mut fmt::Formatter<'_>) -> fmt::Result {
        let mut left = vec![Piece::Term(self)];
        while let Some(piece) = left.pop() {
            match piece {
                Piece::Text(text) => out.write_str(text)?,
                Piece::Term(term) => write_term(term, out, &mut left)?,
            }
        }
        Ok(())
    }
}

impl fmt::Debug for Term {
    fn fmt(&self, out: &mut fmt::Formatter<'_>) -> fmt::Result {
        fmt::Display::fmt(self, out)
    }
}

/// Writes how a term begins, and puts off the rest of it.
fn write_term<'a>(
    term: &'a Term,
    out: &mut fmt::Formatter<'_>,
    left: &mut Vec<Piece<'a>>,
) -> fmt::Result {
    if let Some((operator, one, other)) = operation(term) {
        let wraps =
            |term, product| operation(term).is_some_and(|(inner, ..)| !inner.is_product || product);
        put_off_operand(other, wraps(other, operator.is_product), left);
        left.push(Piece::Text(operator.text));
        put_off_operand(one, operator.is_product && wraps(one, false), left);
        return Ok(());
    }
    match term {
        Term::Int(value) => write!(out, "{value}"),
        Term::Var(name) => out.write_str(name),
        Term::Struct(name, terms) if terms.is_empty() => out.write_str(name),
        Term::Struct(name, terms) => {
            left.push(Piece::Text(")"));
            put_off_items(terms, left);
            write!(out, "{name}(")
        }
        Term::List(terms) => {
            left.push(Piece::Text("]"));
            put_off_items(terms, left);
            out.write_str("[")
        }
        Term::Partial(terms, tail) => {
            left.extend([Piece::Text("]"), Piece::Term(tail), Piece::Text("|")]);
            put_off_items(terms, left);
            out.write_str("[")
        }
    }
}

fn put_off_operand<'a>(term: &'a Term, wraps: bool, left: &mut Vec<Piece<'a>>) {
    if wraps {
        left.extend([Piece::Text(")"), Piece::Term(term), Piece::Text("(")]);
    } else {
        left.push(Piece::Term(term));
    }
}

fn put_off_items<'a>(terms: &'a [Term], left: &mut Vec<Piece<'a>>) {
    for (k, term) in terms.iter().enumerate().rev() {
        left.push(Piece::Term(term));
        if k > 0 {
            left.push(Piece::Text(","));
        }
    }
}
