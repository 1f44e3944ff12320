//! Reading terms, by a list of the brackets that are open.
use crate::term::{operator, Operator, Term};
use std::fmt;
use std::str::FromStr;

/// A text that is no term as runs print it.
#[derive(Clone, Debug, PartialEq, Eq)]
pub struct NoTerm;

impl fmt::Display for NoTerm {
    fn fmt(&self, out: &mut fmt::Formatter<'_>) -> fmt::Result {
        out.write_str("the text is no term")
    }
}

impl std::error::Error for NoTerm {}

impl FromStr for Term {
    type Err = NoTerm;

    fn from_str(text: &str) -> Result<Term, NoTerm> {
        read(text).ok_or(NoTerm)
    }
}

#[derive(Clone, Copy, PartialEq)]
enum Token<'a> {
    /// Digits alone.
    Number(&'a str),
    Word(&'a str),
    Sign(u8),
    /// `//`
    Division,
    End,
}

/// Where a term stands.
#[derive(Clone, Copy, PartialEq)]
enum Place {
    Whole,
    Parentheses,
    Call,
    List,
    Tail,
}

/// A bracket that is open: its name, the terms in it so far, and what stands to the left of the
/// term that is being read in it.
struct Bracket<'a> {
    place: Place,
    name: &'a str,
    terms: Vec<Term>,
    left: Vec<(Term, Operator)>,
}

fn read(text: &str) -> Option<Term> {
    let mut reader = Reader {
        text,
        at: 0,
        brackets: Vec::new(),
    };
    reader.open(Place::Whole, "");
    loop {
        let mut read = reader.operand()?;
        while let Read::Term(term) = read {
            if reader.brackets.is_empty() {
                return Some(term);
            }
            read = reader.behind(term)?;
        }
    }
}

enum Read {
    Term(Term),
    /// An operand has to come next.
    Unfinished,
}

struct Reader<'a> {
    text: &'a str,
    at: usize,
    /// The innermost last.
    brackets: Vec<Bracket<'a>>,
}

impl<'a> Reader<'a> {
    fn open(&mut self, place: Place, name: &'a str) -> Read {
        self.brackets.push(Bracket {
            place,
            name,
            terms: Vec::new(),
            left: Vec::new(),
        });
        Read::Unfinished
    }

    fn token(&mut self) -> Token<'a> {
        let rest = self.text[self.at..].trim_start();
        self.at = self.text.len() - rest.len();
        let digits = length(rest, |byte| byte.is_ascii_digit());
        let (token, length) = match rest.as_bytes() {
            [] => (Token::End, 0),
            [b'/', b'/', ..] => (Token::Division, 2),
            _ if digits > 0 => (Token::Number(&rest[..digits]), digits),
            [first, ..] if is_of_word(*first) => {
                let length = length(rest, is_of_word);
                (Token::Word(&rest[..length]), length)
            }
            [first, ..] => (Token::Sign(*first), 1),
        };
        self.at += length;
        token
    }

    /// Takes the next token if it is this sign.
    fn takes(&mut self, sign: u8) -> bool {
        let at = self.at;
        let is_there = self.token() == Token::Sign(sign);
        if !is_there {
            self.at = at;
        }
        is_there
    }

    /// A term that is no operation, or the beginning of one.
    fn operand(&mut self) -> Option<Read> {
        let term = match self.token() {
            Token::Number(digits) => Term::Int(digits.parse().ok()?),
            Token::Sign(b'-') => self.negative()?,
            Token::Sign(b'[') if self.takes(b']') => Term::List(Vec::new()),
            Token::Sign(b'[') => return Some(self.open(Place::List, "")),
            Token::Sign(b'(') => return Some(self.open(Place::Parentheses, "")),
            Token::Word(word) if is_variable(word) => Term::var(word),
            Token::Word("is" | "mod") => return None,
            Token::Word(name) if self.takes(b'(') => return Some(self.open(Place::Call, name)),
            Token::Word(name) => Term::atom(name),
            Token::Sign(_) | Token::Division | Token::End => return None,
        };
        Some(Read::Term(term))
    }

    /// The number whose sign was taken.
    fn negative(&mut self) -> Option<Term> {
        let start = self.at - 1;
        self.at += length(&self.text[self.at..], |byte| byte.is_ascii_digit());
        Some(Term::Int(self.text[start..self.at].parse().ok()?))
    }

    /// The term that ends behind this one, if one ends there.
    fn behind(&mut self, term: Term) -> Option<Read> {
        let token = self.token();
        let bracket = self.brackets.last_mut()?;
        let operator = operator_of(token);
        let term = joined(&mut bracket.left, term, operator);
        if let Some(operator) = operator {
            bracket.left.push((term, operator));
            return Some(Read::Unfinished);
        }
        bracket.terms.push(term);
        match (bracket.place, token) {
            (Place::Call | Place::List, Token::Sign(b',')) => Some(Read::Unfinished),
            (Place::List, Token::Sign(b'|')) => {
                bracket.place = Place::Tail;
                Some(Read::Unfinished)
            }
            (Place::Call | Place::Parentheses, Token::Sign(b')'))
            | (Place::List | Place::Tail, Token::Sign(b']'))
            | (Place::Whole, Token::End) => closed(self.brackets.pop()?).map(Read::Term),
            _ => None,
        }
    }
}

fn operator_of(token: Token<'_>) -> Option<Operator> {
    match token {
        Token::Sign(b'+') => operator("+"),
        Token::Sign(b'-') => operator("-"),
        Token::Sign(b'*') => operator("*"),
        Token::Division => operator("//"),
        Token::Word("mod") => operator("mod"),
        _ => None,
    }
}

/// The term with what stands to its left and binds it no weaker than what stands behind it.
fn joined(left: &mut Vec<(Term, Operator)>, mut term: Term, behind: Option<Operator>) -> Term {
    let is_product = behind.is_some_and(|operator| operator.is_product);
    while left
        .last()
        .is_some_and(|(_, operator)| operator.is_product || !is_product)
    {
        if let Some((operand, operator)) = left.pop() {
            term = Term::Struct(operator.name.to_string(), vec![operand, term]);
        }
    }
    term
}

fn closed(bracket: Bracket<'_>) -> Option<Term> {
    let mut terms = bracket.terms;
    match bracket.place {
        Place::Call => Some(Term::Struct(bracket.name.to_string(), terms)),
        Place::List => Some(Term::List(terms)),
        Place::Whole | Place::Parentheses => terms.pop(),
        Place::Tail => {
            let mut tail = terms.pop()?;
            let is_list = matches!(tail, Term::List(_));
            if !is_list && !matches!(tail, Term::Partial(..)) {
                return Some(Term::Partial(terms, Box::new(tail)));
            }
            tail.give_parts(&mut terms);
            if is_list {
                return Some(Term::List(terms));
            }
            let tail = terms.pop()?;
            Some(Term::Partial(terms, Box::new(tail)))
        }
    }
}

/// Whether a word is a variable, as its first letter tells.
pub(crate) fn is_variable(word: &str) -> bool {
    word.starts_with(|first: char| first == '_' || first.is_ascii_uppercase())
}

/// Whether a byte may stand in a word; of letters beyond ASCII the library knows which may.
fn is_of_word(byte: u8) -> bool {
    byte.is_ascii_alphanumeric() || byte == b'_' || byte >= 0x80
}

/// How many bytes a text begins with that are so.
fn length(text: &str, is_so: impl Fn(u8) -> bool) -> usize {
    text.bytes()
        .position(|byte| !is_so(byte))
        .unwrap_or(text.len())
}
