//! What texts alone do not show; scripts/try-bindings compares the texts of whole runs.
use crate::*;

const GCD: &str = r":- chr_constraint gcd/1.
zero     @ gcd(0) <=> true.
subtract @ gcd(N) \ gcd(M) <=> M >= N | L is M-N, gcd(L).
";
const VALUES: &str = ":- chr_constraint p/1, q/2.\n";
const BUDGET: u64 = 100_000;
const DEEP: usize = 100_000;

fn term(text: &str) -> Term {
    text.parse().unwrap()
}

fn structure(name: &str, args: &[Term]) -> Term {
    Term::Struct(name.to_string(), args.to_vec())
}

#[test]
fn terms_read_back_as_they_are_written() {
    for text in [
        "-170141183460469231731687303715884105728",
        "f(X,_0,a,größe)",
        "[]",
        "[1,2|T]",
        "[[a|b],[]|f(X)]",
        "1+2-3*4//5 mod 6",
        "1-(2-3)",
        "(1-2)*(3 mod (4 mod X))",
        "1--2",
        "-1--2*-3",
        "[1+2,3|a-b]",
    ] {
        assert_eq!(term(text).to_string(), text);
        assert_eq!(term(&term(text).to_string()), term(text));
    }
    assert_eq!(term("1+2"), structure("+", &[Term::Int(1), Term::Int(2)]));
    assert_eq!(
        term("[a|[b|[]]]"),
        Term::List(vec![Term::atom("a"), Term::atom("b")])
    );
    assert_ne!(term("f(X)"), term("f(Y)"));
}

#[test]
fn what_is_no_term_is_not_read() {
    for text in [
        "", "1+", "+1", "--1", "- 5", "-a", "1 2", "1a", "a b", "a.b", "a=b", "f(", "f()", "f(a]",
        "(1,2)", "a)", "X(a)", "mod", "is", "[1,]", "[|a]", "[1|2,3]", "[](1)", "'a'",
    ] {
        assert_eq!(text.parse::<Term>(), Err(NoTerm), "{text}");
    }
}

#[test]
fn terms_may_be_deep() {
    let nested = "s(".repeat(DEEP) + "z" + &")".repeat(DEEP);
    let sum = "1".to_string() + &"+1".repeat(DEEP);
    let lists = "[".repeat(DEEP) + &"]".repeat(DEEP);
    let partial = "[a|T]".to_string();
    for text in [nested, sum, lists, partial] {
        let read = term(&text);
        assert_eq!(read.to_string(), text);
        assert!(read.clone() == read);
    }
}

#[test]
fn queries_are_built_from_values() {
    let query = Query::new()
        .tell("q", &[Term::Int(-1), term("(1-(2-3))*(a mod 2)//größe")])
        .unwrap()
        .tell("p", &[term("[[],nil,_rest|Y]")])
        .unwrap();
    let run = Program::new(VALUES).unwrap().run(&query, BUDGET).unwrap();
    assert_eq!(
        run.store()[0].args,
        [Term::Int(-1), term("(1-(2-3))*(a mod 2)//größe")]
    );
    assert_eq!(Query::new().to_string(), "true.");
    let relation = Query::new().tell("=<", &[term("X"), term("1+2")]).unwrap();
    assert_eq!(relation.to_string(), "X =< 1+2.");
}

#[test]
fn what_is_no_name_is_refused() {
    for name in [
        "", "X", "_x", "is", "mod", "a b", "a(", "1a", "+", "a.", "[]", "a\u{a0}b",
    ] {
        assert!(Query::new().tell(name, &[]).is_err(), "{name}");
        assert!(
            Query::new().tell("p", &[Term::atom(name)]).is_err(),
            "{name}"
        );
    }
    for name in ["", "x", "X y", "1", "X)"] {
        assert!(
            Query::new().tell("p", &[Term::var(name)]).is_err(),
            "{name}"
        );
    }
    let partial = Term::Partial(Vec::new(), Box::new(Term::var("T")));
    assert!(Query::new().tell("p", &[partial]).is_err());
    assert!(Query::new().tell("=", &[Term::var("X")]).is_err());
}

#[test]
fn a_run_has_its_parts_as_values() {
    let program = Program::new(VALUES).unwrap();
    let run = program
        .run("p(f(X,[1,-2|T])), X = g(a), T = [b].", BUDGET)
        .unwrap();
    let args = vec![term("f(g(a),[1,-2,b])")];
    assert_eq!(
        run.store(),
        [Constraint {
            name: "p".to_string(),
            args,
            id: 1
        }]
    );
    let bindings = [
        ("X".to_string(), term("g(a)")),
        ("T".to_string(), term("[b]")),
    ];
    assert_eq!(run.bindings(), bindings);
    let run = Program::new(GCD)
        .unwrap()
        .run_traced("gcd(4), gcd(2).", BUDGET)
        .unwrap();
    let firing = Firing {
        rule: "subtract".to_string(),
        ids: vec![2, 1],
    };
    assert_eq!(
        (run.status(), run.steps(), run.trace().len()),
        (Status::Done, 18, 18)
    );
    assert_eq!((run.history().len(), &run.history()[0]), (3, &firing));
}

#[test]
fn a_run_may_end_early() {
    let program = Program::new(GCD).unwrap();
    let run = program.run("gcd(4), gcd(2).", 5).unwrap();
    assert_eq!((run.status(), run.steps()), (Status::Budget, 5));
    assert_eq!(
        (run.stack(), run.trace()),
        (vec!["gcd(2)".to_string()], Vec::new())
    );
    let run = program.run("gcd(4), X is 1//0.", BUDGET).unwrap();
    assert_eq!(run.status(), Status::Fault(Fault::ZeroDivisor));
    assert_eq!(
        program.run("gcd(4), fail.", BUDGET).unwrap().status(),
        Status::Failed
    );
}

#[test]
fn what_is_refused_says_why() {
    let error = Program::new(":- chr_constraint p/1.\n\np(X), z ==> true.\n").unwrap_err();
    assert_eq!(
        (error.source, error.kind),
        (Source::Program, Kind::Undeclared)
    );
    assert_eq!((error.line, error.column, error.rule), (3, 0, 1));
    assert_eq!(error.to_string(), "program line 3 rule 1: Undeclared");
    let program = Program::new(GCD).unwrap();
    let error = program.run("gcd(", BUDGET).unwrap_err();
    assert_eq!((error.source, error.kind), (Source::Query, Kind::Expected));
    assert_eq!((error.line, error.column, error.rule), (1, 5, 0));
    let error = program.run("gcd(4), gcd(2).", 1_000_001).unwrap_err();
    assert_eq!(
        (error.source, error.kind),
        (Source::Call, Kind::BudgetTooLarge)
    );
    assert_eq!(
        program.run("gcd(4), gcd(2).", BUDGET).unwrap().store()[0].id,
        2
    );
}

#[test]
fn a_program_answers_many_queries() {
    let program = Program::new(GCD).unwrap();
    for k in (0..1000).map(|k| k % 100 + 1) {
        let query = format!("gcd({}), gcd({}).", 2 * k, 3 * k);
        let run = program.run(query, BUDGET).unwrap();
        assert_eq!(run.store()[0].args, [Term::Int(k)]);
    }
}

#[test]
fn a_run_outlives_its_program() {
    let program = Program::new(GCD).unwrap();
    let run = program.run("gcd(4), gcd(2).", BUDGET).unwrap();
    drop(program);
    assert_eq!(run.store()[0].args, [Term::Int(2)]);
}

#[test]
fn the_library_goes_down_deep_terms() {
    let sum = "1".to_string() + &"+1".repeat(DEEP);
    let query = Query::new().tell("p", &[term(&sum)]).unwrap();
    let store = with_large_stack(|| {
        Program::new(VALUES)
            .unwrap()
            .run(&query, BUDGET)
            .unwrap()
            .store()
    });
    assert_eq!(store.unwrap()[0].args, [term(&sum)]);
}
