"""What the texts of runs do not show of cordspar.py.

It prints a line for each test, and ends with status 1 where one failed.
"""
import sys
import threading
import traceback

import cordspar
from cordspar import Constraint, Firing, PartialList, Program, Refused, Struct, Var
from cordspar import on_large_stack, query, term_of, text_of

GCD = r""":- chr_constraint gcd/1.
zero     @ gcd(0) <=> true.
subtract @ gcd(N) \ gcd(M) <=> M >= N | L is M-N, gcd(L).
"""
VALUES = ":- chr_constraint p/1, q/2.\n"
DEEP = 100_000


def refused(error, call, *arguments):
    """The error that a call raises."""
    try:
        answer = call(*arguments)
    except error as raised:
        return raised
    raise AssertionError(f"{call.__name__}{arguments} answers {answer!r}")


def terms_read_back():
    for text in (
        "-170141183460469231731687303715884105728", "f(X,_0,a,größe)", "[]", "[1,2|T]",
        "[[a|b],[]|f(X)]", "1+2-3*4//5 mod 6", "1-(2-3)", "(1-2)*(3 mod (4 mod X))", "1--2",
        "-1--2*-3", "[1+2,3|a-b]",
    ):
        assert text_of(term_of(text)) == text
        assert term_of(text_of(term_of(text))) == term_of(text)
    assert term_of("1+2") == Struct("+", [1, 2])
    assert term_of("[a|[b|[]]]") == [Struct("a"), Struct("b")]
    assert term_of("[1,f(Y)|T]") == PartialList([1, Struct("f", [Var("Y")])], Var("T"))
    assert term_of("f(X)") != term_of("f(Y)") and len({term_of("f(X)"), term_of("f(X)")}) == 1


def no_terms_are_not_read():
    for text in (
        "", "1+", "+1", "--1", "- 5", "-a", "1 2", "1a", "a b", "a.b", "a=b", "f(", "f()", "f(a]",
        "(1,2)", "a)", "X(a)", "mod", "is", "[1,]", "[|a]", "[1|2,3]", "[](1)", "'a'",
    ):
        refused(ValueError, term_of, text)


def terms_may_be_deep():
    for text in (
        "s(" * DEEP + "z" + ")" * DEEP, "1" + "+1" * DEEP, "1-(" * DEEP + "1-1" + ")" * DEEP,
        "[" * DEEP + "]" * DEEP, "[1" + ",1" * DEEP + "]",
    ):
        assert text_of(term_of(text)) == text
    term, other = Struct("z"), Struct("z")
    for _ in range(DEEP):
        term, other = Struct("s", [term]), Struct("s", [other])
    assert term == other and hash(term) == hash(other) and len(repr(term)) > DEEP


def queries_are_built():
    goals = Constraint("q", [-1, term_of("(1-(2-3))*(a mod 2)//größe")]), Struct("p", [[]])
    assert query(*goals) == "q(-1,(1-(2-3))*(a mod 2)//größe), p([])."
    assert query() == "true."
    assert query(Struct("=<", [Var("X"), 1]), Struct("fail")) == "X =< 1, fail."
    goals = goals[0], Constraint("p", [term_of("[[],nil,_rest|Y]")])
    store = Program(VALUES).run(query(*goals)).store
    assert store[0] == goals[0]._replace(id=1)
    assert query(*store) == "q(-1,(1-(2-3))*(a mod 2)//größe), p([[],nil,_0|Y])."


def no_names_are_refused():
    for name in ("", "X", "_x", "is", "mod", "a b", "a(", "1a", "+", "a.", "[]", "a\u00a0b", "ⓐ"):
        refused(ValueError, query, Constraint(name))
        refused(ValueError, query, Constraint("p", [Struct(name)]))
    for name in ("", "x", "X y", "1", "X)"):
        refused(ValueError, text_of, Var(name))
    for term in (2**127, -(2**127) - 1, PartialList([], 1), Struct("+", [1])):
        refused(ValueError, text_of, [term])
    for term in (True, "a", None, 1.5, (1,)):
        refused(TypeError, text_of, [term])
    refused(ValueError, query, Constraint("=", [1]))


def runs_have_values():
    run = Program(VALUES).run("p(f(X,[1,-2|T])), X = g(a), T = [b].")
    assert run.store == [Constraint("p", [term_of("f(g(a),[1,-2,b])")], 1)]
    assert run.bindings == {"X": term_of("g(a)"), "T": [Struct("b")]}
    run = Program(GCD).run("gcd(4), gcd(2).", trace=True)
    assert (run.status, run.fault, run.steps) == (cordspar.Status.DONE, None, 18)
    assert (len(run.history), run.history[0]) == (3, Firing("subtract", [2, 1]))
    assert run.trace[17] == "18 drop gcd(2)#2:4" and len(run.trace) == 18


def runs_may_end_early():
    program = Program(GCD)
    run = program.run("gcd(4), gcd(2).", budget=5)
    assert (run.status, run.steps) == (cordspar.Status.BUDGET, 5)
    assert (run.stack, run.trace) == (["gcd(2)"], [])
    run = program.run("gcd(4), X is 1//0.")
    assert (run.status, run.fault) == (cordspar.Status.FAULT, cordspar.Fault.ZERO_DIVISOR)
    assert program.run("gcd(4), fail.").status is cordspar.Status.FAILED


def refusals_say_why():
    error = refused(Refused, Program, ":- chr_constraint p/1.\n\np(X), z ==> true.\n")
    assert (error.source, error.kind) == (cordspar.Source.PROGRAM, cordspar.Kind.UNDECLARED)
    assert (error.line, error.column, error.rule) == (3, 0, 1)
    assert str(error) == "program line 3 rule 1: Undeclared"
    program = Program(GCD)
    error = refused(Refused, program.run, "gcd(")
    assert (error.source, error.kind) == (cordspar.Source.QUERY, cordspar.Kind.EXPECTED)
    assert (error.line, error.column, error.rule) == (1, 5, 0)
    for budget in (1_000_001, 2**64, 2**70):
        error = refused(Refused, program.run, "gcd(4), gcd(2).", budget)
        assert (error.source, error.kind) == (cordspar.Source.CALL, cordspar.Kind.BUDGET_TOO_LARGE)
    refused(ValueError, program.run, "gcd(4), gcd(2).", -1)
    assert program.run(b"gcd(4), gcd(2).").store == [Constraint("gcd", [2], 2)]


def answer_queries(program, count):
    for k in (k % 100 + 1 for k in range(count)):
        assert program.run(f"gcd({2 * k}), gcd({3 * k}).").store[0].args == [k]


def a_program_answers_many_queries():
    answer_queries(Program(GCD), 1000)
    on_large_stack(answer_queries, Program(GCD), 1000)


def threads_share_a_program():
    program, done = Program(GCD), []
    threads = [
        threading.Thread(target=lambda: done.append(answer_queries(program, 100))) for _ in range(8)
    ]
    for thread in threads:
        thread.start()
    for thread in threads:
        thread.join()
    assert len(done) == 8


def a_run_outlives_its_program():
    program = Program(GCD)
    run = program.run("gcd(4), gcd(2).")
    del program
    assert run.store == [Constraint("gcd", [2], 2)] and run.text.endswith("\nzero 4\n")


def the_library_goes_down_deep_terms():
    term = term_of("1" + "+1" * DEEP)
    assert Program(VALUES).run(query(Constraint("p", [term]))).store[0].args == [term]


def handles_are_freed():
    freed = []
    run = Program(GCD).run("gcd(4), gcd(2).")
    handle = run._handle
    free, handle.free = handle.free, lambda pointer: freed.append(pointer) or free(pointer)
    pointer = handle.pointer
    del run, handle
    on_large_stack(int)  # what is handed over earlier is done by then
    assert freed == [pointer]


def passes(test):
    try:
        test()
    except Exception:
        traceback.print_exc(file=sys.stdout)
        return False
    return True


def main():
    failed = False
    for test in (
        terms_read_back, no_terms_are_not_read, terms_may_be_deep, queries_are_built,
        no_names_are_refused, runs_have_values, runs_may_end_early, refusals_say_why,
        a_program_answers_many_queries, threads_share_a_program, a_run_outlives_its_program,
        the_library_goes_down_deep_terms, handles_are_freed,
    ):
        is_well = passes(test)
        failed |= not is_well
        print(f"test {test.__name__} ... {'ok' if is_well else 'FAILED'}", flush=True)
    return failed


if __name__ == "__main__":
    sys.exit(main())
