"""Mistakes in rules, declarations and goals, and which of them is found first."""
from made import program, programs, refuse

FIRST = ":- chr_constraint p/0, q/0, r/0, t/1.\n"


def rules(subject, *rows):
    """Rules after a first line of declarations."""
    programs(subject, *rows, before=FIRST)


def rules_refused(subject, kind, *texts):
    """Rules that have one kind of mistake, in line 2."""
    rules(subject, *[(f"line 2 rule 1: {kind}", text) for text in texts])


rules_refused("undeclared", "Undeclared", "z <=> p.", "p(1) <=> p.", "p(1) <=> true.", "p \\ z <=> p.", "p <=> q | z.")
rules_refused("not_a_goal_in_heads", "NotAGoal", "1 <=> p.", "[p] <=> p.", "[] <=> p.", "p \\ [p|X] <=> p.", "p + q <=> p.")
rules_refused("not_a_goal_in_bodies", "NotAGoal", "p <=> X.", "p <=> -1.", "p <=> q, [].", "p <=> p mod q.", "p <=> (X).")
rules_refused(
    "guard_variable",
    "GuardVariable",
    "t(X) <=> X = Y | true.",
    "t(X) <=> integer(f([1|Y])) | true.",
    "p <=> Y > 0 | t(Y).",
    "t(_) <=> _ > 0 | true.",
)
rules_refused("too_many_heads", "TooManyHeads", "p,p,p,p,p,p \\ p,p,p <=> true.")
rules_refused(
    "built_in_heads",
    "BuiltinInHead",
    "p \\ fail <=> p.",
    "integer(X) <=> p.",
    "ground(X) ==> p.",
    "X = Y <=> p.",
    "X \\= Y <=> p.",
    "X is Y <=> p.",
    "X =\\= Y <=> p.",
)
rules_refused(
    "no_test",
    "NotATest",
    "p <=> fail | true.",
    "t(X) <=> X is 1 | true.",
    "t(X) <=> X | true.",
    "p <=> true, 1 | true.",
    "p <=> [] | true.",
    "p <=> z | true.",
)
rules_refused("guard_only", "GuardOnly", "t(X) <=> ground(X).", "t(X) <=> p, X \\= 1.")
# Of two kinds in one rule the one that comes first.
rules(
    "least_kind_first",
    ("line 2 rule 1: Undeclared", "true <=> z."),
    ("line 2 rule 1: Undeclared", "X <=> z."),
    ("line 2 rule 1: BuiltinInHead", "X, true <=> p."),
    ("line 2 rule 1: NotAGoal", "p <=> q | X."),
    ("line 2 rule 1: NotATest", "t(X) <=> Y > 0, q | true."),
    ("line 2 rule 1: NotATest", "t(X) <=> Y is 0 | true."),
    ("line 2 rule 1: GuardVariable", "t(X) <=> Y > 0 | integer(X)."),
    ("line 3 rule 2: GuardOnly", "n @ p <=> q.\nn @ t(X) <=> integer(X)."),
    ("line 3 rule 2: DuplicateName", "n @ p <=> q.\nn @ p,p,p,p,p,p,p,p,p <=> true."),
    ("line 2 rule 1: TooManyHeads", "t(f(1,2,3,4,5,6,7,8,9,10,11,12,13,14,15,16,17)),p,p,p,p,p,p,p,p <=> true."),
)
programs(
    "declarations_first",
    ("line 3 rule 0: ArityTooLarge", "p <=> z.\n\n:- chr_constraint p/17."),
    ("line 1 rule 0: ArityTooLarge", ":- chr_constraint p/17, true/0."),
    ("line 1 rule 0: BuiltinInHead", ":- chr_constraint p/0,\ntrue/0,\np/17."),
    ("line 2 rule 0: BuiltinInHead", ":- chr_constraint q/0.\n:- chr_constraint fail/0.\n:- chr_constraint p/17."),
    ("line 1 rule 0: BuiltinInHead", ":- chr_constraint integer/1."),
    ("line 1 rule 0: BuiltinInHead", ":- chr_constraint ground/01."),
    ("line 2 rule 0: BuiltinInHead", "p <=> z.\n:- chr_constraint true/0."),
)
# A declaration counts for the whole text, and may stand twice; what `module` lists is ignored.
programs(
    "declarations_accepted",
    (None, "p <=> q.\n:- chr_constraint p/0, q/0."),
    (None, ":- chr_constraint p/0, p/0. :- chr_constraint q/0, p/0. p <=> q."),
    (None, ":- module(m, [p/17, true/0]).\n:- use_module(library(chr)).\n:- chr_constraint p/0, q/0.\np <=> q."),
    ("line 2 rule 1: Undeclared", ":- module(m, [p/0]).\np <=> p."),
)
rules(
    "rules_in_order",
    ("line 6 rule 2: Undeclared", "p <=> true. % one\n/* two\nthree */\n\n n\n@ p <=> z."),
    ("line 2 rule 3: Undeclared", "p ==> q. p <=> true. q\n<=>\nz."),
    ("line 2 rule 1: BackslashInPropagation", "p \\ q ==> r.\np <=> z."),
    # Directives have no number.
    ("line 4 rule 2: NotAGoal", "p <=> q.\n:- chr_constraint s/0.\ns <=> X."),
    # A name that only stood in terms is not declared.
    ("line 3 rule 2: Undeclared", "p <=> t(z).\nz <=> p."),
    ("line 4 rule 2: Undeclared", "p <=> q.\n\n p <=> z."),
)
# Built in is said of names with their number of arguments.
BY_ARITY = ":- chr_constraint true/1, fail/1, integer/0, ground/2, p/0.\n"
programs(
    "built_in_by_arity",
    (None, "true(1), integer \\ fail(X) <=> p."),
    (None, "p ==> true, true(1), fail(2), integer, ground(1,2)."),
    ("line 2 rule 1: NotATest", "p <=> true(1) | p."),
    ("line 2 rule 1: NotATest", "p <=> integer | p."),
    ("line 2 rule 1: NotATest", "p <=> ground(1,2) | p."),
    before=BY_ARITY,
)
rules_refused(
    "not_built_in_by_arity",
    "Undeclared",
    "p <=> true(1).",
    "p <=> fail(1).",
    "p <=> integer.",
    "p <=> ground(1,2).",
    "true(1) <=> p.",
    "integer <=> p.",
)


def series(letter, count):
    return ",".join(f"{letter}{k}" for k in range(count))


def rule(name, where, text):
    program(name, FIRST + text, where and f"line 2 rule 1: {where}")


program("rule_limits_rules", FIRST + "p <=> true.\n" * 1_025, "line 1026 rule 1025: TooManyRules")
program("most_rules", FIRST + "p <=> true.\n" * 1_024, None)
program("greatest_arity", ":- chr_constraint p/16.", None)
program("arity_beyond_64_bits", ":- chr_constraint p/18446744073709551617.", "line 1 rule 0: ArityTooLarge")
program("arity_of_the_greatest_number", f":- chr_constraint p/{2**127 - 1}.", "line 1 rule 0: ArityTooLarge")
rule("rule_limits_variables", "TooManyVariables", f"t([{series('V', 65)}]) <=> true.")
rule("too_many_variables_of_a_body", "TooManyVariables", f"t([{series('V', 60)}]) <=> t([A,B,C,D,E]).")
rule("too_many_nameless_variables", "TooManyVariables", "t([" + "_," * 64 + "_]) <=> true.")
rule("most_variables", None, f"t([{series('V', 64)}]) <=> true.")
WIDE = [
    ("p <=> t(f(", "))."),
    ("p <=> t([1,g(f(", "))|X])."),
    ("p <=> X is 1+2*f(", ")."),
    ("t([1|f(", ")]) <=> p."),
    ("p <=> 1 = f(", ") | p."),
]
for k, (start, end) in enumerate(WIDE):
    rule(f"widest_term_{k + 1}", None, start + series("a", 16) + end)
    rule(f"too_wide_term_{k + 1}", "ArityTooLarge", start + series("a", 17) + end)
MANY = FIRST + "p <=> true.\n" * 1_024
program("least_kind_first_undeclared", MANY + "z <=> p.", "line 1026 rule 1025: Undeclared")
program("least_kind_first_arity", MANY + f"p <=> t(f({series('a', 17)})).", "line 1026 rule 1025: ArityTooLarge")
program("least_kind_first_rules", MANY + "p \\ q ==> r.", "line 1026 rule 1025: TooManyRules")
rule("least_kind_first_backslash", "BackslashInPropagation", f"p \\ q ==> t([{series('V', 65)}]).")
rule("least_kind_first_of_a_body", "Undeclared", f"p <=> z, t([{series('V', 65)}]).")

for k, (line, text) in enumerate(
    [
        ("line 1: Undeclared", "z."),
        ("line 1: Undeclared", "t(1,2)."),
        ("line 1: NotAGoal", "p, X."),
        ("line 1: GuardOnly", "t(X), integer(X)."),
        ("line 1: ArityTooLarge", "t(f(1,2,3,4,5,6,7,8,9,10,11,12,13,14,15,16,17))."),
    ]
):
    refuse(f"goal_errors_{k + 1}", f"{text}\n{FIRST}", f"query {line}")
refuse("goal_errors_line", FIRST, "query line 3: Undeclared", ["{}", "\n\n z."])

# The program before the query, of each the text before its rules or goals, and the limits before both.
for k, (line, query_text, program_text) in enumerate(
    [
        ("program 1:3: Expected", "p(", "p("),
        ("program line 2 rule 1: Undeclared", "p(", ":- chr_constraint p/1.\np(1) <=> q.\n"),
        ("query 1:3: Expected", "q(", ":- chr_constraint p/1.\n"),
        ("query line 1: Undeclared", "q(1).", ":- chr_constraint p/1.\n"),
        ("program 1:3: BadChar", "p ! q.", "p ! q."),
    ]
):
    refuse(f"texts_in_order_{k + 1}", f"{query_text}\n{program_text}", line)
LARGE = str(2**64 - 1)
for k, (line, budget, workers) in enumerate(
    [
        ("BudgetTooLarge", "1000001", "65"),
        ("BudgetTooLarge", LARGE, "4294967295"),
        ("TooManyWorkers", "1000000", "65"),
        ("TooManyWorkers", "0", "4294967295"),
    ]
):
    refuse(f"limits_first_{k + 1}", "!\n!", line, ["--budget", budget, "--workers", workers])
