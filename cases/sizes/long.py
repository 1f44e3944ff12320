"""Texts that are too large to be files, up to the greatest, and the deepest terms."""
from made import SPENT, make, program, query

MIB = 1_048_576

query("read_errors_too_long", " " * (MIB + 1), "0:0: TooLong")
query("read_errors_not_utf8_first", b" " * (MIB + 1) + b"\xff", "0:0: NotUtf8")
query("read_errors_too_deep", "p(" * 257 + "a" + ")" * 257 + ".", "1:514: TooDeep")
query("too_long_by_far", " " * 2 * MIB, "0:0: TooLong")
program("program_too_long", " " * (MIB + 1), "0:0: TooLong")
program("program_too_long_by_far", " " * 2 * MIB, "0:0: TooLong")
program("program_too_deep", "p(" * 257, "1:514: TooDeep")


def stored(goal):
    """The text of a run that stores one constraint."""
    return f"1 activate {goal}#1\n2 drop {goal}#1:1\nend done\nstack 0\nstore 1\n{goal}#1\nbindings 0\nhistory 0\n"


def store(name, goal, **more):
    """A query of one goal, which is stored."""
    make(name, f"{goal}.\n:- chr_constraint p/1.\n", stdout=stored(goal), **more)


store("read_errors_as_deep_as_may_be", "p(" * 256 + "a" + ")" * 256)
query("hostile_texts_parentheses", "(" * MIB, "1:257: TooDeep")
query("hostile_texts_lists", "[" * MIB, "1:257: TooDeep")
query("hostile_texts_comment", "%" * MIB, f"1:{MIB + 1}: Expected")
program("hostile_texts_comment_as_program", "%" * MIB, None)

# As many goals as a query can have, and long lists and sums.
SLOW = "an unproved run of it takes too long"
query("longest_query", "p," * (MIB // 2 - 1) + "p.", "line 1: Undeclared", alone=SLOW)
query("longest_sum", "1" + "+1" * 99_999 + ".", "line 1: NotAGoal", alone=SLOW)
LONG_SUM = "X is 1" + "+1" * 1_000
make("long_sum", LONG_SUM + ".", stdout=f"1 solve {LONG_SUM}\nend done\nstack 0\nstore 0\nbindings 1\nX = 1001\nhistory 0\n")
store("long_list", "p([" + "1," * 999 + "1])")
program("long_program", "p <=> q.\n" * 20_000, "line 1 rule 1: Undeclared", alone=SLOW)
program("long_body", ":- chr_constraint p/0. p <=> " + "p," * 99 + "p.", None)


def goals_of_names(count):
    """So many goals, each with 16 names of its own."""
    return ["p(" + ",".join(f"n{goal}_{place}" for place in range(16)) + ")" for goal in range(count)]


# More symbols than 16 bits number, of which no transition is made.
NAMES = goals_of_names(4_375)
make(
    "many_names",
    ",".join(NAMES) + ".\n:- chr_constraint p/16.\n",
    ["--budget", "0"],
    stdout="end budget\nstack 4375\n" + "".join(goal + "\n" for goal in NAMES) + "store 0\nbindings 0\nhistory 0\n",
    status=SPENT,
    alone=SLOW,
)
program("many_names_in_a_body", ":- chr_constraint p/16, q/0. q <=> " + ",".join(NAMES) + ".", None, alone=SLOW)

DEEP = "its terms are deeper than the stack of an unproved run"


def compared(name, goal):
    """A head that is nearly a text long is compared with the same goal."""
    text = f"1 activate {goal}#1\n2 simplify {goal}#1:1 #1 1\n3 activate q#2\n4 drop q#2:1\nend done\nstack 0\n"
    text += "store 1\nq#2\nbindings 0\nhistory 1\n#1 1\n"
    make(name, f"{goal}.\n:- chr_constraint p/1, q/0.\n{goal} <=> q.\n", stdout=text, alone=DEEP)


def put_in(name, goal):
    """A body that is nearly a text long becomes a goal."""
    text = f"1 activate q#1\n2 simplify q#1:1 #1 1\n3 activate {goal}#2\n4 drop {goal}#2:1\nend done\nstack 0\n"
    text += f"store 1\n{goal}#2\nbindings 0\nhistory 1\n#1 1\n"
    make(name, f"q.\n:- chr_constraint p/1, q/0.\nq <=> {goal}.\n", stdout=text, alone=DEEP)


store("deepest_sum", "p(1" + "+1" * 524_285 + ")", alone=DEEP)
store("deepest_list", "p([1" + ",1" * 524_284 + "])", alone=DEEP)
compared("deepest_head_of_a_sum", "p(1" + "-1" * 524_200 + ")")
compared("deepest_head_of_a_list", "p([1" + ",1" * 524_200 + "])")
put_in("deepest_body_of_a_sum", "p(1" + "-1" * 524_200 + ")")
put_in("deepest_body_of_a_list", "p([1" + ",1" * 524_200 + "])")


def deep_pair(name, words):
    """Two constraints have one deep term, and a rule compares its value."""
    term = "1" + "+1" * 120_000
    p, q = f"p({term})", f"q({term})"
    lines = [f"activate {p}#1", f"default {p}#1:1", f"drop {p}#1:2", f"activate {q}#2"]
    lines += [f"propagate {q}#2:1 r 2,1", f"default {q}#2:1", f"drop {q}#2:2"]
    text = "".join(f"{k + 1} {line}\n" for k, line in enumerate(lines))
    text += f"end done\nstack 0\nstore 2\n{p}#1\n{q}#2\nbindings 0\nhistory 1\nr 2,1\n"
    given = f"{p}, {q}.\n:- chr_constraint p/1, q/1.\nr @ q(X), p(Y) ==> X =:= Y | true.\n"
    make(name, given, words, stdout=text, alone=DEEP)


deep_pair("deep_search", [])
deep_pair("deep_search_of_workers", ["--workers", "4"])


def endless():
    """`p <=> p.` over `p.`, until the budget is used up that holds where none is given."""
    steps = [f"{2 * k - 1} activate p#{k}\n{2 * k} simplify p#{k}:1 #1 {k}\n" for k in range(1, 50_001)]
    fired = [f"#1 {k}\n" for k in range(1, 50_001)]
    text = "".join(steps) + "end budget\nstack 1\np\nstore 0\nbindings 0\nhistory 50000\n" + "".join(fired)
    make("budget_that_is_not_given", "p.\n:- chr_constraint p/0.\np <=> p.\n", stdout=text, status=SPENT, alone="it writes more than 1 MiB")


endless()


def handed_on(name, goal):
    """A deep term is handed from one constraint to the next, and goes with the last of them."""
    text = f"1 activate p({goal})#1\n2 simplify p({goal})#1:1 hand 1\n3 activate q({goal})#2\n4 simplify q({goal})#2:1 last 2\n"
    text += "end done\nstack 0\nstore 0\nbindings 0\nhistory 2\nhand 1\nlast 2\n"
    rules = "hand @ p(X) <=> q(X). last @ q(X) <=> true.\n"
    make(name, f"p({goal}).\n:- chr_constraint p/1, q/1.\n{rules}", stdout=text, alone=DEEP)


handed_on("deepest_sum_handed_on", "1" + "+1" * 524_200)
handed_on("deepest_list_handed_on", "[1" + ",1" * 524_200 + "]")
