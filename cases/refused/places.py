"""Where a text is refused to be read: at each kind of token, in the brackets, and nowhere earlier."""
from made import program, programs, queries, query

queries(
    "expected_in_brackets",
    ("1:3: Expected", "p()"),
    ("1:4: BadChar", "p(1;2)"),
    ("1:5: Expected", "p(1 2)"),
    ("1:4: Expected", "p(X=1)"),
    ("1:2: Expected", "()"),
    ("1:3: Expected", "(a,b)"),
    ("1:3: Expected", "(a=b)"),
    ("1:2: Expected", "[|a]"),
    ("1:4: Expected", "[a|]"),
    ("1:4: Expected", "[a,]"),
    ("1:5: Expected", "[a|b,c]"),
    ("1:5: Expected", "[a|b|c]"),
    ("1:3: Expected", "[](1)"),
    ("1:3: Expected", "[a)"),
    ("1:4: Expected", "f(a]"),
)
queries(
    "expected_by_operators",
    ("1:1: Expected", "+1"),
    ("1:3: Expected", "1++2"),
    ("1:3: Expected", "1+."),
    ("1:3: Expected", "1*//2"),
    ("1:2: Expected", "1/2"),
    ("1:7: Expected", "a mod mod b"),
    ("1:1: Expected", "mod"),
    ("1:1: Expected", "is"),
    ("1:2: Expected", "-"),
    ("1:3: Expected", "- "),
    ("1:3: Expected", "- 5"),
    ("1:6: Expected", "-/**/5"),
    ("1:7: Expected", "1 - - 5"),
    ("1:2: Expected", "-a"),
    ("1:2: Expected", "-(1)"),
    ("1:2: Expected", "--1"),
)
queries(
    "expected_in_queries",
    ("2:1: Expected", "% c\n"),
    ("1:1: Expected", "."),
    ("1:1: Expected", ":- chr_constraint p/1."),
    ("1:3: Expected", "p :- q."),
    ("1:5: Expected", "X is."),
    ("1:7: Expected", "a = b = c."),
    ("1:4: Expected", "a == b."),
    ("1:3: Expected", "a,."),
    ("1:3: Expected", "a # passive."),
    ("1:3: Expected", "a | b."),
    ("1:3: Expected", "a <=> b."),
    ("1:3: Expected", "a @ b."),
    ("1:3: Expected", "a \\ b."),
)
queries(
    "places_after_a_query",
    ("1:4: Expected", "a. b"),
    ("1:4: BadChar", "a. !"),
    ("1:4: UnclosedComment", "a. /*"),
    ("1:4: NumberTooLarge", "a. 170141183460469231731687303715884105728"),
    ("1:2: BadChar", "a.. "),
)
# Four lines, of which the last is empty: what comes after them begins at 4:1.
FOUR_LINES = "% größe 数 😀\n/* 数\n/*é*/\tp(X) <=> true.\r\n"
programs(
    "places",
    ("4:10: BadChar", "/*é😀*/\tq ! r."),
    ("4:7: BadChar", "q <=> 'é'."),
    ("4:2: BadChar", "q.r <=> s."),
    ("4:7: UnclosedComment", "é <=> /* é\n"),
    ("4:10: UnclosedComment", "é <=> q. /*/\n"),
    ("4:14: NumberTooLarge", "é(1) <=> X = 170141183460469231731687303715884105728."),
    ("4:7: NumberTooLarge", "é <=> 0170141183460469231731687303715884105729."),
    ("4:5: Expected", "é(数\tX)"),
    # A carriage return ends no line.
    ("4:3: Expected", "p\rq"),
    ("5:3: Expected", "p <=>\r\nq q"),
    # The end of the text.
    ("4:8: Expected", "é <=> q"),
    ("4:12: Expected", "é <=> q % 数"),
    ("5:2: Expected", "é <=> q % 数\n\t"),
    ("5:4: Expected", "é <=> q /*\n数*/"),
    before=FOUR_LINES,
)
# At one place; and where one comes before the other, the earlier one.
programs(
    "places_of_two_faults",
    ("4:3: BadChar", "q ! r."),
    ("4:3: UnclosedComment", "q /* r."),
    ("4:3: NumberTooLarge", "q 170141183460469231731687303715884105728."),
    ("4:3: Expected", "q 170141183460469231731687303715884105727."),
    ("4:4: NumberTooLarge", ":- 999999999999999999999999999999999999999."),
    ("4:21: Expected", ":- chr_constraint p/-170141183460469231731687303715884105728."),
    ("4:5: NumberTooLarge", "q # 170141183460469231731687303715884105728."),
    ("4:3: Expected", "q q !"),
    ("4:3: Expected", "q q /*"),
    ("4:3: Expected", "q q 999999999999999999999999999999999999999"),
    ("4:10: BadChar", "q <=> r. ! /*"),
    ("4:7: NumberTooLarge", "q <=> 999999999999999999999999999999999999999 ! /*"),
    before=FOUR_LINES,
)
programs(
    "expected_in_rules",
    ("1:1: Expected", "."),
    ("1:2: Expected", "p."),
    ("1:3: Expected", "p | q <=> r."),
    ("1:1: Expected", "<=> q."),
    ("1:7: Expected", "p <=> ."),
    ("1:7: Expected", "p <=> | q."),
    ("1:11: Expected", "p <=> q | ."),
    ("1:13: Expected", "p <=> q | r | s."),
    ("1:9: Expected", "p <=> q ==> r."),
    ("1:9: Expected", "p <=> q \\ r."),
    ("1:7: Expected", "p \\ q \\ r <=> s."),
    ("1:1: Expected", "\\ q <=> s."),
    ("1:5: Expected", "p \\ <=> s."),
    ("1:1: Expected", "@ p <=> q."),
    ("1:5: Expected", "p @ <=> q."),
    ("1:7: Expected", "p @ q @ r <=> s."),
    ("1:3: Expected", "P @ q <=> r."),
    ("1:6: Expected", "p(1) @ q <=> r."),
    ("1:7: Expected", "p = q = r <=> s."),
    ("1:4: Expected", "p, <=> s."),
    ("1:13: Expected", "p # passive # passive <=> q."),
    ("1:5: Expected", "p # Passive <=> q."),
    ("1:5: Expected", "p # passives <=> q."),
    ("1:5: Expected", "p # passiv <=> q."),
    ("1:12: Expected", "p # passive(1) <=> q."),
    ("1:1: Expected", "# passive <=> q."),
    ("1:5: Expected", "p = # passive <=> q."),
    ("1:5: Expected", "p(X # passive) <=> q."),
    ("1:9: Expected", "p <=> q # passive."),
    ("1:9: Expected", "p <=> q # passive | r."),
)
programs(
    "expected_in_directives",
    ("1:4: Expected", ":- q."),
    ("1:4: Expected", ":- is."),
    ("1:4: Expected", ":- Chr_constraint p/1."),
    ("1:4: Expected", ":- chr_constraints p/1."),
    ("1:18: Expected", ":- chr_constraint."),
    ("1:20: Expected", ":- chr_constraint p."),
    ("1:21: Expected", ":- chr_constraint p/X."),
    ("1:21: Expected", ":- chr_constraint p/-1."),
    ("1:20: Expected", ":- chr_constraint p//1."),
    ("1:19: Expected", ":- chr_constraint P/1."),
    ("1:23: Expected", ":- chr_constraint p/1 q/2."),
    ("1:23: Expected", ":- chr_constraint p/1,."),
    ("1:22: Expected", ":- chr_constraint p/1"),
    ("1:23: Expected", ":- use_module(library(lists))."),
    ("1:15: Expected", ":- use_module(chr)."),
    ("1:27: Expected", ":- use_module(library(chr)."),
    ("1:28: Expected", ":- use_module(library(chr))"),
    ("1:15: Expected", ":- use_module library(chr)."),
    ("1:11: Expected", ":- module(M, [])."),
    ("1:12: Expected", ":- module(m)."),
    ("1:14: Expected", ":- module(m, p/1)."),
    ("1:19: Expected", ":- module(m, [p/1,])."),
    ("1:18: Expected", ":- module(m, [p/1|q])."),
    ("1:16: Expected", ":- module(m, [p])."),
    ("1:19: Expected", ":- module(m, [p/1]"),
    ("1:16: Expected", ":- module(m, [],)."),
)
programs(
    "program_read_errors",
    ("2:7: BadChar", ":- chr_constraint p/0.\nä @ p !"),
    ("3:2: UnclosedComment", "\n\n /* p"),
    ("1:11: NumberTooLarge", "p <=> X = 170141183460469231731687303715884105728."),
    ("0:0: NotUtf8", b"% \xff"),
    ("0:0: NotUtf8", b"p <=> \xff."),
)

# Where 256 brackets are open.
queries(
    "places_too_deep_in_parentheses",
    *[
        (place, "(" * 256 + text)
        for place, text in [
            ("1:258: TooDeep", "a("),
            ("1:259: TooDeep", "a+["),
            # No bracket may stand there at all.
            ("1:258: Expected", "X("),
            ("1:258: Expected", "1("),
            ("1:258: Expected", "a["),
            ("1:259: Expected", "- ("),
            ("1:257: Expected", ")"),
            ("1:257: BadChar", "!"),
            ("1:257: Expected", ""),
            ("2:1: TooDeep", "a\n("),
        ]
    ],
)
queries(
    "places_too_deep_in_lists",
    *[
        (place, "[" * 256 + text)
        for place, text in [
            ("1:257: TooDeep", "("),
            ("1:257: TooDeep", "["),
            ("1:259: TooDeep", "a,("),
            ("1:259: TooDeep", "a|["),
            ("1:258: Expected", "]("),
            ("1:258: Expected", "]["),
            ("1:260: Expected", "],["),
            ("1:263: Expected", "],a,(b"),
        ]
    ],
)
# What is closed is no longer open.
query("closed_brackets", "X = " + "(a)+" * 300 + ".", "1:1205: Expected")

# The first characters of a query.
for k in range(11):
    query(f"hostile_texts_{k}", "p(1), p(2)."[:k], f"1:{k + 1}: Expected")


def at_blanks(subject, refuses, *texts):
    """The first part of each text, up to each blank in it, is refused at its end and nowhere earlier."""
    cuts = [text[:k] for text in texts for k in range(len(text)) if text[k] == " "]
    for k, cut in enumerate(cuts):
        refuses(f"{subject}_{k + 1}", cut, f"1:{len(cut) + 1}: Expected")


at_blanks(
    "earlier_is_not_expected",
    query,
    " X = [ a , b | T ] , [ ] =\\= ( 1 + 2 ) * 3 - ( 4 mod -5 // Y ) , a .",
)
at_blanks(
    "earlier_is_not_expected_in_programs",
    program,
    ":- chr_constraint p / 1 , q / 2 .",
    ":- use_module ( library ( chr ) ) .",
    ":- module ( m , [ p / 1 , q / 2 ] ) .",
    "r @ p ( X ) # passive , q = [ Y ] \\ 1 + a # passive , s ==> X > 1 , t | X = 1 , u .",
)
