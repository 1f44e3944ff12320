"""What the words of the command line ask for, and which of them are refused."""
from made import FAILED, FAULT, NOTHING, REFUSED, SPENT, make, read, refuse, text_of

GROUND_RULE = ":- chr_constraint p/1, q/1.\nr @ p(1) <=> q(2).\n"
GROUND_QUERY = "p(1), p(2)."
GROUND_TEXT = text_of("runs/ground_rule")
AFTER_ONE = text_of("runs/budget_used_up")
SEARCHED_TWICE = "counts kept 0 late 0 double 0 used 0 own 2\n"
NO_TASKS = "totals put 0 taken 0 posted 0 given_up 0 drained 0 waiting 0 left 0\n"


def runs(subject, *rows, text=GROUND_TEXT, **more):
    """Words with which `ground_rule` runs, from a file."""
    for k, words in enumerate(rows):
        make(f"{subject}_{k + 1}", GROUND_RULE, words, stdout=text, **more)


runs(
    "words_of_a_run",
    ["--", "{}", GROUND_QUERY],
    ["{}", "--", GROUND_QUERY],
    ["{}", GROUND_QUERY, "--budget", "+7"],
    ["--budget=007", "{}", GROUND_QUERY],
    ["{}", "--workers", "+2", GROUND_QUERY],
    ["{}", GROUND_QUERY, "--workers", "007"],
)
runs(
    "budget_anywhere",
    ["--budget", "1", "{}", GROUND_QUERY],
    ["{}", "--budget", "1", GROUND_QUERY],
    ["{}", GROUND_QUERY, "--budget", "1"],
    ["{}", GROUND_QUERY, "--budget=1"],
    text=AFTER_ONE,
    status=SPENT,
)
runs(
    "totals_anywhere",
    ["--totals", "{}", GROUND_QUERY],
    ["{}", "--totals", GROUND_QUERY],
    ["{}", GROUND_QUERY, "--totals"],
    stderr=SEARCHED_TWICE + NO_TASKS,
)
GROUND_INPUT = f"{GROUND_QUERY}\n{GROUND_RULE}"
make("totals_of_the_input", GROUND_INPUT, ["--totals"], stdout=GROUND_TEXT, stderr=SEARCHED_TWICE + NO_TASKS)
make("workers_of_the_input", GROUND_INPUT, ["--workers=64"], stdout=GROUND_TEXT)
refuse("empty_input", "", "query 1:1: Expected")
make("input_without_a_line_feed", "true.", stdout=NOTHING)
make("empty_program", "", ["{}", "true."], stdout=NOTHING)
GCD_INPUT = read("runs/gcd")
make("totals_of_gcd", GCD_INPUT, ["--totals"], stdout=text_of("runs/gcd"), stderr="counts kept 0 late 0 double 0 used 0 own 10\n" + NO_TASKS)
# Runs that end otherwise have their totals too.
NO_COUNTS = "counts kept 0 late 0 double 0 used 0 own 0\n"
make("totals_of_a_failure", "X = f(X).", ["--totals"], stdout=text_of("runs/occurs_check"), stderr=NO_COUNTS + NO_TASKS, status=FAILED)
FAULT_TEXT = text_of("numbers/whole_numbers_zero_divisor")
make("totals_of_a_fault", "X is 1 // 0.", ["--totals"], stdout=FAULT_TEXT, stderr=NO_COUNTS + NO_TASKS, status=FAULT)
make("totals_of_a_budget", GROUND_INPUT, ["--totals", "--budget=1"], stdout=AFTER_ONE, stderr=NO_COUNTS + NO_TASKS, status=SPENT)

# Words that say what is read: the line tells what was taken as the program or the query.
for k, (line, words) in enumerate(
    [
        ("QUERY is missing", ["else/where"]),
        ("QUERY is missing", ["help"]),
        ("QUERY is missing", ["--", "--totals"]),
        ("QUERY is missing", ["--", "--version"]),
        ("cannot read else/where", ["else/where", "true."]),
        ("cannot read ", ["", ""]),
        ("query 1:2: Expected", ["{}", "-"]),
        ("query 1:2: Expected", ["{}", "--", "-q."]),
        ("cannot read nowhere", ["nowhere", GROUND_QUERY, "--totals", "--budget", "9"]),
        ("BudgetTooLarge", ["{}", GROUND_QUERY, "--totals", "--budget", "18446744073709551615"]),
        ("TooManyWorkers", ["{}", GROUND_QUERY, "--totals", "--workers", "4294967295"]),
        ("query 1:5: Expected", ["{}", "gcd(", "--totals"]),
        ("query line 1: Undeclared", ["{}", "z.", "--totals"]),
    ]
):
    refuse(f"words_that_are_read_{k + 1}", GROUND_RULE, line, words)

HELP = """Runs a query over a program of Constraint Handling Rules

Usage: chr [OPTIONS] [PROGRAM] [QUERY]

Arguments:
  [PROGRAM]  The file of the program
  [QUERY]    The text of the query

Options:
      --budget <N>     The greatest number of transitions, 100000 where not given
      --workers <W>    The number of workers that search ahead, 0 where not given
      --record <FILE>  Writes the schedule of the run to this file
      --replay <FILE>  Replays the schedule in this file, and stands alone
      --totals         Says the counts and totals of the run
  -h, --help           Print help
"""
for k, words in enumerate(
    [
        ["--help"],
        ["-h"],
        ["-hx"],
        ["P", "Q", "--budget", "5", "--help", "R"],
        ["--replay", "S", "--help", "--replay"],
        ["--totals", "-h", "--totals"],
    ]
):
    make(f"help_{k + 1}", "", words, stdout=HELP)

VERSION = "chr 0.1.0\nrattle-kit-13f logic dac8208d650f15bf\n"
make("version", "", ["--version"], stdout=VERSION)

MORE = "\n\nFor more information, try '--help'.\n"
USAGE = "\n\nUsage: chr [OPTIONS] [PROGRAM] [QUERY]" + MORE


def words_refused(subject, *rows):
    """Words, the reason why they are refused, and what follows it."""
    for k, (words, reason, rest) in enumerate(rows):
        make(f"{subject}_{k + 1}", "", words, stderr=f"error: {reason}{rest}", status=REFUSED)


def missing(option):
    return f"a value is required for '{option}' but none was supplied"


def twice(option):
    return f"the argument '{option}' cannot be used multiple times"


NOT_A_BUDGET = "invalid value 'x' for '--budget <N>': invalid digit found in string"
words_refused(
    "refused_budgets",
    (["--budget", "x"], NOT_A_BUDGET, MORE),
    (["--budget", "x", "--help"], NOT_A_BUDGET, MORE),
    (["--budget="], "invalid value '' for '--budget <N>': cannot parse integer from empty string", MORE),
    (
        ["--budget", "18446744073709551616"],
        "invalid value '18446744073709551616' for '--budget <N>': number too large to fit in target type",
        MORE,
    ),
    (["--budget"], missing("--budget <N>"), MORE),
    (["--budget", "--help"], missing("--budget <N>"), MORE),
    (["--budget", "--", "5"], missing("--budget <N>"), MORE),
    (["--budget=5", "--budget", "6"], twice("--budget <N>"), USAGE),
)
words_refused(
    "refused_workers",
    (["--workers", "x"], "invalid value 'x' for '--workers <W>': invalid digit found in string", MORE),
    (["--workers=-0"], "invalid value '-0' for '--workers <W>': invalid digit found in string", MORE),
    (
        ["--workers", "4294967296"],
        "invalid value '4294967296' for '--workers <W>': 4294967296 is not in 0..=4294967295",
        MORE,
    ),
    (["--workers"], missing("--workers <W>"), MORE),
    (["--workers", "--totals"], missing("--workers <W>"), MORE),
    (["--workers=5", "--workers", "6"], twice("--workers <W>"), USAGE),
)
words_refused(
    "refused_files",
    (["--record"], missing("--record <FILE>"), MORE),
    (["--record", "--replay", "S"], missing("--record <FILE>"), MORE),
    (["--record=S", "--record", "T"], twice("--record <FILE>"), USAGE),
    (["--replay"], missing("--replay <FILE>"), MORE),
    (["--replay", "--budget", "5"], missing("--replay <FILE>"), MORE),
    (["P", "Q", "--replay", "--"], missing("--replay <FILE>"), MORE),
    (["--replay=S", "--replay", "T"], twice("--replay <FILE>"), USAGE),
)
words_refused(
    "refused_totals",
    (["--totals", "--totals"], twice("--totals"), USAGE),
    (["--totals", "P", "--totals", "--help"], twice("--totals"), USAGE),
    (
        ["--totals=x"],
        "unexpected value 'x' for '--totals' found; no more were expected\n\nUsage: chr --totals [PROGRAM] [QUERY]",
        MORE,
    ),
)


def not_found(word):
    return f"unexpected argument '{word}' found\n\n  tip: to pass '{word}' as a value, use '-- {word}'"


words_refused(
    "refused_words",
    (["P", "Q", "R"], "unexpected argument 'R' found", USAGE),
    (["P", "Q", "R", "--help"], "unexpected argument 'R' found", USAGE),
    (["--bogus"], not_found("--bogus"), USAGE),
    (["--version", "P"], not_found("--version"), USAGE),
    (["P", "-q."], not_found("-q"), USAGE),
    (["--budget", "-5"], not_found("-5"), USAGE),
    (
        ["--budge", "5"],
        "unexpected argument '--budge' found\n\n  tip: a similar argument exists: '--budget'\n\n"
        "Usage: chr --budget <N> [PROGRAM] [QUERY]",
        MORE,
    ),
    (
        ["--help=x"],
        "unexpected value 'x' for '--help' found; no more were expected\n\nUsage: chr --help [PROGRAM] [QUERY]",
        MORE,
    ),
)
