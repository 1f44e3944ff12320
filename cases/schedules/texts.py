"""Schedules as texts, the limits of a replay, and what stands with it."""
from made import REFUSED, SPENT, make, read, refuse, text_of

SPECULATION = read("schedules/speculation")
SPECULATION_QUERY = "q(1), act."
COUNTS = "counts kept {} late {} double {} used {} own {}\n"


def replay(name, schedule, **more):
    """A replay of `speculation`, by this schedule."""
    words = ["{}", SPECULATION_QUERY, "--replay", f"{name}.schedule"]
    make(name, SPECULATION, words, files={f"{name}.schedule": schedule}, **more)


def unread(name, schedule, line):
    replay(name, schedule, stderr=f"chr: schedule {line}\n", status=REFUSED)


# The first bytes of three lines: 0, 6, 7 and 8 events, and a line that is cut in each other place.
THREE_LINES = "step 6\npublish\narrive 0 0\n"
for k in range(len(THREE_LINES) + 1):
    cut = THREE_LINES[:k]
    if cut and not cut.endswith("\n"):
        unread(f"schedule_cut_{k}", cut, f"line {cut.count(chr(10)) + 1}: BadLine")
replay("schedule_cut_7", "step 6\n", stdout=text_of("schedules/speculation_6"), stderr=COUNTS.format(0, 0, 0, 0, 2), status=SPENT)
replay("schedule_cut_15", "step 6\npublish\n", stdout=text_of("schedules/speculation_6"), stderr=COUNTS.format(0, 0, 0, 0, 2), status=SPENT)
replay("schedule_cut_26", THREE_LINES, stdout=text_of("schedules/speculation_6"), stderr=COUNTS.format(1, 0, 0, 0, 2), status=SPENT)


def schedules_refused(subject, *rows):
    for k, (line, schedule) in enumerate(rows):
        unread(f"{subject}_{k + 1}", schedule, line)


schedules_refused(
    "schedule_numbers",
    ("line 1: BadNumber", "arrive 0 00\n"),
    ("line 1: BadNumber", "arrive 4294967296 0\n"),
    ("line 1: BadNumber", "arrive 18446744073709551616 0\n"),
    ("line 1: BadNumber", "arrive 340282366920938463463374607431768211456 0\n"),
    ("line 1: BadNumber", "step 01\n"),
    ("line 1: BadNumber", "step 0\n"),
    ("line 2: BadNumber", "step 3\nstep 01\n"),
)
schedules_refused(
    "schedule_lines",
    ("line 1: BadLine", "arrive  0 0\n"),
    ("line 1: BadLine", "step -1\n"),
    ("line 1: BadLine", "stop 1\n"),
    ("line 1: BadLine", "step\n"),
    ("line 1: BadLine", "step  1\n"),
    ("line 1: BadLine", "step 1\r\n"),
    ("line 1: BadLine", "arrive 0\n"),
    ("line 1: BadLine", "arrive 0 0 0\n"),
    ("line 1: BadLine", "\n"),
    ("line 1: BadLine", "\r\n"),
    ("line 1: BadLine", "\0"),
    ("line 1: BadLine", b"\xff\xfe\n"),
    ("line 1: BadLine", "step 3"),
    ("line 2: BadLine", "step 3\nstep 01"),
)
schedules_refused(
    "schedule_events",
    ("line 1: TooManyEvents", "step 2000001\n"),
    ("line 1: TooManyEvents", "step 4294967295\n"),
    ("line 2: TooManyEvents", "step 2000000\npublish\n"),
)
unread("schedule_limits", "publish\n" * 4_097, "event 4096: TooManyRounds")
unread("greatest_round", "arrive 4294967295 7\n", "event 0: UnknownRound")
unread("schedule_limits_steps", "step 1000001\n", "event 1000000: TooManySteps")
# The events are 2,000,000, and the first that is refused is a Step.
unread("schedule_limits_events", "step 2000000\n", "event 1000000: TooManySteps")
replay("most_rounds", "publish\n" * 4_096 + "step 14\n", stdout=text_of("schedules/speculation"), stderr=COUNTS.format(0, 0, 0, 0, 6))
replay("steps_in_two_lines", "step 2\nstep 12\n", stdout=text_of("schedules/speculation"), stderr=COUNTS.format(0, 0, 0, 0, 6))
replay("many_steps_after_the_end", "step 1000000\n", stdout=text_of("schedules/speculation"), stderr=COUNTS.format(0, 0, 0, 0, 6))

# The program's file is read first, then that of the schedule; then the program, the query, the schedule and its events are looked at.
DECLARED = ":- chr_constraint p/0.\n"
for k, (line, program_text, words) in enumerate(
    [
        ("cannot read nowhere", DECLARED, ["nowhere", "p(", "--replay", "no/where"]),
        ("cannot read no/where", DECLARED, ["{}", "p(", "--replay", "no/where"]),
        ("program 1:3: Expected", "p(", ["{}", "p(", "--replay", "faults_in_order_3.schedule"]),
        ("query 1:3: Expected", DECLARED, ["{}", "p(", "--replay", "faults_in_order_4.schedule"]),
        ("query line 1: Undeclared", DECLARED, ["{}", "q.", "--replay", "faults_in_order_5.schedule"]),
        ("schedule line 1: BadLine", DECLARED, ["{}", "p.", "--replay", "faults_in_order_6.schedule"]),
    ]
):
    name = f"faults_in_order_{k + 1}"
    refuse(name, program_text, line, words, files={f"{name}.schedule": "arrive"})

# `--replay` wants a program and a query, and no other option; this is looked at before any file.
for k, words in enumerate(
    [
        ["--replay", "nowhere"],
        ["{}", "--replay", "nowhere"],
        ["{}", SPECULATION_QUERY, "--replay", "nowhere", "--budget", "9"],
        ["else/where", "--budget=9", "--replay=nowhere"],
        ["{}", SPECULATION_QUERY, "--replay", "nowhere", "--workers", "2"],
        ["{}", SPECULATION_QUERY, "--replay", "nowhere", "--workers=0"],
        ["{}", SPECULATION_QUERY, "--replay", "nowhere", "--totals"],
        ["{}", SPECULATION_QUERY, "--replay", "nowhere", "--record", "record"],
        ["else/where", "--totals", "--replay=nowhere", "--record=record"],
        ["--replay="],
        ["--totals", "--replay=S", "P", "--record=R", "--workers=2", "Q", "--budget=5"],
    ]
):
    refuse(f"replay_stands_alone_{k + 1}", SPECULATION, "--replay stands alone", words)
