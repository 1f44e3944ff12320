"""Files that are read and written, and streams that fail. Most of these cases are shown by the proved program alone."""
import re

from made import REFUSED, make, read, refuse, text_of

GROUND_RULE = read("programs/ground_rule_of_a_file")
GROUND_QUERY = "p(1), p(2)."
GROUND_TEXT = text_of("runs/ground_rule")
GCD_INPUT = read("runs/gcd")
SPECULATION = read("schedules/speculation")
SPECULATION_QUERY = "q(1), act."
ANY_TOTALS = re.compile(
    rb"counts kept \d+ late \d+ double \d+ used \d+ own \d+\n"
    rb"totals put \d+ taken \d+ posted \d+ given_up \d+ drained \d+ waiting \d+ left \d+\n"
)
make("totals_of_workers", GCD_INPUT, ["--totals", "--workers=2"], stdout=text_of("runs/gcd"), stderr=ANY_TOTALS)

OWN_FILES = "it needs files and streams of its own"
make("path_with_spaces", "", ["a folder/my rule.chr", GROUND_QUERY], stdout=GROUND_TEXT, files={"a folder/my rule.chr": GROUND_RULE}, alone=OWN_FILES)
refuse("folder_as_program", "", "cannot read a folder", ["a folder", GROUND_QUERY], files={"a folder/rule.chr": ""}, alone=OWN_FILES)
refuse("program_of_bytes", b"\xff", "program 0:0: NotUtf8", ["{}", GROUND_QUERY])
make(
    "word_of_bytes",
    GROUND_RULE,
    ["{}", b"p(\xff)."],
    stderr=re.compile(rb"error: .*\n(.*\n)*"),
    status=REFUSED,
    alone="a word of it is no text",
)
GCD_QUERY, GCD = GCD_INPUT.decode().split("\n", 1)
GCD_TOTALS = """counts kept 0 late 0 double 0 used 0 own 10
totals put 0 taken 0 posted 0 given_up 0 drained 0 waiting 0 left 0
"""


def record(name, words, given=GCD_INPUT, text=text_of("runs/gcd"), **more):
    make(name, given, words, stdout=text, alone="it records", **more)


# The schedule of a run without workers has its Steps alone.
record("record", ["--record", "record"], leaves={"record": b"step 18\n"})
record("record_with_totals", ["--record=record", "--totals"], stderr=GCD_TOTALS, leaves={"record": b"step 18\n"})
for k, words in enumerate([["--record", "no/record", "--totals"], ["--totals", "--record=no/record"]]):
    record(f"record_in_no_folder_{k + 1}", words, stderr="chr: cannot write no/record\n", status=REFUSED)
# Where the run is refused, nothing is recorded.
refuse("record_of_no_run", "z.\n", "query line 1: Undeclared", ["--totals", "--record=record"], leaves={"record": None}, alone="it records")
refuse("record_of_too_many_workers", "!", "TooManyWorkers", ["--workers=65", "--record=record"], leaves={"record": None}, alone="it records")
# What a run with workers records is replayed, and gives its text and its counts.
for workers in ["0", "1", "2", "8"]:
    for example, text, program_text, query_text in [
        ("gcd", text_of("runs/gcd"), GCD, GCD_QUERY),
        ("speculation", text_of("schedules/speculation"), SPECULATION, SPECULATION_QUERY),
    ]:
        record(
            f"recorded_{example}_{workers}",
            ["{}", query_text, "--totals", "--record=record", "--workers", workers],
            given=program_text,
            text=text,
            stderr=ANY_TOTALS,
            again=["{}", query_text, "--replay", "record"],
        )
CANNOT_WRITE = "chr: cannot write\n"
refuse("input_that_fails", "", "cannot read", fails="stdin", alone=OWN_FILES)
make("full_output", GROUND_RULE, ["{}", GROUND_QUERY], stderr=CANNOT_WRITE, status=REFUSED, fails="stdout", alone=OWN_FILES)
make("full_output_of_help", "", ["--help"], stderr=CANNOT_WRITE, status=REFUSED, fails="stdout", alone=OWN_FILES)
make("full_output_of_version", "", ["--version"], stderr=CANNOT_WRITE, status=REFUSED, fails="stdout", alone=OWN_FILES)
make("full_error_output", "", ["nowhere", GROUND_QUERY], status=REFUSED, fails="stderr", alone=OWN_FILES)
make("full_error_output_of_totals", GCD_INPUT, ["--totals"], stdout=text_of("runs/gcd"), fails="stderr", alone=OWN_FILES)
make(
    "full_error_output_of_a_replay",
    SPECULATION,
    ["{}", SPECULATION_QUERY, "--replay", "full_error_output_of_a_replay.schedule"],
    stdout=text_of("schedules/speculation"),
    files={"full_error_output_of_a_replay.schedule": "step 14\n"},
    fails="stderr",
    alone=OWN_FILES,
)
