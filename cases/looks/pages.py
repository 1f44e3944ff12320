"""The pages that `look page` writes of the programs of `examples/`, and of a program that would break out of its page.

A page is what the files of `page/` have around the data of the run, which stand in `pages/`. They make the run again: what they come to is
compared here with the text that `programs/` has of the run.
"""
import json
import os
import re
import sys

from made import DONE, FAILED, FAULT, FOLDER, make, read, text_of
from replayed import Replay

ROOT = os.path.dirname(FOLDER)
STATUSES = {"done": DONE, "failed": FAILED, "fault": FAULT}
HOSTILE = """% </script><script>alert(1)</script> <img src=x onerror=alert(1)> <!--
:- chr_constraint p/1, q/1.
r @ p(X) <=> X > 1 | q(X). /* </SCRIPT > & &lt; " ' \\ \\u003c \u00e9 \u2028 */
"""
HOSTILE_QUERY = 'p(2). % </script><img src=x onerror="alert(1)">'


HOSTILE_RUN = b"""1 activate p(2)#1
2 simplify p(2)#1:1 r 1
3 activate q(2)#2
4 drop q(2)#2:1
end done
stack 0
store 1
q(2)#2
bindings 0
history 1
r 1
"""
# The guide's first program, whose page is kept in `docs/page/`.
LEAST = """:- chr_constraint min/1.
keep_least @ min(X) \\ min(Y) <=> X =< Y | true.
"""
LEAST_QUERY = "min(5), min(2), min(8)."
LEAST_RUN = b"""1 activate min(5)#1
2 default min(5)#1:1
3 default min(5)#1:2
4 drop min(5)#1:3
5 activate min(2)#2
6 default min(2)#2:1
7 propagate min(2)#2:2 keep_least 2,1
8 default min(2)#2:2
9 drop min(2)#2:3
10 activate min(8)#3
11 simplify min(8)#3:1 keep_least 2,3
end done
stack 0
store 1
min(2)#2
bindings 0
history 2
keep_least 2,1
keep_least 2,3
"""


def text(path):
    with open(f"{ROOT}/{path}") as file:
        return file.read()


def fixed_parts():
    """What stands on a page before its data, and behind them."""
    whole = text("page/page.html").replace("{style}\n", text("page/page.css")).replace("{script}\n", text("page/page.js"))
    return whole.split("{data}")


def run_text(wanted):
    """The text of a run without its line `end`, which the data of a page have as `look` writes it."""
    return re.sub(r"^end .*\n", "", wanted.decode(), flags=re.M)


def status_of(stored, program, query, wanted):
    """The exit status of a run, once the data of its page are those of the texts, and come to the text that is wanted, if one is."""
    data = json.loads(stored)
    texts = "".join(piece if isinstance(piece, str) else piece[2] for piece in data["text"])
    if (texts, data["query"]) != (program, query) or wanted and Replay(data).text() != run_text(wanted):
        sys.exit(f"these are not the data of a page of {query}:\n{stored}")
    return STATUSES[data["end"].split()[1]]


def page(name, program, query, wanted=None):
    """A page whose data are those of its file."""
    stored = read(f"looks/pages/{name}.json").decode()
    before, behind = fixed_parts()
    make(f"page_{name}", program, ["page", "{}", query], before + stored + behind, status=status_of(stored, program, query, wanted))


def query_of(example):
    """The query that the first lines of an example name."""
    return re.search("^% Query: (.*)$", text(f"examples/{example}.chr"), re.M)[1]


def page_of(case):
    """The page of a run that a case of files shows, whose words are the program and the query."""
    query = read(f"{case}.args").decode().split("\n")[1]
    page(os.path.basename(case), read(case).decode(), query, text_of(case))


for example in ("blocks", "build_order", "colouring", "leq", "merge_sort", "overload", "primes", "ruler", "scheduler", "shortest_paths", "traffic_light", "types", "union_find"):
    page_of(f"programs/{example}")
for case in ("programs/fibonacci_of_four", "programs/gcd_of_three", "programs/ground_rule_of_a_file", "programs/types_of_a_call_of_itself"):
    page_of(case)
# The run of `speculation` is that of its schedule; of `circuit` no case has the trace, which is long.
page("speculation", text("examples/speculation.chr"), "q(1), act.", text_of("schedules/speculation"))
page("circuit", text("examples/circuit.chr"), query_of("circuit"))
page("hostile", HOSTILE, HOSTILE_QUERY, HOSTILE_RUN)
# The page in `docs/` is that of the program least.chr.
kept = text("docs/page/least.html")
before, behind = fixed_parts()
status_of(kept[len(before) : -len(behind)], LEAST, LEAST_QUERY, LEAST_RUN)
make("page_least", "", ["page", "least.chr", LEAST_QUERY], kept, files={"least.chr": LEAST})
