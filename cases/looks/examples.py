"""What `look check` says of the programs of `examples/`: nothing, but of two, whose comments say why."""
import os

from made import FOLDER, make

EXAMPLES = f"{FOLDER}/../examples"
UNEVALUATED = "Unevaluated: nothing is evaluated in a constraint: let X is E stand before it"
LATE = "LateDuplicates: the rule in line 7 looks for the duplicates before this one drops them"
# Of a program the lines that are told, each with the column, the width of the mark, and what is said.
TOLD = {
    "circuit": [(line, 50, 5, UNEVALUATED) for line in range(15, 20)],
    "leq": [(9, 1, 9, LATE)],
}


def shown(text, line, column, width, said):
    """A line that is told, with its mark."""
    return f"case:{line}:{column}: {said}\n    {text.splitlines()[line - 1]}\n    {' ' * (column - 1)}{'^' * width}\n"


for name in sorted(name for name, end in map(os.path.splitext, os.listdir(EXAMPLES)) if end == ".chr"):
    with open(f"{EXAMPLES}/{name}.chr") as file:
        text = file.read()
    told = "".join(shown(text, *what) for what in TOLD.get(name, []))
    make(f"check_example_{name}", text, ["check", "{}"], stdout=told)
