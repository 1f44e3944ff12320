r"""Rules of Constraint Handling Rules from Python, over the C library of Cordspar.

    import cordspar

    program = cordspar.Program(r'''
        :- chr_constraint gcd/1.
        gcd(0) <=> true.
        gcd(N) \ gcd(M) <=> M >= N | L is M-N, gcd(L).
    ''')
    run = program.run("gcd(4), gcd(2).")
    print(run.status, run.store)    # Status.DONE [Constraint(name='gcd', args=[2], id=2)]

A term is an int, a Struct, a Var, a list, or a PartialList, whose tail is no list. One thread with
a large stack makes all calls of the library, which go down terms as deep as these are nested.
"""
import collections
import ctypes
import enum
import functools
import os
import queue
import re
import sys
import threading

__all__ = [
    "Constraint", "Fault", "Firing", "Kind", "PartialList", "Program", "Refused", "Run", "Source",
    "Status", "Struct", "Var", "load", "on_large_stack", "query", "term_of", "text_of", "version",
]

# For the thread that calls the library: enough for terms that are nested a million deep. What is
# not used of it is no memory.
STACK = 512 * 1024 * 1024


class Status(enum.Enum):
    """How a run stands."""

    DONE = 0  # the stack is empty
    FAILED = 3  # two terms are not equal, or `fail` was told
    FAULT = 4  # an expression has no value
    BUDGET = 5  # the run would go on


_STATUSES = {status.value: status for status in Status}


class Fault(enum.Enum):
    """Why an expression has no value."""

    UNBOUND = 1  # a variable in it is free
    TYPE = 2  # a term in it is no number
    OVERFLOW = 3  # a value is not from -2^127 to 2^127 - 1
    ZERO_DIVISOR = 4  # it divides by 0


class Source(enum.Enum):
    """What is refused."""

    CALL = 0
    PROGRAM = 1
    QUERY = 2


class Kind(enum.Enum):
    """What is wrong with a text or a call; docs/LANGUAGE.md tells of each."""

    NOT_UTF8 = 1
    TOO_LONG = 2
    BAD_CHAR = 3
    UNCLOSED_COMMENT = 4
    NUMBER_TOO_LARGE = 5
    EXPECTED = 6
    TOO_DEEP = 7
    MEMORY = 8
    UNDECLARED = 9
    BUILTIN_IN_HEAD = 10
    NOT_A_GOAL = 11
    NOT_A_TEST = 12
    GUARD_VARIABLE = 13
    GUARD_ONLY = 14
    DUPLICATE_NAME = 15
    TOO_MANY_HEADS = 16
    ARITY_TOO_LARGE = 17
    TOO_MANY_RULES = 18
    BACKSLASH_IN_PROPAGATION = 19
    TOO_MANY_VARIABLES = 20
    BUDGET_TOO_LARGE = 21


class Refused(Exception):
    """A text or a call is refused; its text is what `chr` says, as `program 2:7: Expected`.

    `line`, `column` and `rule` count from 1, and are 0 where there is none.
    """

    def __init__(self, text, source, kind, line, column, rule):
        super().__init__(text, source, kind, line, column, rule)
        self.text, self.source, self.kind = text, source, kind
        self.line, self.column, self.rule = line, column, rule

    def __str__(self):
        return self.text


# -------------------------------------------------------------------------------------------- terms


class _Compound:
    """What terms with parts have in common; nothing goes down a term by calls."""

    __slots__ = ()

    def __eq__(self, other):
        return _are_equal(self, other) if type(other) is type(self) else NotImplemented

    def __hash__(self):
        return hash(_written(self, _as_it_is))

    def __repr__(self):
        return f"term_of({_written(self, _as_it_is)!r})"

    def __str__(self):
        return _written(self, _as_it_is)


class Struct(_Compound):
    """A name with terms; an atom is one without. `1+2` is `Struct("+", [1, 2])`."""

    __slots__ = __match_args__ = ("name", "args")

    def __init__(self, name, args=()):
        self.name, self.args = name, list(args)


class PartialList(_Compound):
    """A list whose tail is no list, as `[1,2|T]`."""

    __slots__ = __match_args__ = ("items", "tail")

    def __init__(self, items, tail):
        self.items, self.tail = list(items), tail


class Var:
    """A variable. `_` is another one each time that it is written."""

    __slots__ = __match_args__ = ("name",)

    def __init__(self, name):
        self.name = name

    def __eq__(self, other):
        return self.name == other.name if type(other) is Var else NotImplemented

    def __hash__(self):
        return hash((Var, self.name))

    def __repr__(self):
        return f"Var({self.name!r})"

    def __str__(self):
        return self.name


class Constraint(collections.namedtuple("Constraint", "name args id")):
    """A constraint of a store, or a goal of a query, which has no identity."""

    __slots__ = ()

    def __new__(cls, name, args=(), id=None):
        return super().__new__(cls, name, list(args), id)


# A rule that fired, by its label, with the identities of its constraints.
Firing = collections.namedtuple("Firing", "rule ids")


def _parts(term):
    """What two terms have to have in common, and their parts."""
    kind = type(term)
    if kind is Struct:
        return (term.name, len(term.args)), term.args
    if kind is PartialList:
        return len(term.items), [*term.items, term.tail]
    return len(term), term


def _are_equal(one, other):
    pairs = [(one, other)]
    while pairs:
        one, other = pairs.pop()
        if type(one) is not type(other):
            return False
        if isinstance(one, (_Compound, list)):
            (head, parts), (other_head, other_parts) = _parts(one), _parts(other)
            if head != other_head:
                return False
            pairs += zip(parts, other_parts)
        elif one != other:
            return False
    return True


# ---------------------------------------------------------------------------------- terms to texts


class _Sign(str):
    """A text that waits among terms to be written."""


_COMMA, _BAR, _BRACKET, _PARENTHESIS = map(_Sign, (",", "|", "]", ")"))
_SUMS = {"+": _Sign("+"), "-": _Sign("-")}
_PRODUCTS = {"*": _Sign("*"), "//": _Sign("//"), "mod": _Sign(" mod ")}
_OPERATORS = {**_SUMS, **_PRODUCTS}
_RELATIONS = ("=", "\\=", "<", ">", "=<", ">=", "=:=", "=\\=", "is")
_GREATEST = 2**127 - 1


def text_of(term):
    """The text of a term as runs print it, which the language reads as that term.

    What the language cannot spell is a ValueError.
    """
    return _written(term, _checked)


def query(*goals):
    """The text of a query of these goals, each a Constraint or a Struct.

    `Constraint("=", [Var("X"), 1])` is `X = 1`; so with `is` and the comparisons.
    """
    return ", ".join(map(_goal_text, goals or [Struct("true")])) + "."


def _goal_text(goal):
    name, args = goal.name, list(goal.args)
    if name in _RELATIONS and len(args) == 2:
        return f"{text_of(args[0])} {name} {text_of(args[1])}"
    return text_of(Struct(_name(name), args))


def _is_variable(name):
    return "A" <= name[:1] <= "Z" or name[:1] == "_"


def _name(name):
    """A NAME of the language, which is no variable and no operator."""
    if not name.isidentifier() or _is_variable(name) or name in ("is", "mod"):
        raise ValueError(f"{name!r} is no name")
    return name


def _checked(kind, word):
    """The text of a number, of a variable's name or of another one, where it can be written."""
    if kind is int:
        if not -_GREATEST - 1 <= word <= _GREATEST:
            raise ValueError(f"{word} has more than 128 bits")
        return str(word)
    if kind is Var:
        if not (word.isidentifier() and _is_variable(word)):
            raise ValueError(f"{word!r} is no variable")
        return word
    return _name(word)


def _as_it_is(_, word):
    return str(word)


def _written(term, spelled):
    """The text of a term, by a list of what is left to write, the next of it last."""
    out, left = [], [term]
    while left:
        item = left.pop()
        kind = type(item)
        if kind is _Sign:
            out.append(item)
        elif kind is int:
            out.append(spelled(int, item))
        elif kind is Struct:
            _write_struct(item, spelled, out, left)
        elif kind is Var:
            out.append(spelled(Var, item.name))
        elif kind is list:
            out.append("[")
            left.append(_BRACKET)
            _write_items(item, left)
        elif kind is PartialList:
            _write_partial(item, out, left)
        else:
            raise TypeError(f"{item!r} is no term")
    return "".join(out)


def _write_struct(struct, spelled, out, left):
    name, args = struct.name, struct.args
    if len(args) == 2 and name in _OPERATORS:
        is_product = name in _PRODUCTS
        _write_operand(args[1], _is_a(args[1], _OPERATORS if is_product else _SUMS), left)
        left.append(_OPERATORS[name])
        _write_operand(args[0], is_product and _is_a(args[0], _SUMS), left)
    elif args:
        out.append(spelled(Struct, name))
        out.append("(")
        left.append(_PARENTHESIS)
        _write_items(args, left)
    else:
        out.append(spelled(Struct, name))


def _is_a(term, operators):
    return type(term) is Struct and len(term.args) == 2 and term.name in operators


def _write_operand(term, wraps, left):
    left += [_PARENTHESIS, term, _Sign("(")] if wraps else [term]


def _write_items(items, left):
    for item in items[:0:-1]:
        left.append(item)
        left.append(_COMMA)
    left += items[:1]


def _write_partial(partial, out, left):
    if not partial.items:
        raise ValueError("a partial list has no item")
    out.append("[")
    left += [_BRACKET, partial.tail, _BAR]
    _write_items(partial.items, left)


# ---------------------------------------------------------------------------------- texts to terms

_WORD = "[0-9A-Za-z_\x80-\U0010ffff]"
# A number with its own sign, an operator, a word with the parenthesis behind it, or a sign.
_TOKEN = re.compile(rf"-?[0-9]+|mod(?!{_WORD})|//|{_WORD}+\(?|\[\s*\]|\S")
# What no token is.
_END = " "
# Where a term stands, by what may stand behind it.
_WHOLE, _PARENTHESES, _CALL, _LIST, _TAIL = (_END,), (")",), (",", ")"), (",", "|", "]"), ("]",)


def term_of(text):
    """The term that a text spells, as runs print it; a text that spells none is a ValueError."""
    try:
        return _read(_TOKEN.findall(text))
    except ValueError:
        raise ValueError(f"no term: {text[:200]!r}") from None


def _read(tokens):
    """The term of these tokens, by a list of the brackets that are open.

    Of each there is the place that it makes, its name, the terms in it so far, and what stands to
    the left of the term that is being read.
    """
    brackets, place, name, terms, left, term = [], _WHOLE, None, [], [], None
    tokens.append(_END)
    for token in tokens:
        if term is None:
            if token[-1] not in "([":
                term = int(token) if token.isdigit() else _operand(token)
                continue
            brackets.append((place, name, terms, left))
            place = _LIST if token == "[" else _PARENTHESES if token == "(" else _CALL
            name, terms, left = _read_name(token[:-1]) if place is _CALL else None, [], []
        elif token in place:
            terms.append(_joined(left, term, token) if left else term)
            term = None
            if token == "|":
                place = _TAIL
            elif token != ",":
                term = _closed(place, name, terms)
                if not brackets:
                    return term
                place, name, terms, left = brackets.pop()
        elif token in _OPERATORS:
            left.append((_joined(left, term, token), token))
            term = None
        elif token[0] == "-":
            left.append((_joined(left, term, "-"), "-"))
            term = int(token[1:])
        else:
            raise ValueError
    raise ValueError


def _operand(token):
    """A number, a variable, an atom or the empty list."""
    if token[0] == "-":
        return int(token)
    if token[0] == "[":
        return []
    return Var(token) if _is_variable(token) else Struct(_read_name(token))


def _read_name(word):
    """A name; which letters beyond ASCII it may have is for the library to know."""
    if not (word[0].isalpha() or word[0] >= "\x80") or _is_variable(word) or word in ("is", "mod"):
        raise ValueError
    return word


def _joined(left, term, sign):
    """The term with what stands to its left and binds it no weaker than a sign behind it."""
    while left and (left[-1][1] in _PRODUCTS or sign not in _PRODUCTS):
        operand, operator = left.pop()
        term = Struct(operator, [operand, term])
    return term


def _closed(place, name, terms):
    if place is _CALL:
        return Struct(name, terms)
    if place is _LIST:
        return terms
    return _with_tail(terms[:-1], terms[-1]) if place is _TAIL else terms[0]


def _with_tail(items, tail):
    if type(tail) is list:
        return items + tail
    if type(tail) is PartialList:
        return PartialList(items + tail.items, tail.tail)
    return PartialList(items, tail)


def _constraint(line):
    """The constraint of a line of the store, NAME(..)#IDENTITY."""
    text, _, identity = line.rpartition("#")
    struct = term_of(text)
    return Constraint(struct.name, struct.args, int(identity))


def _binding(line):
    name, _, text = line.partition(" = ")
    return name, term_of(text)


def _firing(line):
    rule, _, identities = line.partition(" ")
    return Firing(rule, [int(identity) for identity in identities.split(",")])


# --------------------------------------------------------------------------------------- the worker


class _Worker:
    """A thread with a large stack that makes one call after the other."""

    def __init__(self):
        self.calls = queue.SimpleQueue()
        before = threading.stack_size(STACK)
        try:
            thread = threading.Thread(target=self.work, name="cordspar", daemon=True)
            thread.start()
        finally:
            threading.stack_size(before)
        self.identity = thread.ident

    def work(self):
        while True:
            self.call(*self.calls.get())

    @staticmethod
    def call(function, arguments, tell):
        try:
            answer = function(*arguments), None
        except BaseException as error:  # whoever called has it raised
            answer = None, error
        tell(answer)

    def answer(self, function, arguments):
        if threading.get_ident() == self.identity:
            return function(*arguments)
        answers = queue.SimpleQueue()
        self.calls.put((function, arguments, answers.put))
        answer, error = answers.get()
        if error is None:
            return answer
        try:
            raise error
        finally:
            del error  # it has this frame, which is not to have it

    def later(self, function, *arguments):
        """Makes a call that nobody waits for; a destructor may ask for it at any time."""
        self.calls.put((function, arguments, id))


_lock = threading.Lock()
_only = None


def _worker():
    global _only
    if _only is None:
        with _lock:
            _only = _only or _Worker()
    return _only


def _forget_worker():
    """A forked child has no thread but the one that forked."""
    global _only, _lock
    _only, _lock = None, threading.Lock()


if hasattr(os, "register_at_fork"):
    os.register_at_fork(after_in_child=_forget_worker)


def on_large_stack(function, *arguments):
    """What a function answers, called on the thread that calls the library.

    There its own calls of a Program or a Run are handed over to nobody, and so cost less.
    """
    return _worker().answer(function, arguments)


# -------------------------------------------------------------------------------------- the library

_REFUSED = 2
_TRACE, _STACK, _STORE, _BINDINGS, _HISTORY = range(5)

# A store or bindings of so few lines are read with the run: to hand over a call takes longer.
_SHORT = 16

# The bytes of the buffer that each text is first written to.
_ROOM = 4096


class _Error(ctypes.Structure):
    _fields_ = [
        ("line", ctypes.c_uint64),
        ("column", ctypes.c_uint64),
        ("rule", ctypes.c_uint64),
        ("source", ctypes.c_int32),
        ("kind", ctypes.c_int32),
    ]


_TEXT = (ctypes.c_char_p, ctypes.c_size_t)
_OUT = (ctypes.POINTER(ctypes.c_void_p), ctypes.POINTER(_Error))
_BUFFER = (ctypes.c_void_p, ctypes.c_size_t)

# What each function of the header answers and takes. Other threads go on while one of the first
# runs; the others are so brief that to let them go on would take longer.
_LONG = {
    "program_new": (ctypes.c_int32, *_TEXT, *_OUT),
    "program_free": (None, ctypes.c_void_p),
    "run_new": (ctypes.c_int32, ctypes.c_void_p, *_TEXT, ctypes.c_uint64, ctypes.c_uint32, *_OUT),
    "run_free": (None, ctypes.c_void_p),
    "run_text": (ctypes.c_size_t, ctypes.c_void_p, *_BUFFER),
}
_BRIEF = {
    "version": (ctypes.c_uint32,),
    "run_steps": (ctypes.c_uint64, ctypes.c_void_p),
    "run_fault": (ctypes.c_int32, ctypes.c_void_p),
    "run_count": (ctypes.c_size_t, ctypes.c_void_p, ctypes.c_int32),
    "run_item": (ctypes.c_size_t, ctypes.c_void_p, ctypes.c_int32, ctypes.c_size_t, *_BUFFER),
    "error_text": (ctypes.c_size_t, ctypes.POINTER(_Error), *_BUFFER),
}


class _Library:
    """The functions of the library, which the worker calls."""

    def __init__(self, path):
        for library, functions in ((ctypes.CDLL(path), _LONG), (ctypes.PyDLL(path), _BRIEF)):
            for name, (answer, *arguments) in functions.items():
                function = getattr(library, f"cordspar_{name}")
                function.restype, function.argtypes = answer, arguments
                setattr(self, name, function)
        # What calls write to; there is one call at a time.
        self.out, self.error = ctypes.c_void_p(), _Error()
        self.buffer = ctypes.create_string_buffer(_ROOM)
        self.address = ctypes.addressof(self.buffer)

    def text(self, write, *arguments):
        """What a function writes, which is asked again where the buffer was too small."""
        length = write(*arguments, self.address, _ROOM)
        if length <= _ROOM:
            return self.buffer[:length].decode()
        large = ctypes.create_string_buffer(length)
        write(*arguments, ctypes.addressof(large), length)
        return large[:length].decode()

    def lines(self, run, part, most=sys.maxsize):
        """The lines of a part, or None where there are more."""
        count = self.run_count(run, part)
        if count <= most:
            return [self.text(self.run_item, run, part, k) for k in range(count)]
        return None

    def made(self, make, *arguments):
        """The status of a `_new` function, and what it made."""
        status = make(*arguments, self.out, self.error)
        if status == _REFUSED:
            raise self.refusal(self.error)
        return status, self.out.value

    def refusal(self, error):
        text = self.text(self.error_text, error)
        source, kind = Source(error.source), Kind(error.kind)
        return Refused(text, source, kind, error.line, error.column, error.rule)

    def new_program(self, text):
        return _Handle(self.made(self.program_new, text, len(text))[1], self.program_free)

    def new_run(self, program, query, budget, trace):
        """The handle of a run, its status, fault and number of transitions, and its short parts."""
        status, run = self.made(self.run_new, program, query, len(query), budget, trace)
        handle = _Handle(run, self.run_free)
        short = self.lines(run, _STORE, _SHORT), self.lines(run, _BINDINGS, _SHORT)
        return handle, status, self.run_fault(run), self.run_steps(run), *short


class _Handle:
    """What the library made; it is freed, on the worker, when nothing has it any more."""

    __slots__ = ("pointer", "free", "later")

    def __init__(self, pointer, free):
        self.pointer, self.free, self.later = pointer, free, _worker().later

    def __del__(self):
        self.later(self.free, self.pointer)


def _places():
    """The paths at which the library may be, in their order."""
    here = os.path.dirname(os.path.abspath(__file__))
    name = "libcordspar.so"
    beside = [os.path.join(here, name), os.path.join(here, "..", "..", "lib", name)]
    return [*filter(os.path.exists, beside), name]


@functools.lru_cache(maxsize=None)
def _loaded(path):
    return _Library(path)


_path = None


def load(path=None):
    """Takes the library at a path; without one the library is looked for.

    That is at the path CORDSPAR_LIBRARY of the environment, or else as libcordspar.so beside this
    file, in ../../lib, and where the system has libraries.
    """
    global _path
    path = path or os.environ.get("CORDSPAR_LIBRARY") or _places()[0]
    _loaded(path)
    _path = path


def _library():
    if _path is None:
        load()
    return _loaded(_path)


def version():
    """The version of the library, as (major, minor, patch)."""
    number = _library().version()
    return number >> 16, number >> 8 & 255, number & 255


# ------------------------------------------------------------------------------- programs and runs


def _bytes(text):
    """A text as UTF-8; what no UTF-8 spells is left to the library to refuse."""
    return text.encode("utf-8", "surrogatepass") if isinstance(text, str) else bytes(text)


class Program:
    """A program that was read once. What is no program is Refused."""

    def __init__(self, text):
        self._library = _library()
        self._handle = on_large_stack(self._library.new_program, _bytes(text))

    def run(self, query, budget=100_000, trace=False):
        """Runs a query for at most so many transitions, and keeps a line for each if asked to.

        What is no query, and a budget above 1,000,000, is Refused.
        """
        if budget < 0:
            raise ValueError("the budget is below 0")
        arguments = self._handle.pointer, _bytes(query), min(budget, 2**64 - 1), bool(trace)
        return Run(self._library, on_large_stack(self._library.new_run, *arguments))


class Run:
    """How a run of Program.run stands. Its parts are read when they are first asked for."""

    def __init__(self, library, made):
        self._library = library
        self._handle, status, fault, self.steps, self._store, self._bindings = made
        self.status, self.fault = _STATUSES[status], Fault(fault) if fault else None

    def _lines(self, part):
        return on_large_stack(self._library.lines, self._handle.pointer, part)

    @functools.cached_property
    def store(self):
        """The constraints that are left, by ascending identity."""
        lines = self._lines(_STORE) if self._store is None else self._store
        return [_constraint(line) for line in lines]

    @functools.cached_property
    def bindings(self):
        """What the query's variables are bound to, by their names."""
        lines = self._lines(_BINDINGS) if self._bindings is None else self._bindings
        return dict(map(_binding, lines))

    @functools.cached_property
    def stack(self):
        """The lines of what is left to do, from the top."""
        return self._lines(_STACK)

    @functools.cached_property
    def history(self):
        """The firings whose constraints are left."""
        return [_firing(line) for line in self._lines(_HISTORY)]

    @functools.cached_property
    def trace(self):
        """A line for each transition, where these were asked for."""
        return self._lines(_TRACE)

    @functools.cached_property
    def text(self):
        """What `chr` writes for the run."""
        library = self._library
        return on_large_stack(library.text, library.run_text, self._handle.pointer)

    def __repr__(self):
        return f"<cordspar.Run: {self.status.name} after {self.steps} transitions>"
