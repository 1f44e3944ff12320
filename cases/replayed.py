"""What the data of a page come to: the text that `chr` writes of the run, made of the data alone."""

NAMES = {"a": "activate", "d": "default", "x": "drop", "r": "reactivate", "p": "propagate", "s": "simplify", "t": "solve", "f": "solve", "!": "solve"}
SUMS, PRODUCTS = ("+", "-"), ("*", "//", "mod")


class Replay:
    """A run where it stands: the goal stack, the topmost element last, the store, the values of variables, and the history.

    An element is a goal, an identity, or an identity and an occurrence.
    """

    def __init__(self, data):
        self.data, self.lines, self.values, self.history = data, [], {}, []
        self.stack = [("goal", goal) for goal in reversed(data["goals"])]
        self.goals, self.store = {}, []
        for item in data["run"]:
            for step in item if isinstance(item, str) else [item]:
                self.make(step)

    # -- Texts

    def name(self, variable):
        """A variable of the query by its name, and any other by its number."""
        names = self.data["names"]
        named = variable < len(names) and names[variable][:1].isupper()
        return names[variable] if named else f"_{variable}"

    def value(self, term):
        while isinstance(term, int) and term in self.values:
            term = self.values[term]
        return term

    def kind(self, term):
        """The signs among which an expression stands, or none."""
        term = self.value(term)
        is_pair = isinstance(term, list) and len(term) == 3
        return next((signs for signs in (SUMS, PRODUCTS) if is_pair and term[0] in signs), ())

    def term(self, term):
        term = self.value(term)
        if isinstance(term, int):
            return self.name(term)
        if isinstance(term, str):
            return term
        if self.kind(term):
            return self.expression(*term)
        if term[0] == "[":
            return f"[{self.elements(term)}]"
        return f"{term[0]}({','.join(map(self.term, term[1:]))})"

    def elements(self, term):
        """The elements of a list; the last one of what ends with a variable, which a list may be bound to, stands behind a bar."""
        if term[-2] != "|":
            return ",".join(map(self.term, term[1:]))
        shown, rest = ",".join(map(self.term, term[1:-2])), self.value(term[-1])
        if rest == "[]":
            return shown
        is_list = isinstance(rest, list) and rest[0] == "["
        return f"{shown},{self.elements(rest)}" if is_list else f"{shown}|{self.term(rest)}"

    def expression(self, sign, left, right):
        is_product = sign in PRODUCTS
        left_text, right_text = self.term(left), self.term(right)
        if is_product and self.kind(left) == SUMS:
            left_text = f"({left_text})"
        if self.kind(right) == SUMS or is_product and self.kind(right):
            right_text = f"({right_text})"
        return f"{left_text}{' mod ' if sign == 'mod' else sign}{right_text}"

    def goal(self, goal):
        if not isinstance(goal, dict):
            return self.term(goal)
        return " ".join([self.term(goal["told"][1]), goal["told"][0], self.term(goal["told"][2])] if len(goal["told"]) > 1 else goal["told"])

    def constraint(self, identity):
        return f"{self.goal(self.goals[identity])}#{identity}"

    def element(self, element):
        if element[0] == "goal":
            return self.goal(element[1])
        return self.constraint(element[0]) + "".join(f":{occurrence}" for occurrence in element[1:])

    # -- Transitions

    def make(self, step):
        """Makes a transition, and notes its line."""
        kind, top = step[0], self.stack[-1]
        if kind == "a":
            self.goals[len(self.goals) + 1] = top[1]
        shown = self.constraint(len(self.goals)) if kind == "a" else self.element(top)
        line = f"{len(self.lines) + 1} {NAMES[kind]} {shown}"
        if kind in "ps":
            line += f" {self.data['rules'][step[1]]['name']} {','.join(map(str, step[2]))}"
        self.lines.append(line + {"f": " fails", "!": f" fault {step[-1]}"}.get(kind, ""))
        if kind not in "f!":
            self.change(step, self.stack.pop())

    def change(self, step, top):
        kind = step[0]
        if kind == "a":
            self.store.append(len(self.goals))
            self.stack.append((len(self.goals), 1))
        elif kind == "r":
            self.stack.append((top[0], 1))
        elif kind == "d":
            self.stack.append((top[0], top[1] + 1))
        elif kind == "t":
            self.values.update(step[1])
            self.stack += [(identity,) for identity in reversed(step[2])]
        elif kind in "ps":
            self.fire(*step, top)

    def fire(self, kind, rule, identities, goals, top):
        heads = self.data["rules"][rule]["heads"]
        removed = {identity for identity, head in zip(identities, heads) if head["removed"]}
        self.store = [identity for identity in self.store if identity not in removed]
        self.history.append(f"{self.data['rules'][rule]['name']} {','.join(map(str, identities))}")
        self.stack += ([top] if kind == "p" else []) + [("goal", goal) for goal in reversed(goals)]

    # -- The whole text

    def text(self):
        bound = [k for k in sorted(self.values) if not self.name(k).startswith("_")]
        parts = {
            "stack": [self.element(element) for element in reversed(self.stack)],
            "store": [self.constraint(identity) for identity in self.store],
            "bindings": [f"{self.name(k)} = {self.term(k)}" for k in bound],
            "history": self.history,
        }
        ends = [line for name, lines in parts.items() for line in [f"{name} {len(lines)}", *lines]]
        return "".join(f"{line}\n" for line in [*self.lines, *ends])
