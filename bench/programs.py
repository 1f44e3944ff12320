"""The programs beside this file: for each size the goals of the query, and what has to stand at the end of its run.

That is worked out here, by other means than rules: the constraints of the store, in any order and without their identities, and the bindings.
"""
import heapq
import math

PROGRAMS = {}


def program(*sizes):
    """A function of a size, of which these are measured; it answers the goals, the store at the end, and the bindings, if any."""

    def note(answer):
        PROGRAMS[answer.__name__] = (sizes, answer)
        return answer

    return note


class Numbers:
    """Random numbers that are the same with every Python: a linear congruence, whose upper half is taken."""

    def __init__(self, seed):
        self.state = seed

    def below(self, bound):
        self.state = (self.state * 6364136223846793005 + 1442695040888963407) % 2**64
        return (self.state >> 33) % bound

    def shuffled(self, items):
        items = list(items)
        for k in range(len(items) - 1, 0, -1):
            j = self.below(k + 1)
            items[k], items[j] = items[j], items[k]
        return items


def each(form, n):
    """The form with each number from 1 to n."""
    return [form.format(k) for k in range(1, n + 1)]


@program(100, 1000, 10000, 100000)
def gcd(n):
    return ["gcd(1)", f"gcd({n})"], ["gcd(1)"]


@program(10, 20, 40, 80)
def cross(n):
    given = [*each("left({})", n), *each("right({})", n), "pairs"]
    return given, given + [f"pair({x},{y})" for x in range(1, n + 1) for y in range(1, n + 1) if x != y]


@program(8, 16, 32, 64)
def closure(n):
    numbers, arrows = Numbers(n), {(k, k % n + 1) for k in range(1, n + 1)}
    while len(arrows) < n + n // 2:
        arrow = 1 + numbers.below(n), 1 + numbers.below(n)
        if arrow[0] != arrow[1]:
            arrows.add(arrow)
    given = [f"arrow({x},{y})" for x, y in sorted(arrows)]
    return given, given + [f"path({x},{y})" for x in range(1, n + 1) for y in range(1, n + 1)]


@program(5, 10, 20, 40)
def leq(n):
    return [f"leq(X{k},X{k % n + 1})" for k in range(1, n + 1)], [], [f"X{k} = X1" for k in range(2, n + 1)]


@program(64, 256, 1024, 4096)
def merge_sort(n):
    given = [f"run(1,{number})" for number in Numbers(n).shuffled(range(1, n + 1))]
    return given, [f"run({n},1)"] + [f"next({k},{k + 1})" for k in range(1, n)]


@program(100, 400, 1600, 6400)
def primes(n):
    found = [k for k in range(2, n + 1) if all(k % j for j in range(2, math.isqrt(k) + 1))]
    return [f"upto({n})", "candidate(2)"], [f"upto({n})"] + [f"prime({k})" for k in found]


@program(64, 256, 1024, 4096)
def union_find(n):
    numbers, parents, ranks = Numbers(n), {}, {k: 0 for k in range(1, n + 1)}
    unions = [(1 + numbers.below(n), 1 + numbers.below(n)) for _ in range(n)]

    def find(k):
        passed = []
        while k in parents:
            passed.append(k)
            k = parents[k]
        parents.update((other, k) for other in passed)
        return k

    for a, b in unions:
        x, y = find(a), find(b)
        if x != y:
            below, above = (y, x) if ranks[x] >= ranks[y] else (x, y)
            ranks[above] += ranks[x] == ranks[y]
            parents[below] = above
    roots = [f"root({k},{rank})" for k, rank in ranks.items() if k not in parents]
    return each("make({})", n) + [f"union({a},{b})" for a, b in unions], roots + [f"above({a},{b})" for a, b in parents.items()]


@program(10, 100, 1000, 10000)
def ram(n):
    code = ["code(1,2,add,2,3)", "code(2,3,sub,1,2)", "code(3,1,branch,2,4)", "code(4,5,halt,0,0)"]
    return code + ["cell(1,1)", f"cell(2,{n})", "cell(3,0)", "at(1)"], code + ["cell(1,1)", "cell(2,0)", f"cell(3,{n * (n + 1) // 2})"]


@program(20, 40, 80, 160)
def fibonacci(n):
    values = [1, 1]
    while len(values) <= n:
        values.append((values[-1] + values[-2]) % 1000007)
    return [f"fib({n},F)"], [f"fib({k},{value})" for k, value in enumerate(values)], [f"F = {values[n]}"]


@program(20, 40, 80, 160)
def lists(n):
    whole = f"[{','.join(each('e{}', n))}]"
    return [f"turn(10,{whole},[])"], [f"done({whole})"]


@program(60, 120, 240)
def triples(n):
    roots, given = {k * k: k for k in range(1, n + 1)}, each("side({})", n)
    pairs = ((a, b) for a in range(1, n + 1) for b in range(a + 1, n + 1))
    return given, given + [f"triple({a},{b},{roots[a * a + b * b]})" for a, b in pairs if a * a + b * b in roots]


@program(4, 7, 10)
def grid(n):
    numbers, roads = Numbers(n), {place: [] for place in range(n * n)}
    for place in roads:
        for other in [place + 1] * (place % n < n - 1) + [place + n] * (place < n * (n - 1)):
            length = 1 + numbers.below(9)
            roads[place].append((other, length))
            roads[other].append((place, length))
    found, waiting = {}, [(0, 0)]
    while waiting:
        far, place = heapq.heappop(waiting)
        if place not in found:
            found[place] = far
            for other, length in roads[place]:
                heapq.heappush(waiting, (far + length, other))
    given = [f"road({place},{other},{length})" for place, ways in roads.items() for other, length in ways]
    return [*given, "start(0)"], given + [f"reach({place},{far})" for place, far in found.items()]
