#!/usr/bin/env python3
"""A frame computation that shares nothing with the program, and a comparison of its values with a report's pairs.

    frame.py MODEL REPORT       compares each pair of the report with the value; exit status 1 where one lies outside
    frame.py MODEL              prints the values

Decimals of 50 digits throughout. A straight and a bend are given by the flexibility of their cantilever, integrated along the axis
by Gauss's rule (no shear; a bend's bending flexibility times k, as ASME B31.3-2016, Appendix D, has it).
Contacts are found by trial of their states. Stresses follow ASME B31.3-2016, 319.4.4, 320.2 and 302.3.5. Python's standard
library only.
"""
import sys
from decimal import Decimal as D, getcontext

getcontext().prec = 50
ZERO, ONE = D(0), D(1)
GRAVITY = D("9.80665")


# ---- numbers and vectors

def arctan_inverse(n):
    """arctan(1/n) by its series."""
    total, term, k, square = ZERO, ONE / n, 1, D(n) * n
    while abs(term) > D(10) ** -60:
        total += term / k if k % 4 == 1 else -term / k
        term /= square
        k += 2
    return total


PI = 4 * (4 * arctan_inverse(5) - arctan_inverse(239))


def sine(x):
    total, term, k = ZERO, x, 1
    while abs(term) > D(10) ** -60:
        total += term
        term *= -x * x / ((k + 1) * (k + 2))
        k += 2
    return total


def cosine(x):
    return sine(PI / 2 - x)


def dot(a, b):
    return sum((x * y for x, y in zip(a, b)), ZERO)


def cross(a, b):
    return [a[1] * b[2] - a[2] * b[1], a[2] * b[0] - a[0] * b[2], a[0] * b[1] - a[1] * b[0]]


def scaled(a, f):
    return [x * f for x in a]


def plus(a, b):
    return [x + y for x, y in zip(a, b)]


def minus(a, b):
    return [x - y for x, y in zip(a, b)]


def norm(a):
    return dot(a, a).sqrt()


def unit(a):
    return scaled(a, 1 / norm(a))


def product(a, b):
    columns = list(zip(*b))
    return [[dot(row, column) for column in columns] for row in a]


def transposed(a):
    return [list(row) for row in zip(*a)]


def solved(matrix, right):
    """The solution of a symmetric positive definite system, rows of which are dictionaries, for several right sides."""
    rows = [dict(row) for row in matrix]
    right = [list(values) for values in right]
    n = len(rows)
    for j in range(n):
        pivot = rows[j][j]
        below = [i for i in rows[j] if i > j]
        for i in below:
            factor = rows[j][i] / pivot
            target = rows[i]
            for k in below:
                if k >= i:
                    target[k] = target.get(k, ZERO) - factor * rows[j][k]
            right[i] = minus(right[i], scaled(right[j], factor))
    for j in reversed(range(n)):
        for i in rows[j]:
            if i > j:
                right[j] = minus(right[j], scaled(right[i], rows[j][i]))
        right[j] = scaled(right[j], 1 / rows[j][j])
    return right


def inverse(matrix):
    n = len(matrix)
    rows = [{j: matrix[i][j] for j in range(i, n)} for i in range(n)]
    identity = [[ONE if i == j else ZERO for j in range(n)] for i in range(n)]
    return solved(rows, identity)


def gauss_points(n=24):
    """Points and weights of Gauss's rule on -1 to 1, by Newton's method from cosines."""
    points = []
    for i in range(n):
        x = cosine(PI * (4 * i + 3) / (4 * n + 2))
        for _ in range(8):
            p, q = ONE, x
            for k in range(2, n + 1):
                p, q = q, ((2 * k - 1) * x * q - (k - 1) * p) / k
            slope = n * (x * q - p) / (x * x - 1)
            x -= q / slope
        points.append((x, 2 / ((1 - x * x) * slope * slope)))
    return points


GAUSS = gauss_points()


# ---- the model

class Model:
    def __init__(self, text):
        self.materials, self.sections, self.nodes, self.elements = {}, {}, {}, []
        self.tees, self.restraints, self.cases, self.checks = {}, [], {}, []
        self.temps, self.pressures, self.forces, self.moves = {}, {}, [], {}
        for line in text.splitlines():
            words = line.split("#")[0].split()
            if words and words[0] != "pipeflex":
                self.add(words[0], words[1:])

    def add(self, kind, w):
        if kind == "material":
            self.materials[w[0]] = [D(x) for x in w[1:]]
        elif kind == "section":
            self.sections[w[0]] = (w[1], [D(x) for x in w[2:]])
        elif kind == "node":
            self.nodes[w[0]] = [D(x) / 10 ** 6 for x in w[1:]]
        elif kind in ("straight", "bend"):
            self.elements.append(Element(self, kind, w))
        elif kind == "tee":
            self.tees[w[0]] = w[1:]
        elif kind in ("anchor", "linear", "twist", "oneway", "gap", "hanger"):
            self.restraints.append((kind, w))
        elif kind == "case":
            self.cases[w[0]] = [D(x) for x in w[1:]]
        elif kind == "temp":
            self.temps[w[0], w[1]] = D(w[2])
        elif kind == "pressure":
            self.pressures[w[0], w[1]] = D(w[2])
        elif kind == "force":
            self.forces.append((w[0], w[1], [D(x) / 1000 for x in w[2:]]))
        elif kind == "move":
            self.moves[w[0], w[1]] = [D(x) / 10 ** 6 for x in w[2:]]
        elif kind == "check":
            self.checks.append(w)

    def tube(self, name, reduced=False):
        """Outside and inside diameter in metres."""
        _, (d, t, allowance, _) = self.sections[name]
        wall = t - allowance if reduced else t
        return d / 10 ** 6, (d - 2 * wall) / 10 ** 6


def area(tube):
    return PI * (tube[0] ** 2 - tube[1] ** 2) / 4


def inertia(tube):
    return PI * (tube[0] ** 4 - tube[1] ** 4) / 64


class Element:
    def __init__(self, model, kind, w):
        self.name, self.start, self.end, self.section = w[:4]
        self.kind = kind
        self.a, self.b = model.nodes[self.start], model.nodes[self.end]
        self.way = minus(self.b, self.a)
        material, numbers = model.sections[self.section]
        self.e, self.nu, self.alpha, self.rho = model.materials[material]
        self.extra = numbers[3] / 1000
        tube = model.tube(self.section)
        self.ea, self.ei = self.e * 10 ** 6 * area(tube), self.e * 10 ** 6 * inertia(tube)
        self.gj = self.ei / (1 + self.nu / 1000)
        self.tube = tube
        self.factor = ONE
        if kind == "bend":
            self.lay_arc([D(x) for x in w[4:]], numbers)
        else:
            self.arc = norm(self.way)
            self.tangents = [unit(self.way)] * 2
            self.normal = None
        flexibility = self.flexibility()
        self.stiffness = inverse(flexibility)

    def lay_arc(self, w, numbers):
        self.radius = w[0] / 10 ** 6
        self.angle = w[1] / 1000 * PI / 180
        corner = [x / 10 ** 6 for x in w[2:]]
        mean = (numbers[0] - numbers[1]) / 2 / 10 ** 6
        self.h = numbers[1] / 10 ** 6 * self.radius / mean ** 2
        self.factor = max(ONE, D("1.65") / self.h)
        chord = unit(self.way)
        self.normal = unit(cross(self.way, minus(corner, self.a)))
        outward = cross(self.normal, chord)
        half = self.angle / 2
        self.chord, self.outward = chord, outward
        self.arc = self.radius * self.angle
        self.tangents = [plus(scaled(chord, cosine(half)), scaled(outward, sine(half))),
                         minus(scaled(chord, cosine(half)), scaled(outward, sine(half)))]

    def sections_along(self):
        """Places from the first node on, each with tangent, way to the second node, and the length it stands for."""
        if self.kind == "straight":
            length = norm(self.way)
            for x, weight in GAUSS:
                yield self.tangents[0], scaled(self.way, (1 - x) / 2), length * weight / 2
            return
        middle = plus(scaled(self.way, D("0.5")), scaled(self.outward, -self.radius * cosine(self.angle / 2)))
        for x, weight in GAUSS:
            at = self.angle * x / 2
            place = plus(middle, plus(scaled(self.chord, self.radius * sine(at)), scaled(self.outward, self.radius * cosine(at))))
            tangent = minus(scaled(self.chord, cosine(at)), scaled(self.outward, sine(at)))
            yield tangent, minus(self.way, place), self.arc * weight / 2

    def flexibility(self):
        """Displacements and rotations of the second end for unit loads there, the first end held."""
        result = [[ZERO] * 6 for _ in range(6)]
        for tangent, arm, length in self.sections_along():
            bending, torsion, stretch = self.factor / self.ei, 1 / self.gj, 1 / self.ea
            columns = []
            for load in range(6):
                force = [ONE if i == load else ZERO for i in range(3)]
                moment = [ONE if i == load - 3 else ZERO for i in range(3)]
                moment = plus(moment, cross(arm, force))
                columns.append((moment, dot(force, tangent)))
            for i, (m, n) in enumerate(columns):
                for j, (p, q) in enumerate(columns):
                    along = dot(m, tangent) * dot(p, tangent)
                    across = dot(m, p) - along
                    result[i][j] += length * (across * bending + along * torsion + n * q * stretch)
        return result

    def relative(self):
        """The matrix from the twelve displacements of the ends to what the second moves and turns relative to the first."""
        x, y, z = self.way
        carried = [[ZERO, z, -y], [-z, ZERO, x], [y, -x, ZERO]]
        rows = []
        for i in range(3):
            row = [ZERO] * 12
            row[i], row[6 + i] = -ONE, ONE
            for j in range(3):
                row[3 + j] = -carried[i][j]
            rows.append(row)
        for i in range(3):
            row = [ZERO] * 12
            row[3 + i], row[9 + i] = -ONE, ONE
            rows.append(row)
        return rows

    def weight(self):
        return (area(self.tube) * self.rho * GRAVITY + self.extra) * self.arc

    def end_loads(self, gravity):
        """The twelve loads of the weight on the two ends."""
        half = scaled(gravity, self.weight() / 2000)
        moment = [ZERO] * 3
        if self.kind == "straight":
            moment = scaled(cross(self.way, gravity), self.weight() / 12000)
        return half + moment + half + scaled(moment, -ONE)

    def strain(self, dt, p):
        d, inside = self.tube
        pressure = p * inside ** 2 * (1 - 2 * self.nu / 1000) / (self.e * 10 ** 6 * (d ** 2 - inside ** 2))
        return self.alpha * dt / 10 ** 12 + pressure


# ---- restraints

class Spring:
    """A spring along a vector on the six displacements of a node; one-way where it has a gap."""

    def __init__(self, node, vector, stiffness, gap=None, offset=ZERO):
        self.node, self.vector, self.stiffness, self.gap, self.offset = node, vector, stiffness, gap, offset
        self.closed = gap is None or gap == 0


def default(word, value):
    return D(value) if word == "-" else D(word)


def springs_of(model, kind, w, case):
    name, node = w[0], w[1]
    along = lambda parts, first: [ZERO] * first + unit([D(x) for x in parts]) + [ZERO] * (3 - first)
    if kind == "anchor":
        move = model.moves.get((case, name), [ZERO] * 3) + [ZERO] * 3
        stiff = [default(w[2], 10 ** 10)] * 3 + [default(w[3], 10 ** 10)] * 3
        return [Spring(node, [ONE if i == j else ZERO for j in range(6)], stiff[i], offset=move[i]) for i in range(6)]
    if kind == "linear":
        return [Spring(node, along(w[2:5], 0), default(w[5], 10 ** 9))]
    if kind == "twist":
        return [Spring(node, along(w[2:5], 3), default(w[5], 10 ** 9))]
    if kind == "hanger":
        return [Spring(node, [ZERO, ZERO, ONE, ZERO, ZERO, ZERO], D(w[2]))]
    gap = D(w[5]) / 10 ** 6
    first = Spring(node, along(w[2:5], 0), default(w[6], 10 ** 9), gap)
    if kind == "oneway":
        return [first]
    if gap == 0:
        return [Spring(node, first.vector, first.stiffness)]
    return [first, Spring(node, scaled(first.vector, -ONE), first.stiffness, gap)]


# ---- a case

class Solution:
    def __init__(self, model, case):
        self.model, self.case = model, case
        self.rows = {name: 6 * i for i, name in enumerate(model.nodes)}
        self.groups = [springs_of(model, kind, w, case) for kind, w in model.restraints]
        self.springs = [spring for group in self.groups for spring in group]
        self.initial = [self.initial_of(e) for e in model.elements]
        self.elements_assembled()
        for _ in range(200):
            self.solve()
            wrong = [s for s in self.springs if s.gap is not None and self.is_wrong(s)]
            if not wrong:
                return
            for spring in wrong:
                spring.closed = not spring.closed
        raise SystemExit("the contact states of case %s don't settle" % case)

    def initial_of(self, e):
        c = self.model.cases[self.case]
        dt = self.model.temps.get((self.case, e.section), c[4])
        p = self.model.pressures.get((self.case, e.section), c[5])
        return scaled(e.way, e.strain(dt, p)) + [ZERO] * 3

    def elements_assembled(self):
        c = self.model.cases[self.case]
        n = 6 * len(self.rows)
        self.matrix = [{} for _ in range(n)]
        self.load = [ZERO] * n
        for e, initial in zip(self.model.elements, self.initial):
            relative = e.relative()
            k = product(transposed(relative), product(e.stiffness, relative))
            places = [self.rows[e.start] + i for i in range(6)] + [self.rows[e.end] + i for i in range(6)]
            stretched = product(transposed(relative), product(e.stiffness, [[x] for x in initial]))
            loads = e.end_loads(c[:3])
            for i, row in enumerate(places):
                self.load[row] += loads[i] + stretched[i][0]
                for j, column in enumerate(places):
                    if column >= row:
                        self.matrix[row][column] = self.matrix[row].get(column, ZERO) + k[i][j]
        for case, node, parts in self.model.forces:
            if case == self.case:
                for i, part in enumerate(parts):
                    self.load[self.rows[node] + i] += part
        if c[3]:
            for kind, w in self.model.restraints:
                if kind == "hanger":
                    self.load[self.rows[w[1]] + 2] += D(w[3]) / 1000

    def solve(self):
        matrix = [dict(row) for row in self.matrix]
        load = list(self.load)
        for s in self.springs:
            if not s.closed:
                continue
            first = self.rows[s.node]
            start = s.gap if s.gap is not None else s.offset
            for i, x in enumerate(s.vector):
                load[first + i] += s.stiffness * start * x
                for j in range(i, 6):
                    if x and s.vector[j]:
                        row = matrix[first + i]
                        row[first + j] = row.get(first + j, ZERO) + s.stiffness * x * s.vector[j]
        self.u = [x[0] for x in solved(matrix, [[x] for x in load])]

    def reach(self, s):
        return dot(s.vector, self.u[self.rows[s.node]:self.rows[s.node] + 6])

    def is_wrong(self, s):
        return (self.reach(s) < s.gap) if s.closed else (self.reach(s) > s.gap)

    def force(self, s):
        if not s.closed:
            return ZERO
        return s.stiffness * (self.reach(s) - (s.gap if s.gap is not None else s.offset))

    def end_actions(self, number):
        """Force and moment at the two ends of an element, less the loads of its own weight."""
        e = self.model.elements[number]
        moved = self.u[self.rows[e.start]:self.rows[e.start] + 6] + self.u[self.rows[e.end]:self.rows[e.end] + 6]
        relative = e.relative()
        change = minus([dot(row, moved) for row in relative], self.initial[number])
        inside = [dot(row, change) for row in e.stiffness]
        ends = [dot(column, inside) for column in transposed(relative)]
        ends = minus(ends, e.end_loads(self.model.cases[self.case][:3]))
        return ends[:6], ends[6:]


# ---- stresses

def tee_index(model, tee):
    """ii and io at a tee, by its header."""
    header, kind, value = tee[1], tee[2], D(tee[3])
    _, (d, t, _, _) = model.sections[header]
    r = (d - t) / 2
    if kind == "unreinforced":
        h = t / r
    elif kind == "coefficient":
        h = value / 1000 * t / r
    elif 2 * value <= 3 * t:
        h = ((t + value / 2) ** 5 / t ** 3).sqrt() / r
    else:
        h = 4 * t / r
    io = max(ONE, D("0.9") * root(h ** -2, 3))
    return D("0.75") * io + D("0.25"), io


def root(x, n):
    """The n-th root, by Newton's method on logarithms' guess."""
    return (x.ln() / n).exp()


def indices(model, e, node):
    if e.kind == "bend":
        return max(ONE, D("0.9") * root(e.h ** -2, 3)), max(ONE, D("0.75") * root(e.h ** -2, 3)), e.normal
    if node in model.tees:
        tee = model.tees[node]
        branch = next(b for b in model.elements if b.name == tee[0])
        header = next(x for x in model.elements if node in (x.start, x.end) and x.name != tee[0])
        return (*tee_index(model, tee), unit(cross(branch.way, header.way)))
    return ONE, ONE, None


def stress(model, e, to, action, pressure):
    """The stress of an end in Pa; with a pressure that of a sustained or occasional check, by the reduced wall."""
    sustained = pressure is not None
    tube = model.tube(e.section, sustained)
    a, z = area(tube), 2 * inertia(tube) / tube[0]
    ii, io, normal = indices(model, e, e.end if to else e.start)
    if sustained:
        ii, io = max(ONE, D("0.75") * ii), max(ONE, D("0.75") * io)
    tangent = e.tangents[1 if to else 0]
    force, moment = action[:3], action[3:]
    axial = abs(dot(force, tangent)) / a
    if sustained:
        axial += pressure * tube[1] ** 2 / (tube[0] ** 2 - tube[1] ** 2)
    torsion = dot(moment, tangent)
    if normal is None:
        bending = (dot(moment, moment) - torsion ** 2).copy_abs().sqrt() / z
    else:
        inside, outside = dot(moment, normal), dot(moment, cross(normal, tangent))
        bending = ((ii * inside) ** 2 + (io * outside) ** 2).sqrt() / z
    return ((axial + bending) ** 2 + (torsion / z) ** 2).sqrt()


class Checks:
    def __init__(self, model, solutions):
        self.model, self.solutions, self.stresses = model, solutions, {}

    def station(self, check, number, to):
        """The stress and its allowable in kPa."""
        name, kind, w = check[0], check[1], check[2:]
        e = self.model.elements[number]
        first = self.solutions[w[0]].end_actions(number)[1 if to else 0]
        if kind == "expansion":
            second = self.solutions[w[1]].end_actions(number)[1 if to else 0]
            value = stress(self.model, e, to, minus(first, second), None) / 1000
        else:
            case = self.model.cases[w[0]]
            pressure = self.model.pressures.get((w[0], e.section), case[5])
            value = stress(self.model, e, to, first, pressure) / 1000
        self.stresses[name, number, to] = value
        return value, self.allowable(kind, w, number, to)

    def allowable(self, kind, w, number, to):
        if kind == "sustained":
            return D(w[1])
        if kind == "occasional":
            return D(w[1]) * default(w[2], 133) / 100
        sc, sh, cycles, most = [D(x) for x in w[2:6]]
        f = min(6 / root(cycles, 5), most / 1000)
        sl = self.stresses.get((w[6], number, to))
        if sl is not None and sl < sh:
            return f * (D("1.25") * (sc + sh) - sl)
        return f * (D("1.25") * sc + D("0.25") * sh)


# ---- the lines of a report

def values(model):
    """The lines that a report should have, each with words, and the exact values of its pairs."""
    solutions = {}
    for case in model.cases:
        solutions[case] = s = Solution(model, case)
        yield ["case", case, "certified"], []
        for node, row in s.rows.items():
            yield ["node", node], [x * 10 ** 9 for x in s.u[row:row + 6]]
        for (kind, w), group in zip(model.restraints, s.groups):
            states = ["closed" if x.closed else "open" for x in group if x.gap is not None]
            yield ["restraint", w[0]] + states, [s.force(x) * 1000 for x in group]
    checks = Checks(model, solutions)
    for check in model.checks:
        counts = {"pass": 0, "fail": 0}
        yield ["check", check[0], check[1]], []
        for number, e in enumerate(model.elements):
            for to in (False, True):
                value, allowable = checks.station(check, number, to)
                verdict = "pass" if value <= allowable else "fail"
                counts[verdict] += 1
                yield ["station", e.name, "to" if to else "from", verdict], [value, allowable]
        yield ["result", str(counts["pass"]), str(counts["fail"]), "0", "0"], []


def is_number(word):
    return word.lstrip("-").isdigit()


def compare(model, report):
    lines = [line.split() for line in report.splitlines()][2:-1]
    pairs = states = outside = widest = 0
    for words, exact in values(model):
        line = lines.pop(0)
        if words[0] == "result":
            told, numbers = line, []
        else:
            told = line[:2] + [w for w in line[2:] if not is_number(w)]
            numbers = [int(w) for w in line[2:] if is_number(w)]
        if told != words or len(numbers) != 2 * len(exact):
            print("differs:", " ".join(line), "for", " ".join(words))
            outside += 1
            continue
        states += len(words) - 2
        for value, lo, hi in zip(exact, numbers[::2], numbers[1::2]):
            pairs += 1
            widest = max(widest, hi - lo)
            if not lo <= value <= hi:
                print("outside:", " ".join(line), float(value))
                outside += 1
    if lines:
        print("lines left over:", len(lines))
        outside += 1
    print("%d pairs, %d outside or different, none wider than %d; %d words of states, ends and verdicts" % (pairs, outside, widest, states))
    return outside == 0


def main():
    model = Model(open(sys.argv[1]).read())
    if len(sys.argv) > 2:
        raise SystemExit(0 if compare(model, open(sys.argv[2]).read()) else 1)
    for words, exact in values(model):
        print(" ".join(words), " ".join("%.3f" % x for x in exact))


if __name__ == "__main__":
    main()
