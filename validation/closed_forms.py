#!/usr/bin/env python3
"""Closed forms of the textbooks beside the program's pairs: bends, a loop by the guided cantilever, and contacts.

    closed_forms.py PROGRAM

Each line has the program's value (the middle of its pair) and the closed form with their ratio. Exit status 1 where a ratio that
should be 1 differs from it by more than 10^-5. Anchors have 10^12 N/m and N m/rad; where that shows, it stands in the closed form.
"""
import math
import subprocess
import sys

STIFF = 1e12
RIGID = "1000000000000 1000000000000"
MOST = 1e-5
MATERIAL = "pipeflex 1\nmaterial st 200000 300 12000 7850\n"
E, NU = 200e9, 0.3
failed = []


class Tube:
    def __init__(self, d, t):
        self.d, self.t = d, t
        outside, inside = d / 1e6, (d - 2 * t) / 1e6
        self.ei = E * math.pi * (outside ** 4 - inside ** 4) / 64
        self.ea = E * math.pi * (outside ** 2 - inside ** 2) / 4
        self.gj = self.ei / (1 + NU)

    def line(self):
        return "section s st %d %d 0 0\n" % (self.d, self.t)


TUBE = Tube(100000, 10000)


def report(program, text):
    done = subprocess.run([program, "analyse"], input=text, capture_output=True, text=True)
    if done.returncode != 0:
        raise SystemExit("status %d: %s%s" % (done.returncode, done.stdout, done.stderr))
    return [line.split() for line in done.stdout.splitlines()]


def middle(lines, words, place):
    """The middle of a pair of the last line that begins with these words."""
    line = [line for line in lines if line[:len(words)] == words][-1]
    numbers = [int(w) for w in line[len(words):] if w.lstrip("-").isdigit()]
    return (numbers[2 * place] + numbers[2 * place + 1]) / 2


def row(what, ours, theirs, exact=True):
    ratio = ours / theirs
    print("%-66s %16.6f %16.6f   %.7f" % (what, ours, theirs, ratio))
    if exact and abs(ratio - 1) > MOST:
        failed.append(what)


# ---- bends: an arc held at one end, with a force at the other

def bend(program, tube, r, angle):
    """Displacements at the free end of a bend for a force along its radius, along its tangent and across its plane."""
    phi = math.radians(angle / 1000)
    end = (r * math.sin(phi), r * (1 - math.cos(phi)))
    corner = (r * math.tan(phi / 2), 0) if angle < 180000 else (r, r)
    tangent, radial = (math.cos(phi), math.sin(phi)), (-math.sin(phi), math.cos(phi))
    # 10 kN, or 100 N where the arc would move by tens of metres
    force = 10 ** 7 if angle <= 60000 else 10 ** 5
    text = MATERIAL + tube.line() + "node a 0 0 0\nnode b %d %d 0\nbend e a b s %d %d %d %d 0\nanchor A a %s\n" % (
        round(end[0]), round(end[1]), r, angle, round(corner[0]), round(corner[1]), RIGID)
    for name, (x, y, z) in (("radial", (*radial, 0)), ("tangent", (*tangent, 0)), ("across", (0, 0, 1))):
        text += "case %s 0 0 0 0 0 0\nforce %s b %d %d %d 0 0 0\n" % (name, name, round(force * x), round(force * y), round(force * z))
    lines = report(program, text)
    nodes = [[int(w) for w in line[2:]] for line in lines if line[:2] == ["node", "b"]]
    moved = [[(n[2 * i] + n[2 * i + 1]) / 2 for i in range(3)] for n in nodes]
    along = lambda u, v: u[0] * v[0] + u[1] * v[1]
    ours = along(moved[0], radial), along(moved[1], tangent), moved[2][2]
    mean = (tube.d - tube.t) / 2
    k = max(1.0, 1.65 * mean ** 2 / (tube.t * r))
    m = r / 1e6
    sines = phi / 2 - math.sin(2 * phi) / 4
    versines = 3 * phi / 2 - 2 * math.sin(phi) + math.sin(2 * phi) / 4
    cosines = phi / 2 + math.sin(2 * phi) / 4
    sine, versine = m * math.sin(phi), m * (1 - math.cos(phi))
    f = force / 1000
    theirs = (f * (k * m ** 3 / tube.ei * sines + m / tube.ea * sines + (1 + sine ** 2) / STIFF),
              f * (k * m ** 3 / tube.ei * versines + m / tube.ea * cosines + (1 + versine ** 2) / STIFF),
              f * (k * m ** 3 / tube.ei * sines + m ** 3 / tube.gj * versines + (1 + sine ** 2 + versine ** 2) / STIFF))
    for name, our, their in zip(("along the radius", "along the tangent", "across the plane"), ours, theirs):
        row("bend of %g degrees, R = %g mm, k = %.3f: nm %s" % (angle / 1000, r / 1000, k, name), our, their * 1e9)


def bends(program):
    for angle in (22500, 30000, 45000, 60000, 90000, 180000):
        bend(program, TUBE, 12000000, angle)
    for tube, r in ((Tube(168300, 7110), 2290000), (Tube(323900, 6350), 4570000)):
        bend(program, tube, r, 90000)


# ---- an offset between two long runs, 100 K hotter

def offset(program, guided):
    """The moment at the corner of an offset of 3 m between runs of 8 m whose far ends are anchored."""
    text = MATERIAL + TUBE.line() + """node a 0 0 0
node b 8000000 0 0
node c 8000000 3000000 0
node d 16000000 3000000 0
straight p a b s
straight q b c s
straight r c d s
anchor A a %s
anchor D d %s
""" % (RIGID, RIGID)
    if guided:
        for node in "bc":
            text += "twist T%s %s 0 0 1 1000000000000\nlinear L%s %s 0 1 0 -\n" % (node, node, node, node)
        # the offset is free to stretch where only one of its ends is held along it
        text = text.replace("linear Lc c 0 1 0 -\n", "")
    text += "case hot 0 0 0 0 100000 0\n"
    lines = report(program, text)
    grown = 12000e-9 * 100 * 16
    stiff = 12 * TUBE.ei / 3 ** 3
    runs = 16 / TUBE.ea
    thrust = grown / (1 / stiff + runs)
    row("offset of 3 m, %s: thrust in mN" % ("corners guided" if guided else "corners free to turn"),
        abs(middle(lines, ["restraint", "A"], 0)), thrust * 1000, guided)


# ---- contacts, by hand

def cantilever(x, y):
    """What a cantilever sinks at x under a unit load at y."""
    least, most = min(x, y), max(x, y)
    return least ** 2 * (3 * most - least) / (6 * TUBE.ei)


def line_of(length, nodes):
    places = sorted(nodes | {0, length})
    text = MATERIAL + TUBE.line()
    text += "".join("node n%d %d 0 0\n" % (x, x * 1000) for x in places)
    text += "".join("straight e%d n%d n%d s\n" % (x, x, y) for x, y in zip(places, places[1:]))
    return text + "anchor A n0 %s\n" % RIGID


def contacts(program):
    k = 1e9
    text = line_of(4000, {2000}) + "oneway R n2000 0 0 -1 0 -\ncase up 0 0 0 0 0 0\nforce up n4000 0 0 1000000 0 0 0\n"
    row("one-way support that lifts: nm at the support", middle(report(program, text), ["node", "n2000"], 2), 1000 * cantilever(2, 4) * 1e9)
    text = text.replace("1000000 0 0 0", "-1000000 0 0 0")
    held = 1000 * cantilever(2, 4) / (cantilever(2, 2) + 1 / k)
    row("one-way support that holds: mN", middle(report(program, text), ["restraint", "R", "closed"], 0), held * 1000)
    text = line_of(3000, set()) + "gap G n3000 0 0 -1 2000 -\ncase c 0 0 0 0 0 0\nforce c n3000 0 0 %d 0 0 0\n"
    row("gap that stays open: nm", middle(report(program, text % -100000), ["node", "n3000"], 2), -100 * cantilever(3, 3) * 1e9)
    held = (1000 * cantilever(3, 3) - 0.002) / (cantilever(3, 3) + 1 / k)
    row("gap that closes: mN", middle(report(program, text % -1000000), ["restraint", "G", "closed"], 0), held * 1000)
    row("gap that closes on its other side: mN", middle(report(program, text % 1000000), ["restraint", "G", "open"], 1), held * 1000)
    text = line_of(4000, set()) + "oneway S n4000 1 0 0 1000 -\ncase hot 0 0 0 0 100000 0\n"
    held = (12000e-9 * 100 * 4 - 0.001) / (4 / TUBE.ea + 1 / k + 1 / STIFF)
    row("line stop 1 mm off, pipe 100 K hotter: mN", middle(report(program, text), ["restraint", "S", "closed"], 0), held * 1000)


def main():
    program = sys.argv[1]
    print("%-66s %16s %16s   %s" % ("", "program", "closed form", "ratio"))
    bends(program)
    offset(program, True)
    offset(program, False)
    contacts(program)
    for what in failed:
        print("differs:", what)
    return 1 if failed else 0


if __name__ == "__main__":
    sys.exit(main())
