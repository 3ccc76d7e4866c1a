#!/usr/bin/env python3
"""Frames of straights solved by Z88, an independent finite element program (Debian's package z88), beside the program's pairs.

    z88.py PROGRAM [MODEL ..]

Z88's element 2 is the Euler beam in space. It holds the anchored nodes rigidly, where the program's anchors give way by their
stiffness, 10^12 in these frames. It prints displacements with eight digits and reactions with six: a line has the largest difference
from the middle of a pair, over the largest number of its kind in the frame. Exit status 1 where one is over 2e-5, 0 with a word
where Z88 isn't installed.
"""
import math
import os
import shutil
import subprocess
import sys
import tempfile

MOST = 2e-5


def records(path):
    """The lines of a model by their first word."""
    found = {}
    for line in open(path):
        words = line.split("#")[0].split()
        if words:
            found.setdefault(words[0], []).append(words[1:])
    return found


def z88_files(model, folder):
    """Writes Z88's input: millimetres, newtons, MPa."""
    nodes = {w[0]: i + 1 for i, w in enumerate(model["node"])}
    materials = {w[0]: w for w in model["material"]}
    sections = {w[0]: w for w in model["section"]}
    elements = model["straight"]
    lines = ["3 %d %d %d %d 0 1 0 0" % (len(nodes), len(elements), 6 * len(nodes), len(elements))]
    lines += ["%d 6 %.9g %.9g %.9g" % (nodes[w[0]], *[int(x) / 1000 for x in w[1:]]) for w in model["node"]]
    for i, w in enumerate(elements):
        lines += ["%d 2" % (i + 1), "%d %d" % (nodes[w[1]], nodes[w[2]])]
    for i, w in enumerate(elements):
        section = sections[w[3]]
        d, bore = int(section[2]) / 1000, (int(section[2]) - 2 * int(section[3])) / 1000
        material = materials[section[1]]
        area, inertia = math.pi * (d ** 2 - bore ** 2) / 4, math.pi * (d ** 4 - bore ** 4) / 64
        lines.append("%d %d %.12g %.6g 1 %.15g %.15g %.9g %.15g %.9g %.15g %.15g" % (
            i + 1, i + 1, int(material[1]), int(material[2]) / 1000, area, inertia, d / 2, inertia, d / 2, 2 * inertia, 4 * inertia / d))
    open(os.path.join(folder, "z88i1.txt"), "w").write("\n".join(lines) + "\n")
    held = ["%d %d 2 0" % (nodes[w[1]], f) for w in model["anchor"] for f in range(1, 7)]
    pushed = []
    for w in model["force"]:
        for f, part in enumerate(w[2:]):
            value = int(part) / 1000 * (1000 if f > 2 else 1)
            if value:
                pushed.append("%d %d 1 %.12g" % (nodes[w[1]], f + 1, value))
    open(os.path.join(folder, "z88i2.txt"), "w").write("\n".join([str(len(held + pushed))] + sorted(held + pushed, key=lambda s: [int(x) for x in s.split()[:2]])) + "\n")
    open(os.path.join(folder, "z88i3.txt"), "w").write("0 0 0\n")
    shutil.copy("/usr/share/z88/z88.dyn", folder)


def rows_of(path):
    """The last row of six numbers of each node in a file of Z88's."""
    rows = {}
    for line in open(path, errors="replace"):
        words = line.split()
        if len(words) == 7 and words[0].isdigit():
            rows[int(words[0])] = [float(x) for x in words[1:]]
    return rows


def by_z88(model):
    """For each node six displacements in metres and radians, and six loads on its supports in N and N m."""
    with tempfile.TemporaryDirectory() as folder:
        z88_files(model, folder)
        for words in (["z88f", "-c"], ["z88e"]):
            subprocess.run(words, cwd=folder, check=True, stdout=subprocess.DEVNULL, stderr=subprocess.DEVNULL)
        moved = rows_of(os.path.join(folder, "z88o2.txt"))
        forces = rows_of(os.path.join(folder, "z88o4.txt"))
    names = [w[0] for w in model["node"]]
    displacements = {name: [x / 1000 for x in moved[i + 1][:3]] + moved[i + 1][3:] for i, name in enumerate(names)}
    loads = {name: [-x for x in forces[i + 1][:3]] + [-x / 1000 for x in forces[i + 1][3:]] for i, name in enumerate(names)}
    return displacements, loads


def middles(program, path, word, unit):
    """For each line of a kind in the program's report the middles of its six pairs."""
    report = subprocess.run([program, "analyse"], stdin=open(path), capture_output=True, text=True, check=True).stdout
    found = {}
    for line in report.splitlines():
        words = line.split()
        if words[0] == word:
            numbers = [int(x) for x in words[2:]]
            found[words[1]] = [(lo + hi) / 2 * unit for lo, hi in zip(numbers[::2], numbers[1::2])]
    return found


def largest_difference(theirs, ours):
    """Over the largest number of its kind: of the first three of a row, or of the last three."""
    worst = 0
    for kind in ((0, 1, 2), (3, 4, 5)):
        largest = max(abs(row[f]) for row in theirs.values() for f in kind)
        worst = max([worst] + [abs(theirs[name][f] - ours[name][f]) / largest for name in ours for f in kind])
    return worst


def compare(program, path):
    model = records(path)
    displacements, loads = by_z88(model)
    ours = middles(program, path, "node", 1e-9)
    anchors = {w[0]: w[1] for w in model["anchor"]}
    reactions = {anchors[name]: row for name, row in middles(program, path, "restraint", 1e-3).items()}
    moved, held = largest_difference(displacements, ours), largest_difference(loads, reactions)
    print("%-12s %3d displacements, largest difference %.1e; %2d reactions, %.1e" % (
        os.path.basename(path), 6 * len(ours), moved, 6 * len(reactions), held))
    return max(moved, held) <= MOST


def main():
    if shutil.which("z88f") is None:
        print("Z88 isn't installed: its comparison is skipped")
        return 0
    here = os.path.join(os.path.dirname(os.path.abspath(__file__)), "frames")
    models = sys.argv[2:] or sorted(os.path.join(here, name) for name in os.listdir(here) if name.endswith(".flex"))
    return 0 if all([compare(sys.argv[1], path) for path in models]) else 1


if __name__ == "__main__":
    sys.exit(main())
