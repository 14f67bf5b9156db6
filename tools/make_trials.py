#!/usr/bin/env python3
"""Writes crates/trials/stdin and crates/trials/stdout: a table of grammar files, and what a run on each must print.

The expected output comes from the plain implementation below, which shares nothing with the library: it keeps covered atoms
in a set and finds maximal elements by walking along each carrier. Run it after a change of the format: tools/make_trials.py
"""
import os
import random
from math import gcd

FIELD, SHIFT, SLOTS, STEPS, OUTPUT, LONGEST = 2000, 4000, 1024, 256, 65536, 65536
TURNS = [lambda x, y: (x, y), lambda x, y: (-y, x), lambda x, y: (-x, -y), lambda x, y: (y, -x),
         lambda x, y: (-x, y), lambda x, y: (-y, -x), lambda x, y: (x, -y), lambda x, y: (y, x)]


class Refused(Exception):
    def __init__(self, number, line=None):
        self.number, self.line = number, line


def inside(x, y):
    return abs(x) <= FIELD and abs(y) <= FIELD


def point_atoms(ink, x, y):
    return {(ink, x, y)}


def segment_atoms(ink, x1, y1, x2, y2):
    if (x2, y2) < (x1, y1):
        x1, y1, x2, y2 = x2, y2, x1, y1
    n = gcd(abs(x2 - x1), abs(y2 - y1))
    dx, dy = (x2 - x1) // n, (y2 - y1) // n
    return {(ink, dx, dy, x1 + k * dx, y1 + k * dy) for k in range(n)}


def moved(p, x, y):
    s, u, v = p
    a, b = TURNS[s](x, y)
    return a + u, b + v


def move_mark(p, a):
    return (a[0],) + moved(p, a[1], a[2])


def move_cut(p, a):
    ink, dx, dy, x, y = a
    q, r = moved(p, x, y), moved(p, x + dx, y + dy)
    if r < q:
        q, r = r, q
    return (ink, r[0] - q[0], r[1] - q[1]) + q


def mark_list(atoms):
    return sorted(atoms)


def cut_list(atoms):
    """Maximal cuts as (ink, x1, y1, x2, y2), in the order of carrier and start."""
    out = []
    for ink, dx, dy, x, y in atoms:
        if (ink, dx, dy, x - dx, y - dy) in atoms:
            continue
        n = 1
        while (ink, dx, dy, x + n * dx, y + n * dy) in atoms:
            n += 1
        at = x // dx if dx > 0 else y
        out.append(((ink, dx, dy, dx * y - dy * x), at, (ink, x, y, x + n * dx, y + n * dy)))
    return [e for _, _, e in sorted(out)]


def atom_inside(a):
    return inside(a[1], a[2]) if len(a) == 3 else inside(a[3], a[4]) and inside(a[3] + a[1], a[4] + a[2])


def split_line(text):
    if b"\n" in text or text == b"":
        raise Refused(4)
    words = text.split(b" ")
    if b"" in words:
        raise Refused(4)
    return words


def number(word):
    body = word[1:] if word[:1] == b"-" else word
    if not body.isdigit() or not all(48 <= c <= 57 for c in body) or not 1 <= len(body) <= 9:
        raise Refused(5)
    if body[:1] == b"0" and (len(body) > 1 or word[:1] == b"-"):
        raise Refused(5)
    return int(word)


def stroke(words):
    if words[0] == b"mark" and len(words) == 4 or words[0] == b"cut" and len(words) == 6:
        numbers = [number(w) for w in words[1:]]
    else:
        raise Refused(4)
    if not 0 <= numbers[0] <= 255 or any(abs(z) > FIELD for z in numbers[1:]):
        raise Refused(6)
    if words[0] == b"mark":
        return "mark", point_atoms(*numbers)
    if numbers[1:3] == numbers[3:5]:
        raise Refused(7)
    return "cut", segment_atoms(*numbers)


LISTS = {"mark": mark_list, "cut": cut_list}
MOVES = {"mark": move_mark, "cut": move_cut}


class Drawing:
    def __init__(self, rules):
        self.rules, self.sheets, self.start, self.steps = rules, {"mark": set(), "cut": set()}, None, []

    def draw(self, kind, atoms):
        new = self.sheets[kind] | atoms
        if len(LISTS[kind](new)) > SLOTS:
            raise Refused(19)
        self.sheets[kind] = new

    def places(self, left):
        kind = "mark" if left["mark"] else "cut"
        first = min(left[kind])
        found = set()
        for s in range(8):
            turned = MOVES[kind]((s, 0, 0), first)
            for target in self.sheets[kind]:
                if turned[:-2] != target[:-2]:
                    continue
                p = (s, target[-2] - turned[-2], target[-1] - turned[-1])
                if all(MOVES[k](p, a) in self.sheets[k] for k in left for a in left[k]):
                    found.add(p)
        return sorted(found)

    def rule(self, r):
        if not 1 <= r <= len(self.rules):
            raise Refused(13)
        if not any(self.rules[r - 1]["left"].values()):
            raise Refused(14)
        return self.rules[r - 1]

    def pick(self, r, k):
        rule = self.rule(r)
        places = self.places(rule["left"])
        if not 1 <= k <= len(places):
            raise Refused(15)
        p = places[k - 1]
        right = {kind: {MOVES[kind](p, a) for a in rule["right"][kind]} for kind in LISTS}
        if not all(atom_inside(a) for kind in right for a in right[kind]):
            raise Refused(16)
        if len(self.steps) == STEPS:
            raise Refused(17)
        for kind in LISTS:
            if sum(len(LISTS[kind](s)) for s in (self.sheets[kind], rule["left"][kind], rule["right"][kind])) > SLOTS:
                raise Refused(18)
        self.steps.append((rule, p, dict(self.sheets)))
        self.sheets = {kind: self.sheets[kind] - {MOVES[kind](p, a) for a in rule["left"][kind]} | right[kind] for kind in LISTS}

    def undo(self):
        if not self.steps:
            raise Refused(12)
        self.sheets = self.steps.pop()[2]


def lines_of(file, start, end):
    """(text, line number, ended) of each line of a body."""
    at = start
    while at < end:
        stop = file.find(b"\n", at, end)
        ended = stop >= 0
        stop = stop if ended else end
        yield file[at:stop], file[:at].count(b"\n") + 1, ended
        at = stop + 1


def contents(file):
    at, line, lengths, rules = 10, 2, [], 0
    want = "start"
    while True:
        stop = file.find(b"\n", at)
        if at == len(file):
            raise Refused(2, line - 1)
        if stop < 0:
            raise Refused(2, line)
        text = file[at:stop]
        words = text.split(b" ")
        try:
            n = number(words[1]) if len(words) == 2 else -1
        except Refused:
            n = -1
        n = -1 if words[1:2] and words[1][:1] == b"-" else n
        if want == "start" and words[0] == b"start" and n >= 0:
            lengths.append(n)
            want = "rule"
        elif want == "rule" and words[0] == b"rule" and n >= 0 and rules < 32:
            lengths.append(n)
            rules += 1
        elif want == "rule" and words[0] == b"steps" and n >= 0 and rules:
            lengths.append(n)
            want = "body"
        elif want == "body" and text == b"body":
            return lengths, stop + 1, line
        else:
            raise Refused(2, line)
        at, line = stop + 1, line + 1


def carried(file, todo, start, end):
    for text, line, ended in lines_of(file, start, end):
        try:
            if not ended:
                raise Refused(4)
            todo(split_line(text))
        except Refused as r:
            raise Refused(r.number, line)


def run(file):
    if len(file) > LONGEST or file[:10] != b"lattice 1\n":
        raise Refused(1, 1)
    lengths, at, line = contents(file)
    if sum(lengths) != len(file) - at:
        raise Refused(3, line)
    ends = [at]
    for n in lengths:
        ends.append(ends[-1] + n)
    rules = []

    def side(words):
        if words[0] not in (b"left", b"right") or len(words) < 2:
            raise Refused(4)
        kind, atoms = stroke(words[1:])
        name = words[0].decode()
        old = rules[-1][name][kind]
        rules[-1][name][kind] = old | atoms
        if sum(len(LISTS[kind](r[name][kind])) for r in rules) > SLOTS:
            raise Refused(19)

    for i in range(1, len(lengths) - 1):
        rules.append({"left": {"mark": set(), "cut": set()}, "right": {"mark": set(), "cut": set()}})
        carried(file, side, ends[i], ends[i + 1])
    drawing = Drawing(rules)
    carried(file, lambda words: drawing.draw(*stroke(words)), ends[0], ends[1])

    def step(words):
        if words == [b"undo"]:
            return drawing.undo()
        if words[0] != b"pick" or len(words) != 3:
            raise Refused(4)
        r, k = [number(w) for w in words[1:]]
        drawing.pick(r, k)

    carried(file, step, ends[-2], ends[-1])
    text = "".join("mark %d %d %d\n" % e for e in mark_list(drawing.sheets["mark"]))
    text += "".join("cut %d %d %d %d %d\n" % e for e in cut_list(drawing.sheets["cut"]))
    if len(text) > OUTPUT:
        raise Refused(20, 0)
    return text


def printed(file):
    try:
        return run(file)
    except Refused as r:
        return "refused %d line %d\n" % (r.number, r.line)


def grammar(start=b"", rules=(b"",), steps=b""):
    head = b"lattice 1\nstart %d\n" % len(start) + b"".join(b"rule %d\n" % len(r) for r in rules)
    return head + b"steps %d\nbody\n" % len(steps) + start + b"".join(rules) + steps


def on_lines(*texts):
    return b"".join(t + b"\n" for t in texts)


def starts():
    """Start bodies: ranges, joins, slopes, and every fault of a line."""
    good = [[], [b"mark 1 0 0"], [b"mark 255 2000 -2000", b"mark 0 -2000 2000"], [b"cut 1 0 0 2 0", b"cut 1 2 0 5 0"],
            [b"cut 1 5 0 2 0", b"cut 1 2 0 0 0"], [b"cut 1 0 0 4 0", b"cut 1 2 0 7 0"], [b"cut 1 0 0 1 0", b"cut 1 2 0 3 0", b"cut 1 0 0 3 0"],
            [b"cut 1 0 0 2 0", b"cut 2 2 0 5 0"], [b"cut 9 -3 -1 -1 0", b"cut 9 -1 0 1 1"], [b"cut 1 0 0 3 7", b"cut 1 6 14 3 7"],
            [b"cut 1 0 0 7 -3", b"cut 1 -7 3 0 0"], [b"cut 1 0 5 0 -5"], [b"cut 1 -2000 -2000 2000 2000"], [b"cut 1 -2000 1999 2000 -2000"],
            [b"mark 3 1 1", b"mark 3 1 1"], [b"cut 1 4 6 0 0", b"cut 1 2 3 8 12"]]
    bad = [b"", b" ", b"mark", b"mark ", b"mark 1 0", b"mark 1 0 0 0", b"mark  1 0 0", b" mark 1 0 0", b"mark 1 0 0 ", b"Mark 1 0 0", b"arc 1 0 0",
           b"mark 1 0 x", b"mark 256 0 x", b"mark 256 0 0 0", b"mark 1 0 +1", b"mark 1 00 0", b"mark 01 0 0", b"mark 1 -0 0", b"mark 1 - 0",
           b"mark 1 1234567890 0", b"mark 1 123456789 0", b"mark -1 0 0", b"mark 256 0 0", b"mark 255 2001 0", b"mark 255 0 -2001", b"cut 1 0 0 1",
           b"cut 1 0 0 0 0", b"cut 256 0 0 0 0", b"cut 1 2001 0 2001 0", b"cut 1 0 0 0 y", b"mark 1 0 0\r", b"mark 1 0\t0 0", b"mark 1 0 0\x00",
           b"mark\x001 0 0", b"undo", b"pick 1 1", b"left mark 1 0 0", b"mark 1 0 --1", b"mark 1 0 1-", b"\xffmark 1 0 0"]
    for lines in good:
        yield "start", grammar(on_lines(*lines))
    for line in bad:
        yield "bad line", grammar(on_lines(b"mark 1 5 5", line, b"zz"))


def rules():
    for lines in [[b"left mark 1 0 0"], [b"right cut 1 0 0 3 0", b"left cut 1 0 0 1 0"], [b"left mark 1 0"], [b"left"], [b"left "], [b"leftmark 1 0 0"],
                  [b"mark 1 0 0"], [b"right mark 1 0 2001"], [b"right cut 3 1 1 1 1"], [b"left left mark 1 0 0"], [b"up mark 1 0 0"]]:
        yield "rule", grammar(on_lines(b"mark 2 0 0"), (b"", on_lines(*lines)))
    yield "32 rules", grammar(b"", (on_lines(b"left mark 1 0 0"),) * 32)
    yield "33 rules", grammar(b"", (b"",) * 33)
    many = on_lines(*[b"left mark 1 %d 0" % (2 * i) for i in range(600)])
    yield "1024 of all rules", grammar(b"", (many, on_lines(*[b"left mark 1 %d 0" % (2 * i) for i in range(424)])))
    yield "1025 of all rules", grammar(b"", (many, on_lines(*[b"left mark 1 %d 0" % (2 * i) for i in range(425)])))


def headings():
    good = grammar(on_lines(b"mark 1 0 0"))
    for file in [b"", b"l", b"lattice 1", b"lattice 1\n", b"lattice 2\n", b"lattice 1 \nstart 0\n", b"Lattice 1\n", b"\nlattice 1\n", good[:-1], good + b"x",
                 b"lattice 1\nstart 0", b"lattice 1\nstart 0\n", b"lattice 1\nstart 0\nrule 0", b"lattice 1\nstart 0\nrule 0\n", b"lattice 1\nstart 0\nsteps 0\nbody\n",
                 b"lattice 1\nrule 0\nstart 0\nsteps 0\nbody\n", b"lattice 1\nstart 0\nrule 0\nsteps 0\n", b"lattice 1\nstart 0\nrule 0\nsteps 0\nbody",
                 b"lattice 1\nstart 0\nrule 0\nsteps 0\nbody\n", b"lattice 1\nstart -1\nrule 0\nsteps 0\nbody\n", b"lattice 1\nstart x\n", b"lattice 1\nstart 00\n",
                 b"lattice 1\nstart 0 0\n", b"lattice 1\nstart  0\n", b"lattice 1\nstart\n", b"lattice 1\nstart 0\nrule 0\nrule 0\nbody\n",
                 b"lattice 1\nstart 0\nrule 0\nsteps 0\nsteps 0\n", b"lattice 1\nstart 0\nrule 0\nsteps 0\nbody \n", b"lattice 1\n\n", b"lattice 1\nzz\nstart 0",
                 b"lattice 1\nstart 1\nrule 0\nsteps 0\nbody\n", b"lattice 1\nstart 999999999\nrule 999999999\nrule 999999999\nrule 999999999\nrule 999999999\nsteps 9\nbody\n"]:
        yield "heading", file
    for size in (65536, 65537):
        line = b"mark 1 0 0\n"
        room = size - len(grammar(b"x" * 60000)) + 60000
        body = line * (room // len(line))
        yield "%d bytes" % size, grammar(body + b"mark 1 0 0".ljust(room - len(body), b" ") if room > len(body) else body)


def middles():
    """Bodies whose ends are not those of lines."""
    text = on_lines(b"mark 1 0 0", b"mark 1 1 1", b"left mark 1 0 0", b"right mark 2 0 0")
    for cut in range(18, 30):
        yield "cut in a line", b"lattice 1\nstart %d\nrule %d\nsteps 0\nbody\n" % (cut, len(text) - cut) + text


def full():
    marks = [b"mark 1 %d %d" % (2 * (i % 40), 2 * (i // 40)) for i in range(1025)]
    yield "1024 marks", grammar(on_lines(*marks[:1024]))
    yield "1025 marks", grammar(on_lines(*marks))
    cuts = [b"cut 1 %d %d %d %d" % (3 * (i % 40), i // 40, 3 * (i % 40) + 2, i // 40) for i in range(1024)]
    yield "1024 cuts, one joined", grammar(on_lines(*cuts, b"cut 1 2 0 3 0"))
    yield "1025 cuts", grammar(on_lines(*cuts, b"cut 2 0 0 1 0"))


def steps(with_picks):
    left, right = on_lines(b"left cut 1 0 0 1 0"), on_lines(b"right mark 7 0 0")
    for lines in [[b"undo"], [b"pick 0 1"], [b"pick 3 1"], [b"pick -1 1"], [b"pick 2 1"], [b"pick 2 0"], [b"pick 1"], [b"pick 1 1 1"], [b"pick 1 x"], [b"pick x 1"],
                  [b"pick 2 999999999"], [b"pick 1 0x"], [b"undo "], [b"undo\r"], [b"Undo"], [b"pick 3 1", b"zz"], [b"zz", b"undo"], [b""]]:
        yield "step", grammar(on_lines(b"cut 1 0 0 3 0"), (left + right, on_lines(b"right mark 1 0 0")), on_lines(*lines))
    yield "step without its end", grammar(b"", (b"",), b"undo")
    if not with_picks:
        return
    yield from picks(left, right)


def picks(left, right):
    line = on_lines(b"cut 1 0 0 3 0")
    for lines in [[b"pick 1 2"], [b"pick 1 1"], [b"pick 1 0"], [b"pick 1 -1"], [b"pick 1 13"], [b"pick 1 12"], [b"pick 1 9", b"zz"], [b"pick 1 99", b"zz"],
                  [b"pick 1 2", b"undo"], [b"pick 1 2", b"undo", b"undo"], [b"pick 1 1", b"pick 1 1", b"pick 1 1"], [b"pick 1 1", b"pick 1 1", b"pick 1 1", b"pick 1 1"],
                  [b"pick 1 3", b"undo", b"pick 1 4", b"pick 1 1", b"undo"]]:
        yield "pick", grammar(line, (left + right,), on_lines(*lines))
    yield "the sample", grammar(line, (left + right,), on_lines(b"pick 1 2"))
    same = on_lines(b"left cut 1 0 0 1 0", b"right cut 1 1 0 2 0")
    two = on_lines(b"cut 1 0 0 2 0")
    yield "moved on", grammar(two, (same,), on_lines(b"pick 1 1"))
    yield "and back", grammar(two, (same,), on_lines(b"pick 1 1", b"undo"))
    edge = on_lines(b"left mark 1 0 0", b"right mark 1 1 0")
    for k in range(1, 10):
        yield "at the edge", grammar(on_lines(b"mark 1 2000 0"), (edge,), on_lines(b"pick 1 %d" % k))
    box = lambda x, y, n: [b"cut 1 %d %d %d %d" % c for c in ((x, y, x + n, y), (x + n, y, x + n, y + n), (x, y + n, x + n, y + n), (x, y, x, y + n))]
    unit = on_lines(*[b"left " + c for c in box(0, 0, 1)]) + on_lines(b"right mark 3 0 0")
    for k in range(1, 10):
        yield "emergent square", grammar(on_lines(*box(0, 0, 2), *box(1, 1, 2)), (unit,), on_lines(b"pick 1 %d" % k))
    hook = on_lines(b"left cut 1 0 0 3 0", b"left cut 1 3 0 3 1", b"left mark 2 0 0", b"right cut 5 0 0 3 0", b"right cut 5 3 0 3 1")
    arms = on_lines(*[b"cut 1 0 0 %d %d" % TURNS[s](3, 0) for s in range(8)], *[b"cut 1 %d %d %d %d" % (TURNS[s](3, 0) + TURNS[s](3, 1)) for s in range(8)], b"mark 2 0 0")
    for k in range(1, 10):
        yield "eight turns", grammar(arms, (hook,), on_lines(b"pick 1 %d" % k))
    stay = on_lines(b"left cut 1 0 0 1 0", b"right cut 1 0 0 1 0")
    one = on_lines(b"cut 1 0 0 1 0")
    yield "256 steps", grammar(one, (stay,), on_lines(b"pick 1 1") * 256)
    yield "257 steps", grammar(one, (stay,), on_lines(b"pick 1 1") * 257)
    yield "256 steps, undone", grammar(one, (stay,), on_lines(b"pick 1 1") * 256 + on_lines(b"undo") * 256)
    yield "257 undone", grammar(one, (stay,), on_lines(b"pick 1 1") * 3 + on_lines(b"undo") * 4)
    marks = on_lines(*[b"mark 1 %d %d" % (2 * (i % 40), 2 * (i // 40)) for i in range(1023)])
    grow = on_lines(b"left mark 1 0 0", b"right mark 2 0 0")
    yield "no room", grammar(marks, (grow,), on_lines(b"pick 1 1"))
    yield "room", grammar(marks[:marks.rindex(b"mark")], (grow,), on_lines(b"pick 1 1"))
    for start in ([b"cut 1 0 0 2 0", b"cut 1 2 0 5 0"], [b"cut 1 0 0 5 0"], [b"cut 1 5 0 1 0", b"cut 1 0 0 3 0"]):
        for k in (1, 3, 7, 14, 20, 21):
            yield "redrawn", grammar(on_lines(*start), (left + right,), on_lines(b"pick 1 %d" % k))
    short = on_lines(b"left cut 1 0 0 1 0")
    for k in range(1, 13):
        yield "taken off", grammar(line, (short,), on_lines(b"pick 1 %d" % k))
    lone = on_lines(b"left mark 4 1 2", b"left cut 1 0 0 2 1", b"right cut 1 0 0 2 1", b"right mark 4 1 -2")
    for k in range(1, 6):
        yield "both kinds", grammar(on_lines(b"mark 4 1 2", b"cut 1 -2 -1 4 2", b"mark 4 3 3", b"mark 4 -3 1"), (lone,), on_lines(b"pick 1 %d" % k, b"pick 1 1"))


def damaged(count):
    """Files with some bytes changed, dropped or doubled, from a fixed seed."""
    dice = random.Random(7)
    base = grammar(on_lines(b"cut 1 0 0 3 0", b"mark 2 1 1", b"cut 3 -4 2 8 -6"), (on_lines(b"left cut 1 0 0 1 0", b"right mark 7 0 0"), on_lines(b"right mark 1 2 3")), on_lines(b"undo"))
    for _ in range(count):
        file = bytearray(base)
        for _ in range(dice.randint(1, 4)):
            i = dice.randrange(len(file))
            what = dice.randrange(4)
            if what == 0:
                file[i] = dice.choice(b" \n-0123456789acdegiklmnoprstuy\x00\xff")
            elif what == 1:
                del file[i]
            elif what == 2:
                file.insert(i, file[dice.randrange(len(file))])
            else:
                del file[i:]
                file += b"\n" * dice.randrange(2)
            if not file:
                break
        yield "damaged", bytes(file)


def main():
    with_picks = os.environ.get("PICKS", "1") == "1"
    here = os.path.join(os.path.dirname(os.path.abspath(__file__)), "..", "crates", "trials")
    table, said = b"", ""
    for group in (headings(), starts(), rules(), middles(), full(), steps(with_picks), damaged(300)):
        for name, file in group:
            table += b"case %d\n" % len(file) + file
            said += "%s\n%s" % (name, printed(file))
            table += name.encode() + b"\n"
    with open(os.path.join(here, "stdin"), "wb") as f:
        f.write(table)
    with open(os.path.join(here, "stdout"), "w", encoding="utf-8") as f:
        f.write(said)
    print("%d bytes of cases, %d bytes of output" % (len(table), len(said)))


main()
