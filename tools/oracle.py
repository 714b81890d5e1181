#!/usr/bin/env python3
"""An independent simulation of the rules (docs/RULES.md, docs/FORMATS.md), written from the documents alone.

    tools/oracle.py drill < sheet        what the program drill must print
    tools/oracle.py rehearse CHANNEL.. < sheet   the same over another channel
    tools/oracle.py cases DIR EXAMPLES   writes DIR/stdin and DIR/stdout for the crate `cases`
"""
import random
import re
import sys

NUMBER = re.compile(rb"(0|[1-9][0-9]*)\Z")
VALUE = re.compile(rb"(0|-?[1-9][0-9]*)\Z")
KINDS = b"wrtcbx"


class Fault(Exception):
    def __init__(self, number, line):
        self.number, self.line = number, line


class Queue:
    def __init__(self, places):
        self.cells, self.size = [], places

    def free(self):
        return self.size - len(self.cells)

    def waiting(self):
        return len(self.cells)

    def put(self, m):
        if len(self.cells) >= self.size:
            return False
        self.cells.append(m)
        return True

    def take(self):
        return self.cells.pop(0) if self.cells else None


class Slots(Queue):
    def __init__(self):
        super().__init__(256)

    def take(self):
        if not self.cells:
            return None
        m = min(self.cells, key=lambda x: (x["round"], x["replica"], x["client"], x["kind"]))
        self.cells.remove(m)
        return m


class Delay:
    def __init__(self, below, replica):
        self.below, self.replica, self.pocket = below, replica, []

    def free(self):
        return self.below.free() + 64 - len(self.pocket)

    def waiting(self):
        return self.below.waiting() + len(self.pocket)

    def put(self, m):
        if self.below.put(m):
            return True
        if len(self.pocket) >= 64:
            return False
        self.pocket.append(m)
        return True

    def take(self):
        while True:
            m = self.below.take()
            if m is None:
                return self.pocket.pop(0) if self.pocket else None
            if 1 <= m["kind"] <= 3 and m["replica"] == self.replica and len(self.pocket) < 64:
                self.pocket.append(m)
            else:
                return m


def channel(words):
    if words == ["queue"]:
        return Queue(1024)
    if words == ["slots"]:
        return Slots()
    assert words[0] == "delay"
    return Delay(channel(words[2:]), int(words[1]))


def read_sheet(data, places=4096):
    pos, line = 0, 1

    def word():
        nonlocal pos
        if pos >= len(data):
            raise Fault(33, line)
        end = pos
        while end < len(data) and data[end] not in (32, 10):
            end += 1
        return data[pos:end], end

    def close(end, separator):
        nonlocal pos, line
        if end >= len(data):
            raise Fault(33, line)
        if data[end] != separator:
            raise Fault(31, line)
        pos = end + 1
        line += separator == 10

    def fixed(text, separator):
        w, end = word()
        if w != text:
            raise Fault(31, line)
        close(end, separator)

    def number(form, limit, separator, judge=None):
        w, end = word()
        if not form.match(w):
            raise Fault(31, line)
        if abs(int(w)) > limit:
            raise Fault(32, line)
        if judge:
            judge(int(w))
        close(end, separator)
        return int(w)

    def enough(n):
        if n > places:
            raise Fault(35, line)

    fixed(b"settings", 32)
    fixed(b"5", 10)
    settings = [number(NUMBER, 99999999, 32) for _ in range(4)] + [number(VALUE, 99999999, 10)]
    fixed(b"orders", 32)
    count = number(NUMBER, 4096, 10, enough)
    orders = []
    for _ in range(count):
        w, end = word()
        if len(w) != 1 or w not in [KINDS[i:i + 1] for i in range(6)]:
            raise Fault(31, line)
        if w == b"c":
            close(end, 10)
            orders.append(("c", 0))
        else:
            close(end, 32)
            orders.append((w.decode(), number(VALUE if w == b"w" else NUMBER, 99999999, 10)))
    if pos < len(data):
        raise Fault(34, line)
    return settings, orders


class Register:
    def __init__(self, settings, ch):
        S, t, V, R, initial = settings
        if not (4 <= S <= 32 and 1 <= t <= 10 and 1 <= V <= 7 and 1 <= R <= 64):
            raise Fault(1, 2)
        if (V + 2) * t >= S:
            raise Fault(2, 2)
        if abs(initial) > 9999999:
            raise Fault(3, 2)
        if ch.waiting():
            raise Fault(4, 2)
        if ch.free() < S:
            raise Fault(5, 2)
        self.S, self.t, self.V, self.R, self.ch = S, t, V, R, ch
        self.rows = [dict(version=0, value=initial, previous=initial, marks=0, note=0, rounds=[0] * 65) for _ in range(S)]
        self.out = [False] * S
        self.clients = [dict(round=0, version=0, value=initial, previous=initial, phase="idle", slips={}, out=False) for _ in range(R + 1)]

    def mark(self, c):
        return 1 if c == 0 else 1 << (1 + c % self.V)

    def send(self, c, kind, count):
        k = self.clients[c]
        for b in range(count):
            assert self.ch.put(dict(kind=kind, replica=b, client=c, round=k["round"], version=k["version"], value=k["value"],
                                    previous=k["previous"], marks=self.mark(c), note=0))

    def start(self, c, phase, kind, count):
        k = self.clients[c]
        k["round"] += 1
        k["phase"], k["slips"] = phase, {}
        if phase == "writing":
            k["version"] = k["round"]
        self.send(c, kind, count)
        return (100, c, 0, 0, 0)

    def order(self, letter, n):
        def no(code, who=n):
            return (code, who, 0, 0, 0)
        if letter == "w":
            k = self.clients[0]
            if k["out"]:
                return no(12, 0)
            if k["phase"] != "idle":
                return no(13, 0)
            if abs(n) > 9999999:
                return no(15, 0)
            if k["round"] >= 2000000:
                return no(16, 0)
            if self.ch.free() < self.S:
                return no(17, 0)
            k["previous"], k["value"] = k["value"], n
            return self.start(0, "writing", 1, self.S)
        if letter in "rt":
            if not 1 <= n <= self.R:
                return no(11)
            k = self.clients[n]
            if k["out"]:
                return no(12)
            if letter == "r":
                if k["phase"] != "idle":
                    return no(13)
                if k["round"] >= 2000000:
                    return no(16)
                if self.ch.free() < self.S:
                    return no(17)
                return self.start(n, "asking", 2, self.S)
            if k["phase"] != "due":
                return no(14)
            if self.ch.free() < 3 * self.t + 1:
                return no(17)
            return self.start(n, "telling", 3, 3 * self.t + 1)
        if letter == "b":
            if n >= self.S:
                return no(11)
            if self.out[n]:
                return no(19)
            if sum(self.out) >= self.t:
                return no(20)
            self.out[n] = True
            return no(100)
        if letter == "x":
            if n > self.R:
                return no(11)
            if self.clients[n]["out"]:
                return no(12)
            self.clients[n]["out"] = True
            return no(100)
        m = self.ch.take()
        if m is None:
            return no(18, 0)
        answer, reply = self.handle(m)
        if reply:
            assert self.ch.put(reply)
        return answer

    def handle(self, m):
        c = m["client"]
        if not 1 <= m["kind"] <= 6 or m["replica"] >= self.S or c > self.R:
            return (107, 0, 0, 0, 0), None
        if m["kind"] <= 3:
            if self.out[m["replica"]]:
                return (102, c, 0, 0, 0), None
            row = self.rows[m["replica"]]
            if m["round"] <= row["rounds"][c]:
                return (103, c, 0, 0, 0), None
            row["rounds"][c] = m["round"]
            if m["version"] > row["version"]:
                row.update(version=m["version"], value=m["value"], previous=m["previous"], marks=m["marks"])
            else:
                row["marks"] |= m["marks"]
            if m["kind"] == 3 and m["version"] > row["note"]:
                row["note"] = m["version"]
            reply = dict(kind=m["kind"] + 3, replica=m["replica"], client=c, round=m["round"])
            reply.update({f: row[f] for f in ("version", "value", "previous", "marks", "note")})
            return (101, c, 0, 0, 0), reply
        k = self.clients[c]
        if k["out"]:
            return (102, c, 0, 0, 0), None
        awaited = {"writing": 4, "asking": 5, "telling": 6}.get(k["phase"])
        if m["kind"] != awaited or m["round"] != k["round"] or m["replica"] in k["slips"]:
            return (103, c, 0, 0, 0), None
        k["slips"][m["replica"]] = m
        need = 2 * self.t + 1 if k["phase"] == "telling" else self.S - self.t
        if len(k["slips"]) < need:
            return (104, c, 0, 0, 0), None
        if k["phase"] != "asking":
            rounds = 2 if k["phase"] == "telling" else 1
            k["phase"] = "idle"
            return (105, c, k["version"], k["value"], rounds), None
        return self.decide(c, k, list(k["slips"].values())), None

    def decide(self, c, k, slips):
        h = max(s["version"] for s in slips)
        low = min((s for s in slips if s["version"] == h), key=lambda s: s["replica"])
        k.update(version=h, value=low["value"], previous=low["previous"])
        notes = sum(s["note"] == h for s in slips)
        top = [s["marks"] for s in slips if s["version"] == h]

        def agreed(extra):
            for a in range(1, self.V + 2):
                for mask in range(256):
                    if bin(mask).count("1") >= a + extra and sum(x & mask == mask for x in top) >= self.S - a * self.t:
                        return True
            return False
        if h == 0 or notes >= self.t + 1 or agreed(1):
            k["phase"] = "idle"
            return (105, c, h, low["value"], 1)
        if agreed(0) or notes:
            k["phase"] = "due"
            return (106, c, 0, 0, 0)
        k["phase"] = "idle"
        return (105, c, h - 1, low["previous"], 1)


def drill(data, ch):
    try:
        settings, orders = read_sheet(data[:65536])
        register = Register(settings, ch)
        out = b"".join(b"%d %d %d %d %d\n" % register.order(*o) for o in orders)
        if len(out) > 65536:
            raise Fault(36, 0)
        return out
    except Fault as f:
        return b"fault %d %d\n" % (f.number, f.line)


def sheet(settings, orders):
    lines = ["settings 5", " ".join(map(str, settings)), "orders %d" % len(orders)] + orders
    return ("\n".join(lines) + "\n").encode()


def mixed(rng, settings, count, letters="wrtcccccccccbx"):
    S, t, V, R, _ = settings
    out = []
    for _ in range(count):
        k = rng.choice(letters)
        if k in "bx" and rng.random() < 0.8:
            k = "c"
        n = {"w": lambda: rng.choice([rng.randint(-9999999, 9999999), 10000000, -99999999]) if rng.random() < 0.05 else rng.randint(-5000, 5000),
             "r": lambda: rng.randint(0, R + 1), "t": lambda: rng.randint(0, R + 1), "b": lambda: rng.randint(0, S),
             "x": lambda: rng.choice([R + 1, 99999999, rng.randint(1, R)])}.get(k)
        out.append(k if n is None else "%s %d" % (k, n()))
    return out


MALFORMED = [
    b"", b"settings 5\n", b"setti", b"settings 5", b"settings 6\n", b"settings  5\n", b" settings 5\n", b"settings\n5\n", b"settings 5\r\n",
    b"settings 5\n4 1 1 1 1000\norders 1\nq 1\n", b"settings 5\n4 1 1 1 1000\norders 1\ncc\n", b"settings 5\n4 1 1 1 1000\norders 1\nw1\n",
    b"settings 5\n04 1 1 1 1000\norders 0\n", b"settings 5\n4 1 1 1 -0\norders 0\n", b"settings 5\n4 1 1 1 -01\norders 0\n",
    b"settings 5\n4 -1 1 1 0\norders 0\n", b"settings 5\n4 1 1 1 +1\norders 0\n", b"settings 5\n4 1 1 1 -\norders 0\n",
    b"settings 5\n4 1 1 1 100000000\norders 0\n", b"settings 5\n4 1 1 1 -100000000\norders 0\n", b"settings 5\n999999999 1 1 1 0\norders 0\n",
    b"settings 5\n4 1 1 1 0\norders 4097\n", b"settings 5\n4 1 1 1 0\norders 04096\n", b"settings 5\n4 1 1 1 0\norders 0999999999\n",
    b"settings 5\n4 1 1 1 0\norders 999999999x\n", b"settings 5\n4 1 1 1 0\norders 2\nc\n", b"settings 5\n4 1 1 1 0\norders 1\nc",
    b"settings 5\n4 1 1 1 0\norders 1\nw 5", b"settings 5\n4 1 1 1 0\norders 1\nw ", b"settings 5\n4 1 1 1 0\norders 1\nw \n",
    b"settings 5\n4 1 1 1 0\norders 1\n\n", b"settings 5\n4 1 1 1 0\norders 1\nc\nc\n", b"settings 5\n4 1 1 1 0\norders 0\n\n",
    b"settings 5\n4 1 1 1 0\norders 1\nr -1\n", b"settings 5\n4 1 1 1 0\norders 1\nt 1 1\n", b"settings 5\n4 1 1 1 0\norders 1\nc \n",
    b"settings 5\n3 1 1 1 0\norders 0\n", b"settings 5\n33 1 1 1 0\norders 0\n", b"settings 5\n4 0 1 1 0\norders 0\n", b"settings 5\n4 1 8 1 0\norders 0\n",
    b"settings 5\n4 1 1 65 0\norders 0\n", b"settings 5\n5 1 3 1 0\norders 0\n", b"settings 5\n30 10 1 1 0\norders 0\n", b"settings 5\n5 1 2 1 10000000\norders 0\n",
    b"settings 5\n5 1 2 1 -9999999\norders 0\n", b"settings 5\n31 10 1 64 9999999\norders 1\nc\n", b"settings 5\n4 1 1 1 0\x00\norders 0\n", b"\xff",
]


def cases(examples):
    rng = random.Random(20261117)
    queue = ["queue"]
    out = [(queue, data) for data in MALFORMED]
    out.append((queue, sheet((4, 1, 1, 1, 1000), ["w 1200", "w 5"] + ["c"] * 7)))
    out.append((queue, sheet((4, 1, 1, 1, 0), ["c"] * 4096)))
    out.append((queue, sheet((4, 1, 1, 1, 0), ["x 99999999"] * 4096)))
    for s in ((4, 1, 1, 1, 1000), (31, 10, 1, 64, 9999999), (32, 3, 7, 64, -9999999)):
        out.append((queue, sheet(s, mixed(rng, s, 4096))))
    for name in ("slow_read", "previous_version", "two_slow_reads"):
        out.append((["delay", "0", "slots"], open("%s/%s.sheet" % (examples, name), "rb").read()))
    for words in (queue, ["slots"], ["delay", "0", "queue"], ["delay", "2", "slots"], ["delay", "0", "delay", "3", "queue"]):
        for s in ((4, 1, 1, 2, 1000), (5, 1, 2, 3, -7)):
            out.append((words, sheet(s, mixed(rng, s, 2000, "wrttccccccccccb"))))
    return out


FORMS = {("queue",): b"q", ("slots",): b"s", ("delay", "queue"): b"d", ("delay", "slots"): b"e", ("delay", "delay", "queue"): b"f"}


def header(words, data):
    numbers = [int(w) for w in words if w.isdigit()] + [0, 0]
    form = FORMS[tuple(w for w in words if not w.isdigit())]
    return form + b"%03d%03d%06d" % (numbers[0], numbers[1], len(data))


def main():
    if sys.argv[1] == "drill":
        sys.stdout.buffer.write(drill(sys.stdin.buffer.read(), Queue(1024)))
    elif sys.argv[1] == "rehearse":
        sys.stdout.buffer.write(drill(sys.stdin.buffer.read(), channel(sys.argv[2:])))
    else:
        given, wanted = b"", b""
        for words, data in cases(sys.argv[3]):
            given += header(words, data) + data
            wanted += b"-\n" + drill(data, channel(words))
        open(sys.argv[2] + "/stdin", "wb").write(given)
        open(sys.argv[2] + "/stdout", "wb").write(wanted)


main()
