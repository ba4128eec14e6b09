"""Scripts for hall: mostly meaningful calls on square and listed grounds, with wrong and malformed lines among them."""
import plans

MALFORMED = [
    "enter", "enter x", "enter 1 blocks", "enter 1 block now", "enter 65536", "enter 01", "enter -1", "move 1", "move 1 2 3",
    "move 1 65536", "lay", "lay 1 2 3", "lift a b", "leave", "leave 1 2", "tick 0", "tick 1000000", "tick 1 1", "tick 007",
    "recall 1", "clear all", "look here", "Look", "ENTER 1", "jump 1 2", "open", "open square 3 3 2 1 0", "open listed 1 1 1 0 1",
    "enter 1\t\x0cblock", "  tick  ", "\ttick 2\r", "#", "# look", " # look", "", "   ", "end", "END 0", "enter 1000000000",
    "move 999999999 1", "tick\x0b2", "tick \xff", "lo ok", "\x00", "enter 9999", "leave 65535", "move 0 256", "lay 300 1", "tick  999",
]
OPENS = [
    "open square 0 3 2 1 0", "open square 3 17 2 1 0", "open square 3 3 0 1 0", "open square 3 3 17 1 0", "open square 3 3 2 65 0",
    "open square 3 3 2 0 0", "open square 3 3 2 1 4", "open square 17 3 0 1 0", "open square 3 3 2 1", "open square 3 3 2 1 0 0",
    "open square 03 3 2 1 0", "open square 999999999 3 2 1 0", "open square 9999999999 3 2 1 0", "open circle 3 3 2 1 0",
    "open listed 0 2 1 0 1", "open listed 257 2 1 0 1", "open listed 3 2 1 0 10", "open listed 3 2 1 0 102", "open listed 3 2 1 0 101 0-0",
    "open listed 3 2 1 0 101 1-0", "open listed 3 2 1 0 101 0-3", "open listed 3 2 1 0 101 1-2 0-1", "open listed 3 2 1 0 101 0-1 0-1",
    "open listed 3 2 1 0 101 0-65536", "open listed 3 2 1 0 101 0-1-2", "open listed 3 2 1 0 101 -1", "open listed 3 2 1 0 101 1-",
    "open listed 3 2 1 0 101 0--1", "open listed 3 2 1 0", "open listed 3 17 1 0 101", "open listed 3 2 1 4 101 0-1",
    "open listed 8 2 1 0 11111111 0-1 0-2 0-3 0-4 0-5 0-6 0-7", "open listed 8 0 1 0 11111111 0-7 1-7 2-7 3-7 4-7 5-7 6-7",
    "open listed 8 2 1 0 11111111 0-1 0-2 0-3 0-4 0-5 0-6 0-7 1-9", "open listed 65537 2 1 0 1", "open listed 2 2 1 0 1\xff", "open square",
    "open listed 3 17 1 9 102 0-1", "open listed 3 17 1 9 101 1-1", "open", "look", "play", "tick", "enter 1", "clear", "nothing",
]


def listed_ground(rng):
    """Links and borders at random, no more than six links to a column; at times a tree, or a ring, or a long one."""
    columns = rng.choice([1, 2, 5, 8, 12, 20, 40])
    pairs = [(c, d) for c in range(columns) for d in range(c + 1, columns)]
    rng.shuffle(pairs)
    share = rng.choice([0, 0, 0.1, 0.5])
    links, border = [[] for _ in range(columns)], [rng.random() < share for _ in range(columns)]
    border[rng.randrange(columns)] = True
    tree = rng.random()
    if tree < 0.6:
        near = 2 if tree < 0.3 else columns
        pairs = [(max(0, c - 1 - rng.randrange(near)), c) for c in range(1, columns)] + pairs[:1]
    for c, d in pairs[:rng.randint(columns, 3 * columns)]:
        if len(links[c]) < 6 and len(links[d]) < 6 and d not in links[c]:
            links[c].append(d)
            links[d].append(c)
    return [sorted(l) for l in links], border


def ring_or_stair(rng, crew):
    """Begins with a ring or a stair where the crew's site has room for it; whether it has."""
    x, y, levels, most, _ = crew.size
    if (x, y) == (5, 5) and most >= 5 and levels > 1:
        plans.ring(rng, crew)
        return True
    if (x, y) == (3, 5) and most >= 2 and levels > 2:
        plans.stair(rng, crew)
        return True
    return False


class Caller(plans.Crew):
    """A crew that says the calls for what it does."""
    silent = False

    def begin(self, robot, kind, to):
        if kind == "enter":
            self.say(f"enter {robot.column}" + (" block" if robot.carry else ""))
        elif kind != "wait":
            self.say(f"leave {robot.column}" if kind == "leave" else f"{kind} {robot.column} {to}")
        super().begin(robot, kind, to)

    def tick(self):
        if not self.silent:
            self.say("tick")
        super().tick()


class Script:
    """A script in the making, and a crew that does what is granted, as far as it can be told."""

    def __init__(self, rng):
        self.rng, self.rows = rng, []
        z, a, s = rng.choice([1, 2, 3, 3, 4, 16]), rng.choice([1, 2, 3, 5, 8, 64]), rng.randrange(4)
        if rng.random() < 0.5:
            x, y = rng.choice([(3, 3), (3, 5), (3, 5), (4, 4), (5, 5), (5, 5), (1, 6), (2, 2), (3, 16), (16, 3)])
            self.crew = Caller(x, y, z, a, s)
            self.opens = f"open square {x} {y} {z} {a} {s}"
        else:
            links, border = listed_ground(rng)
            self.crew = Caller(1, 1, z, a, s, listed=(links, border))
            marks = "".join("01"[b] for b in border)
            pairs = "".join(f" {c}-{d}" for c, l in enumerate(links) for d in l if c < d)
            self.opens = f"open listed {len(border)} {z} {a} {s} {marks}{pairs}"
        self.crew.say = self.say
        self.minds_ways = rng.random() < 0.6

    def say(self, text):
        self.rows.append(text.encode("latin-1") + b"\n")

    def ticks(self, times):
        self.say("tick" if times == 1 else f"tick {times}")
        self.crew.silent = True
        for _ in range(times):
            self.crew.tick()
        self.crew.silent = False

    def tick(self):
        self.ticks(self.rng.choice([1, 1, 1, 2, 3, 3]))

    def enter(self, column):
        block, crew = self.rng.random() < 0.7, self.crew
        may = column < len(crew.border) and crew.border[column] and column not in crew.held() and len(crew.robots) < crew.most
        if may:
            crew.enter(column, block)
        else:
            self.say(f"enter {column}" + (" block" if block else ""))

    def work(self):
        """A call of an idle robot that would be granted, but for ways home at times."""
        idle = self.crew.idle()
        if not idle:
            return self.tick()
        robot = self.rng.choice(idle)
        found = [o for o in self.crew.options(robot, self.minds_ways) if o[0] != "wait"]
        lust = {"move": 2, "lay": 6, "lift": 2, "leave": 0.3}
        if not found:
            return self.tick()
        kind, to = self.rng.choices(found, [lust[k] for k, _ in found])[0]
        self.call(kind, robot.column, to)

    def call(self, kind, column, to):
        to = None if kind == "leave" else to
        robots = [r for r in self.crew.idle() if r.column == column]
        if robots and (kind, to) in self.crew.options(robots[0], True):
            self.crew.begin(robots[0], kind, to)
        else:
            self.say(f"leave {column}" if kind == "leave" else f"{kind} {column} {to}")

    def site(self):
        """Something on a fresh site: a robot on a tower or in a ring, or robots that wander about."""
        rng, crew = self.rng, self.crew
        if ring_or_stair(rng, crew):
            return
        if rng.random() < 0.5:
            self.deep()
        else:
            lust = {"wait": 1, "leave": 0.1, "move": 9, "lay": rng.choice([1, 9, 30]), "lift": 2, "enter": 0.5, "block": 0.8}
            plans.wander(rng, crew, rng.randint(5, 30), self.minds_ways, lust, ends=False)

    def wrong(self):
        """A call of any kind on any columns, which may be granted none the less."""
        rng, columns = self.rng, len(self.crew.border)
        column = rng.choice([r.column for r in self.crew.robots] + [rng.randrange(columns + 2)])
        near = self.crew.links[column] if column < columns else []
        to = rng.choice(near + [rng.randrange(columns + 2), column])
        kind = rng.choice(["enter", "move", "lay", "lift", "leave", "recall"])
        if kind == "enter":
            self.enter(column)
        elif kind == "recall":
            self.say("recall")
        else:
            self.call(kind, column, to)

    def deep(self):
        """Robots walk inwards one after another; then one lays, or tries to, at each turn of its walk."""
        rng, crew = self.rng, self.crew
        border = [c for c, is_border in enumerate(crew.border) if is_border]
        for turn in range(rng.randint(1, 4)):
            free = [c for c in border if c not in crew.held()]
            if not free or len(crew.robots) >= crew.most:
                return
            crew.enter(rng.choice(free), turn > 0)
            robot = crew.robots[-1]
            for _ in range(rng.randint(0, 6)):
                while robot.until is not None:
                    crew.tick()
                options = crew.options(robot, False)
                lays = [to for kind, to in options if kind == "lay"]
                moves = [to for kind, to in options if kind == "move" and not crew.border[to]]
                if lays and rng.random() < 0.5:
                    self.call("lay", robot.column, rng.choice(lays))
                elif moves:
                    crew.begin(robot, "move", rng.choice(moves))
            while robot.until is not None:
                crew.tick()

    def clear(self):
        self.say("clear")
        self.crew.silent = True
        while any(r.until is not None for r in self.crew.robots):
            self.crew.tick()
        self.crew.silent, self.crew.robots = False, []

    def play(self):
        """A sheet for a fresh site, accepted or broken, at times with more robots than there may be."""
        rng, (x, y, levels, most, durations) = self.rng, self.crew.size
        most += rng.choice([0, 0, 0, 0, 1, 3])
        crew = plans.Crew(x, y, levels, most, durations, listed=(self.crew.links, self.crew.border))
        lust = {"wait": 0.5, "leave": 0.4, "move": 2, "lay": rng.choice([0, 1, 9]), "lift": 3, "enter": 0.5, "block": 0.6}
        ring_or_stair(rng, crew)
        plans.wander(rng, crew, rng.randint(0, 12), rng.random() < 0.3, lust)
        later = rng.choice([0, 0, 7, 1000])
        crew.lines = [(start + later, end + later, *rest) for start, end, *rest in crew.lines]
        sheet = crew.sheet(notes=[rng.randrange(9)] if rng.random() < 0.2 else [])
        if rng.random() < 0.4:
            whole = plans.broken(rng, plans.job() + sheet)
            sheet = whole[plans.LINE:]
        elif most == self.crew.most and not self.crew.robots and not any(self.crew.heights):
            self.crew.heights = list(crew.heights)
        self.say(rng.choice(["play"] * 9 + [" play ", "play now"]))
        self.rows.append(sheet)


def random_script(rng):
    script = Script(rng)
    kind = rng.random()
    if kind < 0.03:
        return bytes(rng.choice(b"ptlo \n#0123456789ENDplayopen") for _ in range(rng.randint(0, 300)))
    for _ in range(rng.choice([0, 0, 1, 3])):
        script.say(rng.choice(OPENS))
    if rng.random() < 0.97:
        script.say(script.opens)
    plays_first = rng.random() < 0.4
    for _ in range(rng.randint(1, 3) if plays_first else 0):
        script.play()
        if rng.random() < 0.3:
            script.clear()
    if rng.random() < 0.5:
        script.site()
    deeds = [script.work, script.tick, lambda: script.say("look"), script.wrong, script.clear, script.play,
             lambda: script.say("recall"), lambda: script.say(rng.choice(MALFORMED)), lambda: script.enter(rng.randrange(len(script.crew.border)))]
    weights = [12, 7, rng.choice([0.5, 3]), rng.choice([0, 1, 3]), 0.4, 0.1, 0.7, rng.choice([0, 0.5, 2]), rng.choice([1, 3])]
    for _ in range(rng.randint(1, 150)):
        rng.choices(deeds, weights)[0]()
        if rng.random() < 0.15:
            script.enter(rng.choice([c for c, border in enumerate(script.crew.border) if border]))
    if rng.random() < 0.03:
        for _ in range(rng.randint(14, 20)):
            script.rows += [b"play\n", rng.choice([plans.end(0), plans.note() + plans.end(0), b"END \n", b"END\n" + plans.end(1)])]
        script.rows += [rng.choice([b"play\n", b"play x\n"]), plans.end(0), b"look\n"]
    if rng.random() < 0.01:
        script.rows += [b"play\n", plans.note() * rng.choice([1498, 1499, 1500, 1501]), plans.end(0), b"look\n"]
    if rng.random() < 0.8:
        script.clear()
        script.say("look")
    data = b"".join(script.rows)
    if rng.random() < 0.01:
        end = rng.choice([65_535, 65_536, 65_537, 70_000, None])
        data = (data * (65_536 // len(data) + 1))[:end] if end else data + b"\n" * (rng.choice([8_191, 8_192, 8_193]) - data.count(b"\n"))
    return data[:-1] if rng.random() < 0.05 else data


def broken(rng, data):
    """A copy with a few lines or bytes changed."""
    rows = data.splitlines(keepends=True)
    for _ in range(rng.choice([1, 2, 5])):
        if not rows:
            break
        i, j, kind = rng.randrange(len(rows)), rng.randrange(len(rows)), rng.randrange(5)
        if plans.rearrange(rows, i, j, kind):
            continue
        if kind == 3:
            rows.insert(i, rng.choice(MALFORMED + OPENS).encode("latin-1") + b"\n")
        else:
            place = rng.randrange(len(rows[i]))
            rows[i] = rows[i][:place] + bytes([rng.choice(b" 0123456789-xE#\n\t\r\x0b\x0c\xff")]) + rows[i][place + 1:]
    return b"".join(rows)
