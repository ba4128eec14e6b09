"""Jobs for verdict: their rows, plans made by a crew of robots on a square ground, and broken copies of jobs.

Shared by make-cases, compare and bench. A crew knows the rules well enough to make plans that are accepted; what a job's
answer must be is never taken from here.
"""
from collections import deque

# entry, leave, loaded move, empty move, pick up, deliver
SETS = [(1, 1, 1, 1, 1, 1), (2, 1, 1, 1, 2, 2), (3, 2, 3, 1, 3, 3), (3, 3, 3, 2, 2, 3)]
# of an ACT line: where each field begins in the line, and its width
ACT_FIELDS = [(4, 6), (10, 6), (16, 4), (20, 3), (23, 2), (25, 2), (27, 4), (31, 3)]
LINE = 35


def row(text):
    return (text.ljust(34) + "\n").encode("latin-1")


def job(x=3, y=3, z=2, a=1, s=0):
    return row("JOB " + "".join(f"{n:>6}" for n in (x, y, z, a, s)))


def goal(column, height):
    return row(f"GOAL{column:>6}{height:>6}")


def act(start, end, fc, fh, carry, letter, tc, th):
    return row(f"ACT {start:>6}{end:>6}{fc:>4}{fh:>3}{carry:>2}{letter:>2}{tc:>4}{th:>3}")


def note(text=""):
    return row("NOTE" + text)


def end(count):
    return row(f"END {count:>6}")


def links_of(x, y):
    """For each column of a square ground the columns that it is linked to."""
    def near(c):
        u, v = divmod(c, y)
        return [y * (u + i) + v + j for i, j in ((-1, 0), (0, -1), (0, 1), (1, 0)) if 0 <= u + i < x and 0 <= v + j < y]
    return [near(c) for c in range(x * y)]


class Robot:
    def __init__(self, column, carry):
        self.column, self.carry = column, carry
        self.until, self.kind, self.to = None, None, None

    def holds(self):
        return {self.column} if self.to is None else {self.column, self.to}


class Crew:
    """Robots at work: what each may start, and the lines of what they started."""

    def __init__(self, x, y, z, a, s, listed=None):
        """On a square ground, or on the links and the border that are given."""
        self.size = (x, y, z, a, s)
        square = [min(c // y, x - 1 - c // y, c % y, y - 1 - c % y) == 0 for c in range(x * y)]
        self.links, self.border = listed or (links_of(x, y), square)
        self.levels, self.most, self.durations = z, a, SETS[s]
        self.heights = [0] * len(self.border)
        self.robots, self.lines, self.time = [], [], 0

    def held(self):
        return set().union(*(r.holds() for r in self.robots))

    def idle(self):
        return [r for r in self.robots if r.until is None]

    def at(self, column):
        """The robot that stands at a column."""
        return next(r for r in self.idle() if r.column == column)

    def home(self, column, more=()):
        """The next column on a shortest way home, the column itself on a border, none where there is no way."""
        changing = {r.to for r in self.robots if r.kind in ("lay", "lift")} | set(more)
        before, queue = {column: column}, deque([column])
        while queue:
            c = queue.popleft()
            if self.border[c]:
                while before[c] != column:
                    c = before[c]
                return c
            for d in self.links[c]:
                if d not in before and d not in changing and abs(self.heights[c] - self.heights[d]) <= 1:
                    before[d] = c
                    queue.append(d)
        return None

    def options(self, robot, minds_ways):
        c, h, held = robot.column, self.heights, self.held()
        found = [("wait", c)] + ([("leave", None)] if self.border[c] else [])
        for d in self.links[c]:
            if d in held:
                continue
            if abs(h[c] - h[d]) <= 1:
                found.append(("move", d))
            if self.border[d]:
                continue
            fits = h[c] == h[d] < self.levels - 1 if robot.carry else h[d] == h[c] + 1
            if fits and not (minds_ways and any(self.home(r.column, [d]) is None for r in self.robots)):
                found.append(("lay" if robot.carry else "lift", d))
        return found

    def begin(self, robot, kind, to):
        entry, leave, loaded, empty, lift, lay = self.durations
        c, h, t, carry = robot.column, self.heights, self.time, int(robot.carry)
        takes = {"enter": entry, "leave": leave, "move": loaded if carry else empty, "lay": lay, "lift": lift, "wait": 1}[kind]
        written = {
            "enter": lambda: ("S", "S", carry, "M", c, h[c]),
            "leave": lambda: (c, h[c], carry, "M", "E", "E"),
            "move": lambda: (c, h[c], carry, "M", to, h[to]),
            "wait": lambda: (c, h[c], carry, "M", c, h[c]),
            "lay": lambda: (c, h[c], carry, "D", to, h[to]),
            "lift": lambda: (c, h[c], carry, "P", to, h[to] - 1),
        }[kind]()
        self.lines.append((t, t + takes) + written)
        robot.until, robot.kind, robot.to = t + takes, kind, to

    def enter(self, column, carry):
        robot = Robot(column, carry)
        self.robots.append(robot)
        self.begin(robot, "enter", None)

    def tick(self):
        self.time += 1
        for robot in [r for r in self.robots if r.until == self.time]:
            kind, to = robot.kind, robot.to
            robot.until, robot.kind, robot.to = None, None, None
            if kind == "leave":
                self.robots.remove(robot)
            elif kind == "move":
                robot.column = to
            elif kind in ("lay", "lift"):
                robot.carry = kind == "lift"
                self.heights[to] += 1 if kind == "lay" else -1

    def batch(self, *works):
        """Starts these works together; the robots that have none, or are done, wait until all have ended."""
        for kind, *columns in works:
            if kind == "enter":
                self.enter(columns[0], columns[1:] == ["block"])
            else:
                self.begin(self.at(columns[0]), kind, columns[1] if columns[1:] else None)
        busy = [r for r in self.robots if r.until is not None]
        while any(r in self.robots and r.until is not None for r in busy):
            for robot in self.idle():
                self.begin(robot, "wait", robot.column)
                if robot in busy:
                    busy.remove(robot)
            self.tick()

    def sheet(self, goals=None, notes=()):
        """The sheet of what was started; its targets are the heights as they stand, where none are given."""
        if goals is None:
            goals = [(c, h) for c, h in enumerate(self.heights) if h]
        rows = [goal(*g) for g in goals] + [act(*line) for line in self.lines]
        for place in notes:
            rows.insert(place % (len(rows) + 1), note(" by the way"))
        return b"".join(rows) + end(len(self.lines))

    def job(self, **more):
        return job(*self.size) + self.sheet(**more)


def wander(rng, crew, steps, minds_ways, lust, ends=True):
    """Robots enter and work at random for some steps, and then mostly go home, where it `ends`. `lust` weighs their works."""
    begun = crew.time
    while crew.time < begun + steps or (ends and crew.robots and crew.time < begun + 2 * steps + 60):
        homewards = crew.time >= begun + steps
        idle = crew.idle()
        rng.shuffle(idle)
        for robot in idle:
            options = crew.options(robot, minds_ways)
            step = crew.home(robot.column)
            wish = ("leave", None) if crew.border[robot.column] else ("move", step)
            if homewards and wish in options and rng.random() < 0.8:
                crew.begin(robot, *wish)
            else:
                crew.begin(robot, *rng.choices(options, [lust[kind] for kind, _ in options])[0])
        # on the way home robots come in only to build steps for those that have no way
        helps = homewards and any(crew.home(r.column) is None for r in crew.robots)
        free = [c for c in range(len(crew.border)) if crew.border[c] and c not in crew.held()]
        while free and (helps or not homewards) and len(crew.robots) < crew.most and rng.random() < lust["enter"]:
            crew.enter(free.pop(rng.randrange(len(free))), helps or rng.random() < lust["block"])
        crew.tick()


def stair(rng, crew):
    """A tower of two and a step beside it: one robot is left upon the tower, another stands at the foot of the step."""
    inside = [c for c, border in enumerate(crew.border) if not border]
    places = [
        (foot, far, step, tower)
        for step in inside for foot in crew.links[step] if crew.border[foot]
        for tower in crew.links[step] if not crew.border[tower]
        for far in crew.links[tower] if crew.border[far]
    ]
    foot, far, step, tower = rng.choice(places)
    crew.batch(("enter", foot, "block"))
    crew.batch(("lay", foot, step))
    crew.batch(("leave", foot), ("enter", far, "block"))
    crew.batch(("lay", far, tower))
    crew.batch(("leave", far), ("enter", foot, "block"))
    crew.batch(("move", foot, step))
    crew.batch(("lay", step, tower))
    crew.batch(("move", step, tower))
    crew.batch(("enter", foot))


def ring(rng, crew):
    """A robot in the middle of a site of five by five, and one with a block on each side, that lay at about one time."""
    crew.batch(("enter", 2), ("enter", 10, "block"))
    crew.batch(("move", 2, 7))
    crew.batch(("move", 7, 12))
    crew.batch(("enter", 2, "block"), ("enter", 14, "block"), ("enter", 22, "block"))
    sides = [(2, 7), (10, 11), (14, 13), (22, 17)]
    rng.shuffle(sides)
    for side in sides[:rng.choice([3, 4, 4, 4])]:
        while rng.random() < 0.3:
            for robot in crew.idle():
                crew.begin(robot, "wait", robot.column)
            crew.tick()
        crew.begin(crew.at(side[0]), "lay", side[1])


def random_crew(rng, large=False):
    """A crew that has wandered on a random site, from a stair or a ring at times."""
    kind = rng.choice(["plain", "plain", "stair", "ring"])
    x, y = rng.choice([(3, 3), (3, 4), (3, 5), (4, 3), (4, 4), (5, 5), (5, 4), (2, 6), (1, 5), (6, 6)])
    z, a, steps = rng.choice([1, 2, 2, 3, 3, 4, 16]), rng.choice([1, 2, 2, 3, 4, 6]), rng.randint(1, 40)
    if large:
        x, y, z, a, steps = rng.randint(8, 16), rng.randint(8, 16), rng.randint(1, 16), rng.randint(8, 64), rng.randint(5, 15)
    elif kind == "stair":
        x, y = rng.choice([(3, 5), (5, 3), (4, 4), (5, 5), (3, 4), (4, 6)])
        z, a, steps = rng.choice([3, 3, 4, 16]), rng.randint(2, 4), rng.randint(1, 12)
    elif kind == "ring":
        x, y, z, a, steps = 5, 5, rng.choice([2, 2, 3, 16]), rng.randint(5, 8), rng.randint(0, 12)
    lust = {"wait": 0.5, "leave": 0.4, "move": 2, "lay": rng.choice([1, 5, 20]), "lift": rng.choice([0.3, 2, 8]),
            "enter": rng.choice([0.2, 0.5, 0.8]), "block": rng.choice([0.3, 0.6, 0.9])}
    crew = Crew(x, y, z, a, rng.randrange(4))
    if kind == "stair" and not large:
        stair(rng, crew)
    elif kind == "ring" and not large:
        ring(rng, crew)
    wander(rng, crew, steps, rng.random() < 0.3, lust)
    later = rng.choice([0, 0, 0, 0, rng.randint(1, 9), rng.randint(10, 3000), 999_000])
    crew.lines = [(start + later, end + later, *rest) for start, end, *rest in crew.lines]
    return crew


# Breaking jobs.


def rows_of(data):
    return [data[i:i + LINE] for i in range(0, len(data), LINE)]


def with_field(line, place, width, text):
    return line[:place] + text.rjust(width)[-width:].encode("latin-1") + line[place + width:]


def recount(rows):
    """The END line's count made right again."""
    return [end(sum(r[:4] == b"ACT " for r in rows)) if r[:4] == b"END " else r for r in rows]


def break_byte(rng, rows):
    i = rng.randrange(len(rows))
    if rows[i]:
        place = rng.randrange(len(rows[i]))
        byte = rng.choice([32, 48, 49, 50, 57, 69, 83, 77, 80, 68, 10, rng.randrange(256)])
        rows[i] = rows[i][:place] + bytes([byte]) + rows[i][place + 1:]


def rearrange(rows, i, j, kind):
    """Drops, swaps or doubles a row, for the kinds 0 to 2, and says whether it did."""
    if kind == 0:
        del rows[i]
    elif kind == 1:
        rows[i], rows[j] = rows[j], rows[i]
    elif kind == 2:
        rows.insert(i, rows[j])
    return kind < 3


def break_order(rng, rows):
    i, j = rng.randrange(1, len(rows)), rng.randrange(1, len(rows))
    kind = rng.randrange(5)
    if rearrange(rows, i, j, kind):
        return
    if kind == 3:
        rows.insert(j, rows.pop(i))
    else:
        rows.insert(i, note("".join(chr(rng.randint(32, 126)) for _ in range(30))))


def break_act(rng, rows):
    """One field of an ACT line by one, or another value that it can have, or its span by some timesteps."""
    acts = [i for i, r in enumerate(rows) if r[:4] == b"ACT " and len(r) == LINE]
    if not acts:
        return
    i = rng.choice(acts)
    line = rows[i]
    kind = rng.randrange(8)
    if kind == 0:
        delta = rng.choice([-2, -1, 1, 2, 5])
        later = rng.random() < 0.5
        for j in [j for j in acts if j == i or (later and j > i)]:
            rows[j] = shifted(rows[j], delta)
        return
    place, width = ACT_FIELDS[kind]
    if rng.random() < 0.3:
        place, width = ACT_FIELDS[rng.randrange(8)]
    text = line[place:place + width].decode("latin-1").strip()
    if width == 2:
        text = rng.choice("MPD" if place == 25 else "01")
    elif text.isdigit() and rng.random() < 0.8:
        text = str(max(0, int(text) + rng.choice([-1, 1, 1, rng.randint(-6, 6)])))
    elif rng.random() < 0.7:
        text = str(rng.choice([0, 1, 2, rng.randrange(30)]))
    else:
        text = rng.choice("SE")
    rows[i] = with_field(line, place, width, text)


def shifted(line, delta):
    for place, width in ACT_FIELDS[:2]:
        text = line[place:place + width].decode("latin-1").strip()
        if text.isdigit():
            line = with_field(line, place, width, str(max(0, int(text) + delta)))
    return line


def break_goal(rng, rows):
    goals = [i for i, r in enumerate(rows) if r[:4] == b"GOAL" and len(r) == LINE]
    if not goals or rng.random() < 0.2:
        rows.insert(rng.randint(1, len(rows)), goal(rng.randrange(40), rng.randrange(4)))
        return
    i = rng.choice(goals)
    place = rng.choice([4, 10])
    text = rows[i][place:place + 6].decode("latin-1").strip()
    rows[i] = with_field(rows[i], place, 6, str(max(0, int(text if text.isdigit() else 0) + rng.choice([-1, 1, rng.randint(-9, 300)]))))


def break_job(rng, rows):
    place = rng.randrange(5)
    if len(rows[0]) < LINE or not rows[0][4:34].replace(b" ", b"").isdigit():
        return
    numbers = [int(n) for n in rows[0][4:34].split()]
    if len(numbers) != 5:
        return
    numbers[place] = rng.choice([max(0, numbers[place] - 1), numbers[place] + 1, rng.choice([0, 1, 2, 3, 4, 16, 17, 64, 65])])
    rows[0] = job(*numbers)


def break_plan(rng, rows):
    """Less obvious faults: the tail cut off, one robot less or more, a robot less allowed, a step to where another is."""
    acts = [i for i, r in enumerate(rows) if r[:4] == b"ACT " and len(r) == LINE]
    kind = rng.randrange(4)
    if not acts:
        return
    if kind == 0:
        for i in acts[::-1][:rng.choice([1, 1, 2, 3])]:
            del rows[i]
    elif kind == 1:
        i = rng.choice(acts)
        start = rows[i][4:10].decode("latin-1").strip()
        if start.isdigit():
            for later in (rng.choice([1, 2, 3]), 0):
                column = rng.randrange(30)
                line = (column, 0, 0, "M", "E", "E") if later else ("S", "S", 0, "M", column, 0)
                rows.insert(i, act(int(start) + later, int(start) + later + rng.choice([1, 1, 2, 3]), *line))
    elif kind == 2 and len(rows[0]) == LINE:
        rows[0] = rows[0][:22] + b"%6d" % rng.choice([1, 1, 2, 3]) + rows[0][28:]
    elif kind == 3:
        moves = [i for i in acts if rows[i][26:27] == b"M" and rows[i][30:31] != b"E"]
        if moves:
            i, j = rng.choice(moves), rng.choice(acts)
            rows[i] = rows[i][:27] + rows[j][27:] if rng.random() < 0.5 else rows[i][:27] + rows[j][16:23] + b"\n"


def break_end(rng, rows):
    kind = rng.randrange(4)
    if kind == 0:
        del rows[-1]
    elif kind == 1:
        rows.insert(rng.randint(1, len(rows)), end(rng.randrange(4)))
    elif kind == 2:
        rows[-1] = end(rng.randrange(20))
    else:
        rows[-1] = rows[-1][:rng.randrange(LINE)]


def broken(rng, data):
    """A copy of a job with one to three things changed; most often its END line's count is made right again."""
    rows = rows_of(data)
    for _ in range(rng.choice([1, 1, 1, 2, 3])):
        breaks = [break_byte, break_order, break_act, break_plan, break_goal, break_job, break_end]
        if len(rows) > 1:
            rng.choices(breaks, [1, 3, 8, 8, 1.5, 1, 0.5])[0](rng, rows)
    if rng.random() < 0.8:
        rows = recount(rows)
    return b"".join(rows)
