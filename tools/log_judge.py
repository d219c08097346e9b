"""Reads logs and answers rows by docs/FORMATS.md alone, and says what is wrong with what a run left. tools/torture uses it."""
import collections
import copy
import errno
import struct
import sys

FIRST = "row,place,answer,detail\n"
VERSION, OLDEST, WIDTHS = 2, 1, (1, 2)


def header(width):
    """The first 16 bytes of a log whose splits make two children, or four."""
    return b"MDLOCLOG" + bytes((VERSION, width)) + bytes(6)


HEADER = header(1)
PUT, MOVE, DROP, BEGIN, INSTALL, ABANDON = range(1, 7)


class Damaged(Exception):
    """A file that is refused, by the line that says so."""


def spelled(version, cell):
    """A record of a version without its commit byte: its kind, its number, and what its kind has besides. That is point and moment of a put
    or a move, bits and length of a begun leaf's name. A record that no bytes spell is refused by its cause."""
    kind, number, place, moment, length = cell[0], *struct.unpack(">QQQ", cell[1:25]), cell[17]
    if not PUT <= kind <= ABANDON:
        raise Damaged("kind")
    placed = 17 if version == OLDEST else 25
    used = {PUT: placed, MOVE: placed, BEGIN: 18}.get(kind, 9)
    if any(cell[used:]):
        raise Damaged("reserved")
    if kind == BEGIN and (length > 64 or place << length & (1 << 64) - 1):
        raise Damaged("name")
    return kind, number, place, length if kind == BEGIN else moment if kind <= MOVE else 0


def point(place):
    return place >> 32, place & 0xFFFFFFFF


class State:
    """What the records of a log stand for whose splits make two children, or four. Objects are by id: x, y and moment."""

    def __init__(self, width=1):
        self.width = width
        self.points, self.leaves, self.splits, self.begun, self.cells = {}, {(0, 0)}, {}, 0, []

    def add(self, cell):
        """Takes the next record, or refuses it where it can't follow."""
        kind, number, place, more = cell
        name = (place, more)
        possible = {
            PUT: number not in self.points and len(self.points) < 1 << 20,
            MOVE: number in self.points and self.points[number][2] <= more,
            DROP: number in self.points,
            BEGIN: number == self.begun + 1 and name in self.leaves and more + self.width <= 64,
            INSTALL: number in self.splits,
            ABANDON: number in self.splits,
        }
        if not possible[kind]:
            raise Damaged("impossible")
        self.cells.append(cell)
        if kind in (PUT, MOVE):
            self.points[number] = *point(place), more
        elif kind == DROP:
            del self.points[number]
        elif kind == BEGIN:
            self.begun = number
            self.splits = {n: leaf for n, leaf in self.splits.items() if leaf != name}
            self.splits[number] = name
        else:
            bits, length = self.splits.pop(number)
            if kind == INSTALL:
                self.leaves.remove((bits, length))
                low = 64 - length - self.width
                self.leaves |= {(bits | child << low, length + self.width) for child in range(1 << self.width)}

    def counts(self):
        return f"cells {len(self.cells)}\npoints {len(self.points)}\nleaves {len(self.leaves)}\nunfinished {len(self.splits)}\n"

    def listed(self):
        return "id,x,y,moment\n" + "".join(f"{i},{x},{y},{moment}\n" for i, (x, y, moment) in sorted(self.points.items()))


def read_log(data, oldest=VERSION):
    """The state of a file's records. A file that is no log, or one of a version before the oldest that is read, is refused by its line."""
    if len(data) < 17 or data[:8] != HEADER[:8] or data[10:16] != HEADER[10:]:
        raise Damaged("refused not a log\n")
    if not oldest <= data[8] <= VERSION or data[9] not in WIDTHS:
        raise Damaged(f"refused log version {data[8]} width {data[9]}\n")
    state, at = State(data[9]), 16
    while data[at] == 1:
        try:
            if len(data) < at + 33:
                raise Damaged("short")
            state.add(spelled(data[8], data[at + 1:at + 32]))
        except Damaged as cause:
            raise Damaged(f"refused cell {len(state.cells)} {cause}\n")
        at += 32
    return state


def anew(state):
    """The bytes of a log of these objects and leaves in as few records as that takes: a begin and an install for each name that was split, then
    a put for each object."""
    inner = sorted({(bits >> 64 - n << 64 - n, n) for bits, length in state.leaves for n in range(0, length, state.width)})
    cells = [struct.pack(">BBQQB13x", 1, BEGIN, n, *name) + struct.pack(">BBQ22x", 1, INSTALL, n) for n, name in enumerate(inner, 1)]
    cells += [struct.pack(">BBQIIQ6x", 1, PUT, ident, *kept) for ident, kept in sorted(state.points.items())]
    return header(state.width) + b"".join(cells) + b"\0", f"compacted {2 * len(inner) + len(state.points)}\n"


def judge_anew(state, data, is_told):
    """Says what is wrong with a file that the log of this state is written anew into: on the way it has at most 17 bytes, or no records, and all
    of them once that is told. It says nothing where nothing is wrong."""
    if data == anew(state)[0]:
        return ""
    if is_told:
        return "the new log isn't whole"
    return "" if len(data) <= 17 or not read_log(data).cells else "the new log has some records"


def followed(turns, count, held):
    """The lines of `follow` by these turns, of a log of so many records, into one that has so many of them; and how many that has then."""
    known, packets, acks, lines = 0, [], [], ["turn,held,known"]
    for number, (turn, at) in enumerate(turns, 1):
        if turn == "send":
            packets.append(at)
        elif turn == "arrive":
            held += packets[at - 1] == held < count
            acks.append(held)
        elif turn == "ack":
            known = max(known, acks[at - 1])
        lines.append(f"{number},{held},{known}")
    return "\n".join(lines) + "\n", held


def judge_followed(state, data, least, most):
    """Says what is wrong with a file that follows the log of this state and was to have so many of its records, or nothing. It may be small
    where it needs none of them."""
    if least == 0 and len(data) <= 17:
        return ""
    try:
        new = read_log(data)
    except Damaged as line:
        return f"the file that follows is damaged: {line}"
    if not least <= len(new.cells) <= most:
        return f"{len(new.cells)} records follow, and not {least} to {most}"
    is_front = new.width == state.width and new.cells == state.cells[:len(new.cells)]
    return "" if is_front else "other records follow"


def load(path):
    with open(path, "rb") as file:
        return file.read()


def answered(points, row):
    """The answer of one plain list to a row, which changes it, and the record of that change."""
    _, op, ident, x, y, a, b, moment = row
    at = points.get(ident)
    told = "" if at is None else f"{at[0]}:{at[1]}:{at[2]}"
    if op == "put":
        if at is not None:
            return f"present,{told}", None
        points[ident] = (x, y, moment)
        return "done,", (PUT, ident, x << 32 | y, moment)
    if op in ("box", "near"):
        if op == "box":
            found = sorted((i, p) for i, p in points.items() if x <= p[0] <= a and y <= p[1] <= b)
            if len(found) > 2048:
                return f"many,{len(found)}", None
        else:
            found = sorted(points.items(), key=lambda o: ((o[1][0] - x) ** 2 + (o[1][1] - y) ** 2, o[0]))[:a]
        return "found," + ";".join(f"{i}:{p[0]}:{p[1]}" for i, p in found), None
    if at is None:
        return "absent,", None
    if op == "where":
        return f"at,{told}", None
    if op == "drop":
        del points[ident]
        return f"gone,{told}", (DROP, ident, 0, 0)
    if moment < at[2]:
        return f"stale,{told}", None
    points[ident] = (x, y, moment)
    return f"moved,{told}", (MOVE, ident, x << 32 | y, moment)


def judge_changes(before, after, rows, whole):
    """Says what is wrong with a log that a run of these rows was to add to, or nothing. Each session has ids of its own."""
    if after.cells[:len(before.cells)] != before.cells:
        return "records that stood are lost"
    added = changes_behind(before, after)
    points, wanted = dict(before.points), {session: [] for session in range(1, 17)}
    if any(cell[1] // 1000 not in wanted for cell in added):
        return "a record of no session"
    for row in rows:
        change = answered(points, row)[1]
        if change:
            wanted[row[0]].append(change)
    for session in wanted:
        own = [cell for cell in added if cell[1] // 1000 == session]
        if own != wanted[session][:len(own)]:
            return f"session {session}: not the first of its changes"
        if whole and own != wanted[session]:
            return f"session {session}: changes are missing"
    return ""


def judge_output(before, rows, output, added=None):
    """Says what is wrong with the lines of a run, or nothing: in the order of their places they are those of one plain list, and so are the
    changes that it added, where these are given."""
    lines = output.split("\n")
    if lines[0] + "\n" != FIRST or len(lines) != len(rows) + 2 or lines[-1]:
        return "not a line a row"
    calls, last = [], {}
    for number, (row, line) in enumerate(zip(rows, lines[1:]), 1):
        count, place, answer = line.split(",", 2)
        if int(count) != number or int(place) <= last.get(row[0], 0):
            return f"row {number}: out of its session's order"
        last[row[0]] = int(place)
        calls.append((int(place), row, answer, number))
    calls.sort()
    if [place for place, _, _, _ in calls] != list(range(1, len(rows) + 1)):
        return "the places aren't 1, 2, .."
    points, changes = dict(before.points), []
    for _, row, answer, number in calls:
        want, change = answered(points, row)
        changes += [change] if change else []
        if answer != want:
            return f"row {number}: {answer}, and the plain list says {want}"
    return "" if added in (None, changes) else "the records aren't the changes in the order of their places"


def judge_writers(before, after, runs):
    """Says what is wrong with a log that runs at once were to add to, or nothing. Each has rows of sessions that no other has, its status and
    its output: its changes stand together, all of them where a line was written, none where it was refused."""
    wrong = judge_changes(before, after, [row for run in runs for row in run[0]], False)
    owner = {row[0]: number for number, run in enumerate(runs) for row in run[0]}
    state, starts, made, last = copy.deepcopy(before), {}, [[] for _ in runs], None
    for cell in () if wrong else after.cells[len(before.cells):]:
        if cell[0] <= DROP:
            number = owner[cell[1] // 1000]
            if number != last and number in starts:
                return f"run {number}: changes of another one stand between its own"
            starts.setdefault(number, copy.deepcopy(state))
            made[number].append(cell)
            last = number
        state.add(cell)
    for number, (rows, status, output) in enumerate(runs):
        points = dict(before.points)
        wanted = sum(answered(points, row)[1] is not None for row in rows)
        has_line = output.startswith(FIRST)
        if (has_line and len(made[number]) < wanted) or (status == 7 and made[number]):
            wrong = wrong or f"run {number}, status {status}: {len(made[number])} of {wanted} changes"
        if status == 0 and number in starts:
            wrong = wrong or judge_output(starts[number], rows, output, made[number])
    return wrong


def judge_shared(before, after, rows):
    """Says what is wrong with the records of a run whose sessions share ids and put or move to points that no other row has, or nothing."""
    if after.cells[:len(before.cells)] != before.cells:
        return "records that stood are lost"
    numbers = {(PUT if row[1] == "put" else MOVE, row[2], row[3] << 32 | row[4], row[7]): number
               for number, row in enumerate(rows) if row[1] in ("put", "move")}
    drops, last = collections.Counter(row[2] for row in rows if row[1] == "drop"), {}
    for cell in changes_behind(before, after):
        if cell[0] == DROP:
            drops[cell[1]] -= 1
        number = numbers.get(cell)
        if drops[cell[1]] < 0 or (cell[0] != DROP and number is None):
            return f"the record {cell} is of no row"
        if cell[0] != DROP:
            session = rows[number][0]
            if number <= last.get(session, -1):
                return f"session {session}: its records are out of order"
            last[session] = number
    return ""


def changes_behind(before, after):
    """The records of changes that stand in a log behind those of another."""
    return [cell for cell in after.cells[len(before.cells):] if cell[0] <= DROP]


# Runs whose calls fail.

Call = collections.namedtuple("Call", "kind at asked moved error piece")

# How each kind of call is told of in a case.
KINDS = {
    "a": "open", "d": "second handle", "h": "lock beside readers", "x": "lock alone", "l": "length", "p": "place", "r": "read", "w": "write",
    "s": "sync", "c": "cut"}

# The errors of a lock that say that there are none for this file: the run goes on.
UNLOCKED = (errno.EINVAL, errno.ENOSYS, errno.EOPNOTSUPP)


def read_trace(path):
    """The calls of a run on its log, as failing_calls.c traces them, and how many of them stand before the first line of its output."""
    calls, lines = [], None
    with open(path) as trace:
        for text in trace:
            kind, at, asked, moved, error, piece = text.rstrip("\n").split(" ")
            if kind != "o":
                calls.append(Call(kind, int(at), int(asked), int(moved), int(error), bytes.fromhex(piece)))
            elif lines is None:
                lines = len(calls)
    if not calls:
        sys.exit("the program makes no call that is traced")
    return calls, lines


def has_failed(call):
    """Whether a run ends with this call. Syncs and cuts that a signal interrupts are tried again, by std."""
    if call.kind == "w" and call.asked and not call.moved:
        return True
    if call.kind in "hx" and call.error in UNLOCKED:
        return False
    return call.error != 0 and not (call.kind in "sc" and call.error == errno.EINTR)


class Drive:
    """The file of a run, by the model of docs/FORMATS: what stood at the last sync that succeeded, what a read would give now, and what a
    crash may change. And how many records the run placed, by the four calls of an append (docs/ARCHITECTURE)."""

    def __init__(self, data, cells):
        self.stable, self.held, self.written = bytes(data), bytearray(data), {}
        self.least = self.greatest = len(data)
        self.cells, self.syncs, self.is_marked = cells, 0, False
        # Opening has one sync, and one more behind a cut, where bytes stand behind the records.
        self.opening = 1 if len(data) == 32 * cells + 17 else 2

    def placed(self):
        return self.cells + max(0, self.syncs - self.opening) // 2

    def most(self):
        """How many records a crash may leave: one more than are placed, while the commit byte of that one is written and not synced."""
        return self.placed() + (self.syncs > self.opening and (self.syncs - self.opening) % 2 and self.is_marked)

    def take(self, call):
        """Makes a call of a run. What a call was to write or to cut off is free, however it ends."""
        if call.kind == "w":
            end = call.at + call.asked
            self.held[call.at:call.at + call.moved] = call.piece[:call.moved]
            self.written.update(zip(range(call.at, end), call.piece))
            self.greatest, self.is_marked = max(self.greatest, end), True
        elif call.kind == "c":
            self.written.update((place, self.held[place]) for place in range(call.at, len(self.held)))
            self.least = min(self.least, call.at)
            if call.moved:
                del self.held[call.at:]
        elif call.kind == "s" and call.moved:
            self.stable, self.written = bytes(self.held), {}
            self.least = self.greatest = len(self.held)
        if call.kind == "s" and not call.error:
            self.syncs, self.is_marked = self.syncs + 1, False

    def line(self, call):
        """The status and the line of a run that this call ends, before it is taken."""
        if call.kind in "ad" and call.error == errno.ENOMEM:
            return 9, "refused memory\n"
        places = call.kind == "p" and self.syncs == self.opening and call.at <= 16 + 32 * self.cells
        if call.kind in "adhxlrc" or self.syncs < self.opening or places:
            return 7, "refused disk\n"
        return 7, f"refused disk cell {self.placed()}\n"

    def image(self, dice):
        """A file that a crash may leave now: where any byte may stand, the old one, the new one, or another."""
        size = dice.choice((self.least, self.greatest, dice.randint(self.least, self.greatest)))
        data = bytearray(self.stable[:size].ljust(size, b"\0"))
        manner = dice.choice(("old", "new", "noise", "any"))
        for place in range(len(self.stable), size):
            data[place] = dice.choice((0, 1, dice.getrandbits(8)))
        for place, new in self.written.items():
            if place < size:
                how = dice.choice(("old", "new", "noise")) if manner == "any" else manner
                if how != "old":
                    data[place] = new if how == "new" else dice.choice((0, 1, dice.getrandbits(8)))
        return bytes(data)

    def told(self):
        """What the records placed so far stand for, and that of a failed append, if a crash may leave it."""
        data = bytearray(self.held)
        if self.most() > self.placed():
            data[16 + 32 * self.placed()] = 1
        return read_log(bytes(data))


def judge_image(data, least, most, told):
    """Says what is wrong with a file that a crash left, where so many of these records were placed, or nothing."""
    try:
        cells = read_log(data).cells
    except Damaged as line:
        return f"a crash leaves {line}"
    if not least <= len(cells) <= most:
        return f"a crash leaves {len(cells)} records, and {least} to {most} were placed"
    return "" if cells == told.cells[:len(cells)] else "a crash leaves other records than those placed"


def judge_calls(plan, calls, lines):
    """Says what is wrong with the calls that a run made under a plan, or nothing: none stands behind one that failed, or behind a line."""
    counts = collections.Counter()
    planned = {(kind, number): (most, error) for kind, number, most, error in reversed(plan)}
    for place, call in enumerate(calls, 1):
        counts[call.kind] += 1
        most, error = planned.get((call.kind, counts[call.kind]), (1 << 40, 0))
        if call.error != error or (call.kind in "rw" and call.moved > most) or (call.kind == "w" and call.moved != min(most, call.asked)):
            return f"call {place} wasn't made as planned"
        if has_failed(call) and place < len(calls):
            return f"a call behind call {place}, which failed"
    return "" if lines in (None, len(calls)) else "a call behind a line"
