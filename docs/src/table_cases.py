#!/usr/bin/env python3
"""The stored texts of the test program table_cases, and what each must read as.

The answers come from the model below, a plain parser by splitting, written from document 01 and requests 2, 3, 4, 7
and 8 alone; nothing of the proved reader is used. Run it from anywhere:

    python3 docs/src/table_cases.py --write

It then writes crates/table_cases/stdin and stdout. In stdin each text stands after two lines, `length=`
with its number of bytes and `ranked=` with 1 where rank lines are expected and 0 where not. In stdout each text has a
line: the refusal's number and its line, or 0 and 0, then the board, the numbers of each row and the switch after them,
and the ranks. A row's numbers are its nine, the number of its points last, and then each point's delay and allow. The
last line says how many texts there are. `--list` prints each case's name with its answer, and writes nothing.

Of a text that is refused nothing follows the fault, after a 1 a line, but for those where what follows is the point: it
is not read, and the program has room for 65,536 bytes of texts.
"""
import re
import sys
from pathlib import Path

# ---- the model: document 01, "The table and the plan" and "Turned down because of the input"; document 02, requests 2
# to 4, 7 and 8

MOST_TASKS = 16
MOST_POINTS = 8

RANGES = {
    "board": (1, 65_535),
    "tasks": (1, MOST_TASKS),
    "switch": (0, 1_000),
    "task": (1, 65_535),
    "period": (1, 1_000_000),
    "deadline": (1, 1_000_000),
    "worst": (1, 1_000_000),
    "best": (1, 1_000_000),
    "alpha": (1_000, 100_000),
    "beta": (0, 200_000_000_000),
    "hold": (0, 1_000_000),
    "points": (0, MOST_POINTS),
    "delay": (0, 1_000_000),
    "allow": (0, 1_000_000),
    "rank": (1, 65_535),
}
ROW_KEYS = ["task", "period", "deadline", "worst", "best", "alpha", "beta", "hold", "points"]
AT_MOST = {"worst": "period", "best": "worst", "hold": "worst"}  # refusal 4 above it, the worst time with the switch
NUMBER = re.compile(rb"0|[1-9][0-9]{0,11}")


class Refused(Exception):
    """A refusal: its number and its line."""


def read(text, ranked):
    """The board, the switch, the rows and the ranks of a text, or Refused."""
    ended = text.split(b"\n")
    rest = ended.pop()  # what stands after the last line feed
    taken = 0

    def number(key):
        nonlocal taken
        line = taken + 1
        if line > len(ended) or not ended[taken].startswith(key.encode() + b"="):
            raise Refused(1, line)
        digits = ended[taken][len(key) + 1:]
        if not NUMBER.fullmatch(digits):
            raise Refused(2, line)
        low, high = RANGES[key]
        if not low <= int(digits) <= high:
            raise Refused(3, line)
        taken = line
        return int(digits)

    board = number("board")
    tasks = number("tasks")
    switch = number("switch")
    rows = []
    for _ in range(tasks):
        row = {}
        for key in ROW_KEYS:
            value = number(key)
            ticks = value + switch if key == "worst" else value
            if key in AT_MOST and ticks > row[AT_MOST[key]]:
                raise Refused(4, taken)
            if key == "task" and any(value == other["task"] for other in rows):
                raise Refused(5, taken)
            row[key] = value
        row["curve"] = []
        for at in range(row["points"]):
            delay = number("delay")
            if at > 0 and delay <= row["curve"][at - 1][0]:
                raise Refused(11, taken)
            allow = number("allow")
            if at > 0 and allow > row["curve"][at - 1][1]:
                raise Refused(11, taken)
            row["curve"].append((delay, allow))
        rows.append(row)
    ranks = []
    for _ in range(len(rows) if ranked else 0):
        value = number("rank")
        if value in ranks or all(value != row["task"] for row in rows):
            raise Refused(6, taken)
        ranks.append(value)
    if ended[taken:] or rest:
        raise Refused(1, taken + 1)
    return board, switch, rows, ranks


def answer(text, ranked):
    """The line that the program prints for a text."""
    try:
        board, switch, rows, ranks = read(text, ranked)
    except Refused as refused:
        return "{} {}".format(*refused.args)
    numbers = [0, 0, board]
    for row in rows:
        numbers += [row[key] for key in ROW_KEYS]
        numbers += [number for point in row["curve"] for number in point] + [switch]
    return " ".join(map(str, numbers + ranks))


# ---- the cases: (name, ranked, text)

CASES = []


def case(name, text, ranked=False, whole=False):
    """A case; without `whole` its text ends with the line of the fault, and with the one after it where it is a 1."""
    try:
        read(text, ranked)
    except Refused as refused:
        number, line = refused.args
        if not whole:
            text = b"".join(re.findall(rb".*\n|.+", text)[:line + (number == 1)])
    CASES.append((name, ranked, text))


def lined(lines):
    """Lines as text, each with its line feed."""
    return b"".join(line + b"\n" for line in lines)


def table(rows, ranks=(), board=7, tasks=None, switch=0):
    """The lines of a table, its rows as `row_lines` has them."""
    tasks = len(rows) if tasks is None else tasks
    lines = [b"board=%d" % board, b"tasks=%d" % tasks, b"switch=%d" % switch]
    for row in rows:
        lines += row_lines(*row)
    return lines + [b"rank=%d" % rank for rank in ranks]


def row_lines(task, period, worst, best, alpha, beta, hold=0, curve=(), deadline=None):
    """The lines of a row: without a hold it is 0, without points there are none, and without a deadline it is the
    period."""
    numbers = (task, period, period if deadline is None else deadline, worst, best, alpha, beta, hold, len(curve))
    lines = [b"%s=%d" % (key.encode(), number) for key, number in zip(ROW_KEYS, numbers)]
    for point in curve:
        lines += [b"delay=%d" % point[0], b"allow=%d" % point[1]]
    return lines


def changed(lines, k, line):
    """The lines with line k, counted from 1, put in place of the one there."""
    return lines[:k - 1] + [line] + lines[k:]


def inserted(lines, k, line):
    """The lines with one more that becomes line k."""
    return lines[:k - 1] + [line] + lines[k - 1:]


PAPER = [(11, 24, 6, 6, 1000, 8000), (12, 18, 2, 2, 1000, 8000), (13, 200, 19, 17, 3000, 57000)]
ONE = [(5, 9, 8, 7, 1000, 0)]
TWO = [(5, 9, 8, 7, 1000, 0), (6, 90, 80, 70, 2000, 100)]
FOUR = [(1, 10, 5, 3, 1000, 0), (2, 20, 9, 9, 1500, 10), (3, 30, 30, 1, 2000, 20), (4, 40, 8, 6, 2500, 30)]
FULL = [(1 + i, 60 + i, 40 + i, 20 + i, 1000 + i, 10 * i) for i in range(MOST_TASKS)]
ORDER = [1 + 7 * (i + 1) % MOST_TASKS for i in range(MOST_TASKS)]

# document 01's own: its table, and the cases about text of "Figures to hold against it"
case("the table of document 01", lined(table(PAPER)))
case("its table for the reviewer, as the plan ranks it", lined(table(PAPER, [12, 11, 13])), True)
case("empty input", b"")
case("board=07 with a line feed", b"board=07\n")
case("tasks=17 after a good first line", b"board=7\ntasks=17\n")
case("worst = period", lined(table([(5, 9, 9, 7, 1000, 0)])))
case("worst = period + 1", lined(table([(5, 9, 10, 7, 1000, 0)])))

# whole tables
case("one row", lined(table(ONE)))
case("one row and its rank", lined(table(ONE, [5])), True)

# every line of a table of one row with a curve and its rank: refused on each line where that can happen; and some of
# these on the lines of a second row and on its rank
whole = table([ONE[0] + (0, [(5, 4), (6, 3)])], [5])
for k, line in enumerate(whole, 1):
    key, value = line.split(b"=")
    low, high = RANGES[key.decode()]
    case(f"line {k} is missing", lined(whole[:k - 1]), True)
    case(f"line {k} has no line feed", lined(whole[:k - 1]) + line, True)
    case(f"line {k} begins with another key", lined(changed(whole, k, line.upper())), True)
    case(f"line {k} has a leading zero", lined(changed(whole, k, key + b"=0" + value)), True)
    case(f"line {k} is above its range", lined(changed(whole, k, b"%s=%d" % (key, high + 1))), True)
    if low:
        case(f"line {k} is below its range", lined(changed(whole, k, b"%s=%d" % (key, low - 1))), True)
whole = table(TWO, [6, 5])
for k, line in enumerate(whole[12:], 13):
    key, value = line.split(b"=")
    case(f"line {k} of two rows is left out", lined(whole[:k - 1] + whole[k:]), True)
    if k in (13, 15, 21, 23):
        case(f"line {k} of two rows has an empty number", lined(changed(whole, k, key + b"=")), True)

# every boundary of every range on its inner side, and next to it on its outer side
for board in (1, 65_535, 65_536):
    case(f"board {board}", lined(table(ONE, board=board)))
for tasks in (0, 2, 12, 13, MOST_TASKS):
    case(f"tasks {tasks} where one row stands", lined(table(ONE, tasks=tasks)))
for task in (0, 1, 65_535, 65_536):
    case(f"task {task}", lined(table([(task, 9, 8, 7, 1000, 0)])))
    if 1 <= task <= 65_535:
        case(f"task and rank {task}", lined(table([(task, 9, 8, 7, 1000, 0)], [task])), True)
    case(f"rank {task} where the task is 5", lined(table(ONE, [task])), True)
for ticks in (0, 1, 1_000_000, 1_000_001):
    case(f"period, worst and best {ticks}", lined(table([(5, ticks, ticks, ticks, 1000, 0)])))
for ticks in (0, 1, 1_000_001):
    case(f"worst {ticks} below the highest period", lined(table([(5, 1_000_000, ticks, 1, 1000, 0)])))
for ticks in (0, 1, 1_000_001):
    case(f"best {ticks} below the highest worst", lined(table([(5, 1_000_000, 1_000_000, ticks, 1000, 0)])))
for alpha in (999, 100_000, 100_001):
    case(f"alpha {alpha}", lined(table([(5, 9, 8, 7, alpha, 0)])))
for beta in (1, 199_999_999_999, 200_000_000_000, 200_000_000_001):
    case(f"beta {beta}", lined(table([(5, 9, 8, 7, 1000, beta)])))

# one number beside another
case("best = worst = period", lined(table([(5, 9, 9, 9, 1000, 0)])))
case("best = worst + 1, within the period", lined(table([(5, 9, 7, 8, 1000, 0)])))
case("worst above its range is 3, not 4", lined(table([(5, 9, 1_000_001, 7, 1000, 0)])))
case("best above its range is 3, not 4", lined(table([(5, 9, 8, 1_000_001, 1000, 0)])))
case("worst below its range is 3", lined(table([(5, 9, 0, 7, 1000, 0)])))
for i in (0, 1, 3):
    task, period, worst, best, alpha, beta = FOUR[i]
    slow = (task, period, worst, worst + 1, alpha, beta)
    case(f"best > worst in row {i + 1}", lined(table(FOUR[:i] + [slow], tasks=4)))
case("worst above another row's period", lined(table(ONE + [(6, 90, 80, 70, 1000, 0)])))

# tasks and ranks
for i, j in ((1, 0), (3, 0), (3, 2)):
    case(f"task {i + 1} is task {j + 1}", lined(table(FOUR[:i] + [FOUR[j]] + FOUR[i + 1:])))
case("the last task is the first", lined(table(FULL[:-1] + [(1, 9, 8, 7, 1000, 0)])))
case("a used task with a wrong period: its own line comes first", lined(table(ONE + [(5, 0, 0, 0, 0, 0)])), whole=True)
for i in (0, 2):
    case(f"rank {i + 1} names no task", lined(table(FOUR[:3], [3, 1, 2][:i] + [4])), True)
for i, j in ((1, 0), (2, 0), (2, 1)):
    case(f"rank {i + 1} is rank {j + 1}", lined(table(FOUR[:3], [3, 1, 2][:i] + [[3, 1, 2][j]])), True)
case("the last rank is the first", lined(table(FULL, ORDER[:-1] + ORDER[:1])), True)
case("a rank with a leading zero is 2, not 6", lined(table(TWO) + [b"rank=05"]), True)

# bytes after the last line
case("a rank line for the planner", lined(table(ONE, [5])))
case("a rank too many", lined(table(ONE, [5, 5])), True)
case("a byte after the last line", lined(table(ONE)) + b"x")
case("a line feed after the last line", lined(table(ONE)) + b"\n")
case("a NUL after the last line", lined(table(ONE)) + b"\0")
case("a space after the last rank", lined(table(ONE, [5])) + b" ", True)
case("a table after the table", lined(table(ONE)) * 2, whole=True)
case("a row too many", lined(table(TWO, tasks=1)), whole=True)

# line ends and other bytes
case("CR LF throughout", lined(table(ONE)).replace(b"\n", b"\r\n"), whole=True)
case("CR LF at the last line", lined(table(ONE)[:-1]) + b"points=0\r\n")
case("CR alone", lined(table(ONE)).replace(b"\n", b"\r"))
case("an empty line first", b"\n" + lined(table(ONE)))
case("an empty line between", lined(changed(table(ONE), 4, b"\ntask=5")))
case("only a line feed", b"\n")
case("a NUL before the text", b"\0" + lined(table(ONE)))
case("a NUL in a key", lined(changed(table(ONE), 4, b"ta\0k=5")))
case("a NUL in a number", lined(changed(table(ONE), 4, b"task=5\0")))
case("a NUL for a line feed", b"board=7\0tasks=1\n")
case("a byte order mark", b"\xef\xbb\xbf" + lined(table(ONE)))
case("a byte above 127 in a key", lined(changed(table(ONE), 5, b"peri\xf6d=9")))
case("a byte above 127 in a number", lined(changed(table(ONE), 5, b"period=9\xb9")))
case("a byte above 127 for a digit", lined(changed(table(ONE), 5, b"period=\xb9")))
case("a digit and 128", lined(changed(table(ONE), 5, b"period=\xb5")))
case("bytes 255 only", b"\xff" * 64)
case("a tab before a key", b"\t" + lined(table(ONE)))

# keys that are nearly right
for key in (b"boar=7", b"board", b"board7", b"board:7", b"boards=7", b"board =7", b" board=7", b"=7", b"7", b"tasks=7"):
    case(f"{key.decode()!r} for board=7", lined(changed(table(ONE), 1, key)))
for key in (b"tas=5", b"task", b"task5", b"tasks=5", b"rank=5", b"Task=5", b"tak=5"):
    case(f"{key.decode()!r} for task=5", lined(changed(table(ONE), 4, key)))
case("'task=1' for tasks=1", lined(changed(table(ONE), 2, b"task=1")))
case("'ranks=5' for rank=5", lined(table(ONE) + [b"ranks=5"]), True)
case("'task=5' for rank=5", lined(table(ONE) + [b"task=5"]), True)
case("best before worst", lined(table(ONE)[:6] + [b"best=7", b"worst=8", b"alpha=1000", b"beta=0", b"hold=0"]))
case("alpha for best", lined(table(ONE)[:7] + [b"alpha=1000", b"beta=0", b"hold=0"]))

# numbers that are nearly right, on the first line, on the switch and on the points; long ones on the beta too
case("board=0", lined(changed(table(ONE), 1, b"board=0")))
for number in (b"+7", b"-7", b"-0", b"00", b"7 ", b" 7", b"7.0", b"7e1", b"0x7", b"7_0", b"7,0", b"=7", b"7=7",
               b"a", b"/", b":", b"100000000000", b"999999999999", b"1000000000000", b"0000000000007",
               b"000000000007", b"18446744073709551623", b"7" * 40):
    case(f"board={number.decode()}", lined(changed(table(ONE), 1, b"board=" + number)))
    case(f"switch={number.decode()}", lined(changed(table(ONE), 3, b"switch=" + number)))
for number in (b"100000000000", b"999999999999", b"1000000000000", b"0000000000007", b"000000000007"):
    case(f"beta={number.decode()}", lined(changed(table(ONE), 10, b"beta=" + number)))
for number in (b"-0", b"00", b"7 ", b"=7", b":"):
    case(f"points={number.decode()}", lined(changed(table(ONE), 12, b"points=" + number)))

# the first fault ends the reading
case("no key and no number: 1", lined(changed(table(ONE), 4, b"tusk=x")))
case("no number and no range: 2", lined(changed(table(ONE), 4, b"task=00000")))
case("two lines out of range: the first", lined(table([(5, 0, 8, 7, 0, 0)])), whole=True)
case("a wrong number and no last feed: the number", lined(changed(table(ONE), 5, b"period=x"))[:-1], whole=True)

# the line of the hold, request 2
for hold in (1, 999_999, 1_000_000, 1_000_001):
    case(f"hold {hold} where worst is the highest", lined(table([(5, 1_000_000, 1_000_000, 1, 1000, 0, hold)])))
for hold in (0, 1, 2, 3, 1_000_000, 1_000_001):
    case(f"hold {hold} where worst is 2", lined(table([(5, 9, 2, 1, 1000, 0, hold)])))
case("hold = worst = best", lined(table([(5, 9, 7, 7, 1000, 0, 7)])))
case("hold above best, within worst", lined(table([(5, 9, 8, 7, 1000, 0, 8)])))
case("hold = worst + 1, within the period", lined(table([(5, 10, 8, 7, 1000, 0, 9)])))
case("hold = period = worst + 1", lined(table([(5, 9, 8, 7, 1000, 0, 9)])))
case("hold above its own worst, not above another's", lined(table([(5, 9, 8, 7, 1000, 0, 9)] + TWO[1:])))
case("hold above another's worst, not above its own", lined(table(ONE + [(6, 90, 80, 70, 2000, 100, 80)])))
held = [row + (row[2],) for row in FOUR]
case("hold = worst in each row", lined(table(held)))
for i in (0, 1, 3):
    row = FOUR[i] + (FOUR[i][2] + 1,)
    case(f"hold > worst in row {i + 1}", lined(table(held[:i] + [row], tasks=4)))
case("the table of document 01 without a hold", lined(line for line in table(PAPER) if line != b"hold=0"))
case("the last hold is missing, a rank stands there", lined(table(ONE)[:10] + [b"rank=5"]), True)
case("the hold of the first row is missing", lined(table(TWO)[:10] + table(TWO)[11:]))
case("the hold twice", lined(inserted(table(TWO), 12, b"hold=0")))
case("the last hold twice", lined(inserted(table(ONE), 12, b"hold=0")))
case("a hold after the last line", lined(table(ONE) + [b"hold=0"]))
case("hold before beta", lined(table(ONE)[:9] + [b"hold=0", b"beta=0"]))
case("hold after best", lined(table(ONE)[:8] + [b"hold=0", b"alpha=1000", b"beta=0"]))
case("beta for hold", lined(changed(table(ONE), 11, b"beta=0")))
for key in (b"Hold=0", b"hold", b"holds=0", b"hol=0", b" hold=0", b""):
    case(f"{key.decode()!r} for hold=0", lined(changed(table(ONE), 11, key)))
case("hold=1000000 with best above worst before it: the first fault", lined(table([(5, 9, 7, 8, 1000, 0, 1_000_000)])),
     whole=True)
case("hold > worst and a task used before: the hold's line comes first", lined(table([(5, 9, 8, 7, 1000, 0, 9)] * 2)),
     whole=True)

# the line of the switch, request 4: its number
ROOMY = [(5, 2000, 8, 7, 1000, 0)]
for switch in (1, 999, 1_000, 1_001, 1_010, 65_536, 4_294_967_296):
    case(f"switch {switch}", lined(table(ROOMY, switch=switch)))
case("switch 1000 for the reviewer", lined(table(ROOMY, [5], switch=1_000)), True)
for number in (b"0000", b"01000", b"1000 ", b"1000\r", b"1e3", b"1,000"):
    case(f"switch={number.decode()!r}", lined(changed(table(ROOMY), 3, b"switch=" + number)))
case("too many tasks and too large a switch: the first fault", lined(table(ROOMY, tasks=17, switch=1_001)), whole=True)
case("too large a switch and no rows: its own line", lined(table([], tasks=2, switch=1_001)))
case("nothing after the switch", lined(table([], tasks=1)))

# worst + switch beside the period
for worst in (1, 8):
    row, longer = (5, 9, worst, 1, 1000, 0), (5, 9, worst + 1, 1, 1000, 0)
    case(f"worst {worst} + switch {9 - worst} = period", lined(table([row], switch=9 - worst)))
    case(f"worst {worst} + switch {10 - worst} = period + 1", lined(table([row], switch=10 - worst)))
    case(f"worst {worst + 1} + switch {9 - worst} = period + 1", lined(table([longer], switch=9 - worst)))
case("worst 1 + switch 1000 = period", lined(table([(5, 1001, 1, 1, 1000, 0)], switch=1_000)))
case("worst 1 + switch 1000 = period + 1", lined(table([(5, 1000, 1, 1, 1000, 0)], switch=1_000)))
for worst in (999_000, 999_001, 1_000_000, 1_000_001):
    row = (5, 1_000_000, worst, 1, 1000, 0)
    case(f"worst {worst} + switch 1000 in the highest period", lined(table([row], switch=1_000)))
case("worst 1000000 + switch 1 in the highest period", lined(table([(5, 1_000_000, 1_000_000, 1, 1000, 0)], switch=1)))
filled = [(row[0], row[2] + 3) + row[2:] for row in FOUR]
case("worst + switch = period in each row", lined(table(filled, switch=3)))
for i in (0, 1, 3):
    task, _, worst, best, alpha, beta = FOUR[i]
    short = (task, worst + 2, worst, best, alpha, beta)
    case(f"worst + switch > period in row {i + 1}", lined(table(filled[:i] + [short], tasks=4, switch=3)))
case("worst + switch above another row's period", lined(table([(5, 13, 8, 7, 1000, 0)] + TWO[1:], switch=5)))

# best and hold beside worst, whatever the switch
for best in (8, 9, 13, 14):
    case(f"best {best}, worst 8, switch 5", lined(table([(5, 20, 8, best, 1000, 0)], switch=5)))
for hold in (8, 9, 13, 14):
    case(f"hold {hold}, worst 8, switch 5", lined(table([(5, 20, 8, 7, 1000, 0, hold)], switch=5)))
case("best = 1, switch 5: no test of best + switch", lined(table([(5, 6, 1, 1, 1000, 0, 1)], switch=5)))

# the place of the switch
SWITCH, NO_POINTS = b"switch=0", b"points=0"
BARE = [line for line in table(TWO) if line != SWITCH]
OLD = [line for line in table(PAPER) if line not in (SWITCH, b"hold=0", NO_POINTS)]
case("the table of document 01 as it stood", lined(OLD))
case("no switch, with holds", lined(BARE))
case("the switch twice", lined(inserted(table(TWO), 4, SWITCH)))
case("the switch twice with two numbers", lined(inserted(table(TWO), 4, b"switch=1")))
for k, place in ((1, "before board"), (2, "before tasks"), (4, "after the first task"), (12, "behind the first row"),
                 (13, "after the second task"), (21, "at the end")):
    if k < 12:
        case(f"the switch {place}", lined(inserted(BARE, k, SWITCH)))
    if k > 3:
        case(f"a second switch {place}", lined(inserted(table(TWO), k + 1, SWITCH)))
case("the switch behind the rows alone", lined(BARE + [SWITCH]), whole=True)
case("a switch for a hold", lined(changed(table(TWO), 11, SWITCH)))
case("a switch for a rank", lined(table(ONE) + [SWITCH]), True)
case("a switch after the ranks", lined(table(ONE, [5]) + [SWITCH]), True)
for key in (b"Switch=0", b"switch", b"switch0", b"switches=0", b"switc=0", b"switch =0", b" switch=0", b"switch:0", b"",
            b"=0", b"tasks=0", b"hold=0"):
    case(f"{key.decode()!r} for switch=0", lined(changed(table(ONE), 3, key)))


# the line of the points, request 7
CURVE = [(1, 9), (2, 8), (3, 8), (4, 6), (5, 5), (6, 3), (7, 1), (8, 0)]


def curved(*curve, row=ONE[0], hold=0):
    """A row with points."""
    return row + (hold, curve)


def due(deadline, row=ONE[0]):
    """A row with a deadline."""
    return row + (0, (), deadline)


for points in (1, 2, MOST_POINTS):
    case(f"{points} points", lined(table([curved(*CURVE[:points])])))
case("8 points and a rank", lined(table([curved(*CURVE)], [5])), True)
case("9 points", lined(table([curved(*CURVE, (9, 0))])))
case("the table of document 01 without points", lined(line for line in table(PAPER) if line != NO_POINTS))
case("the last points are missing, a rank stands there", lined(table(ONE)[:11] + [b"rank=5"]), True)
case("the points twice", lined(inserted(table(TWO), 13, NO_POINTS)))
case("the last points twice", lined(table(ONE) + [NO_POINTS]))
case("points before hold", lined(table(ONE)[:10] + [NO_POINTS, b"hold=0"]))
case("points after the first pair", lined(table(ONE)[:11] + [b"delay=1", b"allow=1", b"points=1"]))
case("hold for points", lined(changed(table(ONE), 12, b"hold=1")))
for key in (b"Points=0", b"points", b"point=0", b""):
    case(f"{key.decode()!r} for points=0", lined(changed(table(ONE), 12, key)))

# fewer pairs than the points say, and more
PAIRS = [b"delay=%d" % CURVE[0][0], b"allow=%d" % CURVE[0][1], b"delay=%d" % CURVE[1][0], b"allow=%d" % CURVE[1][1]]
for points in (0, 1, 3):
    told = b"points=%d" % points
    case(f"points={points} and two pairs", lined(table(ONE)[:11] + [told] + PAIRS))
    case(f"points={points} and two pairs before a row", lined(table(TWO)[:11] + [told] + PAIRS + table(TWO)[12:]))
case("points=1 and two pairs before a rank", lined(table(ONE)[:11] + [b"points=1"] + PAIRS + [b"rank=5"]), True)
case("points=1 and a delay alone", lined(table(ONE)[:11] + [b"points=1", b"delay=1"]))
case("points=1 and a delay alone before a row", lined(table(TWO)[:11] + [b"points=1", b"delay=1"] + table(TWO)[12:]))
case("points=2 and an allow too few", lined(table(ONE)[:11] + [b"points=2"] + PAIRS[:3]))
case("a delay after two pairs", lined(table(ONE)[:11] + [b"points=2"] + PAIRS + [b"delay=3"]))
case("an allow for a delay", lined(table(ONE)[:11] + [b"points=1", b"allow=1", b"delay=1"]))
case("a delay for an allow", lined(table(ONE)[:11] + [b"points=2", b"delay=1", b"delay=2", b"allow=1", b"allow=1"]))
for key in (b"delay", b"dela=1", b"delays=1"):
    case(f"{key.decode()!r} for delay=1", lined(table(ONE)[:11] + [b"points=1", key]))
for key in (b"allow", b"allo=1", b"allows=1"):
    case(f"{key.decode()!r} for allow=1", lined(table(ONE)[:11] + [b"points=1", b"delay=1", key]))
for number in (b"", b"-1", b"1000000000000"):
    case(f"delay={number.decode()!r}", lined(table(ONE)[:11] + [b"points=1", b"delay=" + number]))
    case(f"allow={number.decode()!r}", lined(table(ONE)[:11] + [b"points=1", b"delay=1", b"allow=" + number]))

# the limits of a delay and of an allow; on the first pair of a row nothing but these is asked
for ticks in (0, 1, 1_000_000, 1_000_001):
    case(f"the first delay {ticks}", lined(table([curved((ticks, 2))])))
    case(f"the first allow {ticks}", lined(table([curved((2, ticks))])))
    case(f"the second delay {ticks}", lined(table([curved((0, 7), (ticks, 7))])))
    case(f"the second allow {ticks}", lined(table([curved((0, 1_000_000), (1, ticks))])))
case("the widest pair", lined(table([curved((0, 1_000_000), (1_000_000, 0))])))
case("delays and allows far above the period", lined(table([curved((10, 20), (500_000, 15))])))

# refusal 11 from the second pair on, at the last too, one beside it on the other side, and what comes before it
for at in (1, 2, 4, MOST_POINTS - 1):
    (delay, allow), last = CURVE[at], CURVE[at - 1]
    case(f"delay {at + 1} is the one before", lined(table([curved(*CURVE[:at], (last[0], allow))])))
    case(f"allow {at + 1} is above the one before", lined(table([curved(*CURVE[:at], (delay, last[1] + 1))])))
for at in (1, 4, 7):
    case(f"delay {at + 1} is below the one before", lined(table([curved(*CURVE[:at], (CURVE[at - 1][0] - 1, 0))])))
case("delay 3 is above the first, not the second", lined(table([curved((1, 9), (5, 8), (3, 7))])))
case("allow 3 is below the first, not the second", lined(table([curved((1, 9), (2, 5), (3, 6))])))
case("equal allows, delays one apart", lined(table([curved(*((10 + i, 4) for i in range(8)))])))
case("allows of 0", lined(table([curved((0, 0), (1, 0), (9, 0))])))
case("the same pair twice", lined(table([curved((3, 3), (3, 3))])))
case("delay and allow out of order: the delay", lined(table([curved((3, 3), (2, 4))])), whole=True)
case("an allow above its range is 3, not 11", lined(table([curved((1, 5), (2, 1_000_001))])))
TOLD = table(ONE)[:11] + [b"points=2", b"delay=5", b"allow=5"]
case("a delay with a leading zero, below: 2, not 11", lined(TOLD + [b"delay=04"]))
case("an allow with a leading zero, above: 2, not 11", lined(TOLD + [b"delay=6", b"allow=06"]))
case("a delay below without its line feed: 1, not 11", lined(TOLD) + b"delay=4")
case("an allow above without its line feed: 1, not 11", lined(TOLD + [b"delay=6"]) + b"allow=6")
case("a delay below with another key: 1, not 11", lined(TOLD + [b"allow=4"]))
case("delay 2 is the one before, and the task of the next row used", lined(table([curved((1, 1), (1, 1)), ONE[0]])),
     whole=True)

# rows with points among others: each row's curve begins anew
LOW, HIGH = ((1, 9), (2, 8)), ((900, 50), (901, 0))
case("the first row alone has points", lined(table([curved(*LOW), TWO[1]])))
case("the second row alone has points", lined(table([ONE[0], curved(*LOW, row=TWO[1])])))
case("a first delay below the last row's, and an allow above", lined(table([curved(*HIGH), curved(*LOW, row=TWO[1])])))
UNDER = curved((9, 9), (9, 9), row=TWO[1])
case("11 in the second row, its delay above the first row's", lined(table([curved(*LOW), UNDER])))
case("points in the middle of three, and ranks", lined(table([PAPER[0], curved(*CURVE, row=PAPER[1], hold=2), PAPER[2]],
                                                           [12, 13, 11])), True)
case("11 in the second row for the reviewer", lined(table([ONE[0], curved((1, 1), (2, 2), row=TWO[1])], [6, 5])), True)
case("alpha below its range in a row with points", lined(table([(5, 9, 8, 7, 999, 0, 0, LOW)])), whole=True)
case("beta above its range in a row with points", lined(table([(5, 9, 8, 7, 1000, 200_000_000_001, 0, LOW)])),
     whole=True)
WIDEST = [(999_993 + i, 1_000_000 - i) for i in range(MOST_POINTS)]
LONGEST = (65_535, 1_000_000, 1_000_000, 1_000_000, 100_000, 200_000_000_000, 1_000_000, WIDEST)
case("the longest row", lined(table([LONGEST], [65_535], board=65_535)), True)
ALL = [row + (i, [(10 * j + i % 10, 99 - 10 * j - i % 10) for j in range(MOST_POINTS)]) for i, row in enumerate(FULL)]
case("as many rows with as many points, and ranks", lined(table(ALL, ORDER, switch=20)), True)

# the line of the deadline, request 8: its limits, and that it is free of the other times
for deadline in (1, 7, 8, 10, 1_000_000):
    case(f"deadline {deadline}, period 9, worst 8, best 7", lined(table([due(deadline)])))
for deadline in (0, 1_000_001, 999_999_999_999):
    case(f"deadline {deadline}", lined(table([due(deadline)])))
case("the deadlines of four rows", lined(table([due(row[1] + 3 - 2 * i, row) for i, row in enumerate(FOUR)])))
case("deadlines of two rows, and ranks", lined(table([due(4), due(1_000_000, TWO[1])], [6, 5])), True)
case("deadline 1, worst + switch = period", lined(table([due(1, (5, 9, 4, 1, 1000, 0))], switch=5)))
case("deadline 1000000, worst + switch = period + 1", lined(table([due(1_000_000, (5, 9, 4, 1, 1000, 0))], switch=6)))
case("deadline 8, worst 10, period 9: 4 is of the period", lined(table([due(8, (5, 9, 10, 7, 1000, 0))])))
case("deadline 0 and worst above the period: its own line comes first", lined(table([due(0, (5, 9, 10, 7, 1000, 0))])),
     whole=True)
case("a deadline with points and a hold", lined(table([curved((1, 9), (2, 8), hold=3) + (20,)])))

# its forms, its keys and its place
for number in (b"", b"+9", b"-1", b"9 ", b"9\r", b"1000000000000"):
    case(f"deadline={number.decode()!r}", lined(changed(table(ONE), 6, b"deadline=" + number)))
for key in (b"Deadline=9", b"deadline", b"deadline9", b"deadlines=9", b"deadlin=9", b"dead=9", b"deadline =9",
            b" deadline=9", b"", b"=9", b"period=9", b"worst=9"):
    case(f"{key.decode()!r} for deadline=9", lined(changed(table(ONE), 6, key)))
DEADLINE = b"deadline=9"
case("the table of document 01 without deadlines", lined(line for line in table(PAPER) if b"deadline" not in line))
case("the deadline of the second row alone is missing", lined(table(TWO)[:14] + table(TWO)[15:]))
case("the deadline twice", lined(inserted(table(ONE), 7, DEADLINE)))
case("the deadline before the period", lined(table(ONE)[:4] + [DEADLINE, b"period=9", b"worst=8"]))
case("the deadline after worst", lined(table(ONE)[:5] + [b"worst=8", DEADLINE]))
case("a second deadline after worst", lined(inserted(table(ONE), 8, DEADLINE)))
case("a second deadline behind the first row", lined(inserted(table(TWO), 13, DEADLINE)))
case("a deadline after the last line", lined(table(ONE) + [DEADLINE]))
case("a deadline for a rank", lined(table(ONE) + [DEADLINE]), True)
case("the text ends with the period", lined(table(ONE)[:5]))


# ---- the two files

def main():
    answers = [answer(text, ranked) for _, ranked, text in CASES]
    if "--list" in sys.argv[1:]:
        for (name, ranked, _), said in zip(CASES, answers):
            print(f"{said[:24]:24}  {'reviewer' if ranked else 'planner':8}  {name}")
        return
    if sys.argv[1:] != ["--write"]:
        sys.exit("usage: table_cases.py --list, or --write: crates/table_cases/{stdin,stdout} anew")
    stdin = b"".join(b"length=%d\nranked=%d\n%s" % (len(text), ranked, text) for _, ranked, text in CASES)
    repeated = len(CASES) - len({(ranked, text) for _, ranked, text in CASES})
    if repeated:
        sys.exit(f"{repeated} of the texts stand twice")
    stdout = "".join(said + "\n" for said in answers) + f"texts={len(CASES)}\n"
    if len(stdin) > 65_536:
        sys.exit(f"the texts have {len(stdin)} bytes, and the program reads 65,536")
    crate = Path(__file__).resolve().parents[2] / "crates" / "table_cases"
    (crate / "stdin").write_bytes(stdin)
    (crate / "stdout").write_text(stdout)


if __name__ == "__main__":
    main()
