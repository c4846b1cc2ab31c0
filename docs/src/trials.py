#!/usr/bin/env python3
"""What the trial programs must print: the same generated tables, a search by sets, and a board with queues.

python3 docs/src/trials.py samples | plan | board prints the stdout file of trial_samples, plan_trials, board_trials.
"""
import sys
from functools import lru_cache
M = (1 << 64) - 1



class Dice:

    def __init__(s):
        s.x = 2685821657736338717

    def __call__(s, lo, hi):
        x = s.x
        x ^= x << 13 & M
        x ^= x >> 7
        x ^= x << 17 & M
        s.x = x
        return lo + (x >> 20) % (hi - lo + 1)



def ceil(a, b):
    return -(-a // b)



def W(r, above):
    w = r['worst']
    while True:
        if w > r['period']:
            return None
        d = r['worst'] + sum((ceil(w, a['period']) * a['worst'] for a in above))
        if d == w:
            return w
        w = d



def figs(r, above):
    w = W(r, above)
    if w is None:
        return None
    e = w
    while True:
        d = r['best'] + sum(((ceil(e, a['period']) - 1) * a['best'] for a in above))
        if d == e:
            break
        e = d
    line = 1000 * e + r['alpha'] * (w - e)
    return dict(best=e, worst=w, jitter=w - e, margin=r['beta'] - line, line=line)



def order_at(n, code):
    o = list(range(6))
    for k in range(n):
        left = n - k
        j = k + code % left
        o[k], o[j] = (o[j], o[k])
        code //= left
    return o[:n]



def any_row(d, longest, share):
    p = d(2, longest)
    w = d(1, 1 + (p - 1) // share)
    b = w if d(0, 1) == 0 else d(1, w)
    a = d(1000, 5000)
    return dict(period=p, worst=w, best=b, alpha=a, beta=0, task=1)



def any_table(d):
    n = d(1, 6)
    longest = 60
    if n <= 3 and d(0, 7) == 0:
        longest = 2000
    share = d((n + 1) // 2, n + 2)
    alike = d(0, 7) == 0
    first = d(1, 65529)
    step = d(1, 6)
    row = any_row(d, longest, share)
    place = d(0, 6)
    rows = []
    for i in range(6):
        if not alike:
            row = any_row(d, longest, share)
        row = dict(row, task=first + place)
        rows.append(row)
        place = (place + step) % 7
    short = d(0, 11)
    loose = {0: 9000, 1: 60000}.get(d(0, 3), 0)
    for k in range(n):
        f = figs(rows[k], rows[:k])
        if f is None:
            rows[k]['beta'] = d(0, 60000)
            continue
        slack = d(0, loose)
        rows[k]['beta'] = f['line'] - 1 if k == short else f['line'] + slack
    board = d(1, 65535)
    o = order_at(n, d(0, 719))
    return (board, [rows[i] for i in o])



def search(rows):
    """first stable order by the rule, and the number of stable orders, by sets"""
    n = len(rows)

    @lru_cache(None)
    def fig(S, x):
        return figs(rows[x], [rows[y] for y in S])

    @lru_cache(None)
    def best(S):
        if not S:
            return ((), 1)
        first = None
        c = 0
        for x in sorted(S):
            R = S - {x}
            f = fig(R, x)
            if f is None or f['margin'] < 0:
                continue
            o, k = best(R)
            c += k
            if k and first is None:
                first = o + (x,)
        return (first, c)
    o, c = best(frozenset(range(n)))
    return (o, c)



def plan_text(board, rows, o):
    t = f'plan=1\nboard={board}\ntasks={len(rows)}\n'
    up = []
    for k, x in enumerate(o):
        f = figs(rows[x], up)
        up.append(rows[x])
        if f is None:
            return k + 1
        t += f"rank={k + 1}\ntask={rows[x]['task']}\nbest={f['best']}\nworst={f['worst']}\njitter={f['jitter']}\nmargin={f['margin']}\n"
    return t



def samples():

    def ex(a, b, c):
        return [dict(task=11, period=24, worst=6, best=6, alpha=1000, beta=a), dict(task=12, period=18, worst=2, best=2, alpha=1000, beta=b), dict(task=13, period=200, worst=19, best=17, alpha=3000, beta=c)]

    def one(b):
        return [dict(task=1, period=10, worst=10, best=10, alpha=1000, beta=b)]
    out = ''
    for rows in (ex(8000, 8000, 57000), ex(8000, 8000, 55000), ex(8000, 8000, 54999), ex(7999, 8000, 57000), ex(7999, 7999, 57000), one(10000), one(9999)):
        o, c = search(rows)
        out += '8 is answered\n' if o is None else '0 is answered\n' + plan_text(7, rows, o)
    d = Dice()
    od = sv = ed = 0
    for _ in range(2400):
        b, rows = any_table(d)
        o, c = search(rows)
        od += c > 0
        sv += c > 1
        if o is not None:
            ed += 'margin=0\n' in plan_text(b, rows, o)
    return out + f'2400 tables\n{od} with a stable order\n{sv} with several\n{ed} with a margin of 0 in the plan\n'



def plan_trials(N=5000):
    d = Dice()
    od = sv = ed = neg = 0
    P = [0] * 10
    R = [0] * 10

    def room(long):
        c = d(0, 3)
        return long if c == 0 else max(long - 1, 0) if c == 1 else d(0, 600) if c == 2 else 1024
    for _ in range(N):
        b, rows = any_table(d)
        n = len(rows)
        d(0, 255)
        ro = order_at(n, d(0, 719))
        o, c = search(rows)
        od += c > 0
        sv += c > 1
        t = None
        if o is not None:
            t = plan_text(b, rows, o)
            ed += 'margin=0\n' in t
        rt = plan_text(b, rows, ro)
        if isinstance(rt, str):
            neg += 'margin=-' in rt
        P[0 if t else 8] += 1
        r = room(len(t) if t else 0)
        P[8 if not t else 9 if len(t) > r else 0] += 1
        r = room(len(rt) if isinstance(rt, str) else 0)
        R[7 if not isinstance(rt, str) else 9 if len(rt) > r else 0] += 1
    return f'{N} tables compared\n{od} with a stable order\n{sv} with several\n{N - od} with none\n{ed} with a margin of 0 in the plan\n{P[0]} plans by the planner\n{P[8]} refusals 8\n{P[9]} refusals 9\n{R[0]} plans by the reviewer\n{R[7]} refusals 7\n{R[9]} refusals 9\n{neg} orders in time with a margin below 0\n'



def run(rows, figures, ticks, spread, lengths, d, acc):
    n = len(rows)
    firsts = [d(0, spread) for _ in rows]
    queue = [[] for _ in rows]
    for t in range(ticks):
        for k in range(n):
            p = rows[k]['period']
            if t >= firsts[k] and (t - firsts[k]) % p == 0:
                r = rows[k]
                q = r['worst'] if lengths == 0 else r['best'] if lengths == 1 else d(r['best'], r['worst']) if r['best'] < r['worst'] else r['best']
                queue[k].append([t, q])
        for k in range(n):
            if queue[k]:
                j = queue[k][0]
                j[1] -= 1
                if j[1] == 0:
                    queue[k].pop(0)
                    resp = t + 1 - j[0]
                    f = figures[k]
                    held = all((j[0] >= firsts[i] + rows[k]['period'] for i in range(k)))
                    acc[0] += 1
                    acc[1] += resp == f['worst']
                    acc[2] += held and resp == f['best']
                    acc[3] += not held
                    assert resp <= f['worst'] and (not held or resp >= f['best'])
                break
        for k in range(n):
            assert not queue[k] or t + 1 - queue[k][0][0] < figures[k]['worst']



def board_trials(N=2000):
    d = Dice()
    plans = 0
    acc = [0] * 4
    for _ in range(N):
        b, rows = any_table(d)
        o, c = search(rows)
        if o is None:
            continue
        ranked = [rows[i] for i in o]
        F = [figs(ranked[k], ranked[:k]) for k in range(len(ranked))]
        for lengths in range(3):
            spread = d(1, 200)
            run(ranked, F, 5000, 0, lengths, d, acc)
            run(ranked, F, 5000, spread, lengths, d, acc)
        plans += 1
    return f'{plans} plans, each run six times for 5000 ticks\n{acc[0]} jobs finished within their lines\n{acc[1]} exactly at the worst line\n{acc[2]} exactly at the best line\n{acc[3]} released too soon for the best line to count\n'


PARTS = {'samples': samples, 'plan': plan_trials, 'board': board_trials}
if len(sys.argv) != 2 or sys.argv[1] not in PARTS:
    sys.exit('usage: trials.py samples|plan|board')
print(PARTS[sys.argv[1]](), end='')
