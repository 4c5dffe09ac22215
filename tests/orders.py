#!/usr/bin/env python3
"""Works out orders from the rules in docs/, without the library: writes what replay_orders reads and must print.

  tests/orders.py crates/replay_orders      writes stdin (a line of hexadecimal for each order) and stdout
"""
import random, sys

SIZE = {0: 1, 1: 1, 2: 2, 3: 2, 29: 2, 52: 2, 35: 6, 32: 3, 33: 4}
BILINEAR, NEAREST, BOX, AREA = 0, 1, 29, 52
KNOWN = {BILINEAR, BOX, AREA}

def ratio(f):
    k = SIZE[f]
    return (3, 2) if k < 2 else (min(k, 4), 1)

def kind(f, s, t):
    if f == NEAREST: return 'N'
    return {(True, True): 'C', (True, False): 'V', (False, True): 'H', (False, False): 'B'}[(s[0] == t[0], s[1] == t[1])]

def plan(f, multi, sup, s, t):
    st = lambda f, a, b: (kind(f, a, b), f, a, b)
    if f == NEAREST: return [st(f, s, t)]
    if multi and s[0] <= t[0] and s[1] <= t[1]:
        p, q = ratio(f)
        out, v = [], s
        while True:
            n = tuple(min(t[i], -(-v[i] * p // q)) for i in (0, 1))
            out.append(st(f, v, n)); v = n
            if v == t: return out
    if sup and t[0] <= s[0] and t[1] <= s[1]:
        pre = NEAREST if s[0] >= 4 * t[0] or s[1] >= 4 * t[1] else BOX if s[0] >= 3 * t[0] or s[1] >= 3 * t[1] else None
        if pre is not None:
            m = tuple(min(s[i], 2 * t[i]) for i in (0, 1))
            return [st(pre, s, m), st(f, m, t)]
    return [st(f, s, t)]

def value(f, line, m, x):
    n = len(line)
    if f in (BOX, AREA):
        part = line[x * n // m: -(-(x + 1) * n // m)]
        return (2 * sum(part) + len(part)) // (2 * len(part))
    p = max(0, (2 * x + 1) * n - m)
    i, r = divmod(p, 2 * m)
    a, b = line[i], line[min(i + 1, n - 1)]
    return (a * (2 * m - r) + b * r + m) // (2 * m)

def down(f, im, h):
    return [[value(f, [row[j] for row in im], h, y) for j in range(len(im[0]))] for y in range(h)]

def across(f, im, w, c):
    return [[value(f, row[k::c], w, x) for x in range(w) for k in range(c)] for row in im]

def near(n, m, x):
    k = (n << 32) // m
    return (x * k + k // 2) >> 32

def run(stage, im, c):
    letter, f, s, t = stage
    if letter == 'C': return im
    if letter == 'N':
        return [[im[near(s[1], t[1], y)][near(s[0], t[0], x) * c + k] for x in range(t[0]) for k in range(c)] for y in range(t[1])]
    if letter in 'VB': im = down(f, im, t[1])
    if letter in 'HB': im = across(f, im, t[0], c)
    return im

def answer(b):
    if len(b) < 10: return 'refused 15'
    if b[0] >> 4 != 1 or b[1] > 52: return 'refused 16'
    c, multi, sup, f = (b[0] >> 2 & 3) + 1, b[0] >> 1 & 1, b[0] & 1, b[1]
    sw, sh, tw, th = (b[i] << 8 | b[i + 1] for i in (2, 4, 6, 8))
    if 0 in (sw, sh, tw, th): return 'refused 1'
    stages = plan(f, multi, sup, (sw, sh), (tw, th))
    if any(k in 'VHB' and g not in KNOWN for k, g, _, _ in stages): return 'refused 7'
    if sw * sh * c > 4096 or tw * th * c > 4096: return 'refused 17'
    px = b[10:]
    if len(px) < sw * sh * c: return 'refused 15'
    im = [list(px[y * sw * c:(y + 1) * sw * c]) for y in range(sh)]
    for st in stages: im = run(st, im, c)
    head = ''.join(f'; {k} {s[0]} {s[1]} {t[0]} {t[1]}' for k, _, s, t in stages)
    return f'stages {len(stages)}{head}' + ''.join('; ' + ' '.join(map(str, r)) for r in im)

def order(rng, c, multi, sup, f, s, t, form=1, cut=0, more=0):
    head = [form << 4 | (c - 1) << 2 | multi << 1 | sup, f]
    for v in (*s, *t): head += [v >> 8, v & 255]
    px = [rng.choice((0, 255, rng.randrange(256))) for _ in range(s[0] * s[1] * c if s[0] * s[1] * c <= 4096 else 0)]
    b = bytes(head + px)
    return b[:len(b) - cut] + bytes(more)

def orders():
    rng = random.Random(1)
    out = []
    sizes = [1, 2, 3, 4, 5, 7, 8, 9]
    for f in (BILINEAR, NEAREST, BOX, AREA):            # one stage, around batches of four rows
        for _ in range(110):
            s, t = [(rng.choice(sizes), rng.choice(sizes)) for _ in 'st']
            out.append(order(rng, rng.randint(1, 4), 0, 0, f, s, t))
    for _ in range(60):                                 # chains
        f = rng.choice((BILINEAR, BOX)); s = (rng.randint(1, 4), rng.randint(1, 4))
        out.append(order(rng, rng.randint(1, 4), 1, 0, f, s, (s[0] + rng.randint(0, 20), s[1] + rng.randint(0, 20))))
        t = (rng.randint(1, 4), rng.randint(1, 4))
        out.append(order(rng, rng.randint(1, 4), 0, 1, f, (t[0] * rng.randint(1, 6), t[1] * rng.randint(1, 6)), t))
    out.append(order(rng, 1, 1, 0, BILINEAR, (1, 1), (1, 4096)))
    out.append(order(rng, 1, 1, 0, BILINEAR, (1, 1), (4096, 1)))
    for f in (2, 3, 32, 33, 35):                         # functions that the family does not know
        out.append(order(rng, 1, 0, 0, f, (2, 2), (3, 3)))
        out.append(order(rng, 2, 1, 1, f, (2, 2), (2, 2)))
    for c in (1, 4):                                     # the limits of elements
        out.append(order(rng, c, 0, 0, NEAREST, (64 // c, 64), (64 // c, 64)))
        out.append(order(rng, c, 0, 0, NEAREST, (64 // c, 65), (1, 1)))
        out.append(order(rng, c, 0, 0, NEAREST, (1, 1), (64 // c, 65)))
    for z in range(4):                                   # zero dimensions
        v = [3, 3, 2, 2]; v[z] = 0
        out.append(order(rng, 1, 0, 0, BILINEAR, tuple(v[:2]), tuple(v[2:])))
    good = order(rng, 1, 0, 0, NEAREST, (3, 1), (2, 1))
    out += [good[:n] for n in range(len(good))]          # torn at every length
    out += [good + bytes(n) for n in (1, 5)]             # further bytes are ignored
    for form in (0, 2, 7, 15): out.append(order(rng, 1, 0, 0, NEAREST, (3, 1), (2, 1), form))
    for f in (53, 54, 255): out.append(order(rng, 1, 0, 0, f, (3, 1), (2, 1)))
    out.append(order(rng, 1, 0, 0, NEAREST, (65535, 65535), (65535, 65535)))
    return out

def main():
    folder = sys.argv[1]
    rows = orders()
    open(f'{folder}/stdin', 'w').write(''.join(b.hex() + '\n' for b in rows))
    open(f'{folder}/stdout', 'w').write(''.join(answer(b) + '\n' for b in rows))
    print(len(rows), 'orders')

if __name__ == '__main__': main()
