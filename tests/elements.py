#!/usr/bin/env python3
"""Works out resamples of u16 and f32 elements from the rules in docs/, without the library: writes what replay_elements
reads and must print.

  tests/elements.py crates/replay_elements      writes stdin (a line of numbers for each case) and stdout

Floats stand as their bits. They are worked out in whole numbers: a value is a fraction, and `nearest` rounds it once.
"""
import random, sys
from fractions import Fraction

BILINEAR, NEAREST, BOX, AREA = 0, 1, 29, 52
KNOWN = {'u16': {BILINEAR, BOX, AREA}, 'f32': {BILINEAR}}
SIZE = {BILINEAR: 1, BOX: 2, AREA: 2}                    # kernel sizes
SIGN, INF, NAN = 1 << 31, 0x7f800000, 0x7fc00000         # bits of a single; one pattern stands for every NaN

# Floats, as bits.

def is_nan(b): return b & ~SIGN > INF
def is_inf(b): return b & ~SIGN == INF
def is_zero(b): return b & ~SIGN == 0

def exact(b):
    """The number that the bits of a finite float stand for."""
    e, m = b >> 23 & 255, b & 0x7fffff
    size = Fraction(m) / 2 ** 149 if e == 0 else Fraction(m | 1 << 23) * Fraction(2) ** (e - 150)
    return -size if b & SIGN else size

def nearest(q, sign):
    """The bits of the float nearest to q, ties to even; a zero gets the sign given."""
    if q == 0: return sign
    sign, q = (SIGN, -q) if q < 0 else (0, q)
    e = max(-149, q.numerator.bit_length() - q.denominator.bit_length() - 24)
    if q >= Fraction(2) ** (e + 24): e += 1              # now 2^e is the unit of the last place: 24 bits, or the least
    n = round(q / Fraction(2) ** e)                      # Python rounds a fraction to even at ties
    if n == 1 << 24: n, e = n >> 1, e + 1
    if e > 104: return sign | INF
    return sign | (n if n < 1 << 23 else (e + 150) << 23 | n & 0x7fffff)

def times(a, b):
    sign = (a ^ b) & SIGN
    if is_nan(a) or is_nan(b): return NAN
    if is_inf(a) or is_inf(b): return NAN if is_zero(a) or is_zero(b) else sign | INF
    return nearest(exact(a) * exact(b), sign)

def plus(a, b):
    if is_nan(a) or is_nan(b): return NAN
    if is_inf(a): return NAN if is_inf(b) and a != b else a
    if is_inf(b): return b
    return nearest(exact(a) + exact(b), a & b & SIGN)    # a sum of 0 is −0 only of two −0

def over(n, d): return nearest(Fraction(n, d), 0)        # of whole numbers below 2^24, which floats hold

# What one output of a line is.

def tent_place(n, m, x):
    return divmod(max(0, (2 * x + 1) * n - m), 2 * m)

def value(kind, f, line, m, x):
    n = len(line)
    if f in (BOX, AREA):
        part = line[x * n // m: -(-(x + 1) * n // m)]
        return (2 * sum(part) + len(part)) // (2 * len(part))
    i, r = tent_place(n, m, x)
    a, b = line[i], line[min(i + 1, n - 1)]
    if kind == 'u16': return (a * (2 * m - r) + b * r + m) // (2 * m)
    return plus(times(a, over(2 * m - r, 2 * m)), times(b, over(r, 2 * m)))

# Stages and plans.

def letter(f, s, t):
    if f == NEAREST: return 'N'
    return {(True, True): 'C', (True, False): 'V', (False, True): 'H', (False, False): 'B'}[(s[0] == t[0], s[1] == t[1])]

def plan(f, steps, s, t):
    if f != NEAREST and steps and s != t and s[0] <= t[0] and s[1] <= t[1]:
        p, q = (3, 2) if SIZE[f] < 2 else (min(SIZE[f], 4), 1)
        out, v = [], s
        while v != t:
            n = tuple(min(t[i], -(-v[i] * p // q)) for i in (0, 1))
            out.append((letter(f, v, n), f, v, n)); v = n
        return out
    return [(letter(f, s, t), f, s, t)]

def near(n, m, x):
    k = (n << 32) // m
    return (x * k + k // 2) >> 32

def run(case, stage, im):
    kind, c = case['kind'], case['c']
    k, f, s, t = stage
    hold = (lambda v: min(v, 2 ** case['depth'] - 1)) if case['limit'] else (lambda v: v)
    if k == 'N':
        return [[im[near(s[1], t[1], y)][near(s[0], t[0], x) * c + j] for x in range(t[0]) for j in range(c)] for y in range(t[1])]
    if k in 'VB':
        im = [[hold(value(kind, f, [row[j] for row in im], t[1], y)) for j in range(len(im[0]))] for y in range(t[1])]
    if k in 'HB':
        im = [[hold(value(kind, f, row[j::c], t[0], x)) for x in range(t[0]) for j in range(c)] for row in im]
    return im

def work(case, stage):
    k, _, s, t = stage
    if k != 'B': return 0
    return s[0] * case['c'] * (t[1] if case['whole'] else 4 if t[1] >= 4 else 1)

# A case, and its answer.

def store_fault(c, w, h, stride, length):
    s = stride or w * c
    if not 1 <= c <= 4: return 12
    if 0 in (w, h): return 1
    if s < w * c: return 5
    if length < s * (h - 1) + w * c: return 4

def fault(case, stages):
    kind, c, s, t = case['kind'], case['c'], case['s'], case['t']
    if not 1 <= c <= 4: return 12
    if 0 in (*s, *t): return 1
    if any(k in 'VHB' and f not in KNOWN[kind] for k, f, _, _ in stages): return 7
    no = store_fault(c, *t, case['ts'], case['length']) or store_fault(c, *s, case['ss'], len(case['px']))
    if no: return no
    if s != t and kind == 'u16' and case['f'] != NEAREST and not 1 <= case['depth'] <= 16: return 6

def answer(case):
    c, s, t = case['c'], case['s'], case['t']
    stages = [] if 0 in (*s, *t) else plan(case['f'], case['steps'], s, t)
    no = fault(case, stages)
    if no: return f'refused {no}'
    ss, ts = case['ss'] or s[0] * c, case['ts'] or t[0] * c
    im = [case['px'][y * ss: y * ss + s[0] * c] for y in range(s[1])]
    if s != t:                                           # equal sizes are copied
        for stage in stages: im = run(case, stage, im)
    out = [case['mark']] * case['length']
    for y, row in enumerate(im): out[y * ts: y * ts + len(row)] = row
    if case['kind'] == 'f32': out = [NAN if is_nan(v) else v for v in out]
    half = max([t[0] * t[1] * c for _, _, _, t in stages[:-1]], default=0)
    return ' '.join([case['kind'], str(max(work(case, stage) for stage in stages)), f'{half}:', *map(str, out)])

def line(case):
    head = [case[k] for k in ('limit', 'whole', 'steps', 'f', 'depth', 'c')]
    head += [*case['s'], case['ss'], *case['t'], case['ts'], case['length'], case['mark']]
    return ' '.join([case['kind'], *map(str, head + case['px'])])

MARK = {'u16': 54321, 'f32': 0xc640e400}
GAP = {'u16': (0, 65535, 4711), 'f32': (NAN, INF, SIGN | INF, 0x42280000)}

def make(rng, kind, draw, c, f, s, t, depth=8, limit=0, whole=None, steps=0, gaps=None, px=None):
    """A case whose pixels are drawn, with gaps in half of the buffers; gaps hold elements that would be noticed."""
    gap = lambda w: rng.choice((0, 0, w * c, w * c + rng.randint(1, 4))) if gaps is None else (w * c + 1) * gaps
    need = lambda w, h, st: (st or w * c) * max(h - 1, 0) + w * c
    ss, ts = gap(s[0]), gap(t[0])
    buf = [rng.choice(GAP[kind]) for _ in range(need(*s, ss) + rng.choice((0, 0, 3)))]
    for y in range(s[1]):
        for j in range(s[0] * c): buf[y * (ss or s[0] * c) + j] = px[y * s[0] * c + j] if px else draw()
    whole = rng.randrange(2) if whole is None else whole
    return dict(kind=kind, limit=limit, whole=whole, steps=steps, f=f, depth=depth, c=c, s=s, ss=ss, t=t, ts=ts,
                length=need(*t, ts) + rng.choice((0, 0, 2)), mark=MARK[kind], px=buf)

SIZES = (1, 2, 3, 4, 5, 7, 8, 9)

def two(rng): return (rng.choice(SIZES), rng.choice(SIZES))

def u16_cases(rng):
    out = []
    def draw(depth):
        top = min(65535, 2 ** depth - 1)
        return lambda: rng.choice((0, top, min(65535, top + 1), 65535, rng.randint(0, top), rng.randint(0, 65535)))
    def add(f, s, t, depth, limit, **more):
        out.append(make(rng, 'u16', draw(min(depth, 16)), more.pop('c', rng.randint(1, 4)), f, s, t, depth, limit, **more))
    for depth in range(1, 17):                           # every depth, held and not, each function, both routes
        for limit in (0, 1):
            for f in (BILINEAR, BOX): add(f, two(rng), two(rng), depth, limit)
            for whole in (0, 1): add(BILINEAR, (3, 5), (4, 9), depth, limit, whole=whole)
        add(BOX, (5, 6), (2, 4), depth, 1); add(AREA, two(rng), two(rng), depth, depth & 1)
        add(NEAREST, two(rng), two(rng), depth, 1)
    for f in (BILINEAR, BOX):                            # one axis only, and the largest values
        for s, t in (((4, 3), (4, 7)), ((4, 3), (9, 3)), ((1, 9), (1, 4)), ((9, 1), (2, 1)), ((1, 1), (5, 6))):
            add(f, s, t, 16, 0); add(f, s, t, 12, 1)
            n = s[0] * s[1]
            add(f, s, t, 16, 1, c=1, px=[65535] * n); add(f, s, t, 16, 0, c=1, px=[65535] * (n - 1) + [65534])
    for depth in (0, 17, 64):                            # no depth: refused, but for Nearest and equal sizes
        for limit in (0, 1):
            for f in (BILINEAR, BOX, NEAREST):
                add(f, (3, 4), (5, 2), depth, limit); add(f, (3, 4), (3, 2), depth, limit); add(f, (3, 4), (3, 4), depth, limit)
            add(BILINEAR, (1, 2), (7, 9), depth, limit, steps=1)
    for _ in range(30):                                  # chains of enlarging
        s = (rng.randint(1, 3), rng.randint(1, 3))
        add(rng.choice((BILINEAR, BOX, NEAREST)), s, (s[0] + rng.randint(0, 9), s[1] + rng.randint(0, 9)),
            rng.randint(1, 16), rng.randrange(2), steps=1)
    return out + faults(rng, 'u16', lambda: rng.randint(0, 65535))

LARGEST, LEAST, NORMAL, ONE = 0x7f7fffff, 1, 0x00800000, 0x3f800000
EDGES = (0, SIGN, ONE, SIGN | ONE, LARGEST, SIGN | LARGEST, LARGEST - 1, LEAST, SIGN | LEAST, 2, 3, NORMAL, NORMAL - 1,
         NORMAL + 1, 0x3f7fffff, 0x3f800001, 0x4b800000, 0x4b7fffff, 0x42c80000, 0x3dcccccd)
STRANGE = (NAN, INF, SIGN | INF)

def f32_cases(rng):
    out = []
    anything = lambda: rng.randrange(1 << 32)
    number = lambda: rng.choice((0, SIGN)) | rng.randrange(INF)
    common = lambda: rng.choice((0, SIGN)) | rng.randrange(0x3f000000, 0x43000000)
    small = lambda: rng.choice((0, SIGN)) | rng.randrange(0x01000000)
    large = lambda: rng.choice((0, SIGN)) | rng.randrange(0x7e000000, INF)
    edge = lambda: rng.choice(EDGES)
    strange = lambda: rng.choice(EDGES + STRANGE * 3)
    for draw in (anything, number, common, common, common, small, large, edge, edge, strange):
        for _ in range(12): out.append(make(rng, 'f32', draw, rng.randint(1, 4), BILINEAR, two(rng), two(rng)))
    for a in (NAN, INF, SIGN | INF, LARGEST, SIGN | LARGEST, SIGN, LEAST, SIGN | NORMAL):
        for b in (0, SIGN, INF, SIGN | INF, ONE, LARGEST, SIGN | LEAST):
            out.append(make(rng, 'f32', None, 1, BILINEAR, (2, 1), (4, 1), px=[a, b]))
            out.append(make(rng, 'f32', None, 1, BILINEAR, (1, 2), (1, 3), px=[b, a]))
    for v in (SIGN, LEAST, LARGEST, SIGN | LARGEST, 0x3dcccccd):   # equal elements: rounding may show
        for m in (3, 5, 7, 11): out.append(make(rng, 'f32', None, 1, BILINEAR, (2, 2), (m, m), px=[v] * 4))
    for draw in (anything, strange):                     # nearest pixels and copies keep every element
        for t in ((4, 3), (2, 5), (9, 1)): out.append(make(rng, 'f32', draw, 2, NEAREST, (4, 3), t))
        for f in (BILINEAR, BOX): out.append(make(rng, 'f32', draw, 3, f, (4, 3), (4, 3)))
    for depth in (0, 17): out.append(make(rng, 'f32', common, 2, BILINEAR, (4, 3), (5, 2), depth))
    for _ in range(30):                                  # chains of enlarging
        s = (rng.randint(1, 3), rng.randint(1, 3)); t = (s[0] + rng.randint(0, 7), s[1] + rng.randint(0, 7))
        out.append(make(rng, 'f32', rng.choice((common, edge, strange)), rng.randint(1, 4), BILINEAR, s, t, steps=1))
    for t in ((2, 2), (4, 2), (3, 3)): out.append(make(rng, 'f32', common, 1, BOX, (4, 3), t))   # not known
    return out + faults(rng, 'f32', common)

def faults(rng, kind, draw):
    """Cases that the plan or a store check refuses."""
    good = lambda **more: dict(make(rng, kind, draw, 2, BILINEAR, (3, 4), (5, 6), gaps=1), **more)
    out = [good(), good(c=0), good(c=5), good(ts=9), good(ss=5), good(s=(0, 4)), good(t=(5, 0))]
    g = good(); out.append(dict(g, px=g['px'][:7 * 3 + 6])); out.append(dict(g, px=g['px'][:7 * 3 + 5]))
    return out + [dict(g, length=11 * 5 + 10), dict(g, length=11 * 5 + 9), dict(g, length=0)]

def main():
    folder = sys.argv[1]
    rng = random.Random(1)
    groups = [u16_cases(rng), f32_cases(rng)]
    cases = [case for group in groups for case in group]
    open(f'{folder}/stdin', 'w').write(''.join(line(case) + '\n' for case in cases))
    open(f'{folder}/stdout', 'w').write(''.join(answer(case) + '\n' for case in cases))
    print(len(groups[0]), 'of u16,', len(groups[1]), 'of f32')

if __name__ == '__main__': main()
