#!/usr/bin/env python3
"""What the program writes for an input, worked out plainly: no threads, no shards, no index. `drawn_runs` compares with it.

Its words, files and statuses are the program's, so it can be run in its place: `bench/model.py run --shards 16 < FILE`.
"""
import sys, re, os

MOST = 67108864
USAGE = 'usage: folly_query run [options], or folly_query gen SEED DOCS QUERIES [options]'

class Bad(Exception):
    pass

def number(field, low, high):
    if not re.fullmatch(rb'[0-9]+', field):
        raise Bad('bad number')
    n = int(field)
    if not low <= n <= high:
        raise Bad('bad number')
    return n

def is_word(b):
    return re.fullmatch(rb'[a-z0-9]{1,32}', b) is not None

def tokens_of(text):
    out, i = [], 0
    while i < len(text):
        c = text[i:i+1]
        if c == b' ':
            i += 1
        elif c in (b'|', b'!', b'(', b')'):
            out.append(c.decode()); i += 1
        else:
            m = re.match(rb'[a-z0-9]+', text[i:])
            if not m or len(m[0]) > 32:
                raise Bad('bad word')
            out.append(('w', m[0])); i += len(m[0])
    return out

def parse(tokens):
    if not tokens:
        raise Bad('bad expression')
    if len(tokens) > 1024:
        raise Bad('expression too long')
    pos = 0
    sys.setrecursionlimit(100000)
    # depth: unclosed Lefts plus Bangs whose fact isn't complete
    def fact(depth):
        nonlocal pos
        if pos == len(tokens):
            raise Bad('bad expression')
        t = tokens[pos]
        if t == '!':
            if depth + 1 > 64: raise Bad('expression too deep')
            pos += 1
            return ('not', fact(depth + 1))
        if t == '(':
            if depth + 1 > 64: raise Bad('expression too deep')
            pos += 1
            e = either(depth + 1)
            if pos == len(tokens) or tokens[pos] != ')':
                raise Bad('bad expression')
            pos += 1
            return e
        if isinstance(t, tuple):
            pos += 1
            return t
        raise Bad('bad expression')
    def both(depth):
        e = fact(depth)
        while pos < len(tokens) and (tokens[pos] in ('!', '(') or isinstance(tokens[pos], tuple)):
            e = ('both', e, fact(depth))
        return e
    def either(depth):
        nonlocal pos
        e = both(depth)
        while pos < len(tokens) and tokens[pos] == '|':
            pos += 1
            e = ('either', e, both(depth))
        return e
    e = either(0)
    if pos != len(tokens):
        raise Bad('bad expression')
    return e

def holds(e, words):
    k = e[0]
    if k == 'w': return e[1] in words
    if k == 'not': return not holds(e[1], words)
    if k == 'both': return holds(e[1], words) and holds(e[2], words)
    return holds(e[1], words) or holds(e[2], words)

ASKS = (b'find', b'count', b'exists', b'top')
FIRST = (b'doc', b'tick', b'cancel', b'after', b'lo', b'mid', b'hi') + ASKS

def read(data, shards):
    lines, ids, docs, queries, ticks = [], set(), 0, 0, 0
    pieces = data.split(b'\n')
    if pieces and pieces[-1] == b'':
        pieces.pop()
    for at, piece in enumerate(pieces, 1):
        if piece.endswith(b'\r'):
            piece = piece[:-1]
        s = piece.lstrip(b' ')
        if s == b'' or s.startswith(b'#'):
            continue
        try:
            if any(not 0x20 <= c <= 0x7e for c in piece):
                raise Bad('bad byte')
            f = [x for x in piece.lower().split(b' ') if x]
            if f[0] not in FIRST:
                raise Bad('unknown command')
            if f[0] == b'doc':
                if len(f) < 2: raise Bad('missing field')
                i = number(f[1], 0, 4294967295)
                for n, w in enumerate(f[2:], 1):
                    if n > 1000: raise Bad('too many words')
                    if not is_word(w): raise Bad('bad word')
                if i in ids: raise Bad('duplicate document')
                if docs >= 200000: raise Bad('too many documents')
                ids.add(i); docs += 1
                lines.append(('doc', i, f[2:]))
            elif f[0] in (b'tick', b'cancel'):
                if len(f) < 2: raise Bad('missing field')
                n = number(f[1], 1, 10000000 if f[0] == b'tick' else 50000)
                if len(f) > 2: raise Bad('extra field')
                if f[0] == b'tick':
                    if ticks + n > 10000000: raise Bad('too many ticks')
                    ticks += n
                lines.append((f[0].decode(), n))
            else:
                rest, delay = f, None
                allowed = FIRST
                if rest[0] == b'after':
                    if len(rest) < 2: raise Bad('missing field')
                    delay = number(rest[1], 1, 4294967295)
                    rest = rest[2:]
                    if not rest: raise Bad('missing field')
                    if rest[0] not in (b'lo', b'mid', b'hi') + ASKS: raise Bad('unknown command')
                if rest[0] in (b'lo', b'mid', b'hi'):
                    rest = rest[1:]
                    if not rest: raise Bad('missing field')
                    if rest[0] not in ASKS: raise Bad('unknown command')
                kind = rest[0].decode()
                if kind == 'top':
                    if len(rest) < 2: raise Bad('missing field')
                    k = number(rest[1], 1, 100)
                    if len(rest) < 3: raise Bad('missing field')
                    for n, w in enumerate(rest[2:], 1):
                        if n > 1000: raise Bad('too many words')
                        if not is_word(w): raise Bad('bad word')
                    ask = (kind, k, rest[2:])
                else:
                    ask = (kind, parse(tokens_of(b' '.join(rest[1:]))))
                if queries >= 50000: raise Bad('too many queries')
                if (queries + 1) * shards > 262144: raise Bad('too many tasks')
                queries += 1
                lines.append(('query', delay, ask))
        except Bad as bad:
            return None, f'error line {at}: {bad}\n'
    return lines, None

def answer(n, ask, docs):
    if ask[0] == 'top':
        words = []
        for w in ask[2]:
            if w not in words: words.append(w)
        weight = {}
        for w in words:
            have = sum(1 for _, ws, _ in docs if w in ws)
            weight[w] = len(docs) // have if have else 0
        scored = [(-sum(ws.get(w, 0) * weight[w] for w in words), i) for i, ws, _ in docs]
        best = sorted(s for s in scored if s[0] < 0)[:ask[1]]
        return f'{n} top {len(best)}:' + ''.join(f' {i}={-s}' for s, i in best) + '\n'
    held = sorted(i for i, ws, _ in docs if holds(ask[1], ws))
    if ask[0] == 'find':
        return f'{n} find {len(held)}:' + ''.join(f' {i}' for i in held[:100]) + '\n'
    if ask[0] == 'count':
        return f'{n} count {len(held)}\n'
    return f'{n} exists ' + ('yes' if held else 'no') + '\n'

def output(lines):
    now, sums = 0, []
    for l in lines:
        sums.append(now)
        if l[0] == 'tick': now += l[1]
    docs, asked, n = [], [], 0
    for at, l in enumerate(lines):
        if l[0] == 'doc':
            ws = {}
            for w in l[2]: ws[w] = ws.get(w, 0) + 1
            docs.append((l[1], ws, at))
        elif l[0] == 'query':
            n += 1
            asked.append((n, at, l[1], l[2], len(docs)))
    placed, left = [], []
    for n, at, delay, ask, before in asked:
        if delay is None:
            placed.append((at, 0, n, answer(n, ask, docs[:before]))); continue
        due = sums[at] + delay
        line = next((j for j in range(at + 1, len(lines)) if lines[j][0] == 'tick' and sums[j] + lines[j][1] >= due), None)
        end = line if line is not None else len(lines)
        gone = next((j for j in range(at + 1, end) if lines[j] == ('cancel', n)), None)
        if gone is not None: placed.append((gone, due, n, f'{n} cancelled\n'))
        elif line is not None: placed.append((line, due, n, answer(n, ask, docs[:before])))
        else: left.append(f'{n} cancelled\n')
    return ''.join(p[3] for p in sorted(placed)) + ''.join(left)

def generated(seed, docs, queries):
    x = seed
    def draw(m):
        nonlocal x
        x = (x * 6364136223846793005 + 1442695040888963407) % 2**64
        return (x // 2**33) % m
    word = lambda: f'w{draw(500)}'
    out = []
    for i in range(docs):
        out.append(' '.join(['doc', str(3 * i + 1)] + [word() for _ in range(1 + draw(60))]))
    for j in range(queries):
        prio = ('lo ', '', 'hi ')[draw(3)]
        kind = draw(8)
        if kind <= 1: a = word(); q = prio + f'find {a} {word()}'
        elif kind == 2: a = word(); q = prio + f'find {a} | {word()}'
        elif kind == 3: a = word(); q = prio + f'find {a} !{word()}'
        elif kind == 4: q = prio + f'count {word()}'
        elif kind == 5: a = word(); q = prio + f'exists {a} {word()}'
        elif kind == 6: k = 1 + draw(10); a = word(); q = prio + f'top {k} {a} {word()}'
        else: d = 1 + draw(1000); q = f'after {d} ' + prio + f'count {word()}'
        out.append(q)
        if j % 10 == 9: out.append(f'tick {1 + draw(300)}')
    return ''.join(l + '\n' for l in out).encode()

def words(args):
    """run settings, or gen; None where they are no command"""
    try:
        args = [a.encode('utf-8') for a in args]
    except UnicodeEncodeError:
        return None
    if not args or args[0] not in (b'run', b'gen'): return None
    ranges = {b'--workers': (1, 32), b'--bases': (1, 8), b'--shards': (1, 64), b'--stop-at': (0, 4294967295)}
    given, numbers, i, only = {}, [], 1, False
    while i < len(args):
        w = args[i]
        if only:
            numbers.append(w); i += 1; continue
        if w == b'--':
            only = True; i += 1; continue
        name, eq, value = w.partition(b'=')
        if name in ranges:
            if not eq:
                i += 1
                if i == len(args): return None
                value = args[i]
            if name in given: return None
            given[name] = value; i += 1; continue
        numbers.append(w); i += 1
    try:
        for name, value in given.items(): given[name] = number(value, *ranges[name])
        if args[0] == b'run':
            if numbers: return None
            return ('run', given, None)
        if len(numbers) != 3: return None
        return ('gen', given, [number(v, 0, hi) for v, hi in zip(numbers, (2**64 - 1, 20000, 4096))])
    except Bad:
        return None

def main():
    said = words(sys.argv[1:])
    if said is None:
        print(USAGE, file=sys.stderr); return 2
    kind, given, numbers = said
    shards = given.get(b'--shards', 4)
    if kind == 'gen':
        lines, bad = read(generated(*numbers), shards)
        assert bad is None
        out = output(lines).encode()
        text = f'documents {numbers[1]} queries {numbers[2]} lines {out.count(10)} bytes {len(out)} sum {sum(out) % 2**64}\n'
    else:
        try:
            data = b''
            parts, total = [], 0
            while True:
                got = os.read(0, 65536)
                if not got: break
                parts.append(got); total += len(got)
                if total > MOST:
                    print('folly_query: input too large', file=sys.stderr); return 6
            data = b''.join(parts)
        except OSError:
            print('folly_query: read failed', file=sys.stderr); return 4
        except MemoryError:
            print('folly_query: out of memory', file=sys.stderr); return 1
        lines, bad = read(data, shards)
        if bad is not None:
            try: os.write(1, bad.encode())
            except OSError: pass
            return 3
        text = output(lines)
    try:
        b = text.encode() if isinstance(text, str) else text
        while b:
            b = b[os.write(1, b):]
    except OSError:
        print('folly_query: write failed', file=sys.stderr); return 5
    return 0

if __name__ == '__main__':
    os._exit(main()) if False else sys.exit(main())
