"""compare.py LIBRARY.so COUNT [SEED]: the unproved library of the draft against a plain recursive reader, written from the Rust's functions.
Random expressions, nests and damaged copies, under random tables; narrow tree, wide tree and line, long and short buffers."""
import ctypes, random, sys

K = dict(EOF=0, NumValue=1, NumTyped=2, Str=3, Ident=4, Exclaim=5, ExclaimEqual=6, Percent=7, Amp=8, AmpAmp=9, AmpMut=10, LParen=11, RParen=12, LBracket=13,
         RBracket=14, Star=15, Plus=16, Comma=17, Minus=18, Period=19, PeriodPeriod=20, Slash=21, Colon=22, ColonColon=23, Semicolon=24, Less=25, LessEqual=26,
         LessLess=27, Equal=28, EqualEqual=29, EqualEqualGreater=30, LessEqualEqualGreater=31, Greater=32, GreaterEqual=33, GreaterGreater=34, Caret=35,
         LBrace=58, Pipe=59, PipePipe=60, RBrace=61, NumSign=66, AtSign=67)
MARKS = {"&mut ": 10, "<==>": 31, "==>": 30, "!=": 6, "&&": 9, "..": 20, "::": 23, "<=": 26, "<<": 27, "==": 29, ">=": 33, ">>": 34, "||": 60, "!": 5, "%": 7,
         "&": 8, "(": 11, ")": 12, "[": 13, "]": 14, "*": 15, "+": 16, ",": 17, "-": 18, ".": 19, "/": 21, ":": 22, ";": 24, "<": 25, "=": 28, ">": 32, "^": 35,
         "{": 58, "|": 59, "}": 61, "#": 66, "@": 67}
WORDS = {"abort": 36, "acquires": 37, "as": 38, "break": 39, "const": 64, "continue": 40, "copy": 41, "else": 42, "false": 43, "friend": 65, "fun": 62, "if": 44,
         "invariant": 45, "let": 46, "loop": 47, "module": 48, "move": 49, "native": 50, "public": 51, "return": 52, "script": 63, "spec": 53, "struct": 54,
         "true": 55, "use": 56, "while": 57}
OPS = [29, 6, 25, 32, 26, 33, 60, 9, 35, 59, 8, 27, 34, 16, 18, 15, 21, 7, 20, 30, 31]
SPELL = {v: k for k, v in MARKS.items()}
RUST = [5, 5, 5, 5, 5, 5, 3, 4, 8, 7, 9, 10, 10, 11, 11, 12, 12, 12, 6, 2, 2]


class No(Exception):
    def __init__(self, n, s, e, s2=None, e2=None):
        self.v = (n, s, e, s if s2 is None else s2, e if e2 is None else e2)


class Reader:
    def __init__(self, text, table):
        self.t, self.table = text, table

    def lex(self, p):
        t = self.t
        while p < len(t) and t[p] in " \n\t":
            p += 1
        if p == len(t):
            return (0, p, p)
        c = t[p]
        if c.isdigit():
            e = p
            while e < len(t) and t[e].isdigit():
                e += 1
            for suf in ("u8", "u64", "u128"):
                if t.startswith(suf, e):
                    return (2, p, e + len(suf))
            return (1, p, e)
        if c.isalpha() or c == "_":
            e = p
            while e < len(t) and (t[e].isalnum() or t[e] == "_"):
                e += 1
            return (WORDS.get(t[p:e], 4), p, e)
        for n in (5, 4, 3, 2, 1):
            if t[p:p + n] in MARKS and len(t[p:p + n]) == n:
                return (MARKS[t[p:p + n]], p, p + n)
        raise No(5, p, p)

    def sees(self, p):
        try:
            return self.lex(p)
        except No:
            return None

    def bad(self, a):
        raise No(10, a[1], a[2])

    # names: tree, end
    def chain(self, a):
        if a[0] not in (1, 4):
            self.bad(a)
        d = self.lex(a[2])
        first = (1 if a[0] == 4 else 2, a[1], a[2], self.t[a[1]:a[2]])
        if d[0] != 23:
            if a[0] == 4:
                return (3, a[1], a[2], self.t[a[1]:a[2]]), a[2]
            raise No(10, d[1], d[2], a[1], a[2])
        b = self.lex(d[2])
        if b[0] != 4:
            self.bad(b)
        nb = (1, b[1], b[2], self.t[b[1]:b[2]])
        d = self.lex(b[2])
        if d[0] != 23:
            return (4, a[1], b[2], [first, nb]), b[2]
        c = self.lex(d[2])
        if c[0] != 4:
            self.bad(c)
        return (5, a[1], c[2], [(6, a[1], b[2], [first, nb]), (1, c[1], c[2], self.t[c[1]:c[2]])]), c[2]

    def types(self, n, o, close):
        p, xs = o[2], []
        while True:
            t = self.lex(p)
            if t[0] == close:
                return xs, t[2]
            if close == 32 and t[0] == 34:
                return xs, t[1] + 1
            if t[0] == 17:
                raise No(11, t[1], t[1])
            x, p = self.type(n, t)
            xs.append(x)
            t = self.lex(p)
            if t[0] == close:
                return xs, t[2]
            if close == 32 and t[0] == 34:
                return xs, t[1] + 1
            if t[0] != 17:
                raise No(12, t[1], t[1], o[1], o[1])
            p = t[2]

    def type(self, n, a):
        if n == 0:
            raise No(14, a[1], a[2])
        n -= 1
        if a[0] == 11:
            xs, p = self.types(n, a, 12)
            k = 14 if not xs else 16 if len(xs) == 1 else 15
            return (k, a[1], p, xs if xs else ""), p
        if a[0] in (8, 10):
            x, p = self.type(n, self.lex(a[2]))
            return (11 if a[0] == 8 else 12, a[1], p, [x]), p
        if a[0] == 59:
            xs, p = self.types(n, a, 59)
            x, p = self.type(n, self.lex(p))
            return (13, a[1], p, xs + [x]), p
        c, p = self.chain(a)
        o = self.lex(p)
        if o[0] == 25:
            xs, p = self.types(n, o, 32)
            return (10, a[1], p, [c] + xs), p
        return (10, a[1], p, [c]), p

    def rank(self, k):
        return self.table[OPS.index(k)] if k in OPS else 0

    def term(self, n, a):
        if a[0] == 11:
            b = self.lex(a[2])
            x, p = self.exp(n, b)
            c = self.lex(p)
            if c[0] != 12:
                self.bad(c)
            if not 30 <= x[0] <= 35:
                x = (x[0], a[1], c[2], x[3])
            return x, c[2]
        if a[0] in (1, 4):
            d = self.lex(a[2])
            if a[0] == 4 and self.t[a[1]:a[2]] == "vector" and d[0] in (25, 13):
                self.bad(d)
            if a[0] == 1 and d[0] != 23:
                return (31, a[1], a[2], self.t[a[1]:a[2]]), a[2]
            c, p = self.chain(a)
            o = self.lex(p)
            if o[0] == 25 and o[1] == p:
                xs, p = self.types(n, o, 32)
                x = (45, a[1], p, [c] + xs)
            else:
                x = (44, a[1], p, [c])
            t = self.lex(p)
            if t[0] in (11, 58, 5):
                self.bad(t)
            return x, p
        if a[0] == 67:
            b = self.lex(a[2])
            if b[0] not in (1, 4):
                self.bad(b)
            self.lex(b[2])
            return (30, a[1], b[2], [(1 if b[0] == 4 else 2, b[1], b[2], self.t[b[1]:b[2]])]), b[2]
        if a[0] in (2, 43, 55):
            self.lex(a[2])
            return ({2: 31, 43: 33, 55: 32}[a[0]], a[1], a[2], self.t[a[1]:a[2]]), a[2]
        self.bad(a)

    def unary(self, n, a):
        if n == 0:
            raise No(14, a[1], a[2])
        n -= 1
        k = {5: 40, 15: 41, 8: 42, 10: 43}.get(a[0])
        if k:
            x, p = self.unary(n, self.lex(a[2]))
            return (k, a[1], p, [x]), p
        x, p = self.term(n, a)
        t = self.lex(p)
        if t[0] in (19, 13):
            self.bad(t)
        return x, p

    def binop(self, n, s, x, p, least):
        o = self.lex(p)
        rank = self.rank(o[0])
        while rank >= least:
            a = self.lex(o[2])
            y, p = self.unary(n, a)
            this, rank = rank, self.rank(self.lex(p)[0])
            if this < rank:
                y, p = self.binop(n, a[1], y, p, this + 1)
            x = (60 + OPS.index(o[0]), s, p, [x, y])
            o = self.lex(p)
            rank = self.rank(o[0])
        return x, p

    def exp(self, n, a):
        if n == 0:
            raise No(14, a[1], a[2])
        if a[0] == 4 and self.t[a[1]:a[2]] in ("exists", "forall", "choose"):
            b = self.sees(a[2])
            c = b and b[0] == 4 and self.sees(b[2])
            if c and c[0] in (22, 4):
                self.bad(a)
        x, p = self.unary(n, a)
        o = self.lex(p)
        if o[0] == 28:
            self.bad(o)
        return self.binop(n, a[1], x, p, 1)


def stored(x, wide):
    body = b"" if isinstance(x[3], str) else b"".join(stored(y, wide) for y in x[3])
    w = 4 if wide else 2
    n = len(body) + (14 if wide else 8)
    return (n % 256 ** w).to_bytes(w, "little") + x[0].to_bytes(2, "little") + (x[1] % 256 ** w).to_bytes(w, "little") + (x[2] % 256 ** w).to_bytes(w, "little") + body


def line(x):
    k, ts = x[0], x[3]
    if isinstance(ts, str):
        return "()" if k == 14 else ts
    l = [line(t) for t in ts]
    if k in (4, 5, 6):
        return "::".join(l)
    if k == 10:
        return l[0] + ("<" + ", ".join(l[1:]) + ">" if l[1:] else "")
    if k in (11, 42):
        return "& " + l[0]
    if k in (12, 43):
        return "&mut " + l[0]
    if k == 13:
        return ("|" + ", ".join(l[:-1]) + "|" if l[:-1] else "| |") + " " + l[-1]
    if k in (15, 16):
        return "(" + ", ".join(l) + ")"
    if k == 30:
        return "@" + l[0]
    if k == 40:
        return "!" + l[0]
    if k == 41:
        return "*" + l[0]
    if k == 44:
        return "(vector)" if l[0] == "vector" else l[0]
    if k == 45:
        return l[0] + "<" + ", ".join(l[1:]) + ">"
    return "(" + l[0] + " " + SPELL[OPS[k - 60]] + " " + l[1] + ")"


def answer(text, table):
    r = Reader(text, table)
    try:
        a = r.lex(0)
        x, p = r.exp(64, a)
        n = r.lex(p)
        return x, p, n
    except No as e:
        return e.v


def main():
    lib = ctypes.CDLL(sys.argv[1])
    count = int(sys.argv[2])
    rng = random.Random(int(sys.argv[3]) if len(sys.argv) > 3 else 1)
    f = lib[sys.argv[4] if len(sys.argv) > 4 else "real_movesig_exp"]
    f.restype = ctypes.c_uint32
    A6 = ctypes.c_uint64 * 6

    def call(form, table, text, room):
        out = ctypes.create_string_buffer(b"\xee" * room, room) if room else ctypes.create_string_buffer(1)
        v = A6()
        b = text.encode()
        t = bytes(table)
        n = f(ctypes.c_uint64(form), ctypes.c_uint64(1), t, ctypes.c_size_t(len(t)), b, ctypes.c_size_t(len(b)), ctypes.c_size_t(0), out, ctypes.c_size_t(room), v)
        return n, list(v), out.raw[:room]

    operators = [SPELL[k] for k in OPS]

    def gen(d):
        q = rng.random()
        if d <= 0 or q < 0.35:
            return rng.choice(["a", "b", "vector", "exists", "x", "1", "2u8", "true", "false", "@a", "@0", "a::b", "1::m::f", "a<b>", "c<>", "a<b<c>>", "a<(u8,|x|y)>", "choose", "& a", "a<& b>"])
        if q < 0.45:
            return rng.choice(["!", "*", "& ", "&mut "]) + gen(d - 1)
        if q < 0.6:
            return "(" + gen(d - 1) + ")"
        k = rng.choice([1, 1, 2, 3, 8])
        t = gen(d - 1)
        for _ in range(k):
            t += rng.choice(["", " "]) + rng.choice(operators) + rng.choice(["", " "]) + gen(d - 1)
        return t

    words = ["a", "vector", "exists", "1", "(", ")", "+", "*", "<", ">", ">>", "=", "==", ".", "[", "{", ",", ":", "as", "if", "move", "@", " ", "!", "&", "::", "&mut ", "|", "$"]

    def text():
        q = rng.random()
        if q < 0.5:
            return gen(rng.choice([1, 2, 3, 4, 6]))
        if q < 0.7:
            return "".join(rng.choice(words) for _ in range(rng.randint(1, 9)))
        if q < 0.8:
            n = rng.randint(1, 70)
            return "".join(rng.choice(["(", "!", "a+(", "a*(b+", "*", "a<b(", "((a+b)*"]) for _ in range(n)) + "a" + "".join(rng.choice([")", ")+b", ")*c", ""]) for _ in range(n))
        t = list(gen(4))
        for _ in range(rng.randint(1, 3)):
            i = rng.randrange(len(t)) if t else 0
            if rng.random() < 0.5 and t:
                del t[i]
            else:
                t.insert(i, rng.choice(words))
        return "".join(t)

    same = refused = 0
    for i in range(count):
        t = text()
        table = rng.choice([RUST, [1] * 21, [rng.choice([0, 1, 2, 3, 31]) for _ in range(21)], [rng.randint(0, 31) for _ in range(21)], list(range(1, 22))])
        if "/*" in t or "//" in t:
            continue  # the reader here knows no comments
        want = answer(t, table)
        for form in (0, 1, 2):
            if len(want) == 5:
                n, v, out = call(form, table, t, 64)
                ok = n == want[0] and tuple(v[:4]) == want[1:]
                refused += 1
            else:
                x, p, nx = want
                b = line(x).encode() if form == 1 else stored(x, form == 2)
                room = rng.choice([len(b), len(b) + 9, rng.randint(0, len(b))])
                n, v, out = call(form, table, t, room)
                ok = n == 0 and v == [len(b), len(b), p, nx[0], nx[1], nx[2]] and out[:len(b)] == b[:room]
            if not ok:
                print("DIFFERENT", repr(t), table, form, want if len(want) == 5 else (line(want[0]), want[1:]), n, v, out[:200])
                return 1
            same += 1
    print(same, "answers equal,", refused, "of them refused")


sys.setrecursionlimit(100000)
sys.exit(main())
