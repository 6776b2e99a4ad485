#!/usr/bin/env python3
"""An independent implementation of the possession records in docs/PROTOCOL.md, for expected values only.

It shares no code with the library and is written from the documents alone. It is slow and keeps secrets in plain variables.
    tools/reference.py check records|refusals|recoveries FILE     holds a file of vectors (blocks of 'name VALUE' lines) to it
"""
import hashlib
import sys

SETS = {
    1: (32768, 12, [4643, 13363, 20579, 25843, 29227, 31145, 32103, 32525, 32689, 32745, 32762, 32766, 32767]),
    2: (65536, 10, [5638, 15915, 23689, 28571, 31116, 32217, 32613, 32731, 32760, 32766, 32767]),
    3: (65536, 6, [9142, 23462, 30338, 32361, 32725, 32765, 32767]),
}


def shake256(text, n):
    return hashlib.shake_256(text).digest(n)


def shake128(text, n):
    return hashlib.shake_128(text).digest(n)


def sha512(text, n):
    blocks = (n + 63) // 64
    return b"".join(hashlib.sha512(text + i.to_bytes(4, "big")).digest() for i in range(blocks))[:n]


def le16(x):
    return x.to_bytes(2, "little")


def words(b):
    return [int.from_bytes(b[i:i + 2], "little") for i in range(0, len(b), 2)]


class Header:
    def __init__(self, b):
        self.bytes = b[:15]
        self.set, self.c, self.h, self.tau = b[5], b[8], b[11], b[12]
        self.n, self.m, self.a = (int.from_bytes(b[i:i + 2], "little") for i in (6, 9, 13))
        self.sigma, self.parties = 2 * self.n * self.c, 1 << self.h
        self.q, self.bound, self.table = SETS[self.set]
        self.work = 6 * self.m + 4 * self.n * self.c + 64 * self.parties
        self.length = 127 + self.a + self.sigma + (self.m - self.sigma) + self.tau * (32 + 32 * self.h + 2 * self.m)


class Prover:
    """The holder of a master: F digests, X gives matrix rows."""

    def __init__(self, F, X, header, salt, master, attributes):
        self.F, self.X, self.x, self.salt, self.attributes = F, X, Header(header), salt, attributes
        x = self.x
        self.values = [self.sample(w) for w in words(F(b"\x01" + salt + master, 2 * x.m))]
        self.seeds = [self.tree(e, F(b"\x02" + salt + bytes([e]) + master, 32)) for e in range(x.tau)]
        self.shares, self.offsets = [], []
        text = b"\x06" + x.bytes + salt + attributes
        for e in range(x.tau):
            leaves = self.seeds[e][x.parties:]
            raw = [[w % x.q for w in words(F(b"\x05" + self.leaf(e, j, s), 2 * x.m))] for j, s in enumerate(leaves)]
            offsets = [(v - sum(r[k] for r in raw)) % x.q for k, v in enumerate(self.values)]
            raw[0] = [(r + o) % x.q for r, o in zip(raw[0], offsets)]
            self.shares.append(raw)
            self.offsets.append(offsets)
            for j, s in enumerate(leaves):
                text += self.commitment(e, j)
            text += b"".join(map(le16, offsets))
        self.text6 = text
        self.d1 = F(text, 32)

    def sample(self, w):
        size = sum(1 for t in self.x.table if w >> 1 > t)
        return -size if w & 1 else size

    def leaf(self, e, j, seed):
        return self.salt + bytes([e, j]) + seed

    def tree(self, e, root):
        nodes = [None, root]
        for p in range(1, self.x.parties):
            both = self.F(b"\x03" + self.salt + bytes([e]) + le16(p) + nodes[p], 64)
            nodes += [both[:32], both[32:]]
        return nodes

    def commitment(self, e, j):
        return self.F(b"\x04" + self.leaf(e, j, self.seeds[e][self.x.parties + j]), 32)

    def product(self, seedA, kept):
        x = self.x
        S, E = kept[:x.n * x.c], kept[x.n * x.c:]
        out = []
        for i in range(x.n):
            row = [w % x.q for w in words(self.X(le16(i) + seedA, 2 * x.n))]
            out += [(sum(row[t] * S[t * x.c + l] for t in range(x.n)) + E[i * x.c + l]) % x.q for l in range(x.c)]
        return out

    def key(self, seedA, G1):
        x = self.x
        self.seedA, self.flags = seedA, select(G1(self.salt, self.d1, 8 * x.sigma), x.m, x.sigma)
        kept = [v % x.q for v, f in zip(self.values, self.flags) if f]
        self.B = self.product(seedA, kept)
        text = b"\x07" + self.salt + self.d1 + bytes(self.flags) + seedA + b"".join(map(le16, self.B))
        for e in range(x.tau):
            for share in self.shares[e]:
                text += b"".join(le16(w) for w, f in zip(share, self.flags) if not f)
                text += b"".join(map(le16, self.product(seedA, [w for w, f in zip(share, self.flags) if f])))
        self.text7 = text
        self.d2 = self.F(text, 32)
        return b"".join(map(le16, kept[:x.n * x.c] + self.B))

    def open(self, G2):
        x = self.x
        self.hidden = [b % x.parties for b in G2(self.salt, self.d1, self.d2, x.tau)]
        r = x.bytes + self.seedA + self.salt + self.d1 + self.d2 + self.attributes + b"".join(map(le16, self.B))
        r += bytes(v % 256 for v, f in zip(self.values, self.flags) if not f)
        for e, j in enumerate(self.hidden):
            path = [(x.parties + j) >> t for t in range(x.h - 1, -1, -1)]
            r += self.commitment(e, j) + b"".join(self.seeds[e][p ^ 1] for p in path) + b"".join(map(le16, self.offsets[e]))
        assert len(r) == x.length
        return r

    def entry(self, r):
        bits = bytes(sum(f << i for i, f in enumerate(self.flags[b:b + 8])) for b in range(0, self.x.m, 8))
        return r + bytes(self.hidden) + bits


def select(stream, m, sigma):
    flags = [0] * m
    for i, j in enumerate(range(m - sigma, m)):
        t = int.from_bytes(stream[8 * i:8 * i + 8], "little") % (j + 1)
        flags[j if flags[t] else t] = 1
    return flags


class Refused(Exception):
    def __str__(self):
        return "refused {} {} {}".format(*self.args)


LIMITS = [(5, "set", 1, 3), (6, "n", 1, 1344), (8, "c", 1, 8), (9, "m", None, 32768), (11, "h", 1, 8), (12, "tau", 1, 64), (13, "a", 0, 1024)]


def read(r):
    """The header of a record, or the first test that fails."""
    if len(r) < 15:
        raise Refused(1, 0, "header")
    if r[:3] != b"KPP":
        raise Refused(2, 0, "header")
    if r[3:5] != b"\x01\x00":
        raise Refused(3, 3, "header")
    field = lambda at, n: int.from_bytes(r[at:at + n], "little")
    got = dict(set=r[5], n=field(6, 2), c=r[8], m=field(9, 2), h=r[11], tau=r[12], a=field(13, 2))
    for at, name, low, high in LIMITS:
        if not (2 * got["n"] * got["c"] + 1 if low is None else low) <= got[name] <= high:
            raise Refused(4, at, "header")
    x = Header(r)
    if len(r) != x.length:
        raise Refused(5, x.length, "header")
    return x


class Entry:
    """A record with the answers to it: its parts, and its texts 6 and 7 rebuilt from it alone."""

    def __init__(self, F, X, r, hidden, flags):
        self.F, self.x, self.r, self.hidden, self.flags = F, (x := Header(r)), r, hidden, flags
        self.salt, self.d1, self.d2, self.seedA = r[31:63], r[63:95], r[95:127], r[15:31]
        at = 127 + x.a
        self.B = words(r[at:at + x.sigma])
        self.audited = [b - 256 if b > 127 else b for b in r[at + x.sigma:at + x.m]]
        self.blocks = [r[at + x.m + e * (n := 32 + 32 * x.h + 2 * x.m):][:n] for e in range(x.tau)]
        self.offsets = [words(b[32 + 32 * x.h:]) for b in self.blocks]
        helper = Prover.__new__(Prover)
        helper.F, helper.X, helper.x, helper.salt = F, X, x, self.salt
        self.text6 = b"\x06" + x.bytes + self.salt + r[127:at]
        self.text7 = b"\x07" + self.salt + self.d1 + bytes(flags) + self.seedA + b"".join(map(le16, self.B))
        self.leaves = []
        for e in range(x.tau):
            leaves = self.leaves_of(e)
            self.leaves.append(leaves)
            for j, s in enumerate(leaves):
                self.text6 += self.blocks[e][:32] if s is None else F(b"\x04" + helper.leaf(e, j, s), 32)
            self.text6 += b"".join(map(le16, self.offsets[e]))
            shares = [None if s is None else self.shares(helper, e, j, s) for j, s in enumerate(leaves)]
            known = [s for s in shares if s is not None]
            value = iter(self.audited)
            audited = [None if f else next(value) for f in flags]
            products = [None if s is None else helper.product(self.seedA, [w for w, f in zip(s, flags) if f]) for s in shares]
            for j in range(x.parties):
                if shares[j] is None:
                    part = [(audited[k] - sum(s[k] for s in known)) % x.q for k in range(x.m) if not flags[k]]
                    made = [(b - sum(p[i] for p in products if p is not None)) % x.q for i, b in enumerate(self.B)]
                else:
                    part, made = [w for w, f in zip(shares[j], flags) if not f], products[j]
                self.text7 += b"".join(map(le16, part + made))

    def leaves_of(self, e):
        x, nodes = self.x, {}
        path = [(x.parties + self.hidden[e]) >> t for t in range(x.h, -1, -1)]
        for t in range(x.h):
            nodes[path[t + 1] ^ 1] = self.blocks[e][32 + 32 * t:64 + 32 * t]
        for p in range(2, x.parties):
            if p in nodes:
                both = self.F(b"\x03" + self.salt + bytes([e]) + le16(p) + nodes[p], 64)
                nodes[2 * p], nodes[2 * p + 1] = both[:32], both[32:]
        return [nodes.get(x.parties + j) for j in range(x.parties)]

    def shares(self, helper, e, j, seed):
        raw = [w % self.x.q for w in words(self.F(b"\x05" + helper.leaf(e, j, seed), 2 * self.x.m))]
        return [(w + o) % self.x.q for w, o in zip(raw, self.offsets[e])] if j == 0 else raw

    def test_digests(self):
        if self.F(self.text6, 32) != self.d1:
            raise Refused(8, 0, "digest")
        if self.F(self.text7, 32) != self.d2:
            raise Refused(9, 0, "digest")

    def bytes(self):
        bits = bytes(sum(f << i for i, f in enumerate(self.flags[b:b + 8])) for b in range(0, self.x.m, 8))
        return self.r + bytes(self.hidden) + bits


def lodge(F, X, G1, G2, r, work, room):
    """The entry that a book with this much room makes of a record, or the refusal."""
    x = read(r)
    size = 4 + x.length + x.tau + (x.m + 7) // 8
    if work < x.work:
        raise Refused(10, x.work, "memory")
    if room < size:
        raise Refused(13, size, "book")
    at = 127 + x.a
    for i in range(at, at + x.sigma, 2):
        if words(r[i:i + 2])[0] >= x.q:
            raise Refused(6, i, "body")
    for i in range(at + x.sigma, at + x.m):
        if x.bound < r[i] < 256 - x.bound:
            raise Refused(7, i, "body")
    for e in range(x.tau):
        for i in range(o := at + x.m + e * (n := 32 + 32 * x.h + 2 * x.m) + 32 + 32 * x.h, o + 2 * x.m, 2):
            if words(r[i:i + 2])[0] >= x.q:
                raise Refused(6, i, "body")
    salt, d1, d2 = r[31:63], r[63:95], r[95:127]
    flags = select(G1(salt, d1, 8 * x.sigma), x.m, x.sigma)
    entry = Entry(F, X, r, [b % x.parties for b in G2(salt, d1, d2, x.tau)], flags)
    entry.test_digests()
    return entry


def recover(book, i, j, e, work, room):
    """Label, position and the bytes written, or the refusal."""
    for k in (i, j):
        if k >= len(book):
            raise Refused(14, k, "book")
    a, b = book[i], book[j]
    if a.r[:15] + a.r[31:127] != b.r[:15] + b.r[31:127]:
        raise Refused(17, 0, "book")
    if e >= a.x.tau or a.hidden[e] == b.hidden[e]:
        raise Refused(18, e, "book")
    if work < 2 * a.x.work:
        raise Refused(10, 2 * a.x.work, "memory")
    if room < (due := 32 * a.x.parties + 2 * a.x.m):
        raise Refused(12, due, "memory")
    a.test_digests()
    b.test_digests()
    for label, t, u in ((6, a.text6, b.text6), (7, a.text7, b.text7)):
        if t != u:
            return label, next(k for k, (y, z) in enumerate(zip(t, u)) if y != z), b""
    seeds = [b.leaves[e][k] if s is None else s for k, s in enumerate(a.leaves[e])]
    shares = [words(a.F(b"\x05" + a.salt + bytes([e, k]) + s, 2 * a.x.m)) for k, s in enumerate(seeds)]
    values = [(o + sum(s[k] for s in shares)) % a.x.q for k, o in enumerate(a.offsets[e])]
    return 0, 0, b"".join(seeds) + b"".join(map(le16, values))


def challenger(F, case):
    if case["challenger"] == "derived":
        return (lambda s, d, n: F(b"\x08" + s + d, n)), (lambda s, d, d2, n: F(b"\x09" + s + d + d2, n))
    one, two = bytes.fromhex(case["station1"]), bytes.fromhex(case["station2"])
    return (lambda s, d, n: F(b"\x0a" + one, n)), (lambda s, d, d2, n: F(b"\x0b" + two, n))


KINDS = {"shake256": shake256, "sha512": sha512}


def blocks(path):
    """Lists of (name, value), each beginning at its line 'kind'."""
    out = []
    for line in open(path).read().split("\n"):
        name, _, value = line.partition(" ")
        if name == "kind":
            out.append([])
        if out and line and name not in ("#", "case"):
            out[-1].append((name, value))
    return out


def check_records(path):
    for pairs in (cases := blocks(path)):
        case = dict(pairs)
        F = KINDS[case["kind"]]
        G1, G2 = challenger(F, case)
        field = lambda name: bytes.fromhex(case[name])
        p = Prover(F, shake128, field("header"), field("salt"), field("master"), field("attributes"))
        assert p.text6 == field("text6") and p.d1 == field("d1")
        assert p.key(field("seedA"), G1) == field("key") and p.d2 == field("d2")
        assert p.open(G2) == field("record")
        entry = lodge(F, shake128, G1, G2, field("record"), 1 << 30, 1 << 30)
        assert entry.bytes() == field("entry") and (entry.text6, entry.text7) == (p.text6, p.text7)
    return len(cases)


def check_refusals(path):
    for pairs in (cases := blocks(path)):
        case = dict(pairs)
        F = KINDS[case["kind"]]
        G1, G2 = challenger(F, {"challenger": "derived"})
        try:
            lodge(F, shake128, G1, G2, bytes.fromhex(case["record"]), 1 << 30, 1 << 30)
            line = "accepted"
        except Refused as refused:
            line = str(refused)
        assert line == case["line"], (line, case["line"])
    return len(cases)


def check_recoveries(path):
    count = 0
    for pairs in blocks(path):
        case, book = dict(pairs), []
        F = KINDS[case["kind"]]
        for k in ("0", "1"):
            G1, G2 = challenger(F, {"challenger": "drawn", "station1": case["first" + k], "station2": case["second" + k]})
            book.append(lodge(F, shake128, G1, G2, bytes.fromhex(case["record" + k]), 1 << 30, 1 << 30))
        for name, value in pairs:
            if name != "recover":
                continue
            question, _, answer = value.partition(": ")
            i, j, e = map(int, question.split())
            try:
                label, at, out = recover(book, i, j, e, 1 << 30, 1 << 30)
                got = f"label {label} position {at}" + (" output " + out.hex() if out else "")
            except Refused as refused:
                got = str(refused)
            assert got == answer, (got[:60], answer[:60])
            count += 1
    return count


if __name__ == "__main__":
    checks = {"records": check_records, "refusals": check_refusals, "recoveries": check_recoveries}
    if len(sys.argv) == 4 and sys.argv[1] == "check" and sys.argv[2] in checks:
        print(checks[sys.argv[2]](sys.argv[3]), sys.argv[2], "agree")
    else:
        sys.exit(__doc__)
