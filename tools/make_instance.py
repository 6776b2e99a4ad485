#!/usr/bin/env python3
"""Writes crates/instance/specs/Values.antt: a ceremony with a toy digest function, by tools/reference.py.

The toy function has collisions that are easily found, so that every branch of the guarantee has an instance.
"""
import os
import sys

sys.path.insert(0, os.path.dirname(os.path.abspath(__file__)))
from reference import Prover, Refused, lodge, recover

WORK, ENTRY = 338, 385


def poly(text):
    total = 1
    for b in reversed(text):
        total = (b + 257 * total) % 65521
    return total


def mix(text, n):
    p = poly(text)
    return bytes((p * (2 * i + 3) + i) // 8 % 256 for i in range(n))


def first(salt, d1, n):
    return mix(b"\x08" + salt + d1, n)


def second(v):
    return lambda salt, d1, d2, n: bytes((b + v) % 256 for b in mix(b"\x09" + salt + d1 + d2, n))


HEADER = bytes([75, 80, 80, 1, 0, 1, 2, 0, 2, 11, 0, 2, 2, 3, 0])
SALT, MASTER, SEED_A = bytes(range(32)), bytes(range(100, 132)), bytes(range(16))
ATTRIBUTES = bytes([0, 1, 2])


def prover(attributes, seedA):
    p = Prover(mix, mix, HEADER, SALT, MASTER, attributes)
    return p, p.key(seedA, first)


def other_attributes(p):
    """Others under which text 6 has the same digest: three bytes of the same weight."""
    weight = lambda t: (t[0] + 257 * t[1] + 257 * 257 * t[2]) % 65521
    for k in range(1 << 24):
        t = k.to_bytes(3, "big")
        if weight(t) == weight(ATTRIBUTES) and t != ATTRIBUTES:
            return t


def other_seed(p):
    """Another seedA under which text 7 has the same digest."""
    want = poly(p.text7)
    for k in range(1, 1 << 24):
        q, _ = prover(ATTRIBUTES, SEED_A[:13] + k.to_bytes(3, "big"))
        if poly(q.text7) == want and q.seedA != SEED_A:
            return q.seedA


def listed(b):
    return " ∷ ".join([str(x) for x in b] + ["[]"])


def main():
    out = []

    def put(name, value, note=None):
        if note:
            out.append(f"-- {note}")
        out.append(f"abbrev pub {name} : List ℕ\n{name} = {listed(value)}\n")

    p, key = prover(ATTRIBUTES, SEED_A)
    one, two = p.open(second(0)), p.open(second(1))
    book = [lodge(mix, mix, first, second(v), r, WORK, ENTRY) for v, r in ((0, one), (1, two))]
    memory = b"".join(len(a.r).to_bytes(4, "little") + a.bytes() for a in book)
    label, at, seeds_and_values = recover(book, 0, 1, 0, 2 * WORK, 1 << 20)
    assert (label, at) == (0, 0) and len(memory) == 2 * ENTRY
    for question, due in (
        (lambda: lodge(mix, mix, first, second(1), one, WORK, ENTRY), (8, 0, "digest")),
        (lambda: recover(book, 0, 0, 0, 0, 0), (18, 0, "book")),
        (lambda: recover(book, 0, 1, 0, 675, 0), (10, 676, "memory")),
        (lambda: recover(book, 0, 1, 0, 676, 149), (12, 150, "memory")),
    ):
        try:
            question()
            raise AssertionError(due)
        except Refused as refused:
            assert refused.args == due
    put("the_header", HEADER)
    put("the_salt", SALT)
    put("the_master", MASTER)
    put("the_attributes", ATTRIBUTES)
    put("the_seed_a", SEED_A)
    put("the_d1", p.d1)
    put("the_d2", p.d2)
    put("the_key", key, "S mod q, then B")
    put("first_record", one)
    put("second_record", two)
    put("the_memory", memory, "the book after both were lodged")
    put("the_recovered", seeds_and_values, "four leaf seeds of repetition 0, and eleven values")

    def differing(label, attributes, seedA):
        """A record of other attributes or another seedA under the same digests, and where recover says that the texts differ."""
        q, _ = prover(attributes, seedA)
        assert (q.d1, q.d2) == (p.d1, p.d2)
        r = q.open(second(1))
        a = lodge(mix, mix, first, second(1), r, WORK, ENTRY)
        answer = recover([book[0], a], 0, 1, 0, 2 * WORK, 1 << 20)
        assert answer[0] == label
        return r, answer[1]

    other, seed = other_attributes(p), other_seed(p)
    r6, at6 = differing(6, other, SEED_A)
    put("other_attributes", other, "a collision of text 6: other attributes under the same digest")
    put("other_text6_record", r6)
    out.append(f"abbrev pub text6_differs_at : ℕ\ntext6_differs_at = {at6}\n")

    r7, at7 = differing(7, ATTRIBUTES, seed)
    put("other_seed_a", seed, "a collision of text 7: another seed_a under the same digest")
    put("other_text7_record", r7)
    out.append(f"abbrev pub text7_differs_at : ℕ\ntext7_differs_at = {at7}\n")

    both, at = differing(6, other, seed)
    assert at == at6
    put("both_differ_record", both, "other attributes and another seed_a")

    q, _ = prover(ATTRIBUTES, bytes(16))
    assert q.d1 == p.d1 and q.d2 != p.d2
    apart = q.open(second(1))
    try:
        recover([book[0], lodge(mix, mix, first, second(1), apart, WORK, ENTRY)], 0, 1, 0, 0, 0)
        raise AssertionError
    except Refused as refused:
        assert refused.args == (17, 0, "book")
    put("other_d2_record", apart, "a third seed_a, under another d2")

    out.append("-- the first record with one byte changed, and the refusal that is due")
    rows = []
    edits = [(0, 74), (3, 2), (4, 1), (5, 0), (5, 2), (5, 4), (6, 0), (7, 6), (8, 0), (8, 9), (9, 8), (10, 128), (11, 0), (11, 9), (12, 0), (12, 65),
             (13, 4), (14, 4), (15, 99), (31, 99), (63, 0), (95, 0), (127, 7), (130, 200), (131, 128), (137, 255), (138, 12), (138, 13), (140, 243), (140, 244),
             (141, 1), (173, 1), (205, 1), (237, 1), (238, 128), (258, 200), (259, 9), (355, 1), (376, 200)]
    for at, value in edits:
        r = one[:at] + bytes([value]) + one[at + 1:]
        assert r != one, at
        try:
            lodge(mix, mix, first, second(0), r, WORK, ENTRY)
            raise AssertionError(at)
        except Refused as refused:
            number, place, layer = refused.args
            rows.append(f"spoiled {at} {value} {number} {place} {layer.capitalize()}")
    out.append("abbrev pub spoiled_records : List Spoiled\nspoiled_records =\n    " + "\n    ∷ ".join(rows) + "\n    ∷ []\n")

    out.append("-- with two bytes changed, each of which alone is refused: the first test in the order decides")
    pairs = []
    doubles = [(0, 74, 3, 2), (3, 2, 5, 4), (5, 4, 7, 6), (7, 6, 8, 9), (8, 9, 10, 128), (10, 128, 11, 9), (11, 9, 12, 65), (12, 65, 14, 5), (14, 5, 131, 128),
               (131, 128, 138, 13), (138, 13, 238, 128), (238, 128, 356, 200), (31, 99, 95, 0), (238, 128, 31, 99)]
    for at, value, then, other in doubles:
        r = bytearray(one)
        r[at], r[then] = value, other
        try:
            lodge(mix, mix, first, second(0), bytes(r), WORK, ENTRY)
            raise AssertionError(at)
        except Refused as refused:
            number, place, layer = refused.args
            pairs.append(f"twice {at} {value} {then} {other} {number} {place} {layer.capitalize()}")
    out.append("abbrev pub twice_spoiled : List Spoiled\ntwice_spoiled =\n    " + "\n    ∷ ".join(pairs) + "\n    ∷ []\n")

    head = """-- Values of one ceremony under a toy digest function, written by tools/make_instance.py.
use Rattle.std.specs.Prelude.{ℕ, List, [], ◌∷◌}
use Rattle.protocol.specs.declared.fault.Layer.{Layer}
use Rattle.protocol.specs.declared.fault.Layer.TheVariants.{Header, Body, Digest}

-- which byte, its new value, and the refusal's number, place and layer; or two bytes and values
pub data Spoiled : Type 0 where
  spoiled : ℕ → ℕ → ℕ → ℕ → Layer → Spoiled
  twice : ℕ → ℕ → ℕ → ℕ → ℕ → ℕ → Layer → Spoiled

"""
    path = os.path.join(os.path.dirname(os.path.abspath(__file__)), "..", "crates", "instance", "specs", "Values.antt")
    open(path, "w").write(head + "\n".join(out))
    print(len(rows), "spoiled records; texts 6 differ at", at6, "and texts 7 at", at7)


main()
