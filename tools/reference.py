#!/usr/bin/env python3
"""The published methods once more, in plain Python and with nothing taken from the product: AES-128, Speck128/128, Horner,
BRW, the sector transform, stacks of layers over a spared medium, and the run of a sheet.

  reference.py example     the worked example of docs/transform.md, with every value on the way
  reference.py check       reads lines of known answers from standard input, in the format of the program `vectors`
  reference.py runs        reads runs from standard input, in the format of the program `runs`, and checks every answer
  reference.py make NAME SEED CALLS spared COUNT LENGTH SPARES BAD [encipher CIPHER HASH | window BASE COUNT]...
                           writes a run of this shape, with drawn bytes, keys and calls (BAD: numbers with commas, or -)
  reference.py sheet       reads a sheet from standard input and prints the lines of docs/sheets.md
"""
import random
import sys

BLOCK = 16


# ---- polynomials over bits

def product(a, b, modulus, width):
    """The product of two polynomials, by schoolbook multiplication and then division."""
    wide = 0
    for i in range(width):
        if b >> i & 1:
            wide ^= a << i
    for i in range(2 * width - 2, width - 1, -1):
        if wide >> i & 1:
            wide ^= modulus << (i - width)
    return wide


def times(a, b):
    return product(a, b, 1 << 128 | 0x87, 128)


def power(t, n):
    value = 1
    for _ in range(n):
        value = times(value, t)
    return value


def horner(t, xs):
    value = 0
    for x in xs:
        value = times(value, t) ^ x
    return value


def brw(t, xs):
    m = len(xs)
    if m == 0:
        return 0
    if m == 1:
        return xs[0]
    if m == 2:
        return times(xs[0], t) ^ xs[1]
    if m == 3:
        return times(xs[0] ^ t, xs[1] ^ times(t, t)) ^ xs[2]
    p, tp = 1, t
    while 2 * p <= m:
        p, tp = 2 * p, times(tp, tp)
    return times(brw(t, xs[:p - 1]), xs[p - 1] ^ tp) ^ brw(t, xs[p:])


# ---- block functions

def byte_times(a, b):
    return product(a, b, 0x11B, 8)


def make_sbox():
    inverse = [0] + [next(y for y in range(1, 256) if byte_times(x, y) == 1) for x in range(1, 256)]
    rotate = lambda x, n: (x << n | x >> (8 - n)) & 0xFF
    return [x ^ rotate(x, 1) ^ rotate(x, 2) ^ rotate(x, 3) ^ rotate(x, 4) ^ 0x63 for x in inverse]


SBOX = make_sbox()


def aes(key):
    words = [list(key[4 * i:4 * i + 4]) for i in range(4)]
    constant = 1
    for i in range(4, 44):
        t = words[i - 1]
        if i % 4 == 0:
            t = [SBOX[x] for x in t[1:] + t[:1]]
            t[0] ^= constant
            constant = byte_times(constant, 2)
        words.append([a ^ b for a, b in zip(words[i - 4], t)])
    keys = [sum(words[4 * r:4 * r + 4], []) for r in range(11)]

    def call(x):
        s = [a ^ b for a, b in zip(x.to_bytes(BLOCK, "big"), keys[0])]
        for r in range(1, 11):
            s = [SBOX[x] for x in s]
            s = [s[(i + 4 * (i % 4)) % 16] for i in range(16)]
            if r < 10:
                mixed = []
                for c in range(4):
                    col = s[4 * c:4 * c + 4]
                    for row in range(4):
                        mixed.append(byte_times(2, col[row]) ^ byte_times(3, col[(row + 1) % 4]) ^ col[(row + 2) % 4] ^ col[(row + 3) % 4])
                s = mixed
            s = [a ^ b for a, b in zip(s, keys[r])]
        return int.from_bytes(bytes(s), "big")
    return call


def speck(key):
    mask = (1 << 64) - 1
    right = lambda x, n: (x >> n | x << (64 - n)) & mask
    left = lambda x, n: (x << n | x >> (64 - n)) & mask

    def call(x):
        u, v = x >> 64, x & mask
        l, k = int.from_bytes(key[:8], "big"), int.from_bytes(key[8:], "big")
        for i in range(32):
            u = (right(u, 8) + v & mask) ^ k
            v = left(v, 3) ^ u
            l = (k + right(l, 8) & mask) ^ i
            k = left(k, 3) ^ l
        return u << 64 | v
    return call


CIPHERS = {"aes": aes, "speck": speck}
HASHES = {"horner": lambda t, xs: horner(t, [1] + xs), "brw": brw}


# ---- the transform

def blocks(text):
    return [int.from_bytes(text[i:i + BLOCK], "big") for i in range(0, len(text), BLOCK)]


def joined(xs):
    return b"".join(x.to_bytes(BLOCK, "big") for x in xs)


def encipher(f, g, sector, text, note=lambda name, value: None):
    p1, p2, *tail = blocks(text)
    t = f(int.from_bytes(b"LENS HEAD SECTOR", "big"))
    note("t", t)
    h = times(t, g(t, tail + [sector]))
    note("h(tail)", h)
    a1 = p1 ^ h
    a2 = p2 ^ times(t, a1)
    b1 = a1 ^ f(a2)
    b2 = a2 ^ f(b1)
    z = b1 ^ b2
    for name, value in (("A1", a1), ("A2", a2), ("B1", b1), ("B2", b2), ("Z", z)):
        note(name, value)
    tail = [x ^ f(z ^ i) for i, x in enumerate(tail, 1)]
    for i, x in enumerate(tail, 1):
        note(f"tail block {i}", x)
    h = times(t, times(t, g(t, tail + [sector])))
    note("h'(tail)", h)
    c2 = b2 ^ h
    c1 = b1 ^ times(t, b2)
    note("C1", c1)
    note("C2", c2)
    return joined([c1, c2] + tail)


def decipher(f, g, sector, text):
    c1, c2, *tail = blocks(text)
    t = f(int.from_bytes(b"LENS HEAD SECTOR", "big"))
    b2 = c2 ^ times(t, times(t, g(t, tail + [sector])))
    b1 = c1 ^ times(t, b2)
    a2 = b2 ^ f(b1)
    a1 = b1 ^ f(a2)
    tail = [x ^ f(b1 ^ b2 ^ i) for i, x in enumerate(tail, 1)]
    p2 = a2 ^ times(t, a1)
    p1 = a1 ^ times(t, g(t, tail + [sector]))
    return joined([p1, p2] + tail)


# ---- stacks over a spared medium

BUFFER_LENGTH, SECTOR_NUMBER, SECTOR_FAILED = 2, 4, 5
LAST_LAYER = 65535


class Refused(Exception):
    """A refused read or write: number, sector, layer."""


class Spared:
    """The medium: each sector's place is worked out once, from the list of bad sectors."""

    def __init__(self, count, length, spares, bad, data):
        sound = (0 <= count <= 65536 and 64 <= length <= 4096 and length % 16 == 0 and 0 <= spares <= 16
                 and len(bad) <= 16 and len(set(bad)) == len(bad) and all(b < count for b in bad)
                 and len(data) == (count + spares) * length)
        self.data, self.layer = bytearray(data), 0
        self.count, self.length = (count, length) if sound else (0, 64)
        self.places = {n: n for n in range(self.count)}
        self.failed = {}
        for i, n in enumerate(bad if sound else []):
            if i < spares:
                self.places[n] = count + i
            else:
                self.failed[n] = (n, 0)

    def get(self, n):
        at = self.places[n] * self.length
        return bytes(self.data[at:at + self.length])

    def put(self, n, text):
        at = self.places[n] * self.length
        self.data[at:at + self.length] = text


class Encipher:
    def __init__(self, below, cipher, hash_name, key):
        self.below, self.f, self.g = below, CIPHERS[cipher](key), HASHES[hash_name]
        self.count, self.length, self.failed = below.count, below.length, dict(below.failed)
        self.layer = min(below.layer + 1, LAST_LAYER)

    def get(self, n):
        return decipher(self.f, self.g, n, self.below.get(n))

    def put(self, n, text):
        self.below.put(n, encipher(self.f, self.g, n, text))


class Window:
    def __init__(self, below, base, count):
        self.below, self.base, self.length = below, base, below.length
        self.count = count if base + count <= below.count else 0
        self.failed = {n - base: place for n, place in below.failed.items() if base <= n < base + self.count}
        self.layer = min(below.layer + 1, LAST_LAYER)

    def get(self, n):
        return self.below.get(self.base + n)

    def put(self, n, text):
        self.below.put(self.base + n, text)


def state(store, n):
    return SECTOR_NUMBER if n >= store.count else SECTOR_FAILED if n in store.failed else 0


def admit(store, n, length):
    if length != store.length:
        raise Refused(BUFFER_LENGTH, n, store.layer)
    if n >= store.count:
        raise Refused(SECTOR_NUMBER, n, store.layer)
    if n in store.failed:
        raise Refused(SECTOR_FAILED, *store.failed[n])


def written(data):
    return data.hex() if data else "-"


def unwritten(word):
    return b"" if word == "-" else bytes.fromhex(word)


def answered(store, words):
    """The line of a call with its answer, from the call's own words."""
    call = " ".join(words)
    n = int(words[1])
    if words[0] == "state":
        return f"{call} = {state(store, n)}"
    try:
        if words[0] == "read":
            admit(store, n, int(words[2]))
            return f"{call} = 0 {store.get(n).hex()}"
        text = unwritten(words[2])
        admit(store, n, len(text))
        store.put(n, text)
        return f"{call} = 0"
    except Refused as refused:
        return "{} = {} sector {} layer {}".format(call, *refused.args)


def figures(store):
    return f"stack count={store.count} length={store.length} layer={store.layer}"


def built(medium, layers):
    store = medium
    for kind, *rest in layers:
        if kind == "encipher":
            store = Encipher(store, rest[0], rest[1], bytes.fromhex(rest[2]))
        else:
            store = Window(store, int(rest[0]), int(rest[1]))
    return store


def numbers(word):
    return [] if word == "-" else [int(n) for n in word.split(",")]


def read_medium(words):
    value = dict(word.split("=") for word in words)
    return Spared(int(value["count"]), int(value["length"]), int(value["spares"]), numbers(value["bad"]), unwritten(value["bytes"]))


def check_run(lines):
    """Whether the lines of a run, from its medium to its end, are those worked out here."""
    medium = read_medium(lines[0].split()[1:])
    at = next(i for i, line in enumerate(lines) if line.startswith("stack "))
    store = built(medium, [line.split() for line in lines[1:at]])
    if lines[at] != figures(store):
        return f"differs: {figures(store)}"
    for line in lines[at + 1:-1]:
        worked_out = answered(store, line.split(" = ")[0].split())
        if line != worked_out:
            return f"differs: {worked_out[:80]}"
    return f"{len(lines) - at - 2} calls agree" if lines[-1] == f"end bytes={written(medium.data)}" else "differs: end"


def check_runs():
    lines = [line.rstrip("\n") for line in sys.stdin if line.strip() and not line.startswith("#")]
    starts = [i for i, line in enumerate(lines) if line.startswith("run ")]
    verdicts = [check_run(lines[start + 1:end]) for start, end in zip(starts, starts[1:] + [len(lines)])]
    for start, verdict in zip(starts, verdicts):
        print(lines[start], verdict)
    agree = sum(verdict.endswith(" agree") for verdict in verdicts)
    print(f"{agree} agree, {len(verdicts) - agree} differ")


def drawn_call(source, store):
    """A call: mostly an accepted one, now and then a sector past the count or a buffer of another length."""
    past = [store.count, store.count + 1, source.getrandbits(64)]
    n = source.choice(past) if source.random() < 0.15 or store.count == 0 else source.randrange(store.count)
    other = [0, store.length - 1, store.length + 1, store.length + 16]
    length = source.choice(other) if source.random() < 0.12 else store.length
    kind = source.choice(["read", "read", "write", "write", "state"])
    return {"read": [kind, str(n), str(length)], "write": [kind, str(n), written(source.randbytes(length))], "state": [kind, str(n)]}[kind]


def make_run(name, seed, calls, _, count, length, spares, bad, *shape):
    source = random.Random(int(seed))
    data = source.randbytes((int(count) + int(spares)) * int(length))
    medium = Spared(int(count), int(length), int(spares), numbers(bad), data)
    layers = [list(shape[i:i + 3]) for i in range(0, len(shape), 3)]
    for layer in layers:
        if layer[0] == "encipher":
            layer.append(source.randbytes(16).hex())
    store = built(medium, layers)
    print(f"run {name}")
    print(f"spared count={count} length={length} spares={spares} bad={bad} bytes={written(data)}")
    for layer in layers:
        print(*layer)
    print(figures(store))
    for _ in range(int(calls)):
        print(answered(store, drawn_call(source, store)))
    print(f"end bytes={written(medium.data)}")


# ---- sheets

LONGEST_SHEET = 61440
CIPHER_NUMBERS = {1: aes, 2: speck}
HASH_NUMBERS = {1: HASHES["horner"], 2: HASHES["brw"]}


def pair(data, at):
    return data[at] << 8 | data[at + 1]


def records(sheet):
    """The bodies of a sheet's records, and None where it is broken."""
    if not 1 <= len(sheet) <= LONGEST_SHEET or sheet[0] != 1:
        yield None
        return
    at = 1
    while at < len(sheet):
        body = sheet[at + 2:at + 2 + pair(sheet, at)] if at + 2 <= len(sheet) else b""
        lengths = {1: len(body) == 23, 2: len(body) >= 3, 3: len(body) == 3}
        if at + 2 > len(sheet) or len(body) != pair(sheet, at) or not lengths.get(body[0] if body else 0):
            yield None
            return
        yield body
        at += 2 + len(body)


class Bench:
    """An enciphering layer over a zeroed flat medium, once a setting is accepted."""

    def __init__(self):
        self.medium = None

    def setting(self, body):
        cipher, hash_, length, count, key = body[1], body[2], pair(body, 3), pair(body, 5), body[7:]
        if self.medium is not None:
            return 8
        figures = length % 16 == 0 and 64 <= length <= 4096 and count > 0 and length * count <= 32768
        if cipher not in CIPHER_NUMBERS or hash_ not in HASH_NUMBERS or not figures:
            return 6
        self.f, self.g, self.length = CIPHER_NUMBERS[cipher](key), HASH_NUMBERS[hash_], length
        self.medium = [bytes(length)] * count
        return 0

    def write(self, sector, text):
        if self.medium is None:
            return 8
        if len(text) != self.length:
            return 2
        if sector >= len(self.medium):
            return 4
        self.medium[sector] = encipher(self.f, self.g, sector, text)
        return 0

    def read(self, sector):
        if self.medium is None:
            return 8, None
        if sector >= len(self.medium):
            return 4, None
        return 0, decipher(self.f, self.g, sector, self.medium[sector])


def sheet():
    print("record kind sector answer first")
    bench = Bench()
    for index, body in enumerate(records(sys.stdin.buffer.read(LONGEST_SHEET + 1))):
        if body is None:
            print(index, "broken - 7 -")
        elif body[0] == 1:
            print(index, "setting -", bench.setting(body), "-")
        elif body[0] == 2:
            print(index, "write", pair(body, 1), bench.write(pair(body, 1), body[3:]), "-")
        else:
            answer, text = bench.read(pair(body, 1))
            print(index, "read", pair(body, 1), answer, "-" if text is None else text[:8].hex().upper())


# ---- the commands

def example():
    key, sector, text = bytes(range(16)), 7, bytes(range(64))
    print(f"cipher aes, hash brw, key {key.hex().upper()}, sector {sector}")
    print(f"text {text.hex().upper()}")
    out = encipher(aes(key), brw, sector, text, lambda name, value: print(f"{name:<14}{value:032X}"))
    print(f"output {out.hex().upper()}")
    assert decipher(aes(key), brw, sector, out) == text


def agrees(words):
    data = lambda w: b"" if w == "-" else bytes.fromhex(w)
    number = lambda w: int.from_bytes(data(w), "big")
    if words[0] == "product":
        return times(number(words[1]), number(words[2])) == number(words[3])
    if words[0] in ("horner", "brw") and len(words) == 4:
        f = horner if words[0] == "horner" else brw
        return f(number(words[1]), blocks(data(words[2]))) == number(words[3])
    if len(words) == 4:
        return CIPHERS[words[0]](data(words[1]))(number(words[2])) == number(words[3])
    f, g, sector = CIPHERS[words[0]](data(words[2])), HASHES[words[1]], int(words[3])
    plain, enciphered = data(words[4]), data(words[5])
    return encipher(f, g, sector, plain) == enciphered and decipher(f, g, sector, enciphered) == plain


def check():
    verdicts = [agrees(line.split()) for line in sys.stdin if line.strip() and not line.startswith("#")]
    print(f"{sum(verdicts)} agree, {len(verdicts) - sum(verdicts)} differ")


if __name__ == "__main__":
    commands = {"example": example, "check": check, "runs": check_runs, "make": make_run, "sheet": sheet}
    commands[sys.argv[1]](*sys.argv[2:])
