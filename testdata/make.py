#!/usr/bin/env python3
"""Makes the images and transcripts of this folder.

This script is a third witness beside the proved engine and the plain Rust build. It is written from the papers on format
and requests alone, uses neither of the two, and its AES is somebody else's: that of the Python package `cryptography`.
Whatever the two builds have in common, a misreading of the papers for example, shows where their answers differ from those
written here.

    python3 make.py            writes the files beside the script
    python3 make.py --check    writes nothing, and tells which files are not what the script makes

It needs Python 3.8 and the package `cryptography` (Debian: python3-cryptography). Every key, IV, filler and tape comes
from SHA-256 over a name and a counter, so that each run gives the same bytes.

The parts: noise, ciphers, layout, the making of images, a model of the calls, transcripts, scenarios. README.md describes
the transcripts. The answers in the scenarios are written by hand; the model has to arrive at the same ones, and gives the
tables, bytes and positions that follow from them.
"""

import functools
import hashlib
import itertools
import os
import sys
from collections import namedtuple

from cryptography.exceptions import InvalidTag
from cryptography.hazmat.primitives.ciphers import Cipher, algorithms, modes
from cryptography.hazmat.primitives.ciphers.aead import AESGCM

MARK = 0xFFFFFFFF  # the entry of an unmapped logical slice
VOLUMES = 15
NO_KEY = bytes(32)
FF16 = bytes([255] * 16)


# ---------------------------------------------------------------------------------------------------------------- noise


class Noise:
    """Bytes without a pattern that are the same at each run: SHA-256(name, counter), counter 0, 1, 2 .. in eight bytes."""

    def __init__(self, name):
        self.name = name.encode()
        self.counter = 0
        self.rest = b""

    def take(self, count):
        parts = [self.rest]
        held = len(self.rest)
        while held < count:
            parts.append(hashlib.sha256(self.name + self.counter.to_bytes(8, "big")).digest())
            self.counter += 1
            held += 32
        whole = b"".join(parts)
        self.rest = whole[count:]
        return whole[:count]

    def shuffled(self, items):
        items = list(items)
        for place in range(len(items) - 1, 0, -1):
            other = int.from_bytes(self.take(8), "big") % (place + 1)
            items[place], items[other] = items[other], items[place]
        return items


# -------------------------------------------------------------------------------------------------------------- ciphers


@functools.lru_cache(maxsize=4096)
def counter_mode(key, iv, text):
    """AES-256 in counter mode: the IV is the first counter, each next adds one, all FF is followed by all 00. What it gave
    is kept, since the same blocks are deciphered again and again."""
    assert len(key) == 32 and len(iv) == 16
    first = int.from_bytes(iv, "big")
    blocks = (len(text) + 15) // 16
    counters = b"".join(((first + n) % 2**128).to_bytes(16, "big") for n in range(blocks))
    stream = Cipher(algorithms.AES(key), modes.ECB()).encryptor().update(counters)
    out = bytes(a ^ b for a, b in zip(text, stream))
    assert out == Cipher(algorithms.AES(key), modes.CTR(iv)).encryptor().update(bytes(text))
    return out


def seal(key, iv, text, associated):
    """AES-256-GCM as it stands on the device: IV 12, ciphertext, tag 16."""
    assert len(key) == 32 and len(iv) == 12
    return iv + AESGCM(key).encrypt(iv, text, associated)


def unseal(key, sealed, associated):
    """The text of what seal gave, or None where the tag is wrong."""
    try:
        return AESGCM(key).decrypt(bytes(sealed[:12]), bytes(sealed[12:]), associated)
    except InvalidTag:
        return None


def product(x, y):
    """In GCM's field: bit 0 of a block is its first, x^128 is 1 + x + x^2 + x^7."""
    z = 0
    for bit in range(127, -1, -1):
        if x >> bit & 1:
            z ^= y
        y = y >> 1 ^ (0xE1 << 120 if y & 1 else 0)
    return z


def power(x, exponent):
    z = 1 << 127  # the field's one
    while exponent:
        if exponent & 1:
            z = product(z, x)
        x, exponent = product(x, x), exponent >> 1
    return z


def text_for_two(key, other, iv, associated, first):
    """A text of 32 bytes, with its 16 first given, whose sealing under `key` opens under `other` too.

    GCM does not bind a sealing to its key. With A the associated data, C and D the ciphertext, L the lengths and H and M
    a key's hash key and mask, the tag is A H^4 + C H^3 + D H^2 + L H + M. The two tags are equal for one D.
    """
    whole = 0
    squares = 0
    streams = []
    for each in (key, other):
        encrypt = Cipher(algorithms.AES(each), modes.ECB()).encryptor().update
        streams.append([int.from_bytes(encrypt(iv + n.to_bytes(4, "big")), "big") for n in (1, 2, 3)])
        H = int.from_bytes(encrypt(bytes(16)), "big")
        C = int.from_bytes(first, "big") ^ streams[0][1]
        A = int.from_bytes(associated.ljust(16, b"\0"), "big")
        L = 8 * len(associated) << 64 | 8 * 32
        for part, degree in ((A, 4), (C, 3), (L, 1)):
            whole ^= product(part, power(H, degree))
        whole ^= streams[-1][0]
        squares ^= power(H, 2)
    D = product(whole, power(squares, 2**128 - 2))
    text = first + (D ^ streams[0][2]).to_bytes(16, "big")
    assert unseal(other, seal(key, iv, text, associated), associated) not in (None, text)
    return text


# --------------------------------------------------------------------------------------------------------------- layout


def number(n):
    """A number on the device: four bytes, most significant first."""
    return n.to_bytes(4, "big")


def number_at(data, at):
    return int.from_bytes(data[at : at + 4], "big")


class Geometry(namedtuple("Geometry", "B S P")):
    """B bytes in a block, S data blocks in a slice, P slices. Places are given in bytes from the device's beginning."""

    def allowed(self):
        return self.B in (1024, 4096) and 1 <= self.S <= self.B // 16 and 1 <= self.P <= 4096

    @property
    def entries(self):
        """Entries in a map block, behind its IV."""
        return (self.B - 16) // 4

    @property
    def m(self):
        """Map blocks of a volume."""
        return -(-self.P // self.entries)

    @property
    def H(self):
        """Header blocks: the master block, then for each volume a header block and its map blocks."""
        return 1 + VOLUMES * (1 + self.m)

    @property
    def length(self):
        return self.B * (self.H + self.P * (self.S + 1))

    def cell(self, i):
        return 16 + 60 * i

    def header(self, i):
        return self.B * (1 + i * (1 + self.m))

    def map_block(self, i, n):
        return self.header(i) + self.B * (1 + n)

    def slice(self, psi):
        return self.B * (self.H + psi * (self.S + 1))

    def iv(self, psi, j):
        """The IV of data block j, in the slice's IV block."""
        return self.slice(psi) + 16 * j

    def data(self, psi, j):
        return self.slice(psi) + self.B * (1 + j)


CELL = 12 + 32 + 16
HEADER = 12 + 72 + 16


def check_layout():
    """The paper's own cases."""
    bench = Geometry(1024, 4, 4)
    assert (bench.m, bench.H, bench.length) == (1, 31, 52224)
    assert Geometry(1024, 1, 252).m == 1
    assert (Geometry(1024, 1, 253).m, Geometry(1024, 1, 253).H) == (2, 46)
    large = Geometry(4096, 256, 4096)
    assert (large.m, large.H, large.length) == (5, 91, 4312117248)
    assert Geometry(1024, 64, 1).allowed() and not Geometry(1024, 65, 1).allowed()
    assert not Geometry(1024, 1, 0).allowed() and not Geometry(1024, 1, 4097).allowed()
    assert (bench.cell(14), bench.cell(14) + CELL - 1) == (856, 915)
    assert bench.data(2, 3) == 1024 * 45 == 46080


# ----------------------------------------------------------------------------------------------------- making of images


def put(device, at, data):
    assert 0 <= at and at + len(data) <= len(device)
    device[at : at + len(data)] = data


class Image:
    """A device image in the making. It is noise at first; cells, headers, maps and data blocks are put in one by one."""

    def __init__(self, name, geometry):
        self.g = geometry
        self.noise = Noise(name)
        self.device = bytearray(self.noise.take(geometry.length))
        self.key = [self.noise.take(32) for _ in range(VOLUMES)]
        self.vmk = [self.noise.take(32) for _ in range(VOLUMES)]
        self.vek = [self.noise.take(32) for _ in range(VOLUMES)]
        self.below = [self.noise.take(32)] + self.vmk[:-1]  # what is held below volume 0 is ignored: noise

    def sealed_cell(self, i, key=None, associated=None):
        associated = bytes([i]) if associated is None else associated
        return seal(self.key[i] if key is None else key, self.noise.take(12), self.vmk[i], associated)

    def sealed_header(self, i, N=None, S=None, associated=None):
        """N is the volume's count of logical slices: P, unless another is given."""
        text = self.vek[i] + self.below[i]
        text += number(self.g.P if N is None else N) + number(self.g.S if S is None else S)
        associated = bytes([16 + i]) if associated is None else associated
        return seal(self.vmk[i], self.noise.take(12), text, associated)

    def enciphered_map(self, i, entries, iv=None):
        """A map block of volume i, or its beginning."""
        iv = self.noise.take(16) if iv is None else iv
        return iv + counter_mode(self.vek[i], iv, b"".join(number(e) for e in entries))

    def put_cell(self, i, **other):
        put(self.device, self.g.cell(i), self.sealed_cell(i, **other))

    def put_header(self, i, **other):
        put(self.device, self.g.header(i), self.sealed_header(i, **other))

    def put_map(self, i, row, past=(), ivs=()):
        """All map blocks of volume i: entries 0 to P - 1, then `past` in the places past the last, or else the mark."""
        assert len(row) == self.g.P
        e = self.g.entries
        whole = list(row) + list(past)
        whole += [MARK] * (self.g.m * e - len(whole))
        for n in range(self.g.m):
            iv = ivs[n] if n < len(ivs) else None
            put(self.device, self.g.map_block(i, n), self.enciphered_map(i, whole[n * e : n * e + e], iv))

    def put_block(self, i, psi, j, text, iv=None):
        """Data block j of slice psi for volume i, with an IV of its own or the noise that stands there."""
        at = self.g.iv(psi, j)
        if iv is not None:
            put(self.device, at, iv)
        put(self.device, self.g.data(psi, j), counter_mode(self.vek[i], bytes(self.device[at : at + 16]), text))

    def put_volume(self, i, row, N=None, **other):
        self.put_cell(i)
        self.put_header(i, N=N)
        self.put_map(i, row, **other)

    def flip(self, at, bits):
        self.device[at] ^= bits


# -------------------------------------------------------------------------------------------------- a model of the calls

# The start place is the place of the permutation where a claim begins to look. The counts are those of logical slices, one
# for each volume, 0 above k.
Session = namedtuple("Session", "B S P k open start counts keys")

# What a refused opening hands back: closed, all numbers and keys 0.
NO_SESSION = Session(0, 0, 0, 0, 0, 0, (0,) * VOLUMES, (NO_KEY,) * VOLUMES)


class Refused(Exception):
    """A refusal with its number and the probes that it carries."""

    def __init__(self, number, probes=0):
        super().__init__(number)
        self.number = number
        self.probes = probes


class Lent:
    """Everything that a caller lends or hands in from call to call."""

    def __init__(self):
        self.device = bytearray()
        self.geometry = Geometry(0, 0, 0)
        self.maps = []  # entry sigma of volume i stands at i * P + sigma
        self.owners = []
        self.permutation = []
        self.tape = b""
        self.tape_place = ("", 0)  # where the tape stands: a file and an offset in it, or None
        self.position = 0
        self.session = NO_SESSION
        self.stored = []  # the places written by the call, for the transcript: byte, data, and where these stand or None

    def store(self, at, data, where=None):
        put(self.device, at, data)
        self.stored.append((at, bytes(data), where))

    def draw(self, count, probes=0):
        """The next tape bytes, each used once. 21 where fewer are left, or the position is past the end."""
        if self.position > len(self.tape) or len(self.tape) - self.position < count:
            raise Refused(21, probes)
        data = self.tape[self.position : self.position + count]
        self.position += count
        return data


def format_device(lent, volumes, keys, counts):
    """Makes a blank device with a volume for each key, of as many logical slices as its count says. The keys stand end to
    end."""
    g = lent.geometry
    if not g.allowed() or len(counts) != volumes or not all(1 <= N <= g.P for N in counts):
        raise Refused(1)
    if len(lent.device) != g.length:
        raise Refused(2)
    if not 1 <= volumes <= VOLUMES:
        raise Refused(23)
    if len(keys) != 32 * volumes:
        raise Refused(3)
    key = [keys[32 * i : 32 * i + 32] for i in range(volumes)]

    # Everything is drawn and sealed beside the device. A refusal gives back what was drawn.
    start = lent.position
    try:
        fill = lent.draw(g.length)
        vmk, vek = [], []
        for _ in range(volumes):
            vmk.append(lent.draw(32))
            vek.append(lent.draw(32))
        cells = [seal(key[i], lent.draw(12), vmk[i], bytes([i])) for i in range(volumes)]
        headers = []
        for i in range(volumes):
            below = vmk[i - 1] if i > 0 else bytes(32)
            header = seal(vmk[i], lent.draw(12), vek[i] + below + number(counts[i]) + number(g.S), bytes([16 + i]))
            maps = []
            for _ in range(g.m):
                iv = lent.draw(16)
                maps.append(iv + counter_mode(vek[i], iv, number(MARK) * g.entries))
            headers.append((header, maps))
        if any(unseal(key[i], cells[j], bytes([j])) is not None for i in range(volumes) for j in range(i)):
            raise Refused(24)
    except Refused:
        lent.position = start
        raise
    assert lent.position - start == g.length + volumes * (88 + 16 * g.m)

    file, offset = lent.tape_place
    lent.store(0, fill, f"{file} {offset + start}")
    for i in range(volumes):
        lent.store(g.cell(i), cells[i])
    for i, (header, maps) in enumerate(headers):
        lent.store(g.header(i), header)
        for n in range(g.m):
            lent.store(g.map_block(i, n), maps[n])


def shuffle(lent):
    """Makes the lent list 0 to P - 1 in an order that the tape decides. A refusal leaves it, and gives back what was drawn."""
    P = lent.geometry.P
    if not lent.geometry.allowed():
        raise Refused(1)
    if len(lent.permutation) != P:
        raise Refused(4)
    order = list(range(P))
    start = lent.position
    try:
        lent.draw(0)  # a position past the end is 21 also where P is 1 and nothing is drawn
        for place in range(P - 1, 0, -1):
            choices = place + 1
            limit = 65536 // choices * choices
            drawn = limit
            while drawn >= limit:
                drawn = int.from_bytes(lent.draw(2), "big")
            other = drawn % choices
            order[place], order[other] = order[other], order[place]
    except Refused:
        lent.position = start
        raise
    lent.permutation = order


def open_device(lent, key):
    """Answers k. The geometry, the tables and the permutation are those lent."""
    lent.session = NO_SESSION
    g, device = lent.geometry, lent.device
    if not g.allowed():
        raise Refused(1)
    if len(device) != g.length:
        raise Refused(2)
    if len(key) != 32:
        raise Refused(3)
    if len(lent.maps) != VOLUMES * g.P or len(lent.owners) != g.P:
        raise Refused(4)
    if sorted(lent.permutation) != list(range(g.P)):
        raise Refused(5)

    # From here on a refusal leaves marks and owners 0.
    lent.maps = [MARK] * (VOLUMES * g.P)
    lent.owners = [0] * g.P

    # Cells 0, 1, 2 .. are tried, and the lowest that opens is taken.
    k, vmk = 0, None
    while vmk is None:
        if k == VOLUMES:
            raise Refused(6)
        vmk = unseal(key, device[g.cell(k) : g.cell(k) + CELL], bytes([k]))
        k += vmk is None

    # Header k gives the VMK below, down to 0. The first number after the keys is the volume's count of logical slices.
    keys = [NO_KEY] * VOLUMES
    counts = [0] * VOLUMES
    for i in range(k, -1, -1):
        text = unseal(vmk, device[g.header(i) : g.header(i) + HEADER], bytes([16 + i]))
        if text is None:
            raise Refused(7)
        keys[i], vmk, counts[i] = text[:32], text[32:64], number_at(text, 64)
        if not 1 <= counts[i] <= g.P or number_at(text, 68) != g.S:
            raise Refused(8)

    # Then the maps are read, volume 0 to k, entry by entry.
    maps = list(lent.maps)
    owners = list(lent.owners)
    for i in range(k + 1):
        entries = b""
        for n in range(g.m):
            at = g.map_block(i, n)
            entries += counter_mode(keys[i], bytes(device[at : at + 16]), bytes(device[at + 16 : at + 16 + 4 * g.entries]))
        for sigma in range(g.P):
            entry = number_at(entries, 4 * sigma)
            if entry == MARK:
                continue
            if entry >= g.P or sigma >= counts[i]:
                raise Refused(9)
            if owners[entry] != 0:
                raise Refused(10)
            maps[i * g.P + sigma] = entry
            owners[entry] = i + 1

    # The start place is the first place whose slice is free, or P.
    start = 0
    while start < g.P and owners[lent.permutation[start]] != 0:
        start += 1

    lent.maps, lent.owners = maps, owners
    lent.session = Session(g.B, g.S, g.P, k, 1, start, tuple(counts), tuple(keys))
    return k


def standing(lent):
    """What read, write, release and close refuse first: 20, 2, 4. Gives the session's geometry."""
    session = lent.session
    g = Geometry(session.B, session.S, session.P)
    if session.open != 1 or not g.allowed() or session.k > 14 or session.start > g.P:
        raise Refused(20)
    if not all(1 <= N <= g.P for N in session.counts[: session.k + 1]):
        raise Refused(20)
    if len(lent.device) != g.length:
        raise Refused(2)
    if len(lent.maps) != VOLUMES * g.P or len(lent.owners) != g.P:
        raise Refused(4)
    return g


def asked(lent, g, volume, address, length):
    """What read and write refuse next: 11, 12, 13, 9. Gives the asked entry and the offset."""
    if volume > lent.session.k:
        raise Refused(11)
    if address >= lent.session.counts[volume] * g.S:
        raise Refused(12)
    if length != g.B:
        raise Refused(13)
    entry = lent.maps[volume * g.P + address // g.S]
    if entry != MARK and entry >= g.P:
        raise Refused(9)
    return entry, address % g.S


def read(lent, volume, address, length):
    """The block's bytes, for a buffer of that length. Unmapped gives B zero bytes."""
    g = standing(lent)
    psi, j = asked(lent, g, volume, address, length)
    if psi == MARK:
        return bytes(g.B)
    iv = bytes(lent.device[g.iv(psi, j) : g.iv(psi, j) + 16])
    return counter_mode(lent.session.keys[volume], iv, bytes(lent.device[g.data(psi, j) : g.data(psi, j) + g.B]))


def find(lent, volume, address):
    """Length and place of the block's ciphertext; empty where a read with a right buffer is refused, or unmapped."""
    try:
        g = standing(lent)
        psi, j = asked(lent, g, volume, address, g.B)
    except Refused:
        return 0, 0
    return (0, 0) if psi == MARK else (g.B, g.data(psi, j))


def judge_map_block(lent, g, volume, logical):
    """What a claim and a release refuse by 9: a bad entry anywhere in the map block of the asked one. Such an entry is not
    the mark, and is no slice or stands at the volume's count or past it."""
    first = logical // g.entries * g.entries
    for sigma in range(first, min(first + g.entries, g.P)):
        entry = lent.maps[volume * g.P + sigma]
        if entry != MARK and (entry >= g.P or sigma >= lent.session.counts[volume]):
            raise Refused(9)


def set_entry(lent, g, volume, logical, entry, iv):
    """Sets an entry in the map table, and stores the map block that holds it, made of the table as it then is."""
    lent.maps[volume * g.P + logical] = entry
    n = logical // g.entries
    row = lent.maps[volume * g.P : (volume + 1) * g.P] + [MARK] * (g.m * g.entries - g.P)
    text = b"".join(number(e) for e in row[n * g.entries : (n + 1) * g.entries])
    lent.store(g.map_block(volume, n), iv + counter_mode(lent.session.keys[volume], iv, text))


def write(lent, volume, address, text):
    """Answers claimed or rewritten, the slice, and the probes. A claim, and a 22, move the start place on."""
    g = standing(lent)
    if len(lent.permutation) != g.P:
        raise Refused(5)
    psi, j = asked(lent, g, volume, address, len(text))
    vek = lent.session.keys[volume]

    if psi != MARK:
        iv = lent.draw(16)
        lent.store(g.iv(psi, j), iv)
        lent.store(g.data(psi, j), counter_mode(vek, iv, text))
        return "rewritten", psi, 0

    # The claim takes the first place in the permutation, from the start place on, whose slice has owner 0.
    judge_map_block(lent, g, volume, address // g.S)
    start = lent.session.start
    probes = 0
    while True:
        if start + probes == g.P:
            lent.session = lent.session._replace(start=g.P)
            raise Refused(22, probes)
        psi = lent.permutation[start + probes]
        probes += 1
        if psi >= g.P:
            raise Refused(5, probes)
        if lent.owners[psi] == 0:
            break

    # B tape bytes become the whole IV block; all S data blocks are written, zeros except the one asked for. The next 16
    # become the IV of the map block.
    drawn = lent.draw(g.B + 16, probes)
    ivs, map_iv = drawn[: g.B], drawn[g.B :]
    blocks = [counter_mode(vek, ivs[16 * n : 16 * n + 16], text if n == j else bytes(g.B)) for n in range(g.S)]
    lent.store(g.slice(psi), ivs + b"".join(blocks))
    set_entry(lent, g, volume, address // g.S, psi, map_iv)
    lent.owners[psi] = volume + 1
    lent.session = lent.session._replace(start=start + probes)
    return "claimed", psi, probes


def release(lent, volume, logical):
    """Answers the slice freed. Of the device the map block changes that holds the entry, and nothing else."""
    g = standing(lent)
    if sorted(lent.permutation) != list(range(g.P)):
        raise Refused(5)
    if volume > lent.session.k:
        raise Refused(11)
    if logical >= lent.session.counts[volume]:
        raise Refused(12)
    judge_map_block(lent, g, volume, logical)
    psi = lent.maps[volume * g.P + logical]
    if psi == MARK:
        raise Refused(25)
    set_entry(lent, g, volume, logical, MARK, lent.draw(16))
    lent.owners[psi] = 0
    lent.session = lent.session._replace(start=min(lent.session.start, lent.permutation.index(psi)))
    return psi


def close(lent):
    """Wipes tables and keys. The device stays, and the session's numbers do, its start place and its counts too."""
    g = standing(lent)
    lent.maps = [MARK] * (VOLUMES * g.P)
    lent.owners = [0] * g.P
    lent.session = lent.session._replace(open=0, keys=(NO_KEY,) * VOLUMES)


# ---------------------------------------------------------------------------------------------------------- transcripts

FILES = {}  # name: bytes, everything that is written at the end
LARGEST = 2**64


def add(file, data):
    """Adds bytes to a file, or finds them there, and gives the words FILE OFFSET."""
    whole = FILES.setdefault(file, b"")
    at = whole.find(data)
    if at < 0:
        at = len(whole)
        FILES[file] = whole + data
    return f"{file} {at}"


def text(name, B):
    """A plain text of B bytes in numbered lines, so that no two pieces of it are alike."""
    lines = "".join(f"{name}, line {n}\n" for n in range(B))
    return lines.encode()[:B]


def tape(name, length, **at):
    """Tape bytes: noise, and at positions `at_N` the bytes given. Gives the words that name it in a transcript."""
    data = bytearray(Noise("tape " + name).take(length))
    for place, piece in at.items():
        put(data, int(place[3:]), piece)
    return f"{add('tapes.bin', bytes(data))} {length}"


def entry_word(entry):
    return "-" if entry == MARK else str(entry)


def words(items):
    return " ".join(str(item) for item in items)


def hexed(data):
    return data.hex() if data else "-"


def counts_word(counts):
    """All counts with commas between them, four or more that are alike as COUNT*TIMES; `-` for none."""
    runs = [(count, len(list(run))) for count, run in itertools.groupby(counts)]
    return ",".join(f"{count}*{times}" if times > 3 else ",".join([str(count)] * times) for count, times in runs) or "-"


def counts_of(word):
    counts = []
    for run in word.split(",") if word != "-" else []:
        count, _, times = run.partition("*")
        counts += [int(count)] * int(times or 1)
    return counts


def cut(items, last):
    """Without those at the end that are `last`."""
    items = list(items)
    while items and items[-1] == last:
        items.pop()
    return items


def session_words(session):
    """The numbers, then counts and keys of volumes 0, 1 .. up to the last one that is not 0."""
    keys = [key.hex() for key in cut(session.keys, NO_KEY)]
    return words(list(session[:6]) + [counts_word(cut(session.counts, 0))] + keys)


LONGEST = 2000  # bytes of a permutation or of a tape that still stand in a line, and not in a file


def two_bytes(*numbers):
    """As draws stand on a tape, and numbers of a permutation in a file: most significant first."""
    return b"".join(n.to_bytes(2, "big") for n in numbers)


def permutation_line(numbers):
    """What sets the permutation to these numbers."""
    line = f"permutation {words(numbers)}"
    return line if len(line) < LONGEST else f"order {add('orders.bin', two_bytes(*numbers))} {len(numbers)}"


def tape_line(data):
    """What sets the tape to these bytes."""
    line = f"tape {hexed(data)}"
    return line if len(line) < LONGEST else f"tape {add('tapes.bin', data)} {len(data)}"


def apply(lent, line):
    """Sets what a line `given ..` or `then ..` says."""
    kind, *rest = line.split(" ")
    if kind == "tape" and len(rest) == 1:
        lent.tape, lent.tape_place = bytes.fromhex("" if rest == ["-"] else rest[0]), None
        return
    if kind == "order":
        offset, count = int(rest[1]), int(rest[2])
        data = FILES[rest[0]][offset : offset + 2 * count]
        assert len(data) == 2 * count, line
        lent.permutation = [256 * high + low for high, low in zip(data[::2], data[1::2])]
        return
    if kind in ("device", "bytes", "tape"):
        file, numbers = (rest[0], rest[1:]) if kind != "bytes" else (rest[1], rest[:1] + rest[2:])
        numbers = [int(n) for n in numbers]
        start = 0 if kind == "device" else numbers[-2]
        data = FILES[file][start : start + numbers[-1]]
        assert len(data) == numbers[-1], line
        if kind == "device":
            lent.device = bytearray(data)
        elif kind == "tape":
            lent.tape, lent.tape_place = data, (file, start)
        else:
            put(lent.device, numbers[0], data)
        return
    if kind == "session":
        keys = [bytes.fromhex(key) for key in rest[7:]]
        counts = counts_of(rest[6])
        assert len(counts) <= VOLUMES and all(0 <= N < LARGEST for N in counts), line
        counts, keys = counts + [0] * (VOLUMES - len(counts)), keys + [NO_KEY] * (VOLUMES - len(keys))
        lent.session = Session(*[int(n) for n in rest[:6]], tuple(counts), tuple(keys))
        return
    values = [MARK if word == "-" else int(word) for word in rest]
    assert all(0 <= value < LARGEST for value in values), line
    if kind == "zeros":
        lent.device = bytearray(values[0])
    elif kind == "geometry":
        lent.geometry = Geometry(*values)
    elif kind == "maps":
        lent.maps = [values[1]] * values[0]
    elif kind == "row":
        assert len(values) == 1 + lent.geometry.P, line
        lent.maps[values[0] * lent.geometry.P : (values[0] + 1) * lent.geometry.P] = values[1:]
    elif kind == "entry":
        lent.maps[values[0] * lent.geometry.P + values[1]] = values[2]
    elif kind == "owners":
        lent.owners = values
    elif kind == "owner":
        lent.owners[values[0]] = values[1]
    elif kind == "permutation":
        lent.permutation = values
    elif kind == "start":
        lent.session = lent.session._replace(start=values[0])
    elif kind == "count":
        counts = list(lent.session.counts)
        counts[values[0]] = values[1]
        lent.session = lent.session._replace(counts=tuple(counts))
    else:
        assert kind == "position", line
        lent.position = values[0]


# An open session that is none of the device's. No number of it is 0, nor is a count of it, also above its k.
OTHER_SESSION = f"4096 3 2 1 1 1 2,1,2,1,2,1,2,1,2,1,2,1,2,1,2 {Noise('no session').take(32).hex()}"


# What the caller may set in the middle of a session without altering device, tables or session.
BESIDE_A_SESSION = ("geometry", "permutation", "order", "tape", "position")


def all_blocks(lent):
    """Every block of the open volumes."""
    session = lent.session
    volumes = enumerate(session.counts[: session.k + 1])
    return {(i, address): read(lent, i, address, session.B) for i, N in volumes for address in range(N * session.S)}


class Transcript:
    """Runs a scenario on the model and writes it down. Each call has its expected answer as an argument.

    Beside the model stands an array of blocks for each open volume, from a served opening on, while device, tables and
    session pass on from call to call. After each call the device, opened anew, has to hold these arrays: a session can be
    dropped there.
    """

    def __init__(self, name, *about):
        self.name = name
        self.lines = [f"# {line}" for line in about]
        self.lent = Lent()
        self.images = []  # those that the device became
        self.opener = None  # the key of the session, while everything passes on from its opening
        self.blocks = {}

    def say(self, *about):
        self.lines += [""] + [f"# {line}" for line in about]

    def given(self, line):
        apply(self.lent, line)
        self.lines.append(f"given {line}")
        if line.split(" ")[0] not in BESIDE_A_SESSION:
            self.opener = None

    def given_bytes(self, at, data):
        self.given(f"bytes {at} {add('patches.bin', data)} {len(data)}")

    def lend(self, image, geometry, permutation, tape_words="tapes.bin 0 0", position=0):
        """Everything for a device of that geometry."""
        FILES.setdefault("tapes.bin", b"")
        self.given(f"geometry {words(geometry)}")
        self.given(f"device {image} {len(FILES[image])}")
        self.given(f"maps {VOLUMES * geometry.P} -")
        self.given(f"owners {words([0] * geometry.P)}")
        self.given(f"permutation {words(permutation)}")
        self.given(f"tape {tape_words}")
        self.given(f"position {position}")

    def called(self, line, expected, outcome, thens):
        """Writes a call down, with what it is to leave, which has to be all that the model left."""
        where = f"{self.name}: {line} = {outcome}, not {expected}"
        assert outcome == expected, where
        self.lines.append(f"{line} = {outcome}" + self.tail)
        self.lines += self.lent.stored
        self.lines += [f"then {then}" for then in thens]
        self.lines.append("compare")

        for at, data, _ in self.lent.stored:
            put(self.before.device, at, data)
        for then in thens:
            apply(self.before, then)
        for part in ("device", "geometry", "maps", "owners", "permutation", "tape", "position", "session"):
            assert getattr(self.before, part) == getattr(self.lent, part), f"{where}: {part}"
        if self.opener is not None:
            self.check_dropped(where)

    def check_dropped(self, where):
        """The session is dropped here: with its key the device opens to the tables held, and all blocks are those written."""
        session = self.lent.session
        again = Lent()
        again.device = bytearray(self.lent.device)
        again.geometry = Geometry(session.B, session.S, session.P)
        again.maps, again.owners = [0] * (VOLUMES * session.P), [9] * session.P
        again.permutation = Noise(where).shuffled(range(session.P))
        assert open_device(again, self.opener) == session.k, where
        assert (again.session.counts, again.session.keys) == (session.counts, session.keys), where
        assert (again.maps, again.owners) == (self.lent.maps, self.lent.owners), where
        assert all_blocks(again) == all_blocks(self.lent) == self.blocks, where

    def begin(self):
        self.tail = ""
        self.before = Lent()
        self.before.__dict__.update(self.lent.__dict__)
        for part in ("device", "maps", "owners", "permutation"):
            setattr(self.before, part, getattr(self.lent, part)[:])
        self.lent.stored = []

    def spoil(self):
        """Before an opening: other tables and another session than a refusal leaves, so that leaving them shows."""
        if self.lent.session == NO_SESSION:
            self.given(f"session {OTHER_SESSION}")
        if all(entry == MARK for entry in self.lent.maps):
            self.given(f"maps {len(self.lent.maps)} 2")
        if not any(self.lent.owners):
            self.given(f"owners {words((3 * n + 1) % 256 for n in range(len(self.lent.owners)))}")

    def starts(self, place):
        """The session's start place now, as a hand worked it out. Lines of the transcript have it already."""
        assert self.lent.session.start == place, f"{self.name}: start place {self.lent.session.start}, not {place}"

    def holds(self, *counts):
        """The session's counts now, as a hand worked them out: those of volumes 0, 1 .., and 0 for all above."""
        wanted = counts + (0,) * (VOLUMES - len(counts))
        assert self.lent.session.counts == wanted, f"{self.name}: counts {self.lent.session.counts}, not {wanted}"

    def stores(self, *expected):
        """What the call before stored, as a hand worked it out: from which byte on, how many, and with which tape bytes these
        begin, from which position on and how many."""
        stored = self.lent.stored
        assert [(at, len(data)) for at, data, _ in stored] == [place[:2] for place in expected], f"{self.name}: {expected}"
        for (_, data, _), (_, _, position, drawn) in zip(stored, expected):
            assert data[:drawn] == self.lent.tape[position : position + drawn], f"{self.name}: {expected}"

    def map_block_is(self, at, volume, entries):
        """The map block from that byte of the device on, as a hand worked it out: these entries, and then the mark in all."""
        B = self.lent.session.B
        iv, data = bytes(self.lent.device[at : at + 16]), bytes(self.lent.device[at + 16 : at + B])
        held = counter_mode(self.lent.session.keys[volume], iv, data)
        assert held == b"".join(map(number, entries)).ljust(B - 16, b"\xff"), f"{self.name}: {entries}"

    def format(self, keys, expected, volumes=None, counts=None):
        """With a list of keys, or with the bytes of all and the number of volumes. The counts are P, unless others are
        given."""
        self.begin()
        if volumes is None:
            volumes, keys = len(keys), b"".join(keys)
        if counts is None:
            counts = [self.lent.geometry.P] * volumes
        thens = []
        try:
            format_device(self.lent, volumes, keys, counts)
            self.opener = None
            outcome = "0"
            thens = [f"position {self.lent.position}"]
        except Refused as refused:
            outcome = str(refused.number)
        self.called(f"format {volumes} {hexed(keys)} {counts_word(counts)}", expected, outcome, thens)

    def shuffle(self, expected, order=None, position=None):
        """With the permutation and the position that a served one leaves, where a hand worked them out."""
        self.begin()
        thens = []
        try:
            shuffle(self.lent)
            outcome = "0"
            left = self.lent.permutation, self.lent.position
            assert order is None or left[0] == list(order), f"{self.name}: {left[0]}, not {order}"
            assert position is None or left[1] == position, f"{self.name}: position {left[1]}, not {position}"
            thens = [permutation_line(self.lent.permutation), f"position {self.lent.position}"]
        except Refused as refused:
            outcome = str(refused.number)
        self.called("shuffle", expected, outcome, thens)

    def open(self, key, expected):
        self.spoil()
        self.begin()
        self.opener = None
        P = self.lent.geometry.P
        try:
            outcome = f"0 {open_device(self.lent, key)}"
            self.opener, self.blocks = key, all_blocks(self.lent)
            thens = [f"maps {VOLUMES * P} -"]
            for i in range(VOLUMES):
                row = self.lent.maps[i * P : (i + 1) * P]
                if any(entry != MARK for entry in row):
                    thens.append(f"row {i} {words(map(entry_word, row))}")
            thens.append(f"owners {words(self.lent.owners)}")
        except Refused as refused:
            outcome = str(refused.number)
            thens = [f"maps {VOLUMES * P} -", f"owners {words([0] * P)}"] if refused.number >= 6 else []
        self.called(f"open {hexed(key)}", expected, outcome, thens + [f"session {session_words(self.lent.session)}"])

    def drop(self, permutation):
        """The session is dropped, and the device opened again with its key: every block holds what it held."""
        key, blocks = self.opener, self.blocks
        assert key is not None, self.name
        self.given(f"permutation {words(permutation)}")
        self.open(key, f"0 {self.lent.session.k}")
        self.reads(*((volume, address, data) for (volume, address), data in blocks.items()))

    def read(self, volume, address, expected, text=None, length=None):
        self.begin()
        length = self.lent.session.B if length is None else length
        try:
            data = read(self.lent, volume, address, length)
            outcome = "0"
            assert text is None or data == text, f"{self.name}: read {volume} {address}"
            self.tail = " " + add("texts.bin", data)
        except Refused as refused:
            outcome = str(refused.number)
        self.called(f"read {volume} {address} {length}", expected, outcome, [])

    def reads(self, *expected):
        """Served reads: volume, address, and the text, or None for zeros."""
        for volume, address, text in expected:
            self.read(volume, address, "0", bytes(self.lent.session.B) if text is None else text)

    def find(self, volume, address, expected):
        self.begin()
        length, at = find(self.lent, volume, address)
        # No other place has the same bytes, so that a copy of the part tells its place.
        assert not length or bytes(self.lent.device).count(self.lent.device[at : at + length]) == 1
        self.called(f"find {volume} {address}", expected, f"{length} {at}" if length else "0", [])

    def write(self, volume, address, text, expected):
        self.begin()
        thens = []
        try:
            kind, psi, probes = write(self.lent, volume, address, text)
            self.blocks[volume, address] = text
            outcome = f"0 {kind} {psi} {probes}"
            if kind == "claimed":
                thens = [f"entry {volume} {address // self.lent.session.S} {psi}", f"owner {psi} {volume + 1}"]
                thens.append(f"start {self.lent.session.start}")
            thens.append(f"position {self.lent.position}")
        except Refused as refused:
            outcome = f"{refused.number} {refused.probes}"
            if refused.number == 22:
                thens = [f"start {self.lent.session.start}"]
        self.called(f"write {volume} {address} {add('texts.bin', text)} {len(text)}", expected, outcome, thens)

    def release(self, volume, logical, expected):
        self.begin()
        thens = []
        try:
            psi = release(self.lent, volume, logical)
            S = self.lent.session.S
            self.blocks.update(((volume, logical * S + j), bytes(self.lent.session.B)) for j in range(S))
            outcome = f"0 {psi}"
            thens = [f"entry {volume} {logical} -", f"owner {psi} 0", f"start {self.lent.session.start}"]
            thens.append(f"position {self.lent.position}")
        except Refused as refused:
            outcome = str(refused.number)
        self.called(f"release {volume} {logical}", expected, outcome, thens)

    def close(self, expected):
        self.begin()
        try:
            close(self.lent)
            self.opener = None
            outcome = "0"
            P = self.lent.session.P
            thens = [f"maps {VOLUMES * P} -", f"owners {words([0] * P)}", f"session {session_words(self.lent.session)}"]
        except Refused as refused:
            outcome = str(refused.number)
            thens = []
        self.called("close", expected, outcome, thens)

    def image(self, name):
        """The device is now a file of its own, whole."""
        device = bytes(self.lent.device)
        made = FILES.setdefault(name, device)
        assert made == device, f"{self.name}: {name}"
        self.images.append(name)
        self.lines.append(f"image {name}")

    def finish(self):
        """Stored bytes are named where an image still has them; the others go to a file for them."""
        out = []
        for line in self.lines:
            if not isinstance(line, str):
                at, data, where = line
                for name in self.images:
                    if where is None and FILES[name][at : at + len(data)] == data:
                        where = f"{name} {at}"
                line = f"then bytes {at} {where or add('patches.bin', data)} {len(data)}"
            out.append(line)
        assert all(len(line) < 4096 for line in out)
        FILES[self.name] = ("\n".join(out) + "\n").encode()


# ------------------------------------------------------------------------------------------------------------ scenarios

SMALL = Geometry(1024, 4, 4)


def small_text(volume, address, version="first"):
    return text(f"{version} text of block {address} of volume {volume}", 1024)


# Every block that is written in small.img: volume, slice, offset, and its IV where it is not noise.
SMALL_BLOCKS = {
    (0, 4): (2, 0, None),
    (0, 7): (2, 3, FF16),
    (1, 13): (0, 1, Noise("iv 1").take(12) + FF16[:4]),
    (1, 14): (0, 2, None),
    (2, 0): (3, 0, None),
    (2, 1): (3, 1, Noise("iv 2").take(14) + FF16[:2]),
    (2, 2): (3, 2, Noise("iv 3").take(8) + FF16[:8]),
    (2, 3): (3, 3, FF16[:15] + b"\xf0"),
}


def small_image():
    """Volumes 0 to 2. Slice 2 is held by volume 0, slice 0 by volume 1, slice 3 by volume 2; slice 1 is free."""
    image = Image("small.img", SMALL)
    image.put_volume(0, [MARK, 2, MARK, MARK])
    image.put_volume(1, [MARK, MARK, MARK, 0], ivs=[FF16])
    image.put_volume(2, [3, MARK, MARK, MARK])
    for volume, psi in ((0, 2), (1, 0), (2, 3)):
        for j in range(4):
            image.put_block(volume, psi, j, bytes(1024))
    for (volume, address), (psi, j, iv) in SMALL_BLOCKS.items():
        image.put_block(volume, psi, j, small_text(volume, address), iv)
    return image


def small_blocks(*volumes):
    """What the blocks of the mapped slices of small.img hold, and one block before or behind each."""
    for volume, addresses in ((0, range(3, 9)), (1, range(11, 16)), (2, range(0, 5))):
        for address in addresses:
            if volume in volumes:
                yield volume, address, small_text(volume, address) if (volume, address) in SMALL_BLOCKS else None


def small_tape():
    """At 23 the IV block of a claim: its blocks 0 to 3 have their IVs at 23, 39, 55, 71. At 1047 the IV of its map block, at
    1063 that of a rewrite."""
    return tape("small", 1280, at_39=FF16, at_55=FF16[:15] + b"\xfe", at_1047=FF16, at_1067=FF16[:12])


def small():
    """The life of a session."""
    image = small_image()
    FILES["small.img"] = bytes(image.device)
    key = image.key
    t = Transcript("small.txt", "A session from opening to close, and what the next one finds.")
    t.lend("small.img", SMALL, [2, 0, 3, 1], small_tape(), 7)
    t.say("Key 0 opens volume 0 alone.")
    t.open(key[0], "0 0")
    t.starts(1)
    t.reads(*small_blocks(0))
    t.read(1, 13, "11")
    t.find(1, 13, "0")
    t.say("Key 1 opens volumes 0 and 1.")
    t.open(key[1], "0 1")
    t.starts(2)
    t.reads(*small_blocks(0, 1))
    t.read(2, 0, "11")
    t.say("Key 2 opens all three.")
    t.open(key[2], "0 2")
    t.starts(3)
    t.reads(*small_blocks(0, 1, 2))
    t.reads((0, 0, None), (0, 15, None), (1, 0, None), (2, 15, None))
    t.read(0, 16, "12")
    t.read(3, 0, "11")
    t.say("Finds: the part's length and place.")
    t.find(0, 7, "1024 46080")
    t.find(0, 4, "1024 43008")
    t.find(1, 12, "1024 32768")
    t.find(1, 13, "1024 33792")
    t.find(2, 0, "1024 48128")
    t.find(2, 3, "1024 51200")
    t.find(0, 0, "0")
    t.find(0, 16, "0")
    t.find(3, 0, "0")
    t.say("A rewrite, with the 16 tape bytes at the position.")
    t.write(0, 7, small_text(0, 7, "second"), "0 rewritten 2 0")
    t.reads((0, 7, small_text(0, 7, "second")), (0, 4, small_text(0, 4)), (0, 6, None))
    t.find(0, 7, "1024 46080")
    t.say("A claim: the only free slice stands last in the permutation, where the start place is.")
    t.write(1, 1, small_text(1, 1), "0 claimed 1 1")
    t.starts(4)
    t.reads((1, 0, None), (1, 1, small_text(1, 1)), (1, 2, None), (1, 3, None), (0, 1, None), (1, 13, small_text(1, 13)))
    t.find(1, 1, "1024 38912")
    t.say("No slice is free.")
    t.write(2, 15, small_text(2, 15), "22 0")
    t.reads((2, 15, None))
    t.say("Rewrites in the claimed slice, one block twice, and in another volume.")
    t.write(1, 2, small_text(1, 2), "0 rewritten 1 0")
    t.reads((1, 1, small_text(1, 1)), (1, 2, small_text(1, 2)), (1, 3, None))
    t.write(2, 0, small_text(2, 0, "second"), "0 rewritten 3 0")
    t.write(1, 2, small_text(1, 2, "second"), "0 rewritten 1 0")
    t.reads((1, 2, small_text(1, 2, "second")), (2, 0, small_text(2, 0, "second")), (2, 1, small_text(2, 1)))
    t.say("The device that the session leaves, and the close, which alters nothing of it.")
    assert t.lent.position == 7 + 16 + 1040 + 3 * 16
    t.image("small-after.img")
    t.close("0")
    t.image("small-after.img")
    t.say("Nothing is served by a closed session.")
    t.read(0, 7, "20")
    t.find(0, 7, "0")
    t.write(0, 7, small_text(0, 7), "20 0")
    t.close("20")
    t.say("The next opening, with another permutation. No slice is free.")
    t.given("permutation 1 3 0 2")
    t.open(key[2], "0 2")
    t.starts(4)
    t.write(2, 15, small_text(2, 15), "22 0")
    t.reads(
        (0, 4, small_text(0, 4)),
        (0, 5, None),
        (0, 7, small_text(0, 7, "second")),
        (1, 0, None),
        (1, 1, small_text(1, 1)),
        (1, 2, small_text(1, 2, "second")),
        (1, 3, None),
        (1, 13, small_text(1, 13)),
        (1, 14, small_text(1, 14)),
        (2, 0, small_text(2, 0, "second")),
        (2, 1, small_text(2, 1)),
        (2, 2, small_text(2, 2)),
        (2, 3, small_text(2, 3)),
        (2, 15, None),
    )
    t.say("The map went to its own volume's place: key 0 and key 1 open as before.")
    t.open(key[0], "0 0")
    t.reads((0, 7, small_text(0, 7, "second")))
    t.open(key[1], "0 1")
    t.reads((0, 7, small_text(0, 7, "second")), (1, 1, small_text(1, 1)), (1, 14, small_text(1, 14)))
    t.finish()


def check_small_after():
    """small-after.img taken apart, with places worked out by hand. Its session took tape bytes 7 to 1,110."""
    image = small_image()
    name, offset, length = small_tape().split(" ")
    drawn = FILES[name][int(offset) : int(offset) + int(length)]
    device = FILES["small-after.img"]
    whole = bytearray(image.device)
    first = {1: small_text(1, 1), 2: small_text(1, 2, "second")}
    for at, size, position in (
        (42032, 16, 7), (46080, 1024, None),  # the rewrite of block 7 of volume 0: its IV, and the block
        (36864, 1024, 23), (37888, 1024, None), (38912, 1024, None), (39936, 1024, None), (40960, 1024, None),  # the claim
        (4096, 16, 1047), (4112, 1008, None),  # its map block
        (36896, 16, 1095), (47104, 16, 1079), (48128, 1024, None),  # the last rewrites of blocks 2 and 0 of volumes 1 and 2
    ):
        put(whole, at, device[at : at + size])
        assert position is None or at == 36864 or device[at : at + 16] == drawn[position : position + 16], at
    assert whole == device
    filler = device[36864:36896] + device[36912:37888]
    assert filler == drawn[23:55] + drawn[71:1047]
    assert counter_mode(image.vek[1], device[4096:4112], device[4112:5120]) == number(1) + FF16[:8] + number(0) + b"\xff" * 992
    for j in range(4):
        iv, at = device[36864 + 16 * j : 36880 + 16 * j], 37888 + 1024 * j
        assert counter_mode(image.vek[1], iv, device[at : at + 1024]) == first.get(j, bytes(1024))


def above():
    """Claims that are not closed, and claims below a volume that is not open."""
    image = small_image()
    key = image.key
    t = Transcript("above.txt", "Claims without a close, and slices that volumes above k lose.")
    t.lend("small.img", SMALL, [0, 1, 2, 3], tape("above", 5632, at_16=FF16), 0)
    t.say("A claim without a close is on the device: the next opening finds the slice held and the block written.")
    t.open(key[2], "0 2")
    t.starts(1)
    t.write(0, 0, small_text(0, 0), "0 claimed 1 1")
    t.starts(2)
    t.reads((0, 0, small_text(0, 0)))
    t.open(key[2], "0 2")
    t.starts(4)
    t.reads((0, 0, small_text(0, 0)), (0, 1, None))
    t.find(0, 0, "1024 37888")
    t.write(2, 9, small_text(2, 9), "22 0")
    t.say("For the other keys too. Key 0 finds the slices of volumes 1 and 2 free, key 1 that of volume 2.")
    for i, place in ((0, 0), (1, 3), (2, 4)):
        t.open(key[i], f"0 {i}")
        t.starts(place)
        t.reads((0, 0, small_text(0, 0)), *small_blocks(*range(i + 1)))
    t.say("With key 0 the slices of volumes 1 and 2 are free, and claims take them, each one the next.")
    t.given("device small.img 52224")
    t.given("permutation 3 2 0 1")
    t.open(key[0], "0 0")
    t.starts(0)
    t.write(0, 3, small_text(0, 3), "0 claimed 3 1")
    t.starts(1)
    t.write(0, 8, small_text(0, 8), "0 claimed 0 2")
    t.starts(3)
    t.write(0, 14, small_text(0, 14), "0 claimed 1 1")
    t.starts(4)
    t.reads((0, 3, small_text(0, 3)), (0, 4, small_text(0, 4)), (0, 8, small_text(0, 8)), (0, 14, small_text(0, 14)))
    t.close("0")
    t.open(key[0], "0 0")
    t.reads((0, 2, None), (0, 3, small_text(0, 3)), (0, 8, small_text(0, 8)), (0, 14, small_text(0, 14)), (0, 15, None))
    t.say("Volume 1 maps slice 0 still, and so both keys above find a slice mapped twice.")
    t.open(key[1], "10")
    t.open(key[2], "10")
    t.open(key[0], "0 0")
    t.say("So they do after the first such claim, without a close; once it is given back they open, to what it left.")
    t.given("device small.img 52224")
    t.given("position 0")
    t.open(key[0], "0 0")
    t.write(0, 3, small_text(0, 3), "0 claimed 3 1")
    t.open(key[2], "10")
    t.open(key[1], "0 1")
    t.reads((0, 3, small_text(0, 3)), (1, 13, small_text(1, 13)))
    t.release(0, 0, "0 3")
    t.open(key[2], "0 2")
    t.find(2, 0, "1024 48128")
    t.read(2, 0, "0")
    t.reads((0, 3, None), (1, 13, small_text(1, 13)))
    t.finish()


# Geometries.
NOT_ALLOWED = (
    "0 4 4", "16 1 4", "512 4 4", "1023 4 4", "1025 4 4", "2048 4 4", "4095 4 4", "8192 4 4", "4294968320 4 4",
    "1024 0 4", "1024 65 4", "1024 256 4", "1024 4294967300 4", "4096 0 4", "4096 257 4",
    "1024 4 0", "1024 4 4097", "1024 4 65540", "1024 4 4294967300", "0 0 0",
    "18446744073709551615 18446744073709551615 18446744073709551615",
)


def refusals():
    """The refusals of each call in their order, and what each leaves."""
    image = small_image()
    key = image.key
    wrong = Noise("no key").take(32)
    whole = "device small.img 52224"
    t = Transcript(
        "refusals.txt",
        "Every refusal, mostly with the conditions of later ones standing too. A refused call changes nothing, but for the",
        "session of a refused opening and, from 6 on, its tables, and for the start place at a 22.",
    )
    good_tables = ["maps 60 2", "owners 7 0 255 1"]
    t.lend("small.img", SMALL, [2, 0, 3, 1], tape("refusals", 4096), 0)
    t.open(key[1], "0 1")

    t.say("Opening, 1: geometries that are not allowed, with everything else wrong too.")
    t.given("device small.img 0")
    t.given("maps 59 2")
    t.given("owners 7 0 255")
    t.given("permutation 0 0 0")
    for geometry in NOT_ALLOWED:
        t.given(f"geometry {geometry}")
        t.open(wrong[:31], "1")
    t.given("geometry 1024 4 4")

    t.say("2: the device's length.")
    t.open(wrong[:31], "2")
    t.given("device small.img 52223")
    t.open(wrong[:31], "2")
    t.given("device two-maps.img 52225")
    t.open(wrong[:31], "2")
    t.given(whole)

    t.say("3: the key's length.")
    for count in (0, 16, 31):
        t.open(wrong[:count], "3")
    t.open(key[1][:31], "3")
    t.open(key[1] + b"\0", "3")

    t.say("4: the tables' lengths, one alone and both.")
    t.open(wrong, "4")
    for maps in ("maps 0 2", "maps 4 2", "maps 59 2", "maps 61 2"):
        t.given(maps)
        t.given(good_tables[1])
        t.open(wrong, "4")
    for owners in ("owners 7 0 255", "owners 7 0 255 1 9", "owners 7"):
        t.given(good_tables[0])
        t.given(owners)
        t.open(wrong, "4")
    for line in good_tables:
        t.given(line)

    t.say("5: the permutation.")
    for permutation in ("0 0 0", "2 0 3", "2 0 3 1 0", "2 0 3 1 4", "2 0 3 3", "2 2 0 1", "2 0 3 4", "2 0 3 257", "2 0 3 4097",
                        "2 0 65539 1", "2 0 3 4294967295"):
        t.given(f"permutation {permutation}")
        t.open(wrong, "5")
        t.open(key[0], "5")
    t.given("permutation 2 0 3 1")

    t.say("6: a key that opens no cell, and keys that are nearly right.")
    t.open(wrong, "6")
    t.open(key[0][:31] + bytes([key[0][31] ^ 1]), "6")
    t.open(bytes([key[1][0] ^ 128]) + key[1][1:], "6")
    t.open(image.vmk[0], "6")
    t.open(image.vek[0], "6")
    t.open(NO_KEY, "6")

    short = small_text(0, 4)[:1023]
    some = small_text(0, 4)
    served = f"session 1024 4 4 1 1 3 4,4 {image.vek[0].hex()} {image.vek[1].hex()}"
    t.say("The other calls, with volumes 0 and 1 open.")
    t.open(key[1], "0 1")
    t.starts(2)

    t.say("20: a closed session, a geometry that is not allowed, a k above 14, a start place above P; with everything else",
          "wrong too.")
    t.given("device small.img 52223")
    t.given("maps 59 4")
    t.given("permutation 0 0 0")
    t.given("position 4097")
    for session in (
        served.replace(" 1 1 3 ", " 1 0 3 "), served.replace(" 1 1 3 ", " 1 0 5 "), "session 0 0 0 0 0 0 -",
        served.replace(" 1 1 3 ", " 1 1 5 "), served.replace(" 1 1 3 ", " 1 1 18446744073709551615 "),
        served.replace(" 1 1 3 ", " 1 1 4294967296 "), served.replace(" 1 1 3 ", " 1 1 4294967299 "),
        served.replace(" 1 1 3 ", " 1 1 257 "), served.replace(" 1 1 3 ", " 1 1 9223372036854775808 "),
        served.replace("1024 4 4 1 1", "1024 4 4 15 1"),
        served.replace("1024 4 4 1 1", "1024 4 4 256 1"),
        served.replace("1024 4 4 1 1", "1024 4 4 4294967297 1"),
        served.replace("1024 4 4 1 1", "1024 4 4 18446744073709551615 1"),
        served.replace("1024 4 4", "0 4 4"), served.replace("1024 4 4", "2048 4 4"), served.replace("1024 4 4", "1024 0 4"),
        served.replace("1024 4 4", "1024 65 4"), served.replace("1024 4 4", "1024 4 0"),
        served.replace("1024 4 4", "1024 4 4097"), served.replace("1024 4 4", "1024 4294967300 4"),
        served.replace("1024 4 4", "1024 4 4294967300"),
        served.replace("1024 4 4", "18446744073709551615 18446744073709551615 18446744073709551615"),
    ):
        t.given(session)
        t.read(2, 16, "20", length=5)
        t.find(0, 4, "0")
        t.write(2, 16, short, "20 0")
        t.release(2, 16, "20")
        t.close("20")

    t.say("2: the device's length.")
    t.given(served)
    for device in ("device small.img 52223", "device two-maps.img 52225", "device small.img 0"):
        t.given(device)
        t.read(2, 16, "2", length=5)
        t.find(0, 4, "0")
        t.write(2, 16, short, "2 0")
        t.release(2, 16, "2")
        t.close("2")
    t.given(whole)

    t.say("4: the tables' lengths.")
    for maps, owners in (("59 4", "1 2 0 3"), ("61 4", "1 2 0 3"), ("4 4", "1 2 0 3"), ("0 4", "1 2 0 3"), ("60 4", "1 2 0"),
                         ("60 4", "1 2 0 3 0")):
        t.given(f"maps {maps}")
        t.given(f"owners {owners}")
        t.read(2, 16, "4", length=5)
        t.find(0, 4, "0")
        t.write(2, 16, short, "4 0")
        t.release(2, 16, "4")
        t.close("4")
    t.given("maps 60 -")
    t.given("row 0 - 2 - 4")
    t.given("row 1 - - 4294967294 0")
    t.given("owners 2 0 1 0")

    t.say("5: the length of a write's permutation, for a rewrite too.")
    for permutation in ("2 0 3", "2 0 3 1 0"):
        t.given(f"permutation {permutation}")
        t.write(2, 16, short, "5 0")
        t.write(0, 4, some, "5 0")
        t.write(0, 0, some, "5 0")
    t.say("5: a release's permutation, its length and every place; for a bad entry and an unmapped one too.")
    for permutation in ("", " 2", " 2 0 3", " 2 0 3 1 0", " 2 0 3 1 4", " 2 0 3 3", " 2 0 3 2", " 0 0 3 1", " 2 0 3 4",
                        " 4 0 2 1", " 2 0 3 5", " 2 0 3 257", " 2 0 3 65537", " 2 0 3 4294967295", " 3 0 1 1", " 4 4 4 4"):
        t.given(f"permutation{permutation}")
        t.release(2, 16, "5")
        for volume, logical in ((0, 1), (0, 3), (0, 0), (1, 3)):
            t.release(volume, logical, "5")
    t.given("permutation 2 0 3 1")

    t.say("11: volumes above k.")
    for volume in (2, 14, 15, 256, 2**32, 2**32 + 1, 2**64 - 1):
        t.read(volume, 16, "11", length=5)
        t.find(volume, 4, "0")
        t.write(volume, 16, short, "11 0")
        t.release(volume, 16, "11")
        t.release(volume, 1, "11")

    t.say("12: addresses past the end.")
    for address in (16, 17, 20, 64, 256 + 4, 2**32, 2**32 + 4, 2**62, 2**64 - 1):
        t.read(0, address, "12", length=5)
        t.find(0, address, "0")
        t.write(1, address, short, "12 0")
    t.say("12: logical slices past the end. At 6 and 7 of volume 0 stand the bad entry and the slice of volume 1.")
    for logical in (4, 5, 6, 7, 8, 16, 59, 60, 256 + 1, 2**32, 2**32 + 1, 2**62, 2**63 + 1, 2**64 - 1):
        t.release(0, logical, "12")
        t.release(1, logical, "12")

    t.say("13: buffers and texts of a wrong length, also where the asked entry is bad.")
    for length in (0, 5, 1023, 1025, 4096):
        t.read(0, 12, "13", length=length)
        t.read(0, 4, "13", length=length)
        t.read(0, 0, "13", length=length)
        t.write(0, 12, (some * 4)[:length], "13 0")
        t.write(0, 4, (some * 4)[:length], "13 0")

    t.say("9: a read judges the asked entry alone, and so does a rewrite, which then is 21: the position is past the end.")
    for volume, address in ((0, 12), (0, 15), (1, 8)):
        t.read(volume, address, "9")
        t.find(volume, address, "0")
        t.write(volume, address, some, "9 0")
    t.reads((0, 0, None), (0, 4, small_text(0, 4)), (1, 13, small_text(1, 13)))
    t.find(0, 4, "1024 43008")
    t.write(0, 4, some, "21 0")
    t.write(1, 13, some, "21 0")
    t.say("A claim and a release judge every entry of the map block, a release also where the asked entry is the mark or a slice.",
          "It comes before 5 and 22, 25 and 21.")
    for permutation, owners in (("2 0 3 1", "2 0 1 0"), ("4 4 4 4", "2 0 1 0"), ("2 0 3 1", "2 9 1 9")):
        t.given(f"permutation {permutation}")
        t.given(f"owners {owners}")
        for volume, address in ((0, 0), (0, 8), (0, 11), (1, 0), (1, 4)):
            t.write(volume, address, some, "9 0")
    for volume, logical in ((0, 0), (0, 1), (0, 2), (0, 3), (1, 0), (1, 1), (1, 2), (1, 3)):
        t.release(volume, logical, "9")
    for entry in (5, 8, 256, 257, 4097, 65536 + 2, 2**31, 2**31 + 2, MARK - 1):
        t.given(f"entry 0 3 {entry}")
        t.write(0, 0, some, "9 0")
        t.release(0, 3, "9")
        t.release(0, 1, "9")
    t.given("owners 2 0 1 0")
    t.given("entry 0 3 4")
    t.given("row 1 - - - 0")
    t.say("In the other volume's row it is not seen: there a claim is 21, and a release 25 or 21.")
    t.write(1, 0, some, "21 1")
    t.release(1, 0, "25")
    t.release(1, 3, "21")
    t.given("entry 0 3 -")

    t.say("25: a release of a logical slice that has no slice. It comes before 21.")
    for volume, logical in ((0, 0), (0, 2), (1, 0), (1, 1)):
        t.release(volume, logical, "25")

    t.say("A claim's 5: a place that names no slice, met before a free one. It comes before 21: the position is past the end.")
    t.given("start 0")
    for permutation, probes in (("4 1 3 0", 1), ("2 4 1 3", 2), ("2 0 4294967295 1", 3), ("2 0 2 4097", 4), ("0 257 1 1", 2)):
        t.given(f"permutation {permutation}")
        t.write(0, 0, some, f"5 {probes}")

    t.say("22: no slice that the permutation names is free. It comes before 21, and the start place is then 4.")
    t.given("permutation 2 0 2 0")
    t.write(0, 0, some, "22 4")
    t.starts(4)
    t.given("owners 2 200 1 16")
    t.given("permutation 2 0 3 1")
    t.given("start 0")
    t.write(0, 0, some, "22 4")
    t.starts(4)
    t.write(0, 0, some, "22 0")
    t.starts(4)
    t.given("owners 2 0 1 3")
    t.given("start 0")

    t.say("21: the position past the end, or too few bytes left: 1,040 for a claim, 16 for a rewrite and for a release. A claim's",
          "carries its probes, a rewrite's none.")
    for position in (3057, 3072, 3073, 4080, 4081, 4095, 4096, 4097, 2**32, 2**63, 2**64 - 1040, 2**64 - 1024, 2**64 - 16,
                     2**64 - 1):
        t.given(f"position {position}")
        t.write(0, 0, some, "21 4")
        if position > 4080:
            t.write(0, 4, some, "21 0")
            t.release(0, 1, "21")
            t.release(1, 3, "21")
    t.given("owners 2 0 1 0")
    t.write(0, 0, some, "21 3")
    t.given("permutation 1 2 3 0")
    t.write(0, 0, some, "21 1")
    t.given("permutation 2 0 3 1")
    t.given("start 1")
    t.write(0, 0, some, "21 2")
    t.given("start 3")
    t.write(0, 0, some, "21 1")
    t.given("start 4")
    t.write(0, 0, some, "22 0")
    t.given("start 1")

    t.say("Served with exactly as many bytes as are needed: a claim with 1,040, a rewrite and a release with 16.")
    t.given("position 3056")
    t.write(0, 0, some, "0 claimed 3 2")
    t.given("position 4080")
    t.write(0, 1, some, "0 rewritten 3 0")
    t.given("position 4080")
    t.release(1, 3, "0 0")
    t.starts(1)
    t.say("A close takes no tape and judges no entry: it is served with bad ones in every row, and with any position.")
    held = session_words(t.lent.session)
    for position in (4096, 4097, 2**64 - 1):
        t.given(f"session {held}")
        t.given(f"position {position}")
        t.given("maps 60 4")
        t.given("row 2 4 4294967294 2 0")
        t.given("owners 2 9 0 255")
        t.close("0")
        t.starts(1)
        t.close("20")
    t.open(key[1], "0 1")
    t.reads((0, 0, some), (0, 1, some), (0, 2, None), (0, 4, small_text(0, 4)), (1, 13, None))
    t.finish()


def tables():
    """Tables, permutations and sessions that no opening gave."""
    image = small_image()
    some, other = small_text(0, 4, "third"), small_text(1, 4, "third")
    t = Transcript("tables.txt", "Calls on tables, permutations and sessions that no opening gave.")
    t.lend("small.img", SMALL, [2, 0, 3, 1], tape("tables", 7680), 0)
    t.open(image.key[2], "0 2")
    t.say("An owner byte that is not 0 is held, whatever it is.")
    t.given("owners 2 200 1 0")
    t.given("permutation 1 3 0 2")
    t.given("start 0")
    t.write(1, 4, other, "0 claimed 3 2")
    t.starts(2)
    t.say("A rewrite does not look at the owners.")
    t.given("owners 0 0 0 0")
    t.write(0, 4, some, "0 rewritten 2 0")
    t.say("A claim looks at the owners alone: slice 2 is mapped, but has owner 0.")
    t.given("permutation 2 1 0 3")
    t.given("start 0")
    t.write(2, 9, other, "0 claimed 2 1")
    t.starts(1)
    t.reads((2, 9, other), (2, 8, None))
    t.say("A permutation that names a slice more than once, or no slice behind the free place, is no refusal of a write.")
    t.given("permutation 2 2 1 2")
    t.write(0, 15, some, "0 claimed 1 2")
    t.starts(3)
    t.given("permutation 2 0 4 4294967295")
    t.given("start 0")
    t.write(1, 0, other, "0 claimed 0 2")
    t.starts(2)
    t.say("Rewrites look at no place.")
    t.given("permutation 4 4 4 4")
    t.write(1, 1, some, "0 rewritten 0 0")

    t.say("A session with keys above k, with another key, with a lower k.")
    t.given("device small.img 52224")
    t.given("maps 60 -")
    t.given("row 0 - 2 - -")
    t.given("row 1 - - - 0")
    t.given("row 2 3 9 - -")
    t.given("owners 2 0 1 3")
    t.given("permutation 0 1 2 3")
    all_keys = [vek.hex() for vek in image.vek]
    t.given(f"session 1024 4 4 1 1 4 4,4 {words(all_keys)}")
    t.reads((0, 4, small_text(0, 4)), (1, 13, small_text(1, 13)))
    t.read(2, 0, "11")
    t.given(f"session 1024 4 4 1 1 2 4,4 {words([all_keys[1], all_keys[0]])}")
    t.read(0, 7, "0")
    t.write(0, 7, some, "0 rewritten 2 0")
    t.reads((0, 7, some))
    t.given(f"session 1024 4 4 0 1 0 4 {words(all_keys)}")
    t.write(0, 0, some, "0 claimed 1 2")
    t.read(1, 13, "11")
    t.close("0")

    t.say("A close stores nothing of such tables: the device opens as before.")
    twice = ("maps 60 -", "row 0 1 2 - -", "row 1 - - 3 0", "row 2 3 - - -", "owners 2 1 1 3")
    for line in ("device small.img 52224", *twice, f"session 1024 4 4 2 1 3 4,4,4 {words(all_keys[:3])}"):
        t.given(line)
    t.close("0")
    t.image("small.img")
    t.open(image.key[2], "0 2")
    t.reads(*small_blocks(0, 1, 2))
    t.say("Nor do claims and releases look for slices that are named twice, slice 3 here; the next opening does. They store the map",
          "block of the asked entry as the table has it: of volume 1 by the release, which key 0 does not see; of volume 0 by the",
          "claim.")
    for line in ("position 0", *twice):
        t.given(line)
    t.release(1, 3, "0 0")
    t.open(image.key[1], "0 1")
    t.starts(0)
    t.open(image.key[2], "10")
    t.open(image.key[0], "0 0")
    t.given("row 0 2 2 - -")
    t.write(0, 8, some, "0 claimed 0 1")
    for i in range(3):
        t.open(image.key[i], "10")

    t.say("All 15 volumes of a session, with no key for those above 2: their key is zeros.")
    t.given("device small.img 52224")
    t.given("maps 60 -")
    t.given("owners 0 0 0 0")
    t.given(f"session 1024 4 4 14 1 0 4*15 {words(all_keys[:3])}")
    t.write(14, 7, some, "0 claimed 0 1")
    t.write(3, 7, other, "0 claimed 1 1")
    t.reads((14, 7, some), (3, 7, other), (14, 6, None), (2, 7, None))
    t.close("0")
    t.open(image.key[2], "0 2")
    t.finish()


def twomaps():
    """Two map blocks for each volume."""
    g = Geometry(1024, 1, 257)
    image = Image("two-maps.img", g)
    free = [7, 130, 254]
    fixed = {(0, 0): 0, (0, 250): 251, (0, 252): 256, (0, 256): 252, (1, 1): 1, (1, 249): 253, (1, 253): 255}
    slices = image.noise.shuffled(psi for psi in range(g.P) if psi not in free and psi not in fixed.values())
    rows = [[MARK] * g.P, [MARK] * g.P]
    for volume in (0, 1):
        for sigma in range(volume, g.P, 2):
            if volume == 0 or sigma not in (5, 251, 255):
                rows[volume][sigma] = fixed[volume, sigma] if (volume, sigma) in fixed else slices.pop()
    assert not slices
    image.put_volume(0, rows[0], past=range(g.P, 2 * g.entries))
    image.put_volume(1, rows[1], past=range(0, 2 * g.entries - g.P), ivs=[None, FF16])
    first = {place: text(f"two-maps, block {place[1]} of volume {place[0]}", g.B) for place in fixed}
    for (volume, sigma), psi in fixed.items():
        image.put_block(volume, psi, 0, first[volume, sigma], FF16 if sigma in (0, 253) else None)
    FILES["two-maps.img"] = bytes(image.device)
    key = image.key

    # The free slices stand at places 99, 255 and 256.
    permutation = image.noise.shuffled(psi for psi in range(g.P) if psi not in free)
    permutation = permutation[:99] + free[:1] + permutation[99:] + free[1:]
    written = {place: text(f"two-maps, block {place[1]} of volume {place[0]}, written", g.B) for place in
               ((1, 251), (1, 255), (0, 253), (0, 256), (0, 1))}
    t = Transcript("two-maps.txt", "Two map blocks for each volume: entries 0 to 251 in the first, 252 to 256 in the second.")
    # The claims' IVs are at 3, 1043 and 2083, those of their map blocks at 1027, 2067 and 3107.
    t.lend("two-maps.img", g, permutation, tape("twomaps", 3200, at_3=FF16, at_2067=FF16[:15] + b"\xc0", at_3107=FF16), 3)
    t.open(key[0], "0 0")
    t.reads(*((0, sigma, first[0, sigma]) for sigma in (0, 250, 252, 256)), (0, 251, None), (0, 253, None))
    t.open(key[1], "0 1")
    t.starts(99)
    t.reads(*((volume, sigma, data) for (volume, sigma), data in first.items()))
    t.reads((0, 1, None), (1, 0, None), (1, 252, None), (1, 251, None), (1, 254, None))
    t.read(0, 257, "12")
    t.read(0, 2, "0")
    t.find(0, 0, f"1024 {1024 * (46 + 1)}")
    t.find(0, 252, f"1024 {1024 * (46 + 2 * 256 + 1)}")
    t.find(1, 253, f"1024 {1024 * (46 + 2 * 255 + 1)}")
    t.find(1, 252, "0")
    t.say("Claims in the first map block and in the second, then none is free.")
    t.write(1, 251, written[1, 251], "0 claimed 7 1")
    t.starts(100)
    t.write(1, 255, written[1, 255], "0 claimed 130 156")
    t.starts(256)
    t.write(0, 253, written[0, 253], "0 claimed 254 1")
    t.starts(257)
    t.write(0, 1, written[0, 1], "22 0")
    t.say("Start places handed in: the first, one in the middle, the last, the end, and those past it.")
    for start in (0, 1, 128, 256, 257):
        t.given(f"start {start}")
        t.write(0, 1, written[0, 1], f"22 {257 - start}")
        t.starts(257)
    for start in (258, 512, 513, 65536 + 257, 2**32 + 257):
        t.given(f"start {start}")
        t.read(0, 256, "20")
        t.find(0, 256, "0")
        t.write(0, 1, written[0, 1], "20 0")
        t.close("20")
    t.given("start 200")
    t.write(0, 256, written[0, 256], "0 rewritten 252 0")
    t.reads(*((place[0], place[1], written[place]) for place in ((1, 251), (1, 255), (0, 253), (0, 256))))
    assert t.lent.position == 3 + 3 * 1040 + 16
    t.close("0")
    t.say("The next openings.")
    t.given(f"permutation {words(range(g.P - 1, -1, -1))}")
    t.open(key[1], "0 1")
    t.reads(*((place[0], place[1], written[place]) for place in ((1, 251), (1, 255), (0, 253), (0, 256))))
    t.reads((0, 252, first[0, 252]), (1, 253, first[1, 253]), (1, 5, None))
    t.open(key[0], "0 0")
    t.reads((0, 253, written[0, 253]), (0, 252, first[0, 252]))
    t.finish()


def fifteen():
    """Blocks of 4,096 bytes and all 15 volumes."""
    g = Geometry(4096, 2, 4)
    image = Image("fifteen.img", g)
    rows = {14: [3, MARK, MARK, MARK], 9: [MARK, MARK, 1, MARK], 0: [MARK, MARK, MARK, 0]}
    map_ivs = {14: [FF16], 9: [FF16[:15] + b"\x9c"], 0: [Noise("iv 4").take(12) + FF16[:4]]}
    for i in range(VOLUMES):
        image.put_volume(i, rows.get(i, [MARK] * 4), ivs=map_ivs.get(i, ()))
    ivs = {
        (14, 0): FF16,
        (14, 1): Noise("iv 5").take(13) + FF16[:3],
        (9, 4): Noise("iv 6").take(8) + FF16[:8],
        (9, 5): Noise("iv 7").take(12) + FF16[:4],
        (0, 6): None,
        (0, 7): FF16[:15] + b"\x80",
    }
    first = {place: text(f"fifteen, block {place[1]} of volume {place[0]}", g.B) for place in ivs}
    for (volume, address), iv in ivs.items():
        image.put_block(volume, rows[volume][address // 2], address % 2, first[volume, address], iv)
    FILES["fifteen.img"] = bytes(image.device)

    t = Transcript("fifteen.txt", "Blocks of 4,096 bytes, all 15 volumes, counters that carry and that wrap.")
    # At 1 the IV block of a claim, its IVs at 1 and 17; at 4097 the IV of its map block; at 4113 the IV of a rewrite.
    tape_words = tape("fifteen", 4096 + 384, at_1=FF16[:15] + b"\x01", at_17=FF16, at_4097=FF16, at_4117=FF16[:12])
    t.lend("fifteen.img", g, [3, 1, 0, 2], tape_words, 1)
    t.say("Key i opens volumes 0 to i.")
    for i in range(VOLUMES):
        t.open(image.key[i], f"0 {i}")
        if i < 14:
            t.read(i + 1, 0, "11")
    t.reads(*((volume, address, data) for (volume, address), data in first.items()))
    t.reads((14, 2, None), (8, 4, None), (10, 0, None), (0, 0, None))
    t.read(14, 8, "12")
    t.read(15, 0, "11")
    t.find(14, 0, f"4096 {4096 * (31 + 3 * 3 + 1)}")
    t.find(9, 5, f"4096 {4096 * (31 + 1 * 3 + 2)}")
    t.find(0, 7, f"4096 {4096 * (31 + 2)}")
    t.find(8, 5, "0")
    t.say("A claim and a rewrite.")
    claimed, rewritten = text("fifteen, block 1 of volume 3", g.B), text("fifteen, block 0 of volume 14, written", g.B)
    t.starts(3)
    t.write(3, 1, claimed, "0 claimed 2 1")
    t.write(14, 0, rewritten, "0 rewritten 3 0")
    t.write(13, 0, claimed, "22 0")
    t.reads((3, 0, None), (3, 1, claimed), (14, 0, rewritten), (14, 1, first[14, 1]))
    t.say("The device that the session leaves, and the close, which alters nothing of it.")
    assert t.lent.position == 1 + 4112 + 16
    t.image("fifteen-after.img")
    t.close("0")
    t.image("fifteen-after.img")
    t.say("The next openings.")
    for i in (14, 13, 3, 2, 0):
        t.open(image.key[i], f"0 {i}")
        t.reads((0, 6, first[0, 6]), (0, 7, first[0, 7]))
        if i >= 3:
            t.reads((3, 1, claimed))
        if i >= 9:
            t.reads((9, 4, first[9, 4]))
        if i >= 14:
            t.reads((14, 0, rewritten), (14, 1, first[14, 1]))
    t.finish()


def widest():
    """As many data blocks in a slice as there may be: the IV block is IVs to its end."""
    g = Geometry(1024, 64, 1)
    image = Image("widest.img", g)
    image.put_volume(0, [MARK])
    image.put_volume(1, [0])
    first = {j: text(f"widest, block {j} of volume 1", g.B) for j in (0, 1, 31, 62, 63)}
    for j in range(64):
        image.put_block(1, 0, j, first.get(j, bytes(g.B)))
    FILES["widest.img"] = bytes(image.device)

    t = Transcript("widest.txt", "One slice of 64 data blocks, whose IVs fill the IV block.")
    # At 0 the IV of a rewrite, at 16 the IV block of a claim, at 1040 the IV of its map block, to the tape's end.
    t.lend("widest.img", g, [0], tape("widest", 1056, at_0=FF16, at_1024=FF16), 0)
    t.open(image.key[1], "0 1")
    t.reads(*((1, j, data) for j, data in first.items()), (1, 2, None), (1, 32, None), (1, 61, None), (0, 0, None))
    t.read(1, 64, "12")
    t.find(1, 0, f"1024 {1024 * 32}")
    t.find(1, 63, f"1024 {1024 * 95}")
    rewritten, claimed = text("widest, block 63 of volume 1, written", g.B), text("widest, block 63 of volume 0", g.B)
    t.starts(1)
    t.write(0, 63, claimed, "22 0")
    t.given("start 0")
    t.write(0, 63, claimed, "22 1")
    t.starts(1)
    t.write(1, 63, rewritten, "0 rewritten 0 0")
    t.reads((1, 62, first[62]), (1, 63, rewritten))
    t.say("Key 0 knows nothing of volume 1, and a claim takes its slice.")
    t.open(image.key[0], "0 0")
    t.reads((0, 0, None), (0, 63, None))
    t.starts(0)
    t.write(0, 63, claimed, "0 claimed 0 1")
    t.starts(1)
    t.reads((0, 0, None), (0, 1, None), (0, 62, None), (0, 63, claimed))
    t.open(image.key[1], "10")
    t.open(image.key[0], "0 0")
    t.reads((0, 0, None), (0, 62, None), (0, 63, claimed))
    t.close("0")
    t.open(image.key[0], "0 0")
    t.reads((0, 0, None), (0, 62, None), (0, 63, claimed))
    t.open(image.key[1], "10")
    t.finish()


def damaged():
    """Images that are refused by 6 to 10."""
    g = SMALL
    t = Transcript("damaged.txt", "Openings that are refused by what stands on the device.")

    # 6
    image = small_image()
    key = image.key
    for i in (0, 1, 2):
        put(image.device, g.cell(3 + i), bytes(image.device[g.cell(i) : g.cell(i) + CELL]))
    image.flip(g.cell(0) + CELL - 1, 1)
    image.flip(g.cell(1), 128)
    image.flip(g.cell(2) + 12 + 31, 1)
    image.put_cell(6, key=key[0], associated=b"")
    image.put_cell(7, key=key[0], associated=bytes([16 + 7]))
    image.put_cell(8, key=key[0], associated=number(8))
    cell = image.sealed_cell(9, key=key[0])
    put(image.device, g.cell(9), cell[:12] + cell[44:] + cell[12:44])
    put(image.device, g.cell(10), cell[12:] + cell[:12])
    FILES["no-cell.img"] = bytes(image.device)
    t.say("Cells 0 to 2 have one bit changed, in the last byte of the tag, the first of the IV, the last of the ciphertext.")
    t.lend("no-cell.img", g, [2, 0, 3, 1])
    for i in range(VOLUMES):
        t.open(key[i], "6")
    t.say("With the bit in place again.")
    for i in (0, 1, 2):
        t.given(f"bytes {g.cell(i)} small.img {g.cell(i)} {CELL}")
        t.open(key[i], f"0 {i}")

    # 7
    image = small_image()
    image.flip(g.header(1) + HEADER - 1, 1)
    image.put_header(0, S=5)
    FILES["header-tag.img"] = bytes(image.device)
    t.say("The tag of header 1 is wrong in its last bit, and header 0 holds another S.")
    t.lend("header-tag.img", g, [2, 0, 3, 1])
    t.open(key[2], "7")
    t.open(key[1], "7")
    t.open(key[0], "8")
    t.say("Header 1 right again: the way down ends at header 0.")
    t.given(f"bytes {g.header(1)} small.img {g.header(1)} {HEADER}")
    t.open(key[2], "8")
    t.open(key[1], "8")
    t.say("Header 1 sealed with the associated data 1, with none, with 17 in four bytes; for volume 2; with another S besides.")
    for sealed in (
        image.sealed_header(1, associated=bytes([1])),
        image.sealed_header(1, associated=b""),
        image.sealed_header(1, associated=number(17)),
        image.sealed_header(1, associated=bytes([18])),
        image.sealed_header(1, associated=bytes([1]), S=5),
    ):
        t.given_bytes(g.header(1), sealed)
        t.open(key[2], "7")
        t.open(key[1], "7")
    t.say("The tag before the ciphertext; the first bit of the IV and of the ciphertext; the last header's tag.")
    sealed = image.sealed_header(1)
    t.given_bytes(g.header(1), sealed[:12] + sealed[84:] + sealed[12:84])
    t.open(key[2], "7")
    for place in (0, 12, 83, 84):
        t.given_bytes(g.header(1), sealed[:place] + bytes([sealed[place] ^ 128]) + sealed[place + 1 :])
        t.open(key[1], "7")
    t.given("device small.img 52224")
    t.given_bytes(g.header(0) + HEADER - 1, bytes([small_image().device[g.header(0) + HEADER - 1] ^ 1]))
    for i in (0, 1, 2):
        t.open(key[i], "7")

    # 8
    image = small_image()
    image.put_header(1, S=5)
    image.flip(g.header(0) + 84, 128)
    FILES["header-geometry.img"] = bytes(image.device)
    t.say("Header 1 holds S 5, and the tag of header 0 is wrong: the 8 comes first on the way down.")
    t.lend("header-geometry.img", g, [2, 0, 3, 1])
    t.open(key[2], "8")
    t.open(key[1], "8")
    t.open(key[0], "7")
    t.say("Other numbers in header 1: a count above P by one, 0, the largest; S 0, 3, 4 in another byte.")
    for numbers in ({"N": 5}, {"N": 0}, {"N": MARK}, {"N": 4 << 24}, {"N": (1 << 16) + 4}, {"S": 0}, {"S": 3}, {"S": 4 << 24},
                    {"S": (1 << 16) + 4}, {"N": 5, "S": 5}):
        t.given_bytes(g.header(1), image.sealed_header(1, **numbers))
        t.open(key[2], "8")
        t.open(key[1], "8")
    t.say("The right numbers: now header 0 is reached, and with its tag right the opening is served.")
    t.given_bytes(g.header(1), image.sealed_header(1))
    t.open(key[2], "7")
    t.given(f"bytes {g.header(0)} small.img {g.header(0)} {HEADER}")
    t.open(key[2], "0 2")

    # 9
    image = small_image()
    image.put_map(1, [MARK, MARK, 4, 2])
    FILES["bad-entry.img"] = bytes(image.device)
    t.say("Entry 2 of volume 1 is 4, which is P; entry 3 names the slice of volume 0.")
    t.lend("bad-entry.img", g, [2, 0, 3, 1])
    t.open(key[1], "9")
    t.open(key[2], "9")
    t.open(key[0], "0 0")
    t.say("Other bad entries, each at another place.")
    for bad in ([MARK - 1, MARK, MARK, MARK], [MARK, (1 << 16) + 1, MARK, MARK], [MARK, MARK, 1 << 24, MARK],
                [MARK, MARK, MARK, 1 << 31], [4097, 2, 2, 2], [MARK >> 1, 2, 2, 2], [256, 2, 2, 2]):
        t.given_bytes(g.map_block(1, 0), image.enciphered_map(1, bad))
        t.open(key[1], "9")
        t.open(key[2], "9")
    t.say("Volume by volume: the last entry of volume 0 is bad, the first of volume 1 a slice named twice.")
    t.given_bytes(g.map_block(0, 0), image.enciphered_map(0, [MARK, 2, MARK, 4]))
    t.given_bytes(g.map_block(1, 0), image.enciphered_map(1, [2, MARK, MARK, 0]))
    t.open(key[1], "9")
    t.open(key[0], "9")
    t.say("An entry past the last is ignored, whatever it is. The mark is all FF and nothing less.")
    t.given_bytes(g.map_block(0, 0), image.enciphered_map(0, [MARK, 2, MARK, MARK, 4, 2]))
    t.given_bytes(g.map_block(1, 0), image.enciphered_map(1, [MARK, MARK, MARK, 0, 0, MARK - 1]))
    t.open(key[1], "0 1")

    # 10
    image = small_image()
    image.put_map(2, [3, 2, 4, MARK])
    FILES["slice-twice.img"] = bytes(image.device)
    t.say("Entry 1 of volume 2 names the slice of volume 0; entry 2 is 4.")
    t.lend("slice-twice.img", g, [2, 0, 3, 1])
    t.open(key[2], "10")
    t.open(key[1], "0 1")
    t.open(key[0], "0 0")
    t.say("Twice inside one volume; before a bad entry; with slice 0.")
    for bad in ([2, 2, MARK, MARK], [1, 3, MARK, 1], [2, 2, 4, 4], [0, MARK, MARK, 0]):
        t.given_bytes(g.map_block(0, 0), image.enciphered_map(0, bad))
        for i in (0, 1, 2):
            t.open(key[i], "10")
    t.finish()


def twocells():
    """One key for two cells."""
    image = small_image()
    key = image.key
    g = SMALL
    both = Noise("two cells").take(32)
    for i in (1, 2, 14):
        image.put_cell(i, key=both)
    FILES["two-cells.img"] = bytes(image.device)
    t = Transcript("two-cells.txt", "One key opens cells 1, 2 and 14: the lowest is taken.")
    t.lend("two-cells.img", g, [2, 0, 3, 1])
    t.open(both, "0 1")
    t.reads((0, 4, small_text(0, 4)), (1, 13, small_text(1, 13)))
    t.read(2, 0, "11")
    t.say("Keys 1 and 2 open no cell here; key 0 opens cell 0.")
    t.open(key[1], "6")
    t.open(key[2], "6")
    t.open(key[0], "0 0")
    t.say("The cell decides, not what follows from it: with header 1 unreadable the opening is refused.")
    t.given_bytes(g.header(1) + 99, bytes([image.device[g.header(1) + 99] ^ 1]))
    t.open(both, "7")
    t.say("With cell 1 unreadable, cell 2 is the lowest. Its way down meets header 1 too.")
    t.given_bytes(g.cell(1) + 59, bytes([image.device[g.cell(1) + 59] ^ 1]))
    t.open(both, "7")
    t.given(f"bytes {g.header(1)} small.img {g.header(1)} {HEADER}")
    t.open(both, "0 2")
    t.reads((0, 4, small_text(0, 4)), (1, 13, small_text(1, 13)), (2, 0, small_text(2, 0)))
    t.say("With cell 2 unreadable too, cell 14 is taken, and no header 14 stands on the device.")
    t.given_bytes(g.cell(2), bytes([image.device[g.cell(2)] ^ 1]))
    t.open(both, "7")
    t.finish()


def ignored():
    """Other bytes wherever bytes are ignored."""
    image = small_image()
    g = SMALL
    t = Transcript("ignored.txt", "small.img with other bytes wherever key 1 has nothing to read: every answer is the same.")
    t.lend("small.img", g, [2, 0, 3, 1], tape("ignored", 1280), 0)
    places = [(0, 16, "the salt"), (g.cell(2), g.B - g.cell(2), "cells above 1 and the rest of the master block")]
    for i in (0, 1):
        places.append((g.header(i) + HEADER, g.B - HEADER, f"the rest of header {i}'s first block"))
        places.append((g.map_block(i, 0) + 16 + 4 * g.P, g.B - 16 - 4 * g.P, f"entries of volume {i} past the last"))
    places.append((g.header(2), g.slice(0) - g.header(2), "headers above 1"))
    for psi in (0, 2):
        places.append((g.slice(psi) + 16 * g.S, g.B - 16 * g.S, f"the filler of slice {psi}"))
    for psi in (1, 3):
        places.append((g.slice(psi), g.B * (1 + g.S), f"slice {psi}, free or held by volume 2"))
    for at, length, what in places:
        t.say(what[0].upper() + what[1:] + ".")
        t.given(f"bytes {at} two-maps.img {at + 4096} {length}")
    t.say("The session.")
    t.open(image.key[1], "0 1")
    t.reads(*small_blocks(0, 1))
    t.write(0, 5, small_text(0, 5), "0 rewritten 2 0")
    t.starts(2)
    t.write(1, 8, small_text(1, 8), "0 claimed 3 1")
    t.reads((0, 4, small_text(0, 4)), (0, 5, small_text(0, 5)), (1, 8, small_text(1, 8)), (1, 9, None))
    t.close("0")
    t.open(image.key[1], "0 1")
    t.reads((0, 5, small_text(0, 5)), (1, 8, small_text(1, 8)), (1, 13, small_text(1, 13)))
    t.finish()


def lengths():
    """The device's length for many geometries."""
    twomaps = Image("two-maps.img", Geometry(1024, 1, 257))
    t = Transcript(
        "lengths.txt",
        "The device's length for many geometries. The key has 31 bytes: an opening is refused by 3 where the length is right,",
        "and by 2 where it is not.",
    )
    t.lend("small.img", SMALL, [2, 0, 3, 1])
    short = twomaps.key[0][:31]
    for B, S, P, m in ((1024, 1, 1, 1), (1024, 4, 4, 1), (1024, 64, 1, 1), (1024, 1, 252, 1), (1024, 1, 253, 2),
                       (1024, 1, 504, 2), (1024, 1, 505, 3), (1024, 1, 4096, 17), (4096, 1, 1, 1), (4096, 256, 1, 1),
                       (4096, 1, 253, 1), (4096, 1, 1020, 1), (4096, 1, 1021, 2)):
        g = Geometry(B, S, P)
        assert g.m == m and g.length == B * (1 + 15 * (1 + m) + P * (S + 1))
        t.say(f"m {m}, H {g.H}, {g.length} bytes.")
        t.given(f"geometry {B} {S} {P}")
        for length, answer in ((g.length - 1, "2"), (g.length + 1, "2"), (g.length, "3")):
            t.given(f"zeros {length}")
            t.open(short, answer)

    g = Geometry(4096, 256, 4080)
    assert g.length == 2**32 + 245760
    t.say("A device of 4,295,213,056 bytes, which is 2^32 and 245,760: a length worked out in 32 bits would be right here.")
    t.given(f"geometry {words(g)}")
    t.given("device two-maps.img 245760")
    t.open(short, "2")

    t.say("The first part of two-maps.img with one map block, where header 0 begins at the same place: its count of 257 is",
          "above P, which is 252.")
    g = Geometry(1024, 1, 252)
    t.given(f"geometry {words(g)}")
    t.given(f"device two-maps.img {g.length}")
    t.given(f"maps {15 * g.P} 2")
    t.given(f"owners {words([9] * g.P)}")
    t.given(f"permutation {words(range(g.P))}")
    t.open(twomaps.key[0], "8")
    t.say("The same with S 64 and P 1.")
    g = Geometry(1024, 64, 1)
    t.given(f"geometry {words(g)}")
    t.given(f"device two-maps.img {g.length}")
    t.given("maps 15 2")
    t.given("owners 9")
    t.given("permutation 0")
    t.open(twomaps.key[0], "8")
    t.finish()


# What formatting draws from: noise but for some IVs of map blocks, whose counters carry, and some VMKs, whose cells two keys
# open. For these: position, count of keys, the cell, the key that seals it, and the other one that opens it, by their numbers.
FORMAT_TAPE = 60000
TWO_KEYS = ((2000, 2, 0, 0, 20), (3000, 3, 1, 1, 21), (4000, 15, 0, 0, 22), (4000, 15, 13, 13, 23), (5800, 15, 9, 9, 24))

# Position, count of keys, volume, and with how many bytes FF the IV of its map block ends.
CARRIES = ((0, 1, 0, 8), (7, 3, 1, 16), (7, 3, 2, 4), (1, 15, 14, 16), (1, 15, 0, 2))


def format_key(n):
    return Noise(f"format, key {n}").take(32)


def format_keys(*numbers):
    return [format_key(n) for n in numbers]


@functools.lru_cache(maxsize=None)
def format_tape():
    """The words that name it in a transcript. It is for devices of the small geometry."""
    g = SMALL
    data = bytearray(Noise("tape format").take(FORMAT_TAPE))
    for position, count, volume, carried in CARRIES:
        iv = position + g.length + 76 * count + 28 * volume + 12
        put(data, iv + 16 - carried, FF16[:carried])
    for position, count, cell, key, other in TWO_KEYS:
        vmk = position + g.length + 64 * cell
        iv = position + g.length + 64 * count + 12 * cell
        sealing = format_key(key), format_key(other), bytes(data[iv : iv + 12]), bytes([cell])
        put(data, vmk, text_for_two(*sealing, bytes(data[vmk : vmk + 16])))
    return f"{add('tapes.bin', bytes(data))} {FORMAT_TAPE}"


def shorter(tape_words, length):
    """The same tape, cut."""
    return words(tape_words.split(" ")[:2] + [length])


def format_small():
    """Blank devices, and sessions on them."""
    g = SMALL
    key = format_keys(*range(VOLUMES))
    some = {n: text(f"formatted, text {n}", g.B) for n in range(3)}
    t = Transcript("format.txt", "Devices that formatting makes, and sessions on them.")
    t.given(f"geometry {words(g)}")
    t.given(f"zeros {g.length}")
    t.given("maps 60 7")
    t.given("owners 7 0 255 1")
    t.given("permutation 2 0 3 1")
    t.given(f"tape {format_tape()}")
    t.given(f"session {OTHER_SESSION}")

    t.say("One key. Tables and session are not the formatting's.")
    t.format(key[:1], "0")
    assert t.lent.position == 52224 + 88 + 16
    for i in (1, 2, 14):
        t.open(key[i], "6")
    t.open(NO_KEY, "6")
    t.open(key[0], "0 0")
    t.reads(*((0, address, None) for address in range(16)))
    t.read(1, 0, "11")
    t.find(0, 0, "0")

    t.say("Three keys, from a position inside the tape, over the device that was made before.")
    t.given("position 7")
    t.format(key[:3], "0")
    t.image("formatted.img")
    assert t.lent.position == 7 + 52224 + 3 * (88 + 16)
    for i in range(3):
        t.open(key[i], f"0 {i}")
        t.reads(*((volume, address, None) for volume in range(i + 1) for address in (0, 5, 15)))
        t.read(i + 1, 0, "11")
    for i in (3, 14):
        t.open(key[i], "6")
    t.say("A session: claims of all three volumes, a rewrite, a close, and the next openings.")
    t.open(key[2], "0 2")
    t.write(1, 5, some[0], "0 claimed 2 1")
    t.write(0, 0, some[1], "0 claimed 0 1")
    t.write(2, 15, some[2], "0 claimed 3 1")
    t.starts(3)
    t.write(1, 6, some[1], "0 rewritten 2 0")
    t.reads((1, 5, some[0]), (1, 6, some[1]), (1, 4, None), (0, 0, some[1]), (2, 15, some[2]))
    t.close("0")
    for i in range(3):
        t.open(key[i], f"0 {i}")
        t.reads((0, 0, some[1]), (0, 1, None), (0, 4, None))
        if i >= 1:
            t.reads((1, 5, some[0]), (1, 6, some[1]), (1, 0, None))
        if i >= 2:
            t.reads((2, 15, some[2]), (2, 14, None), (2, 0, None))

    t.say("With this session open and volumes in use: the same formatting makes the same device. The session stays, and what",
          "it holds of the old device is now noise.")
    t.given("position 7")
    t.starts(3)
    t.format(key[:3], "0")
    t.starts(3)
    t.image("formatted.img")
    t.read(1, 5, "0")
    t.read(0, 4, "0", bytes(g.B))
    t.open(key[2], "0 2")
    t.reads((1, 5, None), (0, 0, None), (2, 15, None))

    t.say("A device that held three volumes and gets two other keys: the old keys open nothing.")
    t.given("device small-after.img 52224")
    t.given("position 1501")
    t.format(format_keys(15, 16), "0")
    for old in small_image().key[:3] + key[:3]:
        t.open(old, "6")
    for i in (0, 1):
        t.open(format_key(15 + i), f"0 {i}")
        t.reads(*((volume, address, None) for volume in range(i + 1) for address in (0, 4, 13)))
    t.write(0, 13, some[2], "0 claimed 2 1")
    t.close("0")
    t.open(format_key(15), "0 0")
    t.reads((0, 13, some[2]), (0, 12, None))

    t.say("The same keys in another order.")
    t.given("position 7")
    t.format([key[2], key[0], key[1]], "0")
    for volume, i in enumerate((2, 0, 1)):
        t.open(key[i], f"0 {volume}")

    t.say("All 15 volumes, with a tape that ends where the formatting does.")
    t.given(f"zeros {g.length}")
    t.given(f"tape {shorter(format_tape(), 1 + 52224 + 15 * 104)}")
    t.given("position 1")
    t.format(key, "0")
    t.image("formatted-fifteen.img")
    for i in range(VOLUMES):
        t.open(key[i], f"0 {i}")
        t.reads((i, 0, None), (i // 2, 15, None))
        t.read(i + 1, 0, "11")
    t.given("position 0")
    t.write(14, 3, some[0], "0 claimed 2 1")
    t.write(0, 3, some[1], "0 claimed 0 1")
    t.write(7, 3, some[2], "0 claimed 3 1")
    t.close("0")
    t.open(key[14], "0 14")
    t.reads((14, 3, some[0]), (0, 3, some[1]), (7, 3, some[2]), (13, 3, None), (14, 2, None))
    t.open(key[7], "0 7")
    t.reads((7, 3, some[2]), (0, 3, some[1]), (6, 3, None))
    t.finish()


def check_formatted():
    """formatted.img taken apart, with places worked out by hand: it is made of tape bytes 7 to 52,542."""
    name, offset, length = format_tape().split(" ")
    drawn = FILES[name][int(offset) : int(offset) + int(length)]
    device = FILES["formatted.img"]
    whole = bytearray(drawn[7:52231])
    vmk = [drawn[52231:52263], drawn[52295:52327], drawn[52359:52391]]
    vek = [drawn[52263:52295], drawn[52327:52359], drawn[52391:52423]]
    below = [bytes(32), vmk[0], vmk[1]]
    for i, (cell, cell_iv, header, header_iv, block, block_iv) in enumerate((
        (16, 52423, 1024, 52459, 2048, 52471),
        (76, 52435, 3072, 52487, 4096, 52499),
        (136, 52447, 5120, 52515, 6144, 52527),
    )):
        for at, size, iv, iv_size in ((cell, 60, cell_iv, 12), (header, 100, header_iv, 12), (block, 1024, block_iv, 16)):
            put(whole, at, device[at : at + size])
            assert device[at : at + iv_size] == drawn[iv : iv + iv_size]
        assert unseal(format_key(i), device[cell : cell + 60], bytes([i])) == vmk[i]
        assert unseal(vmk[i], device[header : header + 100], bytes([16 + i])) == vek[i] + below[i] + bytes([0, 0, 0, 4] * 2)
        assert counter_mode(vek[i], device[block : block + 16], device[block + 16 : block + 1024]) == bytes([255] * 1008)
    assert whole == device


def format_sizes():
    """Other geometries. The tapes are parts of two-maps.img, which is noise for the most part."""
    t = Transcript("format-sizes.txt", "Devices of other sizes: two map blocks, blocks of 4,096, the most blocks in a slice.")
    for g, offset, count, places in (
        (Geometry(1024, 1, 253), 0, 2, ((1, 252), (0, 251), (0, 0))),
        (Geometry(1024, 64, 1), 240000, 1, ()),
        (Geometry(4096, 3, 2), 200000, 2, ((1, 5),)),
        (Geometry(4096, 1, 1), 300000, 3, ((2, 0),)),
    ):
        key = format_keys(*range(30, 30 + count))
        need = g.length + count * (88 + 16 * g.m)
        assert need == {253: 565488, 1: 98408 if g.S == 64 else 135480, 2: 159952}[g.P]
        t.say(f"B {g.B}, S {g.S}, P {g.P}, a device of {g.length} bytes. Keys: {count}, and so {need} bytes of the tape.")
        t.given(f"geometry {words(g)}")
        t.given(f"zeros {g.length}")
        t.given(f"maps {VOLUMES * g.P} -")
        t.given(f"owners {words([0] * g.P)}")
        t.given(f"permutation {words(range(g.P - 1, -1, -1))}")
        t.given(f"tape two-maps.img {offset} {5 + need - 1}")
        t.given("position 5")
        t.format(key, "21")
        t.given(f"tape two-maps.img {offset} {5 + need}")
        t.format(key, "0")
        t.given(f"tape two-maps.img {offset} {5 + need + 4480}")
        for i in range(count):
            t.open(key[i], f"0 {i}")
            t.reads((i, 0, None), (0, g.P * g.S - 1, None))
            t.read(i, g.P * g.S, "12")
            t.read(i + 1, 0, "11")
        for n, (volume, address) in enumerate(places):
            t.write(volume, address, text(f"formatted, size {g.B}, block {address}", g.B), f"0 claimed {g.P - 1 - n} 1")
            t.starts(n + 1)
        if places:
            t.close("0")
            t.open(key[-1], f"0 {count - 1}")
            t.reads(*((volume, address, text(f"formatted, size {g.B}, block {address}", g.B)) for volume, address in places))
    t.finish()


def format_refusals():
    """The refusals of a formatting in their order, and that nothing is changed."""
    g = SMALL
    key = format_keys(*range(17))
    whole = "device small.img 52224"
    tape_words = format_tape()
    twice = [key[0], key[1], key[0]]
    t = Transcript(
        "format-refusals.txt",
        "Every refusal of a formatting, with the conditions of later ones standing too. A refused one changes nothing.",
    )
    t.given("maps 60 7")
    t.given("owners 7 0 255 1")
    t.given("permutation 2 0 3 1")
    t.given(f"session {OTHER_SESSION}")

    t.say("1: geometries that are not allowed, with everything else wrong too.")
    t.given("device small.img 0")
    t.given(f"tape {shorter(tape_words, 100)}")
    t.given("position 101")
    for geometry in (
        "0 4 4", "16 1 4", "512 4 4", "1023 4 4", "1025 4 4", "2048 4 4", "8192 4 4", "4294968320 4 4", "1024 0 4", "1024 65 4",
        "1024 4294967300 4", "4096 0 4", "4096 257 4", "1024 4 0", "1024 4 4097", "1024 4 4294967300", "0 0 0",
        "18446744073709551615 18446744073709551615 18446744073709551615",
    ):
        t.given(f"geometry {geometry}")
        t.format(b"", "1", 0)
    t.format(key[0][:31], "1", 16, [])
    t.given(whole)
    t.given(f"tape {tape_words}")
    t.given("position 0")
    t.given("geometry 1024 65 4")
    t.say("1 alone, and before each of the others alone.")
    t.format(key[:3], "1")
    t.given("geometry 4096 4 4097")
    t.format(key[:3], "1")
    t.format(b"", "1", 0)
    t.format(key[0][:31], "1", 1)
    t.format(twice, "1")
    t.given("position 60001")
    t.format(key[:3], "1")

    t.say("2: the device's length.")
    t.given(f"geometry {words(g)}")
    for device in ("device small.img 0", "device small.img 52223", "device two-maps.img 52225", "device two-maps.img 65536"):
        t.given(device)
        t.format(b"", "2", 0)
        t.given("position 0")
        t.format(key[:3], "2")
        t.format(key[:16], "2")
        t.format(key[0] + key[1][:31], "2", 2)
        t.format(twice, "2")
        t.given("position 60001")
        t.format(key[:3], "2")
    t.say("A device of 4,295,213,056 bytes, which is 2^32 and 245,760: a length worked out in 32 bits would be right here.")
    t.given("geometry 4096 256 4080")
    t.given("device two-maps.img 245760")
    t.format(key[:1], "2")
    t.given(f"geometry {words(g)}")
    t.given(whole)

    t.say("23: no key, or more than 15; with keys of the right length for the count, and of others.")
    t.format(b"", "23", 0)
    t.given("position 0")
    t.format(b"", "23", 0)
    t.format(key[:1], "0")
    t.given(whole)
    t.given("position 0")
    t.format(key[0], "23", 0)
    t.format(key[0][:31], "23", 0)
    t.format(key[:16], "23")
    t.format(key[:17], "23")
    t.format([key[0]] * 16, "23")
    for volumes in (16, 31, 255, 256, 257, 258, 2**16 + 1):
        t.format(b"", "23", volumes)
        t.format(key[0], "23", volumes)
    t.format(b"".join(key[:15]), "23", 16)
    t.given("position 60001")
    t.format(key[:16], "23")
    t.say("So many keys that no list has a count for each are 1.")
    for position in (60001, 0):
        t.given(f"position {position}")
        for volumes in (2**32, 2**32 + 1, 2**59, 2**59 + 1, 2**62 + 1, 2**63, 2**63 + 1, 2**64 - 1):
            t.format(b"", "1", volumes, [])
            t.format(key[0], "1", volumes, [4])
        t.format(b"".join(key[:2]), "1", 2**32 + 2, [4, 4])
        t.format(key[0], "1", 2**64 - 1, [4] * 15)
    t.given("position 60001")

    t.say("3: not 32 bytes for each key. It comes before 21, and before 24.")
    for position in (60001, 0):
        t.given(f"position {position}")
        for count, length in ((1, 0), (1, 31), (1, 33), (1, 64), (2, 32), (2, 63), (2, 65), (3, 0), (3, 3), (3, 95), (3, 97),
                              (3, 128), (15, 32), (15, 448), (15, 479), (15, 481), (15, 512)):
            t.format(b"".join(key[:16])[:length], "3", count)
        t.format(key[0] + key[0] + key[1][:31], "3", 3)
        t.format(key[0] + key[0], "3", 3)

    t.say("21: too few bytes of the tape left. It comes before 24.")
    for count in (1, 2, 3, 15):
        need = 52224 + 104 * count
        for position, length in ((0, need - 1), (1, need), (60000 - need + 1, 60000), (0, 0), (0, 52224), (52224, 52224),
                                 (60000, 60000)):
            t.given(f"tape {shorter(tape_words, length)}")
            t.given(f"position {position}")
            t.format(key[:count], "21")
            if count > 1:
                t.format([key[0]] * count, "21")
    t.say("The position past the end, also where the need added to it would begin anew.")
    t.given(f"tape {tape_words}")
    for position in (60001, 2**32, 2**32 + 1, 2**63, 2**64 - 52536, 2**64 - 52535, 2**64 - 52224, 2**64 - 1):
        t.given(f"position {position}")
        t.format(key[:3], "21")
        t.format(twice, "21")

    t.say("24: one key twice, with exactly as many bytes as are needed. In every pair of three.")
    need = 52224 + 104 * 3
    t.given(f"tape {shorter(tape_words, 11 + need)}")
    t.given("position 11")
    for same in ((0, 0, 1), (0, 1, 0), (1, 0, 0), (0, 0, 0)):
        t.format([key[n] for n in same], "24")
    t.format([NO_KEY, NO_KEY], "24")
    t.say("In pairs of 15.")
    t.given(f"tape {shorter(tape_words, 52224 + 104 * 15)}")
    t.given("position 0")
    for lower, higher in ((0, 1), (0, 14), (13, 14), (7, 8), (1, 12), (6, 14)):
        some = key[:15]
        some[higher] = some[lower]
        t.format(some, "24")
    t.say("Keys that are nearly one another, and served.")
    t.format([key[0], key[0][:31] + bytes([key[0][31] ^ 1]), bytes([key[0][0] ^ 128]) + key[0][1:], NO_KEY], "0")
    t.open(NO_KEY, "0 3")
    t.open(key[0], "0 0")
    t.finish()


def lower_cells():
    """Keys that open the cell of another volume."""
    g = SMALL
    key = format_keys(*range(30))
    tape_words = format_tape()
    twomaps = Image("two-maps.img", Geometry(1024, 1, 257))
    t = Transcript(
        "lower-cells.txt",
        "Cells that open under a second key, another one than that under which they are sealed. The VMKs on the tape are",
        "chosen so: at position 2000, with two keys, for cell 0; at 3000, with three, for cell 1; at 4000, with fifteen, for",
        "cells 0 and 13; at 5800, with fifteen, for cell 9.",
    )
    t.given(f"geometry {words(g)}")
    t.given("device formatted.img 52224")
    t.given("maps 60 7")
    t.given("owners 7 0 255 1")
    t.given("permutation 2 0 3 1")
    t.given(f"tape {tape_words}")
    t.given(f"session {OTHER_SESSION}")

    t.say("24: the second key of cell 0 is key 1.")
    t.given("position 2000")
    t.format([key[0], key[20]], "24")
    t.say("Served: in the other order the key of cell 0 is another; with a third key, or from another position, its IV.")
    t.format([key[20], key[0]], "0")
    t.given("position 2000")
    t.format([key[0], key[1], key[20]], "0")
    t.given("position 2001")
    t.format([key[0], key[20]], "0")
    t.say("Served with another key instead. The second key opens cell 0 still, and finds no header.")
    t.given("position 2000")
    t.format([key[0], key[1]], "0")
    t.open(key[20], "7")
    t.open(key[0], "0 0")
    t.open(key[1], "0 1")

    t.say("24: the second key of cell 1 is key 2.")
    t.given("position 3000")
    t.format([key[0], key[1], key[21]], "24")
    t.say("Served: it is key 0, and the cell a higher one. The key opens the lowest, its own.")
    t.format([key[21], key[1], key[2]], "0")
    t.open(key[21], "0 0")
    t.open(key[1], "0 1")
    t.open(key[2], "0 2")
    t.say("Served without it.")
    t.given("position 3000")
    t.format(key[:3], "0")
    t.open(key[21], "7")

    t.say("24: the second key of cell 0, or that of cell 13, is key 14; those of cells 0 and 13 are keys 5 and 14; that of",
          "cell 0 is key 1.")
    t.given("position 4000")
    t.format(key[:14] + [key[22]], "24")
    t.format(key[:14] + [key[23]], "24")
    t.format(key[:5] + [key[22]] + key[6:14] + [key[23]], "24")
    t.format(key[:1] + [key[22]] + key[2:15], "24")
    t.say("Served: key 12 is the second key of cell 13.")
    t.format(key[:12] + [key[23]] + key[13:15], "0")
    t.open(key[23], "0 12")
    t.open(key[13], "0 13")
    t.open(key[14], "0 14")
    t.open(key[22], "7")
    t.say("24: key 10, 12 or 14 is the second key of cell 9.")
    t.given("position 5800")
    for i in (10, 12, 14):
        t.format(key[:i] + [key[24]] + key[i + 1 : 15], "24")
    t.say("Served: it is key 8, or key 0.")
    t.format(key[:8] + [key[24]] + key[9:15], "0")
    t.given("position 5800")
    t.format([key[24]] + key[1:15], "0")
    t.open(key[24], "0 0")
    t.open(key[9], "0 9")

    t.say("Cells that stood on the device before count for nothing: keys 0 and 1 of formatted.img become keys 1 and 2.")
    t.given("device formatted.img 52224")
    t.given("position 0")
    t.format([key[5], key[0], key[1]], "0")
    for i, n in enumerate((5, 0, 1)):
        t.open(key[n], f"0 {i}")
    t.say("Nor do cells on the tape that others are sealed over: this tape begins with the master block of two-maps.img.")
    t.given(f"tape two-maps.img 0 {52224 + 4096}")
    t.given("position 0")
    t.format([key[5], twomaps.key[0], twomaps.key[1]], "0")
    for i, opener in enumerate((key[5], twomaps.key[0], twomaps.key[1])):
        t.open(opener, f"0 {i}")
    t.say("A cell on the tape that nothing is sealed over stays. It is a higher one, also where a key opens it.")
    t.given("position 0")
    t.format([twomaps.key[1]], "0")
    t.open(twomaps.key[1], "0 0")
    t.given("position 0")
    t.format([key[5]], "0")
    t.open(twomaps.key[1], "7")
    t.open(twomaps.key[0], "6")
    t.finish()


def start_places():
    """Where claims begin to look."""
    image = small_image()
    key = image.key
    formatted = format_keys(0, 1, 2)
    some, other = small_text(0, 0, "fourth"), small_text(1, 0, "fourth")
    t = Transcript(
        "start-places.txt",
        "Where a claim begins to look: the start place as openings, claims, a 22 and other refusals leave it, and as it is",
        "handed in.",
    )
    t.lend("small.img", SMALL, [2, 0, 3, 1], tape("start places", 4608), 0)

    t.say("Openings. With key 0 slice 2 is held, with key 1 slice 0 too, with key 2 slice 3 too.")
    for permutation, places in (
        ("2 0 3 1", (1, 2, 3)), ("2 0 1 3", (1, 2, 2)), ("2 1 0 3", (1, 1, 1)), ("1 2 0 3", (0, 0, 0)), ("0 1 2 3", (0, 1, 1)),
        ("2 3 0 1", (1, 1, 3)), ("3 2 0 1", (0, 0, 3)), ("0 2 3 1", (0, 2, 3)), ("3 0 2 1", (0, 0, 3)),
    ):
        t.given(f"permutation {permutation}")
        for i, place in enumerate(places):
            t.open(key[i], f"0 {i}")
            t.starts(place)

    t.say("With 2, 0, 3 held of the permutation 2 0 3 1 the claim has count 1. Other calls leave the start place.")
    t.given("permutation 2 0 3 1")
    t.open(key[2], "0 2")
    t.starts(3)
    t.reads((0, 4, small_text(0, 4)), (0, 0, None))
    t.read(3, 0, "11")
    t.find(0, 4, "1024 43008")
    t.write(0, 5, some, "0 rewritten 2 0")
    t.write(0, 16, some, "12 0")
    t.starts(3)
    t.write(0, 0, some, "0 claimed 1 1")
    t.starts(4)
    t.say("With all held it is 22 with count 0, again and again.")
    t.write(0, 8, some, "22 0")
    t.write(1, 0, some, "22 0")
    t.starts(4)
    t.reads((0, 0, some), (0, 8, None), (1, 13, small_text(1, 13)))
    t.write(0, 1, other, "0 rewritten 1 0")
    t.find(0, 1, "1024 38912")
    t.starts(4)
    t.say("A close leaves it, and the next openings find all held, or what volumes above k hold free.")
    t.close("0")
    t.starts(4)
    t.close("20")
    t.write(0, 1, other, "20 0")
    t.open(key[2], "0 2")
    t.starts(4)
    t.write(0, 8, some, "22 0")
    t.open(key[0], "0 0")
    t.starts(1)
    t.given("permutation 1 2 3 0")
    t.open(key[1], "0 1")
    t.starts(2)

    t.say("Claims on a device without any slice held. The counts add up to 4, which is P.")
    t.given("device formatted.img 52224")
    t.given("permutation 2 0 3 1")
    t.given("position 0")
    t.open(formatted[2], "0 2")
    t.starts(0)
    for n, (volume, address, slice) in enumerate(((1, 0, 2), (0, 0, 0), (2, 15, 3), (1, 7, 1))):
        t.write(volume, address, some, f"0 claimed {slice} 1")
        t.starts(n + 1)
        t.write(1, 1, other, "0 rewritten 2 0")
        t.starts(n + 1)
    t.write(0, 4, some, "22 0")
    t.starts(4)
    t.say("The same with a slice held between. The counts add up to 3, for the place of slice 1 is not reached.")
    t.given("device small.img 52224")
    t.given("permutation 0 2 3 1")
    t.given("position 0")
    t.open(key[0], "0 0")
    t.starts(0)
    t.write(0, 0, some, "0 claimed 0 1")
    t.starts(1)
    t.write(0, 8, some, "0 claimed 3 2")
    t.starts(3)
    t.say("Claims that are not closed are on the device, and the next opening finds their places held.")
    t.open(key[0], "0 0")
    t.starts(3)
    t.given("permutation 3 1 0 2")
    t.open(key[0], "0 0")
    t.starts(1)

    t.say("A 22 inside a session, with the start place below P: slice 1 is held now. The start place is then P, and stays so",
          "where the slice is free again, until the next opening.")
    t.given("device small.img 52224")
    t.given("permutation 2 0 3 1")
    t.open(key[2], "0 2")
    t.given("owner 1 9")
    t.starts(3)
    t.write(0, 0, some, "22 1")
    t.starts(4)
    t.write(0, 0, some, "22 0")
    t.given("owner 1 0")
    t.write(0, 0, some, "22 0")
    t.starts(4)
    t.say("Everything but a claim is served as before.")
    t.reads((0, 4, small_text(0, 4)), (0, 0, None))
    t.find(2, 0, "1024 48128")
    t.write(2, 0, some, "0 rewritten 3 0")
    t.reads((2, 0, some))
    t.starts(4)
    t.close("0")
    t.starts(4)
    t.open(key[2], "0 2")
    t.starts(3)
    t.given("position 0")
    t.write(0, 0, some, "0 claimed 1 1")
    t.starts(4)

    t.say("Start places handed in, 0 to P. With slice 1 free alone, which stands last:")
    t.given("device small.img 52224")
    t.open(key[2], "0 2")
    for start in range(4):
        t.given(f"start {start}")
        t.given("position 0")
        t.write(0, 0, some, f"0 claimed 1 {4 - start}")
        t.starts(4)
        t.given("entry 0 0 -")
        t.given("owner 1 0")
    t.given("start 4")
    t.write(0, 0, some, "22 0")
    t.starts(4)
    t.say("With all slices free:")
    for start, slice in enumerate((2, 0, 3, 1)):
        t.given("owners 0 0 0 0")
        t.given(f"start {start}")
        t.given("position 0")
        t.write(0, 0, some, f"0 claimed {slice} 1")
        t.starts(start + 1)
        t.given("entry 0 0 -")
    t.given("owners 0 0 0 0")
    t.given("start 4")
    t.write(0, 0, some, "22 0")
    t.starts(4)
    t.say("With all held, and no tape left: 22 comes before 21.")
    t.given("owners 2 255 1 3")
    for start in range(5):
        for position in (4608, 4609, 2**64 - 1):
            t.given(f"start {start}")
            t.given(f"position {position}")
            t.write(0, 0, some, f"22 {4 - start}")
            t.starts(4)

    t.say("P itself is no refusal: reads, finds, rewrites and a close are served.")
    t.given("device small.img 52224")
    t.open(key[2], "0 2")
    t.given("start 4")
    t.given("position 0")
    t.reads((0, 4, small_text(0, 4)), (0, 0, None))
    t.find(0, 4, "1024 43008")
    t.write(0, 4, some, "0 rewritten 2 0")
    t.starts(4)
    t.close("0")
    t.starts(4)
    t.say("Above P it is 20, also in calls that look at no place. The start place stays.")
    t.open(key[2], "0 2")
    for start in (5, 6, 255, 256, 257, 260, 65536 + 3, 2**32, 2**32 + 3, 2**32 + 4, 2**63, 2**63 + 3, 2**64 - 4, 2**64 - 1):
        t.given(f"start {start}")
        t.read(0, 4, "20")
        t.read(0, 0, "20")
        t.find(0, 4, "0")
        t.find(0, 0, "0")
        t.write(0, 4, some, "20 0")
        t.write(0, 0, some, "20 0")
        t.close("20")
        t.starts(start)
    t.say("It comes before 2, 4, 5, 11 and 21.")
    t.given("device small.img 52223")
    for line in ("owners 2 0 1", "permutation 2 0 3", "position 4609"):
        t.given(line)
    for start, answer in ((5, "20"), (4, "2")):
        t.given(f"start {start}")
        t.read(15, 0, answer)
        t.write(15, 0, some, f"{answer} 0")
        t.close(answer)
    t.given("device small.img 52224")
    t.given("owners 2 0 1 3")
    t.given("permutation 2 0 3 1")

    t.say("Another permutation than at the opening: 22 although slice 1, at an earlier place, is free.")
    t.open(key[2], "0 2")
    t.given("permutation 1 2 0 3")
    t.starts(3)
    t.write(0, 0, some, "22 1")
    t.starts(4)
    t.given("permutation 2 0 3 1")
    t.write(0, 0, some, "22 0")
    t.say("Another free slice than the first, and an earlier one that no claim of the session finds.")
    t.open(key[0], "0 0")
    t.starts(1)
    t.given("permutation 0 3 1 2")
    t.given("position 0")
    t.write(0, 0, some, "0 claimed 3 1")
    t.starts(2)
    t.write(0, 8, other, "0 claimed 1 1")
    t.starts(3)
    t.write(0, 12, some, "22 1")
    t.starts(4)
    t.say("A slice that the session claimed already is held, wherever it stands.")
    t.given("start 0")
    t.given("permutation 3 1 2 0")
    t.write(0, 12, other, "0 claimed 0 4")
    t.starts(4)

    t.say("Places that name no slice: before the start place they are not met.")
    t.given("device small.img 52224")
    t.given("permutation 2 0 3 1")
    t.open(key[2], "0 2")
    t.given("position 0")
    t.given("permutation 4 4294967295 4097 1")
    t.write(0, 0, some, "0 claimed 1 1")
    t.starts(4)
    t.given("permutation 4 4 4 4")
    t.write(0, 8, some, "22 0")
    t.starts(4)
    t.say("At the start place or behind it, before a free one, they are 5 with the looks from there on; the start place stays.")
    t.given("owners 2 0 1 0")
    t.given("position 4609")
    for start, permutation, probes in (
        (0, "4 1 3 0", 1), (1, "2 4 1 3", 1), (1, "2 0 4 1", 2), (1, "2 0 2 4294967295", 3), (2, "2 0 4 1", 1), (2, "1 3 0 4", 2),
        (2, "4 4 2 4097", 2), (3, "1 3 1 4", 1), (3, "4 4 4 2147483648", 1),
    ):
        t.given(f"start {start}")
        t.given(f"permutation {permutation}")
        t.write(0, 8, some, f"5 {probes}")
        t.starts(start)
    t.say("Behind a free one they are not met. 21 has the looks from the start place on; that stays, and the claim that then is",
          "served has as many.")
    for start, permutation, slice, probes in (
        (0, "1 4 4 4", 1, 1), (1, "4 3 4 4", 3, 1), (1, "4 2 3 4", 3, 2), (0, "2 0 2 3", 3, 4), (3, "4 4 4 3", 3, 1),
        (2, "3 1 0 3", 3, 2),
    ):
        t.given("owners 2 0 1 0")
        t.given(f"start {start}")
        t.given(f"permutation {permutation}")
        for position in (3569, 3585, 4609):
            t.given(f"position {position}")
            t.write(0, 8, some, f"21 {probes}")
            t.starts(start)
        t.given("position 3568")
        t.write(0, 8, some, f"0 claimed {slice} {probes}")
        t.starts(start + probes)
        t.given("entry 0 2 -")

    t.say("Other refusals leave it, those of a close too.")
    t.given("device small.img 52224")
    t.given("permutation 2 0 3 1")
    t.open(key[1], "0 1")
    t.starts(2)
    t.write(2, 0, some, "11 0")
    t.write(0, 16, some, "12 0")
    t.write(0, 0, some[:1023], "13 0")
    t.given("permutation 2 0 3")
    t.write(0, 0, some, "5 0")
    t.given("permutation 2 0 3 1")
    t.given("position 4608")
    t.write(0, 4, some, "21 0")
    t.write(0, 0, some, "21 1")
    t.given("entry 0 0 4")
    t.write(0, 0, some, "9 0")
    t.write(0, 8, some, "9 0")
    t.given("maps 59 -")
    t.write(0, 0, some, "4 0")
    t.close("4")
    t.given("device small.img 0")
    t.write(0, 0, some, "2 0")
    t.close("2")
    t.starts(2)
    t.say("A close leaves a start place that was handed in.")
    t.given("device small.img 52224")
    t.given("maps 60 -")
    t.open(key[1], "0 1")
    t.given("start 1")
    t.given("position 0")
    t.close("0")
    t.starts(1)
    t.read(0, 4, "20")

    t.say("A refused opening leaves 0, whatever it was.")
    served = f"session 1024 4 4 1 1 4 4,4 {image.vek[0].hex()} {image.vek[1].hex()}"
    for given, opener, answer in (
        ("geometry 1024 4 0", key[0], "1"), ("device small.img 52223", key[0], "2"), ("device small.img 52224", key[0][:31], "3"),
        ("owners 1 1 1", key[0], "4"), ("permutation 2 0 3 3", key[0], "5"), ("device no-cell.img 52224", key[0], "6"),
        ("device header-tag.img 52224", key[2], "7"), ("device header-geometry.img 52224", key[2], "8"),
        ("device bad-entry.img 52224", key[1], "9"), ("device slice-twice.img 52224", key[2], "10"),
    ):
        for line in ("geometry 1024 4 4", "device small.img 52224", "maps 60 -", "owners 2 0 1 0", "permutation 2 0 3 1", served):
            t.given(line)
        t.given(given)
        t.open(opener, answer)
        t.starts(0)
    t.finish()


# Volumes of their own length: counts of logical slices that are P, 1, and between.
COUNTED = Geometry(1024, 3, 7)
COUNTS = (5, 1, 7, 3)

# The last block of each volume, by hand: 3 blocks for each logical slice, the first with address 0.
LAST = (14, 2, 20, 8)

# Slices and free ones in this order: 3 of volume 1, 6 and 0 of volume 0, 5 of volume 2, 1 of volume 3; 2 and 4 are free.
COUNTED_PERMUTATION = [3, 6, 2, 0, 5, 4, 1]
COUNTED_ROWS = (
    [MARK, 0, MARK, MARK, 6, MARK, MARK],
    [3, MARK, MARK, MARK, MARK, MARK, MARK],
    [MARK, MARK, MARK, MARK, MARK, MARK, 5],
    [MARK, MARK, 1, MARK, MARK, MARK, MARK],
)
COUNTED_BLOCKS = {(0, 3): (0, 0), (0, 14): (6, 2), (1, 0): (3, 0), (1, 2): (3, 2), (2, 18): (5, 0), (2, 20): (5, 2),
                  (3, 6): (1, 0), (3, 8): (1, 2)}


def counted_text(volume, address, version="first"):
    return text(f"counts, {version} text of block {address} of volume {volume}", 1024)


def counted_image():
    """Volumes 0 to 3. The last logical slice of each is mapped, by volumes 0 and 1 to a slice that is not below their
    count. Past the P entries stand slices and numbers that are none."""
    image = Image("counts.img", COUNTED)
    past = {0: [7, 6, 2, 0], 1: [3, 3], 3: [MARK - 1, 4, 5]}
    for i, row in enumerate(COUNTED_ROWS):
        image.put_volume(i, row, N=COUNTS[i], past=past.get(i, ()))
    for volume, slices in ((0, (0, 6)), (1, (3,)), (2, (5,)), (3, (1,))):
        for psi in slices:
            for j in range(3):
                image.put_block(volume, psi, j, bytes(1024))
    for (volume, address), (psi, j) in COUNTED_BLOCKS.items():
        image.put_block(volume, psi, j, counted_text(volume, address))
    return image


COUNTED_WHOLE = "device counts.img 60416"
SOME_COUNTED = counted_text(0, 0, "some")
LAST_TEXTS = [(volume, last, counted_text(volume, last)) for volume, last in enumerate(LAST)]


def counts():
    """Volumes of their own length, in all calls but formatting."""
    image = counted_image()
    FILES["counts.img"] = bytes(image.device)
    t = Transcript(
        "counts.txt",
        "Volumes of their own length: volumes 0 to 3 have 5, 1, 7 and 3 logical slices of 3 blocks, on a device of 7 slices.",
    )
    t.lend("counts.img", COUNTED, COUNTED_PERMUTATION, tape("counts", 4608), 0)
    counts_in_sessions(t, image)
    counts_in_headers(t, image)
    counts_and_entries(t, image)
    counts_and_map_blocks(t, image)
    counts_not_allowed(t, image)
    counts_of_two_maps(t)
    t.finish()


def counts_in_sessions(t, image):
    """What openings give, and what the other calls make of it."""
    key, whole, some, last_texts = image.key, COUNTED_WHOLE, SOME_COUNTED, LAST_TEXTS
    full = f"session 1024 3 7 14 1 0 7*15 {words(vek.hex() for vek in image.vek)}"
    t.say("Openings: the session holds the counts of volumes 0 to k, and 0 above. Before, no number and no key of it is 0.")
    for i, held in enumerate(((5,), (5, 1), (5, 1, 7), (5, 1, 7, 3))):
        t.given(full)
        t.open(key[i], f"0 {i}")
        t.holds(*held)
        t.starts((0, 2, 2, 2)[i])
        t.reads(*last_texts[: i + 1])
        for volume in range(i + 1):
            t.read(volume, LAST[volume] + 1, "12")
        t.read(i + 1, 21, "11")
    t.say("A refused one leaves none.")
    t.given(full)
    t.open(NO_KEY, "6")
    t.holds()
    t.given(full)
    t.open(key[0][:31], "3")
    t.holds()

    t.say("The last block of each volume, and those behind it.")
    t.open(key[3], "0 3")
    for volume, place in enumerate((59392, 47104, 55296, 38912)):
        last = LAST[volume]
        t.find(volume, last, f"1024 {place}")
        t.write(volume, last, counted_text(volume, last, "second"), f"0 rewritten {(6, 3, 5, 1)[volume]} 0")
        t.reads((volume, last, counted_text(volume, last, "second")))
        for address in (last + 1, last + 2, last + 3, last + 4, 21, 2**32, 2**32 + last, 2**63, 2**64 - 1):
            t.read(volume, address, "12")
            t.find(volume, address, "0")
            t.write(volume, address, some, "12 0")
    t.say("12 comes before 13 and 9, and for a claim before 22 and 21. The entries past the counts are not looked at.")
    for line in ("entry 0 5 2", "entry 0 6 7", "entry 1 1 4294967294", "entry 1 6 0", "entry 3 3 4", "entry 3 6 8",
                 "owners 1 1 1 1 1 1 1", "position 4609"):
        t.given(line)
    for volume, address in ((0, 15), (0, 17), (0, 18), (0, 20), (1, 3), (1, 5), (1, 20), (3, 9), (3, 20)):
        t.read(volume, address, "12", length=5)
        t.read(volume, address, "12")
        t.find(volume, address, "0")
        t.write(volume, address, some[:1023], "12 0")
        t.write(volume, address, some, "12 0")
    t.say("Nor are they by reads, finds and rewrites of other blocks. A claim is 9, also before 22, but where its own row has none.")
    for volume, address, _ in last_texts:
        t.reads((volume, address, counted_text(volume, address, "second")))
        t.write(volume, address, some, "21 0")
    t.reads((0, 0, None), (0, 12, None), (1, 1, None), (2, 0, None), (3, 7, None), (3, 5, None))
    t.read(3, 8, "13", length=1023)
    t.write(0, 0, some, "9 0")
    t.write(3, 0, some, "9 0")
    t.starts(2)
    t.write(2, 0, some, "22 5")
    t.starts(7)
    t.holds(5, 1, 7, 3)

    t.say("A session: claims, a rewrite, none free, a close. It holds the counts throughout, and after the close too.")
    t.given(whole)
    t.given("position 0")
    t.open(key[3], "0 3")
    t.starts(2)
    t.write(3, 5, counted_text(3, 5), "0 claimed 2 1")
    t.write(2, 2, counted_text(2, 2), "0 claimed 4 3")
    t.starts(6)
    t.write(0, 0, some, "22 1")
    t.write(1, 3, some, "12 0")
    t.write(1, 1, counted_text(1, 1), "0 rewritten 3 0")
    t.holds(5, 1, 7, 3)
    t.close("0")
    t.holds(5, 1, 7, 3)
    t.starts(7)
    t.read(0, 3, "20")
    t.find(0, 3, "0")
    t.write(0, 3, some, "20 0")
    t.close("20")
    t.holds(5, 1, 7, 3)
    t.say("Opening again gives the same counts and blocks.")
    for i, held in enumerate(((5,), (5, 1), (5, 1, 7), (5, 1, 7, 3))):
        t.open(key[i], f"0 {i}")
        t.holds(*held)
        t.reads(*last_texts[: i + 1])
        for volume in range(i + 1):
            t.read(volume, LAST[volume] + 1, "12")
    t.reads((3, 5, counted_text(3, 5)), (2, 2, counted_text(2, 2)), (1, 1, counted_text(1, 1)), (3, 4, None), (2, 1, None))
    t.say("A close by key 0 leaves what stands above.")
    t.open(key[0], "0 0")
    t.close("0")
    t.holds(5)
    t.open(key[3], "0 3")
    t.holds(5, 1, 7, 3)
    t.reads(*last_texts)


def counts_in_headers(t, image):
    """8, and the refusals before and behind it."""
    g, key, whole, M = COUNTED, image.key, COUNTED_WHOLE, MARK
    t.say("Headers, 8: a count of 0 or above P, or another S; in each header from k down. Above k it is not seen.")
    t.given(whole)
    for i in range(4):
        for n, fault in enumerate((
            {"N": 0}, {"N": 8}, {"S": 2}, {"N": 255}, {"N": 256}, {"N": (1 << 16) + 3}, {"N": 3 << 24}, {"N": 1 << 31},
            {"N": MARK}, {"S": 0}, {"S": 4}, {"S": 7}, {"S": 3 << 24}, {"S": MARK}, {"N": 0, "S": 4}, {"N": 3, "S": 7},
            {"N": 8, "S": 0},
        )):
            t.given_bytes(g.header(i), image.sealed_header(i, **{"N": COUNTS[i], **fault}))
            for k in range(4) if n < 3 else (i,):
                t.open(key[k], "8" if k >= i else f"0 {k}")
                t.holds(*(() if k >= i else COUNTS[: k + 1]))
        t.given(f"bytes {g.header(i)} counts.img {g.header(i)} {HEADER}")
    t.open(key[3], "0 3")
    t.say("On the way down 8 comes before a 7 further down, and a 7 before an 8 further down.")
    wrong_tag = bytearray(image.sealed_header(1, N=1))
    wrong_tag[-1] ^= 1
    t.given_bytes(g.header(1), bytes(wrong_tag))
    t.given_bytes(g.header(2), image.sealed_header(2, N=0))
    t.given_bytes(g.header(0), image.sealed_header(0, N=8))
    for k, answer in ((3, "8"), (2, "8"), (1, "7"), (0, "8")):
        t.open(key[k], answer)
    t.say("Both come before a 9 or a 10 in the maps.")
    bad_map = image.enciphered_map(0, [0, 0, 7, MARK, MARK, 2, MARK])
    t.given_bytes(g.map_block(0, 0), bad_map)
    for k, answer in ((3, "8"), (2, "8"), (1, "7"), (0, "8")):
        t.open(key[k], answer)
    t.given(whole)
    t.given_bytes(g.map_block(0, 0), bad_map)
    t.given_bytes(g.header(2), image.sealed_header(2, N=0))
    for k, answer in ((3, "8"), (2, "8"), (1, "10"), (0, "10")):
        t.open(key[k], answer)
    t.given(whole)

    t.say("1 to 6 come before an 8 by the count, and before a 9 past it; without them it is that.")
    past_map = image.enciphered_map(0, [M, 0, M, M, 6, 2, M])
    headers = [image.sealed_header(0, N=N) for N in (0, 8, 5)]
    good = (f"geometry {words(g)}", whole, "maps 105 2", "owners 9 9 9 9 9 9 9", f"permutation {words(COUNTED_PERMUTATION)}")
    for line, opener, answers in (
        ("geometry 1024 65 7", key[0], "111"), ("geometry 1024 3 4097", key[0], "111"),
        ("device counts.img 60415", key[0], "222"), (whole, key[0][:31], "333"), ("maps 104 2", key[0], "444"),
        ("owners 9 9 9 9 9 9", key[0], "444"),
        ("permutation 3 6 2 0 5 4 4", key[0], "555"), (whole, NO_KEY, "666"), (whole, key[0], "889"), (whole, key[3], "889"),
    ):
        for sealed, answer in zip(headers, answers):
            for given in good:
                t.given(given)
            t.given(line)
            t.given_bytes(g.header(0), sealed)
            t.given_bytes(g.map_block(0, 0), past_map)
            t.open(opener, answer)
            t.holds()
    t.given(whole)


def counts_and_entries(t, image):
    """Maps at an opening: 9 and 10 at entries below the count, at it and behind it."""
    g, key, whole, M = COUNTED, image.key, COUNTED_WHOLE, MARK
    t.say("Every count from 1 to P in each header, where the only entry of the map is the last below the count; the first at",
          "the count, or the last of all: both are 9. Slice 2, which is free, is mapped.")
    maps = [[image.enciphered_map(i, [2 if n == sigma else MARK for n in range(7)]) for sigma in range(7)] for i in range(4)]
    for i in range(4):
        t.say(f"Volume {i}.")
        for N in range(1, 8):
            t.given_bytes(g.header(i), image.sealed_header(i, N=N))
            t.given_bytes(g.map_block(i, 0), maps[i][N - 1])
            t.open(key[3], "0 3")
            t.holds(*COUNTS[:i], N, *COUNTS[i + 1 :])
            t.find(i, 3 * N - 1, "1024 43008")
            t.read(i, 3 * N, "12")
            for sigma in sorted({N, 6} if N < 7 else ()):
                t.given_bytes(g.map_block(i, 0), maps[i][sigma])
                t.open(key[3], "9")
                t.holds()
        if i > 0:
            t.say(f"The same with key {i}. Key {i - 1} does not see it.")
            t.given_bytes(g.header(i), image.sealed_header(i, N=6))
            t.open(key[i], "9")
            t.open(key[i - 1], f"0 {i - 1}")
            t.holds(*COUNTS[:i])
        t.given(whole)
    t.say("All marks.")
    empty = [MARK] * 7
    for N in range(1, 8):
        for i in range(4):
            t.given_bytes(g.header(i), image.sealed_header(i, N=(N + 2 * i) % 7 + 1))
            t.given_bytes(g.map_block(i, 0), image.enciphered_map(i, empty))
        t.open(key[3], "0 3")
        t.holds(*((N + 2 * i) % 7 + 1 for i in range(4)))
    t.given(whole)

    t.say("The image's own maps with other counts: volume 0 maps its logical slices 1 and 4.")
    for N, answer in ((1, "9"), (2, "9"), (4, "9"), (5, "0 3"), (6, "0 3"), (7, "0 3"), (8, "8"), (0, "8")):
        t.given_bytes(g.header(0), image.sealed_header(0, N=N))
        t.open(key[3], answer)
        t.holds(*((N, 1, 7, 3) if answer == "0 3" else ()))
    t.given(whole)

    t.say("9 or 10 at the first bad entry. At the count or past it an entry that is not the mark is 9, also where its slice is",
          "mapped already; below it, such a slice is 10.")
    for i, row, answer in (
        (0, [M, 0, M, M, 6, 0, M], "9"), (0, [M, 0, M, M, 6, 6, M], "9"), (0, [M, 0, M, M, 6, M, 6], "9"),
        (0, [M, 0, M, M, 6, 2, M], "9"), (0, [M, 0, M, M, 6, M, 2], "9"), (0, [M, 0, M, M, 6, 7, M], "9"),
        (0, [M, 0, M, M, 6, M - 1, M], "9"), (0, [M, 0, M, M, 6, M, 1 << 31], "9"), (0, [M, M, M, M, M, 0, M], "9"),
        (0, [M, 0, 0, M, 6, M, M], "10"), (0, [M, 0, M, M, 0, M, M], "10"), (0, [M, 0, 0, M, 6, 6, M], "10"),
        (0, [M, 0, 0, M, 6, 2, 7], "10"), (0, [6, 0, M, 7, 6, 6, M], "9"), (0, [M, 0, M, M, 7, 0, M], "9"),
        (1, [3, 3, M, M, M, M, M], "9"), (1, [3, M, M, M, M, M, 3], "9"), (1, [3, 0, M, M, M, M, M], "9"),
        (1, [M, 0, M, M, M, M, M], "9"), (1, [M, M, M, M, M, M, 2], "9"), (1, [0, M, M, M, M, M, M], "10"),
        (1, [6, 6, M, M, M, M, M], "10"), (1, [6, 2, M, M, M, M, M], "10"), (1, [7, 6, M, M, M, M, M], "9"),
        (2, [M, M, M, M, M, M, 0], "10"), (2, [M, M, M, M, M, M, 7], "9"), (2, [5, M, M, M, M, M, 5], "10"),
        (2, [3, M, M, M, M, M, 7], "10"), (3, [M, M, 1, 1, M, M, M], "9"), (3, [M, M, 1, 5, M, M, M], "9"),
        (3, [1, M, 1, 2, M, M, M], "10"), (3, [M, M, 5, 5, M, M, M], "10"), (3, [M, M, 1, M, M, M, 4], "9"),
    ):
        t.given_bytes(g.map_block(i, 0), image.enciphered_map(i, row))
        t.open(key[3], answer)
        t.holds()
        t.given(f"bytes {g.map_block(i, 0)} counts.img {g.map_block(i, 0)} 1024")
    t.say("Volume by volume, from 0 up: an entry past the count of one, a slice mapped twice by the other.")
    past, twice = [M, 0, M, M, 6, M, 2], [M, 0, M, M, 6, M, M]
    t.given_bytes(g.map_block(0, 0), image.enciphered_map(0, past))
    t.given_bytes(g.map_block(1, 0), image.enciphered_map(1, [6, M, M, M, M, M, M]))
    t.open(key[3], "9")
    t.open(key[0], "9")
    t.given_bytes(g.map_block(0, 0), image.enciphered_map(0, twice))
    t.open(key[3], "10")
    t.open(key[0], "0 0")
    t.given_bytes(g.map_block(0, 0), image.enciphered_map(0, [M, 0, 0, M, M, M, M]))
    t.given_bytes(g.map_block(1, 0), image.enciphered_map(1, [3, 2, M, M, M, M, M]))
    t.open(key[3], "10")
    t.open(key[0], "10")
    t.given_bytes(g.map_block(0, 0), image.enciphered_map(0, twice))
    t.open(key[3], "9")
    t.open(key[1], "9")
    t.open(key[0], "0 0")
    t.say("Places past the last of the P entries are ignored, whatever stands there.")
    t.given(whole)
    for i in range(4):
        t.given_bytes(g.map_block(i, 0), image.enciphered_map(i, COUNTED_ROWS[i] + [0, 7, MARK - 1, 6, 2]))
    t.open(key[3], "0 3")
    t.holds(5, 1, 7, 3)
    t.reads(*LAST_TEXTS)
    t.given(whole)


def counts_and_map_blocks(t, image):
    """Entries that claims and releases judge, and counts that the caller changed."""
    key, whole, some, last_texts = image.key, COUNTED_WHOLE, SOME_COUNTED, LAST_TEXTS
    t.say("9 at a claim or a release: an entry at the count of the asked row or past it. It comes before 25 and 21, and every byte",
          "stays. A rewrite does not see it, nor does a call of another volume.")
    t.open(key[3], "0 3")
    t.given("position 4609")
    for i, N, mapped in ((0, 5, 1), (1, 1, 0), (3, 3, 2)):
        for sigma in range(N, 7):
            for entry in (2, 0, 7, MARK - 1) if sigma in (N, 6) else (4,):
                t.given(f"entry {i} {sigma} {entry}")
                t.release(i, mapped, "9")
                t.write(i, LAST[i], some, "21 0")
                if N > 1:
                    t.write(i, 0, some, "9 0")
                    t.release(i, 0, "9")
                t.write(2, 0, some, "21 1")
                t.release(2, 6, "21")
                t.release(2, 0, "25")
            t.given(f"entry {i} {sigma} -")
        t.release(i, mapped, "21")
    t.say("The same for a claim of the only logical slice of volume 1.")
    t.given("entry 1 0 -")
    for sigma in range(1, 7):
        t.given(f"entry 1 {sigma} 3")
        t.write(1, 0, some, "9 0")
        t.given(f"entry 1 {sigma} -")
    t.write(1, 0, some, "21 1")
    t.given("entry 1 0 3")
    t.say("Below it, a slice that is named twice is none, and a number that is no slice is 9.")
    for i, sigma, asked in ((0, 4, 0), (2, 6, 3), (3, 2, 1)):
        t.given(f"entry {i} {sigma} 7")
        t.write(i, 3 * asked, some, "9 0")
        t.release(i, asked, "9")
        t.release(i, sigma, "9")
        t.given(f"entry {i} {sigma} 0")
        t.write(i, 3 * asked, some, "21 1")
        t.release(i, asked, "25")
        t.release(i, sigma, "21")
        t.given(f"entry {i} {sigma} {COUNTED_ROWS[i][sigma]}")
    t.say("Rows above k are not judged, and of a row not what follows its P entries, which is the next row: with key 1 open, entries",
          "above are bad, the counts there 0. A claim and a release are served, and a close wipes all.")
    t.open(key[1], "0 1")
    for line in ("row 2 7 7 - - - - 5", "row 3 - - - 4 - - 8", "row 14 0 1 2 3 4 5 6", "position 4592"):
        t.given(line)
    t.release(1, 0, "0 3")
    t.starts(0)
    t.given("position 3568")
    t.write(1, 1, counted_text(1, 1, "third"), "0 claimed 3 1")
    t.close("0")
    t.holds(5, 1)
    t.open(key[3], "0 3")
    t.holds(5, 1, 7, 3)
    t.reads((1, 0, None), (1, 1, counted_text(1, 1, "third")), (1, 2, None), last_texts[0], *last_texts[2:])

    t.say("Counts that the caller lowers: blocks past them are 12, and claims and releases are 9 while an entry stands there. A close",
          "is served.")
    t.given(whole)
    t.open(key[3], "0 3")
    t.given("position 0")
    for i, lowered in ((0, (4, 3, 2, 1)), (2, (6, 5, 1)), (3, (2, 1))):
        for N in lowered:
            t.given(f"count {i} {N}")
            t.read(i, LAST[i], "12")
            t.find(i, LAST[i], "0")
            t.write(i, LAST[i], some, "12 0")
            t.read(i, 3 * N, "12", length=0)
            t.reads((i, 3 * N - 1, None))
            t.write(i, 0, some, "9 0")
            for logical in range(N):
                t.release(i, logical, "9")
        t.reads(*(last_texts[:i] + last_texts[i + 1 :]))
        t.given(f"count {i} {COUNTS[i]}")
    t.given("count 0 1")
    t.close("0")
    t.holds(1, 1, 7, 3)
    t.image("counts.img")
    t.say("With that entry the mark the claim is served. The counts stay as they are handed in; the next opening has the headers'.")
    t.open(key[3], "0 3")
    t.given("entry 2 6 -")
    t.given("owner 5 0")
    t.given("count 2 1")
    t.write(2, 2, counted_text(2, 2, "third"), "0 claimed 2 1")
    t.write(2, 3, some, "12 0")
    t.close("0")
    t.holds(5, 1, 1, 3)
    t.open(key[3], "0 3")
    t.holds(5, 1, 7, 3)
    t.reads((2, 2, counted_text(2, 2, "third")), (2, 3, None), (2, 20, None), (0, 14, counted_text(0, 14)))

    t.say("Counts that the caller raises: a claim past the header's count is served. The next opening is 9 where it was not given",
          "back.")
    for given_back in (True, False):
        t.given(whole)
        t.open(key[3], "0 3")
        t.given("position 0")
        t.given("count 1 2")
        t.reads((1, 3, None), (1, 5, None))
        t.read(1, 6, "12")
        t.write(1, 5, counted_text(1, 5), "0 claimed 2 1")
        t.reads((1, 5, counted_text(1, 5)), (1, 4, None), (1, 2, counted_text(1, 2)))
        t.find(1, 5, "1024 43008")
        t.given("count 1 1")
        t.release(1, 0, "9")
        t.given("count 1 2")
        if given_back:
            t.release(1, 1, "0 2")
        t.close("0")
        t.holds(5, 2, 7, 3)
        for k in range(3, 0, -1):
            t.open(key[k], f"0 {k}" if given_back else "9")
        t.open(key[0], "0 0")
    t.say("Without a claim there, nothing comes of it.")
    t.given(whole)
    t.open(key[3], "0 3")
    for i in range(4):
        t.given(f"count {i} 7")
    t.reads((0, 20, None), (1, 20, None), (3, 20, None), *last_texts)
    t.read(0, 21, "12")
    t.read(3, 21, "12")
    t.release(0, 4, "0 6")
    t.write(3, 2, counted_text(3, 2), "0 claimed 6 1")
    t.close("0")
    t.holds(7, 7, 7, 7)
    t.open(key[3], "0 3")
    t.holds(5, 1, 7, 3)
    t.reads((3, 2, counted_text(3, 2)), (0, 14, None), *last_texts[1:])


def counts_not_allowed(t, image):
    """20 by a count, and the refusals behind it."""
    key, whole, some, last_texts = image.key, COUNTED_WHOLE, SOME_COUNTED, LAST_TEXTS
    t.say("20: a count of 0 or above P in a row up to k, whatever volume is asked for. The session stays.")
    t.given(whole)
    t.given("position 0")
    for k in (0, 1, 3):
        t.open(key[k], f"0 {k}")
        for row in range(k + 1):
            for count in (0, 8):
                t.given(f"count {row} {count}")
                t.read(0, 3, "20")
                t.read(k, LAST[k], "20")
                t.find(0, 3, "0")
                t.find(k, LAST[k], "0")
                t.write(0, 0, some, "20 0")
                t.write(k, LAST[k], some, "20 0")
                t.close("20")
            t.given(f"count {row} {COUNTS[row]}")
        t.reads(*last_texts[: k + 1])
    t.say("Counts that are right modulo 2^8, 2^16 or 2^32 are none the less above P.")
    for row, right in ((0, 5), (3, 3)):
        for count in (9, 2**8, 2**8 + right, 2**16 + right, 2**31, 2**32, 2**32 + right, 2**63, 2**63 + right, 2**64 - 1):
            t.given(f"count {row} {count}")
            t.read(2, 20, "20")
            t.close("20")
        t.given(f"count {row} {right}")
    t.say("Above k any count is allowed, and stays: one row after the other, then all. The next opening sets 0.")
    for k in (0, 3):
        for row in range(k + 1, VOLUMES):
            t.open(key[k], f"0 {k}")
            t.given(f"count {row} {8 if row % 2 else 2**64 - 1}")
            t.reads(last_texts[k])
            if row not in (k + 1, 14):
                continue
            t.find(k, LAST[k], f"1024 {(59392, 47104, 55296, 38912)[k]}")
            t.read(k + 1, 0, "11")
            t.write(k + 1, 0, some, "11 0")
            t.given("position 0")
            t.write(k, LAST[k], counted_text(k, LAST[k]), f"0 rewritten {(6, 3, 5, 1)[k]} 0")
            t.close("0")
            assert t.lent.session.counts[row] == (8 if row % 2 else 2**64 - 1)
        t.open(key[k], f"0 {k}")
        t.holds(*COUNTS[: k + 1])
    for row in range(4, VOLUMES):
        t.given(f"count {row} {2**64 - row}")
    t.given("position 0")
    t.write(0, 0, some, "0 claimed 2 1")
    t.write(0, 1, some, "0 rewritten 2 0")
    t.close("0")
    t.holds(*COUNTS, *(2**64 - row for row in range(4, VOLUMES)))
    t.open(key[3], "0 3")
    t.holds(*COUNTS)
    t.say("A lower k: bad counts are then above it. A higher one: then they are not.")
    t.given(whole)
    served = f"session 1024 3 7 3 1 2 5,1,7,3 {words(vek.hex() for vek in image.vek[:4])}"
    t.given(served.replace(" 3 1 2 5,1,7,3 ", " 0 1 2 5,0,8,0 "))
    t.reads(last_texts[0])
    t.read(1, 2, "11")
    for k, answer in ((0, "0"), (1, "20"), (2, "20"), (3, "20"), (4, "20"), (14, "20")):
        t.given(served.replace(" 3 1 2 5,1,7,3 ", f" {k} 1 2 5,0,8,0 "))
        t.read(0, 3, answer)
    for k, answer in ((3, "0"), (4, "20"), (13, "20"), (14, "20"), (15, "20"), (2**64 - 1, "20")):
        t.given(served.replace(" 3 1 2 ", f" {k} 1 2 "))
        t.read(0, 3, answer)
        t.given(served.replace(" 3 1 2 5,1,7,3 ", f" {k} 1 2 5,1,7*13 "))
        t.read(0, 3, "20" if k > 14 else "0")
        t.read(1, 3, "20" if k > 14 else "12")

    t.say("20 comes before 2, 4, 5, 11, 12, 13, 9, 22 and 21, one of them alone and all at once.")
    for count, alone in ((0, "20"), (8, "20"), (3, None)):
        for line, reading, writing, closing in (
            ("device counts.img 60415", "2", "2 0", "2"), ("maps 104 -", "4", "4 0", "4"),
            ("owners 1 5 0 2 0 4", "4", "4 0", "4"), ("permutation 3 6 2 0 5 4", None, "5 0", None),
        ):
            for restored in (whole, "maps 105 -", "owners 1 5 0 2 0 4 1", f"permutation {words(COUNTED_PERMUTATION)}",
                             "position 0", served, f"count 3 {count}"):
                t.given(restored)
            t.given(line)
            t.read(0, 3, alone or reading or "0")
            t.write(0, 3, some, writing if alone is None else f"{alone} 0")
            if alone or closing:
                t.close(alone or closing)
        for line in (whole, f"permutation {words(COUNTED_PERMUTATION)}", "position 4609", "entry 0 1 9",
                     "owners 1 5 1 2 1 4 1"):
            t.given(line)
        t.read(4, 0, alone or "11")
        t.write(4, 0, some, f"{alone or 11} 0")
        t.read(0, 15, alone or "12")
        t.write(0, 15, some, f"{alone or 12} 0")
        t.read(0, 3, alone or "13", length=5)
        t.write(0, 3, some[:5], f"{alone or 13} 0")
        t.read(0, 3, alone or "9")
        t.write(0, 3, some, f"{alone or 9} 0")
        t.write(0, 0, some, f"{alone or 9} 0")
        t.given("entry 0 1 -")
        t.write(0, 0, some, f"{alone} 0" if alone else "22 5")
        t.given("owners 1 5 0 2 1 4 1")
        t.given("start 0")
        t.write(0, 0, some, f"{alone} 0" if alone else "21 3")
        t.close(alone or "0")
    for line in ("device counts.img 60415", "maps 104 9", "owners 1 5", "permutation 0 0 0", "position 4609"):
        t.given(line)
    for session in (
        served.replace(" 5,1,7,3 ", " 0,1,7,3 "), served.replace(" 5,1,7,3 ", " 5,1,7,8 "), served.replace(" 5,1,7,3 ", " - "),
        served.replace(" 3 1 2 5,1,7,3 ", " 3 0 2 5,1,7,8 "), served.replace(" 3 1 2 5,1,7,3 ", " 3 0 2 5,1,7,3 "),
        served.replace(" 3 1 2 5,1,7,3 ", " 15 1 2 5,1,7,8 "), served.replace(" 3 1 2 5,1,7,3 ", " 3 1 8 5,1,7,0 "),
        served.replace(" 3 1 2 5,1,7,3 ", " 3 1 8 5,1,7,3 "), served.replace("1024 3 7", "1024 65 7"),
        served.replace("1024 3 7", "1024 3 0"), served.replace("1024 3 7", "1024 3 6"), served.replace("1024 3 7", "1024 3 4"),
        served.replace("1024 3 7", "1024 3 4097").replace(" 5,1,7,3 ", " 0,1,7,3 "),
        served.replace("1024 3 7", "2048 3 7").replace(" 5,1,7,3 ", " 5,1,7,9 "),
    ):
        t.given(session)
        t.read(9, 21, "20", length=5)
        t.find(0, 3, "0")
        t.write(9, 21, some[:5], "20 0")
        t.close("20")
    t.say("The counts are judged by the session's own P: with one that is lower and no count above it, 2 is first.")
    for session in (served, served.replace("1024 3 7", "1024 3 6").replace(" 5,1,7,3 ", " 5,1,6,3 "),
                    served.replace("1024 3 7", "1024 3 8").replace(" 5,1,7,3 ", " 8,1,7,3 "),
                    served.replace("1024 3 7", "4096 3 4096").replace(" 5,1,7,3 ", " 4096,1,7,3 ")):
        t.given(session)
        t.read(9, 21, "2", length=5)
        t.find(0, 3, "0")
        t.write(9, 21, some[:5], "2 0")
        t.close("2")


def counts_of_two_maps(t):
    """Counts around the edge between two map blocks, entries 251 and 252, in volume 0 of two-maps.img."""
    g = Geometry(1024, 1, 257)
    image = Image("two-maps.img", g)
    headers = {N: image.sealed_header(0, N=N) for N in (0, 1, 100, 251, 252, 253, 256, 257, 258)}
    ivs = [image.noise.take(16), image.noise.take(16)]

    def block(n, *mapped):
        """A map block in which entry `mapped`, where there is one, is the slice of that number, and all others marks."""
        entries = [sigma if sigma in mapped else MARK for sigma in range(252 * n, 252 * n + 252)]
        return image.enciphered_map(0, entries, ivs[n])

    t.say("Two map blocks: entries 0 to 251 in the first, 252 to 256 in the second. The only entry that is no mark, and the",
          "count. Entry 257 is past the last and ignored.")
    t.lend("two-maps.img", g, range(257), "tapes.bin 0 1024")
    for mapped, answers in (
        (0, {0: "8", 1: "0 0", 252: "0 0", 257: "0 0", 258: "8"}),
        (99, {100: "0 0"}), (100, {100: "9", 251: "0 0"}), (250, {251: "0 0"}),
        (251, {100: "9", 251: "9", 252: "0 0", 253: "0 0"}),
        (252, {1: "9", 251: "9", 252: "9", 253: "0 0", 257: "0 0"}), (253, {252: "9", 253: "9", 256: "0 0"}),
        (255, {253: "9", 256: "0 0"}), (256, {1: "9", 252: "9", 256: "9", 257: "0 0"}),
        (257, {1: "0 0", 252: "0 0", 257: "0 0"}),
    ):
        for n in (0, 1):
            t.given_bytes(g.map_block(0, n), block(n, mapped))
        for N, answer in answers.items():
            t.given_bytes(g.header(0), headers[N])
            t.open(image.key[0], answer)
            t.holds(*([N] if answer == "0 0" else []))
            if answer == "0 0":
                t.find(0, mapped, f"1024 {1024 * (46 + 2 * mapped + 1)}" if mapped < 257 else "0")
                t.read(0, N, "12")
                if N - 1 != mapped:
                    t.reads((0, N - 1, None))
    t.say("Claims and releases, with an entry that is no mark in the first map block or in the second, and counts around it: 9 in the",
          "same map block alone, else 21, for which one byte of 1,040 is missing, and 25.")
    t.open(image.key[0], "0 0")
    t.given("tape tapes.bin 0 1039")
    for sigma in (251, 252, 256):
        t.given(f"entry 0 {sigma} 9")
        for N in (1, 251, 252, 253, 256, 257):
            t.given(f"count 0 {N}")
            for logical in sorted({0, min(N - 1, 250), N - 1} - {sigma}):
                judged = sigma >= N and (sigma < 252) == (logical < 252)
                t.write(0, logical, SOME_COUNTED, "9 0" if judged else "21 1")
                t.release(0, logical, "9" if judged else "25")
        t.given(f"entry 0 {sigma} -")
    t.say("A volume of 253 blocks: claims in the last entry of each map block, a close, and the next opening.")
    for n in (0, 1):
        t.given_bytes(g.map_block(0, n), block(n))
    t.given_bytes(g.header(0), headers[253])
    t.given("tape two-maps.img 60000 4096")
    t.given("position 0")
    t.open(image.key[0], "0 0")
    t.holds(253)
    written = {address: text(f"counts, two maps, block {address}", 1024) for address in (251, 252)}
    t.write(0, 253, written[252], "12 0")
    t.write(0, 251, written[251], "0 claimed 0 1")
    t.write(0, 252, written[252], "0 claimed 1 1")
    t.write(0, 256, written[252], "12 0")
    t.close("0")
    t.holds(253)
    t.open(image.key[0], "0 0")
    t.holds(253)
    t.reads((0, 251, written[251]), (0, 252, written[252]), (0, 250, None))
    t.read(0, 253, "12")
    t.find(0, 252, f"1024 {1024 * (46 + 2 + 1)}")
    t.say("The same device with a count of 252: the entry is now past it.")
    t.given_bytes(g.header(0), headers[252])
    t.open(image.key[0], "9")


def format_counts():
    """Formatting with counts, and sessions on what it makes."""
    g = COUNTED
    key = format_keys(*range(17))
    offset = 100000
    long_tape = f"two-maps.img {offset} 70000"
    some = {n: text(f"format-counts, text {n}", g.B) for n in range(3)}
    t = Transcript(
        "format-counts.txt",
        "Formatting with a count of logical slices for each key. The device has 7 slices of 3 blocks.",
    )

    def blank(position=0):
        t.given(f"zeros {g.length}")
        t.given(f"position {position}")

    def lengths_are(volumes):
        """The last block of each volume is zeros, and the one behind it 12."""
        for volume, N in volumes:
            t.reads((volume, 3 * N - 1, None))
            t.read(volume, 3 * N, "12")

    t.given(f"geometry {words(g)}")
    t.given("maps 105 7")
    t.given("owners 7 0 255 1 9 9 9")
    t.given(f"permutation {words(COUNTED_PERMUTATION)}")
    t.given(f"tape {long_tape}")
    t.given(f"session {OTHER_SESSION}")
    t.say("One key, with each count from 1 to P.")
    for N in range(1, 8):
        blank()
        t.format(key[:1], "0", counts=[N])
        assert t.lent.position == 60416 + 104
        t.open(key[0], "0 0")
        t.holds(N)
        lengths_are([(0, N)])
        t.read(0, 20, "0" if N == 7 else "12")
    t.say("Two keys.")
    for pair in ((1, 7), (7, 1), (5, 2), (7, 7), (1, 1), (3, 4)):
        blank(5)
        t.format(key[:2], "0", counts=pair)
        assert t.lent.position == 5 + 60416 + 2 * 104
        t.open(key[0], "0 0")
        t.holds(pair[0])
        t.open(key[1], "0 1")
        t.holds(*pair)
        lengths_are(enumerate(pair))
    t.say("All 15, over the device that was made before, each count twice and 1 three times.")
    fifteen = [1, 2, 3, 4, 5, 6, 7, 1, 7, 6, 5, 4, 3, 2, 1]
    t.given("position 9")
    t.format(key[:15], "0", counts=fifteen)
    assert t.lent.position == 9 + 60416 + 15 * 104
    drawn = FILES["two-maps.img"][offset : offset + 70000]
    for i, N in enumerate(fifteen):
        vmk = drawn[60425 + 64 * i : 60425 + 64 * i + 32]
        header = t.lent.device[1024 * (1 + 2 * i) : 1024 * (1 + 2 * i) + 100]
        assert unseal(vmk, header, bytes([16 + i]))[64:] == bytes([0, 0, 0, N, 0, 0, 0, 3])
    for i in range(VOLUMES):
        t.open(key[i], f"0 {i}")
        t.holds(*fifteen[: i + 1])
        lengths_are([(i, fifteen[i]), (i // 2, fifteen[i // 2])])
        t.read(i + 1, 0, "11")
    t.say("A session of all 15: claims of the last logical slice of volumes with counts 7, 1 and 4; none behind it.")
    t.write(14, 3, some[0], "12 0")
    t.write(8, 20, some[0], "0 claimed 3 1")
    t.write(14, 2, some[1], "0 claimed 6 1")
    t.write(3, 11, some[2], "0 claimed 2 1")
    t.write(3, 12, some[2], "12 0")
    t.reads((8, 20, some[0]), (8, 19, None), (14, 2, some[1]), (14, 0, None), (3, 11, some[2]), (6, 20, None))
    t.say("A count that is not allowed in each row, in turn.")
    for row in range(VOLUMES):
        t.given(f"count {row} 0")
        t.read(8, 20, "20")
        t.close("20")
        t.given(f"count {row} 8")
        t.find(14, 2, "0")
        t.write(3, 11, some[0], "20 0")
        t.given(f"count {row} {fifteen[row]}")
    t.close("0")
    t.holds(*fifteen)
    for i in (14, 8, 3):
        t.open(key[i], f"0 {i}")
        t.holds(*fifteen[: i + 1])
        t.reads((3, 11, some[2]), (3, 10, None))
        if i >= 8:
            t.reads((8, 20, some[0]))
    t.open(key[14], "0 14")
    t.reads((14, 2, some[1]))
    t.say("The counts of the old device are gone with it.")
    t.given("position 9")
    t.format(key[:15], "0", counts=fifteen[1:] + [7])
    t.open(key[14], "0 14")
    t.holds(*fifteen[1:], 7)
    t.reads((14, 20, None), (0, 5, None))
    t.read(0, 6, "12")

    t.say("1: another number of counts than keys.")
    t.given(f"geometry {words(g)}")
    t.given("device counts.img 60416")
    t.given("position 0")
    for volumes, numbers in ((1, (0, 2, 15)), (2, (0, 1, 3)), (3, (0, 2, 4)), (14, (13, 15)), (15, (0, 1, 14, 16)),
                             (0, (1, 2, 15, 16)), (16, (0, 1, 15, 17)), (17, (16, 1)), (257, (1,)), (2**32 + 1, (1,)),
                             (2**64 - 1, (0, 15))):
        keys = b"".join(key[: min(volumes, 17)])
        for number_of_counts in numbers:
            t.format(keys, "1", volumes, [7] * number_of_counts)
    t.say("As many counts as keys: 23 with none and with 16.")
    t.format(b"", "23", 0, [])
    t.format(key[:16], "23", counts=[7] * 16)
    t.format(key[:17], "23", counts=[1] * 17)

    t.say("1: a count of 0 or above P, in each place.")
    for volumes in (1, 2, 15):
        for place in range(volumes):
            for count in (0, 8):
                handed = [7, 1, 4][:volumes] if volumes < 3 else list(fifteen)
                handed[place] = count
                t.format(key[:volumes], "1", counts=handed)
    t.say("Large ones, among them such that are right modulo 2^8, 2^16 or 2^32.")
    for count in (9, 255, 256, 257, 2**16 + 3, 2**31, 2**32 - 1, 2**32, 2**32 + 7, 2**63, 2**63 + 1, 2**64 - 1):
        t.format(key[:1], "1", counts=[count])
        t.format(key[:3], "1", counts=[7, count, 1])
        t.format(key[:15], "1", counts=fifteen[:14] + [count])
    t.say("All of them; and where their sum is right.")
    t.format(key[:15], "1", counts=[0] * 15)
    t.format(key[:15], "1", counts=[8] * 15)
    t.format(key[:2], "1", counts=[0, 7])
    t.format(key[:2], "1", counts=[2**64 - 1, 7])
    t.say("With 16 keys a bad count is 1, before 23.")
    t.format(key[:16], "1", counts=[7] * 15 + [0])
    t.format(key[:16], "1", counts=[8] + [7] * 15)
    t.format(key[:16], "1", counts=[7] * 15)

    t.say("1 before 2, 23, 3, 21 and 24, each alone: with bad counts, with a count too few, with one too many; then without.")
    for device, position, keys, volumes, answer in (
        ("device counts.img 60415", 0, key[:2], 2, "2"), ("device two-maps.img 60417", 0, key[:2], 2, "2"),
        ("device counts.img 0", 0, key[:2], 2, "2"), ("device counts.img 60416", 0, [], 0, "23"),
        ("device counts.img 60416", 0, key[:16], 16, "23"), ("device counts.img 60416", 0, [key[0], key[1][:31]], 2, "3"),
        ("device counts.img 60416", 0, key[:3], 2, "3"), ("device counts.img 60416", 0, [], 2, "3"),
        ("device counts.img 60416", 9377, key[:2], 2, "21"), ("device counts.img 60416", 70001, key[:2], 2, "21"),
        ("device counts.img 60416", 2**64 - 1, key[:2], 2, "21"), ("device counts.img 60416", 0, [key[0], key[0]], 2, "24"),
        ("device counts.img 60415", 70001, [], 0, "2"), ("device counts.img 60415", 70001, key[:1], 16, "2"),
        ("device counts.img 60416", 70001, [key[0]], 2, "3"), ("device counts.img 60416", 70001, [key[0], key[0]], 2, "21"),
    ):
        t.given(device)
        t.given(f"position {position}")
        keys = b"".join(keys)
        for handed in ([7] * (volumes - 1) + [0] if volumes else None, [8] + [7] * (volumes - 1) if volumes else None,
                       [7] * (volumes - 1) if volumes else None, [7] * (volumes + 1), [0] * (volumes + 1)):
            if handed is not None:
                t.format(keys, "1", volumes, handed)
        t.format(keys, answer, volumes, [7] * volumes)
        t.format(keys, answer, volumes, [1] * volumes)
    t.say("A geometry that is not allowed, with counts that are, and with others.")
    t.given("device counts.img 60416")
    t.given("position 0")
    for geometry in ("1024 65 7", "1024 0 7", "2048 3 7", "1024 3 0", "1024 3 4097", "0 0 0"):
        t.given(f"geometry {geometry}")
        for handed in ([1, 1], [7, 7], [0, 1], [4097, 4097], [7]):
            t.format(key[:2], "1", counts=handed)
    t.say("Counts are judged by the geometry that is handed in: 7 is allowed where P is 8, 8 is too, and the device is then 2.")
    for geometry, P in (("1024 3 8", 8), ("1024 3 6", 6), ("4096 256 4096", 4096)):
        t.given(f"geometry {geometry}")
        t.format(key[:2], "2", counts=[P, 1])
        t.format(key[:2], "1", counts=[P + 1, 1])
        t.format(key[:2], "1", counts=[1, P + 1])

    t.say("P 1: the count can be 1 alone, and the volume has one block.")
    tiny = Geometry(1024, 1, 1)
    assert tiny.length == 33792
    t.given(f"geometry {words(tiny)}")
    for line in ("zeros 33792", "maps 15 -", "owners 0", "permutation 0", "position 0"):
        t.given(line)
    for count in (0, 2, 7, 2**64 - 1):
        t.format(key[:1], "1", counts=[count])
        t.format(key[:2], "1", counts=[1, count])
    t.format(key[:2], "0", counts=[1, 1])
    t.open(key[1], "0 1")
    t.holds(1, 1)
    t.reads((0, 0, None), (1, 0, None))
    t.read(0, 1, "12")
    t.read(1, 1, "12")
    t.write(1, 0, some[0], "0 claimed 0 1")
    t.write(1, 1, some[0], "12 0")
    t.close("0")
    t.holds(1, 1)
    t.open(key[1], "0 1")
    t.reads((1, 0, some[0]))

    t.say("Two map blocks, P 253: volumes of 252, 253 and 1 logical slices, with one tape byte too few and exactly enough.")
    g = Geometry(1024, 1, 253)
    need = 565248 + 3 * (88 + 32)
    t.given(f"geometry {words(g)}")
    t.given(f"zeros {g.length}")
    t.given(f"maps {15 * 253} -")
    t.given(f"owners {words([0] * 253)}")
    t.given(f"permutation {words(range(253))}")
    t.given(f"tape two-maps.img 2000 {need - 1}")
    t.given("position 0")
    t.format(key[:3], "1", counts=[252, 254, 1])
    t.format(key[:3], "21", counts=[252, 253, 1])
    t.given(f"tape two-maps.img 2000 {need}")
    t.format(key[:3], "0", counts=[252, 253, 1])
    t.open(key[2], "0 2")
    t.holds(252, 253, 1)
    t.reads((0, 251, None), (1, 252, None), (2, 0, None))
    for volume, address in ((0, 252), (1, 253), (2, 1)):
        t.read(volume, address, "12")
    t.given("position 0")
    t.write(0, 252, some[0], "12 0")
    t.write(0, 251, some[0], "0 claimed 0 1")
    t.write(1, 252, some[1], "0 claimed 1 1")
    t.write(2, 0, some[2], "0 claimed 2 1")
    t.close("0")
    t.holds(252, 253, 1)
    t.open(key[2], "0 2")
    t.holds(252, 253, 1)
    t.reads((0, 251, some[0]), (1, 252, some[1]), (2, 0, some[2]), (1, 251, None))
    t.finish()


# The mapped logical slice of each volume of small.img and its slice. In the permutation 2 0 3 1 that has place 0, 1 and 2.
SMALL_MAPPED = ((1, 2), (3, 0), (0, 3))
SMALL_WHOLE = "device small.img 52224"


def releases():
    """Slices that are given back."""
    t = Transcript(
        "releases.txt",
        "Releases: the entry, the owner and the start place afterwards, what reads, finds and claims then give, and that of the",
        "device one map block changes alone.",
    )
    t.lend("small.img", SMALL, [2, 0, 3, 1], tape("releases", 5120), 0)
    image = small_image()
    releases_of_each_volume(t, image)
    releases_and_start_places(t, image)
    releases_and_claims(t, image)
    releases_and_permutations(t, image)
    releases_of_other_tables(t, image)
    releases_and_closes(t, image)
    releases_below_the_counts(t, counted_image())
    releases_of_two_maps(t)
    releases_of_other_sizes(t)
    t.finish()


def releases_of_each_volume(t, image):
    """One release after an opening, under each key."""
    for k in range(3):
        for volume in range(k + 1):
            logical, psi = SMALL_MAPPED[volume]
            t.say(f"Key {k}: the slice of volume {volume} is given back. Its blocks are zeros, the others stay.")
            t.given(SMALL_WHOLE)
            t.given("permutation 2 0 3 1")
            t.open(image.key[k], f"0 {k}")
            t.starts(k + 1)
            t.release(volume, logical, f"0 {psi}")
            t.starts(volume)
            for address in range(4 * logical, 4 * logical + 4):
                t.reads((volume, address, None))
                t.find(volume, address, "0")
            t.reads(*small_blocks(*(other for other in range(k + 1) if other != volume)))
            for other, address, found in ((0, 7, "1024 46080"), (1, 13, "1024 33792"), (2, 0, "1024 48128")):
                if other <= k and other != volume:
                    t.find(other, address, found)
            t.say("A second time it is 25, as the other logical slices are, and all above k is 11.")
            for unmapped in range(4):
                t.release(volume, unmapped, "25")
            t.release(k + 1, 0, "11")
            t.starts(volume)
            t.say("The session is dropped.")
            t.drop([1, 3, 0, 2])
            t.starts(0)
    t.say("All three, in different orders: the start place is the lowest place of them.")
    t.given("permutation 2 0 3 1")
    for order, places in (((2, 1, 0), (2, 1, 0)), ((1, 2, 0), (1, 1, 0)), ((0, 1, 2), (0, 0, 0))):
        t.given(SMALL_WHOLE)
        t.open(image.key[2], "0 2")
        for volume, place in zip(order, places):
            t.release(volume, SMALL_MAPPED[volume][0], f"0 {SMALL_MAPPED[volume][1]}")
            t.starts(place)
        t.reads(*((volume, address, None) for volume in range(3) for address in (0, 3, 4, 7, 12, 13, 15)))


def releases_and_start_places(t, image):
    """Every start place with every place of the slice."""
    t.say("The start place becomes the lower of itself and the slice's place: each place, with each start place handed in.")
    t.given(SMALL_WHOLE)
    t.open(image.key[2], "0 2")
    for permutation, after in (
        ("2 0 3 1", (0, 0, 0, 0, 0)), ("0 2 1 3", (0, 1, 1, 1, 1)), ("3 1 2 0", (0, 1, 2, 2, 2)), ("1 0 3 2", (0, 1, 2, 3, 3)),
    ):
        t.given(f"permutation {permutation}")
        for start in range(5):
            t.given("entry 0 1 2")
            t.given("owner 2 1")
            t.given(f"start {start}")
            t.release(0, 1, "0 2")
            t.starts(after[start])
    t.say("Above P it is 20, and stays.")
    t.given("entry 0 1 2")
    for start in (5, 256, 257, 2**32, 2**32 + 3, 2**63, 2**64 - 1):
        t.given(f"start {start}")
        t.release(0, 1, "20")
        t.release(0, 0, "20")
        t.starts(start)

    t.say("16 bytes of the tape are taken. With fewer left, or a position past the end, it is 21, which 25 comes before.")
    t.given(SMALL_WHOLE)
    t.given("permutation 2 0 3 1")
    tape_words = tape("releases", 5120)
    t.open(image.key[2], "0 2")
    for length, position in ((0, 0), (1, 0), (15, 0), (16, 1), (5120, 5105), (5120, 5120), (0, 1), (15, 16), (5120, 5121),
                             (5120, 2**32), (5120, 2**63), (5120, 2**64 - 16), (5120, 2**64 - 1)):
        t.given(f"tape {shorter(tape_words, length)}")
        t.given(f"position {position}")
        t.release(1, 3, "21")
        t.release(1, 0, "25")
        t.starts(3)
    for (volume, logical, psi), length, position in (((1, 3, 0), 16, 0), ((2, 0, 3), 5120, 5104), ((0, 1, 2), 17, 1)):
        t.given(f"tape {shorter(tape_words, length)}")
        t.given(f"position {position}")
        t.release(volume, logical, f"0 {psi}")
        assert t.lent.position == length
    t.starts(0)
    t.given(f"tape {tape_words}")
    t.given("position 0")


def releases_and_claims(t, image):
    """A full device, and claims of what was given back."""
    key = image.key
    fresh = [small_text(volume, 99, "fifth") for volume in range(3)]
    t.say("A full device: 22, a release, and the next claim takes the slice. The start place is 4, then that slice's place.")
    t.given(SMALL_WHOLE)
    t.open(key[2], "0 2")
    t.write(0, 0, fresh[0], "0 claimed 1 1")
    t.write(2, 15, fresh[2], "22 0")
    t.starts(4)
    t.release(1, 3, "0 0")
    t.starts(1)
    t.write(2, 15, fresh[2], "0 claimed 0 1")
    t.starts(2)
    t.reads((2, 12, None), (2, 13, None), (2, 14, None), (2, 15, fresh[2]), (1, 13, None), (1, 15, None), (0, 0, fresh[0]))
    t.find(2, 15, "1024 35840")
    t.find(1, 13, "0")
    t.say("The places behind it are held and looked at, once.")
    t.write(1, 12, fresh[1], "22 2")
    t.starts(4)
    t.write(1, 12, fresh[1], "22 0")
    t.say("Two releases, and the held places before and between: the lower place is taken first.")
    t.release(2, 0, "0 3")
    t.starts(2)
    t.release(0, 1, "0 2")
    t.starts(0)
    t.write(1, 12, fresh[1], "0 claimed 2 1")
    t.starts(1)
    t.write(0, 4, fresh[0], "0 claimed 3 2")
    t.starts(3)
    t.reads((1, 12, fresh[1]), (1, 13, None), (1, 14, None), (1, 15, None), (0, 4, fresh[0]), (0, 7, None), (2, 0, None))
    t.write(2, 0, fresh[2], "22 1")
    t.starts(4)
    t.say("The session is dropped.")
    t.drop([3, 2, 1, 0])
    t.starts(4)

    t.say("Claims of the slice by the same volume, at the same logical slice and at another, and by other volumes: zeros but for",
          "the block asked for.")
    t.given(SMALL_WHOLE)
    t.given("permutation 2 0 3 1")
    t.given("position 0")
    t.open(key[2], "0 2")
    logical, owner = 1, 0
    for volume, address in ((0, 5), (0, 14), (2, 7), (1, 0), (0, 4)):
        t.release(owner, logical, "0 2")
        t.starts(0)
        t.reads(*((owner, 4 * logical + j, None) for j in range(4)))
        t.given("position 0")
        t.write(volume, address, fresh[volume], "0 claimed 2 1")
        t.starts(1)
        owner, logical = volume, address // 4
        for block in range(4 * logical, 4 * logical + 4):
            t.reads((volume, block, fresh[volume] if block == address else None))
        t.reads((1, 13, small_text(1, 13)), (2, 3, small_text(2, 3)))
    t.say("A rewrite in it, and a release of the rewritten slice.")
    t.write(0, 7, fresh[1], "0 rewritten 2 0")
    t.release(0, 1, "0 2")
    t.reads((0, 4, None), (0, 7, None))
    t.say("A block of a slice that was given back is no rewrite: the claim is refused by 21 where 16 bytes are left.")
    t.given("position 5104")
    t.write(0, 7, fresh[1], "21 1")
    t.starts(0)

    t.say("The counts add up to 16 with three releases: P times one more than these. The claims are handed another permutation",
          "than the opening and the releases.")
    t.given(SMALL_WHOLE)
    t.given("permutation 1 2 0 3")
    t.open(key[2], "0 2")
    t.starts(0)
    for n in range(4):
        t.given("position 0")
        t.given("permutation 2 0 3 1")
        t.write(0, 0, fresh[0], "0 claimed 1 4")
        t.starts(4)
        t.given("permutation 1 2 0 3")
        if n < 3:
            t.release(0, 0, "0 1")
            t.starts(0)


def releases_and_permutations(t, image):
    """Another permutation than at the opening."""
    fresh = [small_text(volume, 99, "fifth") for volume in range(3)]
    t.say("Another permutation than the opening's: the slice's place is the one in it.")
    t.given("position 0")
    for permutation, places in (("1 3 0 2", (3, 2, 1)), ("3 1 2 0", (2, 3, 0)), ("0 1 3 2", (3, 0, 2)), ("1 2 3 0", (1, 3, 2))):
        for volume, place in enumerate(places):
            t.given(SMALL_WHOLE)
            t.given("permutation 2 0 3 1")
            t.open(image.key[2], "0 2")
            t.starts(3)
            t.given(f"permutation {permutation}")
            t.release(volume, SMALL_MAPPED[volume][0], f"0 {SMALL_MAPPED[volume][1]}")
            t.starts(place)
    t.say("Claims then look from there on in theirs: with the first permutation slices 2 and 0, at earlier places, are free and",
          "not found, until a release names a lower place.")
    t.given(SMALL_WHOLE)
    t.given("permutation 2 0 3 1")
    t.open(image.key[2], "0 2")
    t.given("permutation 1 3 0 2")
    t.release(0, 1, "0 2")
    t.starts(3)
    t.release(1, 3, "0 0")
    t.starts(2)
    t.given("permutation 2 0 3 1")
    t.write(0, 0, fresh[0], "0 claimed 1 2")
    t.starts(4)
    t.write(0, 8, fresh[0], "22 0")
    t.given("permutation 3 2 0 1")
    t.release(2, 0, "0 3")
    t.starts(0)
    t.write(2, 4, fresh[2], "0 claimed 3 1")
    t.write(0, 8, fresh[0], "0 claimed 2 1")
    t.write(1, 8, fresh[1], "0 claimed 0 1")
    t.starts(3)
    t.write(1, 0, fresh[1], "22 1")
    t.reads((0, 0, fresh[0]), (0, 8, fresh[0]), (1, 8, fresh[1]), (2, 4, fresh[2]), (2, 0, None), (0, 4, None), (1, 13, None))
    t.say("A write takes permutations that a release refuses: a slice twice, a number that is none.")
    t.given("permutation 2 0 3 1")
    t.release(1, 2, "0 0")
    t.starts(1)
    for permutation in ("0 0 3 1", "2 0 3 4", "4 0 4 4"):
        t.given(f"permutation {permutation}")
        t.release(0, 2, "5")
        t.release(1, 2, "5")
        t.starts(1)
    t.given("position 0")
    t.write(1, 3, fresh[1], "0 claimed 0 1")
    t.starts(2)


def releases_of_other_tables(t, image):
    """Tables that no opening gave."""
    t.say("The owner byte becomes 0 whatever it was, and no other does.")
    t.given(SMALL_WHOLE)
    t.given("permutation 2 0 3 1")
    t.open(image.key[2], "0 2")
    for owner in (1, 0, 2, 3, 4, 15, 16, 128, 255):
        for line in ("entry 0 1 2", f"owners 255 9 {owner} 1", "start 4"):
            t.given(line)
        t.release(0, 1, "0 2")
        t.starts(0)
    t.given("owners 0 0 0 0")
    t.release(1, 3, "0 0")
    t.release(2, 0, "0 3")
    t.say("An unmapped logical slice is 25, whatever the owners say.")
    t.given("owners 1 1 1 1")
    for volume in range(3):
        for logical in range(4):
            t.release(volume, logical, "25")

    t.say("A slice that several entries name: the asked one alone becomes the mark.")
    t.given("row 0 2 2 - 2")
    t.given("row 1 2 - - 0")
    t.given("owners 2 0 1 0")
    t.given("start 4")
    t.release(0, 1, "0 2")
    t.starts(0)
    t.reads((0, 5, None), (0, 0, small_text(0, 4)), (0, 15, small_text(0, 7)), (1, 13, small_text(1, 13)))
    t.find(1, 0, "1024 43008")
    for volume, logical in ((0, 3), (1, 0), (0, 0)):
        t.release(volume, logical, "0 2")
    t.find(1, 0, "0")
    t.reads((0, 0, None), (0, 15, None), (1, 13, small_text(1, 13)))

    t.say("Bad entries of the same volume are 9, whatever is asked for, also before 25. Those of other volumes are no matter, nor is",
          "what rows above k hold.")
    for bad in (4, 5, MARK - 1):
        t.given(SMALL_WHOLE)
        t.open(image.key[1], "0 1")
        for line in (f"row 1 {bad} {bad} {bad} 0", f"row 2 {bad} 2 0 3", f"row 14 {bad} {bad} 2 0"):
            t.given(line)
        for logical in range(4):
            t.release(1, logical, "9")
        t.release(0, 0, "25")
        t.release(0, 1, "0 2")
        t.starts(0)
        t.given("row 1 - - - 0")
        for place in range(4):
            t.given(f"row 0 {words('-' * 4)}")
            t.given(f"entry 0 {place} {bad}")
            for logical in range(4):
                t.release(0, logical, "9")
            t.given(f"entry 0 {3 - place} 2")
            t.release(0, 3 - place, "9")
        t.release(1, 3, "0 0")
        for logical in range(4):
            t.release(2, logical, "11")
        t.release(14, 2, "11")
    t.say("Any slice below P may be asked for: each of them in turn, with each place.")
    t.given("maps 60 -")
    for psi, place in ((0, 1), (1, 3), (2, 0), (3, 2)):
        t.given(f"entry 1 {3 - psi} {psi}")
        t.given("owners 2 2 2 2")
        t.given("start 4")
        t.release(1, 3 - psi, f"0 {psi}")
        t.starts(place)
    t.say("A session with keys above k, with no key at all, with all 15 volumes.")
    all_keys = words(vek.hex() for vek in image.vek)
    for session, volume, above in ((f"session 1024 4 4 1 1 4 4,4 {all_keys}", 1, 2), ("session 1024 4 4 14 1 4 4*15", 14, 15),
                                   (f"session 1024 4 4 7 1 4 4*8 {all_keys}", 7, 8)):
        t.given("maps 60 -")
        t.given(session)
        t.given(f"entry {volume} 3 1")
        t.given("owners 1 8 1 1")
        t.release(above, 3, "11")
        t.release(volume - 1, 3, "25")
        t.release(volume, 3, "0 1")
        t.starts(3)
    t.say("20 by one thing alone: the session is closed, or its k is above 14.")
    t.given("entry 0 1 2")
    t.given("owners 1 8 1 1")
    for k, is_open in ((7, 0), (14, 0), (15, 1), (16, 1), (255, 1), (256, 1), (2**32, 1), (2**32 + 7, 1), (2**63, 1),
                       (2**64 - 1, 1)):
        t.given(f"session 1024 4 4 {k} {is_open} 4 4*15 {all_keys}")
        t.release(0, 1, "20")
        t.release(15, 4, "20")
    t.given(f"session 1024 4 4 14 1 4 4*15 {all_keys}")
    t.release(0, 1, "0 2")
    t.starts(0)


def releases_and_closes(t, image):
    """What the next opening finds."""
    key = image.key
    fresh = [small_text(volume, 99, "fifth") for volume in range(3)]
    t.say("A release without a close is on the device: the next opening finds the slice free, and zeros.")
    t.given(SMALL_WHOLE)
    t.given("position 0")
    t.open(key[2], "0 2")
    t.release(0, 1, "0 2")
    t.reads((0, 4, None))
    t.open(key[2], "0 2")
    t.starts(0)
    t.reads(*((0, address, None) for address in range(16)), *small_blocks(1, 2))
    t.release(0, 1, "25")
    t.say("So is a claim of the slice by another volume.")
    t.write(2, 6, fresh[2], "0 claimed 2 1")
    t.open(key[2], "0 2")
    t.starts(3)
    t.reads((0, 6, None), (2, 6, fresh[2]), (2, 5, None), *small_blocks(1))
    t.find(0, 6, "0")

    t.say("Releases, and a close, which adds nothing: the maps are without the slices, for every key, and the slices are free.")
    t.given(SMALL_WHOLE)
    t.given("position 0")
    t.open(key[2], "0 2")
    t.release(0, 1, "0 2")
    t.release(2, 0, "0 3")
    t.starts(0)
    t.close("0")
    t.starts(0)
    t.release(1, 3, "20")
    for k in range(3):
        t.open(key[k], f"0 {k}")
        t.starts(0)
        t.reads(*((0, address, None) for address in range(3, 9)))
        t.release(0, 1, "25")
    t.reads(*((2, address, None) for address in range(4)), *small_blocks(1))
    t.given("permutation 0 3 1 2")
    t.open(key[2], "0 2")
    t.starts(1)
    t.say("Claims of them, a close, and the next opening.")
    t.write(1, 0, fresh[1], "0 claimed 3 1")
    t.write(0, 5, fresh[0], "0 claimed 1 1")
    t.release(1, 3, "0 0")
    t.starts(0)
    t.write(2, 3, fresh[2], "0 claimed 0 1")
    t.write(2, 4, fresh[2], "0 claimed 2 3")
    t.starts(4)
    t.close("0")
    t.open(key[2], "0 2")
    t.starts(4)
    t.reads((1, 0, fresh[1]), (1, 1, None), (1, 13, None), (0, 4, None), (0, 5, fresh[0]), (2, 3, fresh[2]), (2, 2, None),
            (2, 4, fresh[2]), (2, 7, None))
    t.say("Everything given back, and a close: all volumes are zeros for each key.")
    for volume, logical, psi in ((1, 0, 3), (0, 1, 1), (2, 0, 0), (2, 1, 2)):
        t.release(volume, logical, f"0 {psi}")
    t.close("0")
    for k in range(3):
        t.open(key[k], f"0 {k}")
        t.starts(0)
        t.reads(*((volume, address, None) for volume in range(k + 1) for address in (0, 4, 5, 13)))

    t.say("Key 0 gives its slice back and closes: volumes 1 and 2 stand as they stood. Then it claims what volume 2 holds.")
    t.given(SMALL_WHOLE)
    t.given("position 0")
    t.given("permutation 2 0 3 1")
    t.open(key[0], "0 0")
    t.starts(1)
    t.release(0, 1, "0 2")
    t.starts(0)
    t.close("0")
    t.open(key[2], "0 2")
    t.starts(0)
    t.reads((0, 4, None), (0, 7, None), *small_blocks(1, 2))
    t.given("permutation 3 2 0 1")
    t.open(key[0], "0 0")
    t.write(0, 8, fresh[0], "0 claimed 3 1")
    t.close("0")
    t.open(key[2], "10")
    t.say("Once key 0 has given it back again, key 2 opens: the entry of volume 2 leads to what volume 0 stored.")
    t.open(key[0], "0 0")
    t.release(0, 2, "0 3")
    t.starts(0)
    t.close("0")
    t.open(key[2], "0 2")
    t.find(2, 0, "1024 48128")
    t.read(2, 0, "0")
    t.release(2, 0, "0 3")
    t.reads((2, 0, None), *small_blocks(1))


def releases_below_the_counts(t, image):
    """Volumes of their own length, P 7."""
    key, whole, some = image.key, COUNTED_WHOLE, SOME_COUNTED
    mapped = ((0, 1, 0, 2), (0, 4, 6, 1), (1, 0, 3, 0), (2, 6, 5, 2), (3, 2, 1, 2))
    t.say("Volumes of their own length: volumes 0 to 3 have 5, 1, 7 and 3 logical slices, of 3 blocks, on a device of 7 slices.",
          "Each mapped one: the start place is 2, and stays so where the slice's place is higher.")
    t.lend("counts.img", COUNTED, COUNTED_PERMUTATION, tape("releases", 5120), 0)
    for volume, logical, psi, place in mapped:
        t.given(whole)
        t.open(key[3], "0 3")
        t.starts(2)
        t.release(volume, logical, f"0 {psi}")
        t.starts(place)
        t.holds(5, 1, 7, 3)
        t.reads(*((volume, 3 * logical + j, None) for j in range(3)))
        t.find(volume, 3 * logical, "0")
        t.reads(*((v, a, counted_text(v, a)) for v, a in COUNTED_BLOCKS if (v, a // 3) != (volume, logical)))
    t.say("All of them, one after the other.")
    t.given(whole)
    t.open(key[3], "0 3")
    for (volume, logical, psi, _), place in zip(reversed(mapped), (2, 2, 0, 0, 0)):
        t.release(volume, logical, f"0 {psi}")
        t.starts(place)
    t.reads(*((volume, last, None) for volume, last in enumerate(LAST)))
    t.say("The session is dropped.")
    t.drop(range(7))
    t.starts(0)

    t.say("12: at the volume's own count and above, whatever stands there: a slice, a number that is none, the mark. 11 comes",
          "before it, where the count is 0.")
    t.given(whole)
    t.given(f"permutation {words(COUNTED_PERMUTATION)}")
    t.open(key[3], "0 3")
    past = ((0, 5, 2), (0, 6, 7), (1, 1, 4), (1, 6, MARK - 1), (3, 3, 4), (3, 6, 8))
    for volume, logical, entry in past:
        t.given(f"entry {volume} {logical} {entry}")
    for volume, N in enumerate(COUNTS):
        for logical in (N, N + 1, 3 * N, 6, 7, 8, 14, 21, 2**32, 2**32 + N - 1, 2**63, 2**64 - 1):
            if logical >= N:
                t.release(volume, logical, "12")
    for volume in (4, 5, 14):
        for logical in (0, 2, 7):
            t.release(volume, logical, "11")
    t.say("Below it 9, where such an entry stands in the row; without, 25 and served.")
    for volume in (0, 1, 3):
        for logical in range(COUNTS[volume]):
            t.release(volume, logical, "9")
    t.release(2, 5, "25")
    for volume, logical, entry in past:
        t.given(f"entry {volume} {logical} -")
    for volume, logical in ((0, 0), (0, 2), (0, 3), (2, 0), (2, 5), (3, 0), (3, 1)):
        t.release(volume, logical, "25")
    t.starts(2)
    for volume, logical, psi, _ in mapped:
        t.release(volume, logical, f"0 {psi}")
    t.starts(0)

    t.say("Counts that the caller lowers or raises: a release goes by what the session holds.")
    t.given(whole)
    t.open(key[3], "0 3")
    for N in (1, 2, 4):
        t.given(f"count 0 {N}")
        t.release(0, 4, "12")
    t.given("count 0 2")
    t.release(0, 1, "9")
    t.release(0, 2, "12")
    t.given("count 0 5")
    t.release(0, 1, "0 0")
    t.release(0, 4, "0 6")
    t.starts(1)
    t.given("entry 1 6 4")
    t.release(1, 6, "12")
    t.release(1, 0, "9")
    t.given("count 1 7")
    t.release(1, 6, "0 4")
    t.release(1, 5, "25")
    t.starts(1)
    t.holds(5, 7, 7, 3)
    t.say("With that entry given back, the next opening is served.")
    t.close("0")
    t.open(key[3], "0 3")
    t.holds(5, 1, 7, 3)
    t.starts(1)
    t.reads((0, 3, None), (0, 14, None), *LAST_TEXTS[1:])
    t.given("position 0")
    t.write(0, 14, some, "0 claimed 6 1")
    t.write(3, 0, some, "0 claimed 2 1")
    t.write(3, 3, some, "0 claimed 0 1")
    t.write(2, 0, some, "0 claimed 4 2")
    t.write(2, 3, some, "22 1")
    t.given("position 0")
    t.release(3, 2, "0 1")
    t.starts(6)
    t.write(2, 3, some, "0 claimed 1 1")
    t.starts(7)
    t.reads((2, 3, some), (2, 4, None), (2, 5, None), (3, 6, None), (3, 8, None))

    t.say("20 by a count of 0 or above P in a row up to k, whatever volume is asked for; before 2, 4, 5, 11 and 12.")
    t.given(whole)
    for k in (0, 1, 3):
        t.open(key[k], f"0 {k}")
        for row in range(k + 1):
            for count in (0, 8, 2**32 + COUNTS[row], 2**64 - 1):
                t.given(f"count {row} {count}")
                for volume, logical in ((0, 1), (k, COUNTS[k] - 1), (0, 0), (k + 1, 0), (0, 2**64 - 1)):
                    t.release(volume, logical, "20")
            t.given(f"count {row} {COUNTS[row]}")
        t.release(k, COUNTS[k] - 1, f"0 {(6, 3, 5, 1)[k]}")
    t.say("Above k any count is allowed, and stays.")
    t.given(whole)
    t.open(key[1], "0 1")
    for row in range(2, VOLUMES):
        t.given(f"count {row} {(2**64 - 1, 8, 0)[row % 3]}")
    t.release(2, 6, "11")
    t.release(0, 1, "0 0")
    t.release(1, 0, "0 3")
    t.starts(0)
    t.holds(5, 1, *((2**64 - 1, 8, 0)[row % 3] for row in range(2, VOLUMES)))
    t.say("All at once; then one refusal less each time.")
    served = f"session 1024 3 7 1 1 2 5,1 {words(vek.hex() for vek in image.vek[:2])}"
    for line in ("device counts.img 60415", "maps 104 9", "owners 1 5 0 2 0 4", "permutation 3 6 2 0 5 4 4",
                 served.replace(" 5,1 ", " 5,8 ")):
        t.given(line)
    for line, volume, logical, answer in (
        ("position 0", 9, 9, "20"), (served, 9, 9, "2"), (whole, 9, 9, "4"), ("maps 105 9", 9, 9, "4"),
        ("owners 1 5 0 2 0 4 1", 9, 9, "5"), (f"permutation {words(COUNTED_PERMUTATION)}", 9, 9, "11"),
        ("position 5121", 0, 9, "12"), ("position 5121", 0, 5, "12"), ("position 5121", 0, 4, "9"), ("entry 0 4 -", 0, 4, "9"),
        ("maps 105 -", 0, 4, "25"), ("entry 0 4 6", 0, 4, "21"), ("position 5105", 0, 4, "21"), ("position 5104", 0, 4, "0 6"),
    ):
        t.given(line)
        t.release(volume, logical, answer)
    t.starts(1)


def releases_of_two_maps(t):
    """Two map blocks, and places above 255."""
    g = Geometry(1024, 1, 257)
    image = Image("two-maps.img", g)
    some = text("releases, two maps", g.B)
    down, up = words(range(256, -1, -1)), words(range(257))
    t.say("Two map blocks: entries 0 to 251 in the first, 252 to 256 in the second. Slice n is at place 256 - n. The start place",
          "is 2, that of slice 254.")
    t.lend("two-maps.img", g, range(256, -1, -1), "two-maps.img 60000 8192")
    t.open(image.key[1], "0 1")
    t.starts(2)
    for volume, logical, psi, place in ((0, 256, 252, 2), (0, 0, 0, 2), (1, 253, 255, 1), (0, 252, 256, 0), (1, 1, 1, 0)):
        t.release(volume, logical, f"0 {psi}")
        t.starts(place)
        t.reads((volume, logical, None))
        t.find(volume, logical, "0")
    for volume, logical, answer in ((0, 256, "25"), (0, 257, "12"), (0, 258, "12"), (1, 0, "25"), (1, 252, "25"), (1, 257, "12"),
                                    (0, 2**32 + 250, "12"), (2, 253, "11")):
        t.release(volume, logical, answer)
    t.say("5: one place short, one too long, and a fault at the last place alone, with the asked slice there or elsewhere.")
    for permutation in (words(range(256)), words(range(1, 257)), f"{up} 0", f"{up} 257", f"{words(range(256))} 255",
                        f"{words(range(256))} 0", f"{words(range(256))} 257", f"{words(range(256))} 4294967295",
                        f"{words(range(1, 257))} 256"):
        t.given(f"permutation {permutation}")
        t.release(0, 250, "5")
        t.release(1, 249, "5")
        t.release(2, 257, "5")
    t.say("Slice n at place n: the start place falls from 257 to places above 255 and below.")
    t.given(f"permutation {up}")
    t.given(f"owners {words([9] * 257)}")
    t.given("start 1")
    t.write(1, 5, some, "22 256")
    t.starts(257)
    t.given("entry 0 252 256")
    t.release(0, 252, "0 256")
    t.starts(256)
    t.given("entry 1 253 255")
    t.release(1, 253, "0 255")
    t.starts(255)
    t.release(1, 249, "0 253")
    t.starts(253)
    t.release(0, 250, "0 251")
    t.starts(251)
    t.say("Claims of them, across the edge of the map blocks; the held place between is looked at.")
    t.write(1, 251, some, "0 claimed 251 1")
    t.starts(252)
    t.write(1, 252, some, "0 claimed 253 2")
    t.starts(254)
    t.reads((1, 251, some), (1, 252, some), (0, 250, None), (1, 249, None))
    t.say("The next opening finds what was given back free.")
    t.close("0")
    t.open(image.key[1], "0 1")
    t.starts(0)
    t.reads((1, 251, some), (1, 252, some), (0, 0, None), (0, 250, None), (0, 252, None), (0, 256, None), (1, 1, None),
            (1, 249, None), (1, 253, None))
    t.release(1, 252, "0 253")
    t.release(1, 252, "25")
    t.starts(0)


def releases_of_other_sizes(t):
    """Blocks of 4,096 bytes and all 15 volumes; one slice of 64 blocks."""
    g = Geometry(4096, 2, 4)
    image = Image("fifteen.img", g)
    some = text("releases, fifteen", g.B)
    t.say("Blocks of 4,096 bytes and all 15 volumes, with slice 2 free.")
    t.lend("fifteen.img", g, [3, 1, 0, 2], "two-maps.img 60000 8192")
    t.open(image.key[14], "0 14")
    t.starts(3)
    for volume in range(VOLUMES):
        for logical in range(5):
            if (volume, logical) not in ((0, 3), (9, 2), (14, 0)):
                t.release(volume, logical, "25" if logical < 4 else "12")
    t.release(15, 0, "11")
    t.release(0, 3, "0 0")
    t.starts(2)
    t.release(9, 2, "0 1")
    t.starts(1)
    t.reads((0, 6, None), (0, 7, None), (9, 4, None), (9, 5, None))
    t.reads(*((14, address, text(f"fifteen, block {address} of volume 14", g.B)) for address in (0, 1)))
    t.release(14, 0, "0 3")
    t.starts(0)
    t.write(8, 5, some, "0 claimed 3 1")
    t.reads((8, 4, None), (8, 5, some), (14, 0, None), (14, 1, None))
    t.close("0")
    t.open(image.key[14], "0 14")
    t.starts(1)
    t.reads((8, 5, some), (0, 6, None), (9, 5, None), (14, 1, None))

    t.say("One slice of 64 blocks: given back by volume 1, claimed by volume 0.")
    g = Geometry(1024, 64, 1)
    image = Image("widest.img", g)
    claimed = text("widest, block 63 of volume 0", g.B)
    t.lend("widest.img", g, [0], tape("widest", 1056, at_0=FF16, at_1024=FF16), 0)
    t.open(image.key[1], "0 1")
    t.starts(1)
    t.write(0, 63, claimed, "22 0")
    t.release(0, 0, "25")
    t.release(1, 1, "12")
    t.release(1, 0, "0 0")
    t.starts(0)
    t.reads(*((1, address, None) for address in (0, 1, 31, 62, 63)))
    t.find(1, 63, "0")
    t.write(0, 63, claimed, "0 claimed 0 1")
    t.starts(1)
    t.reads((0, 0, None), (0, 62, None), (0, 63, claimed), (1, 0, None))
    t.release(1, 0, "25")
    for permutation in ("", " 1", " 0 0", " 4294967295"):
        t.given(f"permutation{permutation}")
        t.release(0, 0, "5")
    t.given("permutation 0")
    t.release(0, 0, "21")
    t.given("position 1040")
    t.release(0, 0, "0 0")
    t.starts(0)
    t.reads((0, 63, None))


def map_blocks():
    """The map block that a claim and a release store."""
    t = Transcript(
        "map-blocks.txt",
        "The map block that a claim and a release store: the tape bytes that they need, which block it is and what it holds, and",
        "the entries in it that they judge. Rewrites and closes store none.",
    )
    map_blocks_and_tapes(t)
    map_blocks_of_entries(t)
    map_blocks_with_bad_entries(t)
    map_blocks_judged_in_order(t)
    map_blocks_past_the_last(t)
    map_blocks_that_stay(t, small_image())
    map_blocks_of_4096(t)
    t.finish()


def map_blocks_and_tapes(t):
    """Tapes with too few bytes, and with just enough."""
    for name, image, k, permutation, claimed, rewritten, released, places in (
        ("small.img", small_image(), 2, [2, 0, 3, 1], (0, 0, 1), (0, 4, 2), (1, 3, 0), (36864, 2048, 41984, 43008, 4096)),
        ("fifteen.img", Image("fifteen.img", Geometry(4096, 2, 4)), 14, [3, 1, 0, 2], (3, 1, 2), (14, 0, 3), (9, 2, 1),
         (151552, 32768, 163840, 167936, 81920)),
    ):
        g = image.g
        B, need = {1024: (1024, 1040), 4096: (4096, 4112)}[g.B]
        some = text(f"map blocks, {name}", B)
        t.say(f"Blocks of {B} bytes: a claim needs {need}, a rewrite and a release 16. With one less they are 21, a claim also with as",
              "many as its slice takes, and all with a position past the end. The device stays, and all else.")
        t.lend(name, g, permutation)
        t.open(image.key[k], f"0 {k}")
        for length, position in ((need - 1, 0), (need, 1), (B, 0), (16, 0), (15, 0), (0, 0), (8192, 8193 - need), (8192, 8192 - B),
                                 (8192, 8176), (8192, 8177), (8192, 8192), (8192, 8193), (0, 1), (8192, 2**32), (8192, 2**63),
                                 (8192, 2**64 - need), (8192, 2**64 - B), (8192, 2**64 - 16), (8192, 2**64 - 1)):
            t.given(f"tape {SHUFFLED_NOISE} {length}")
            t.given(f"position {position}")
            t.write(*claimed[:2], some, "21 1")
            if position > length or length - position < 16:
                t.write(*rewritten[:2], some, "21 0")
                t.release(*released[:2], "21")
            t.starts(3)
        t.image(name)
        t.say("Each with a tape that ends where the call does.")
        for before in (0, 3001):
            t.given(f"device {name} {g.length}")
            t.open(image.key[k], f"0 {k}")
            for n, used in enumerate((need, 16, 16)):
                t.given(f"tape {SHUFFLED_NOISE} {before + used}")
                t.given(f"position {before}")
                if n == 0:
                    t.write(*claimed[:2], some, f"0 claimed {claimed[2]} 1")
                    t.stores((places[0], B * (1 + g.S), before, B), (places[1], B, before + B, 16))
                elif n == 1:
                    t.write(*rewritten[:2], some, f"0 rewritten {rewritten[2]} 0")
                    t.stores((places[2], 16, before, 16), (places[3], B, 0, 0))
                else:
                    t.release(*released[:2], f"0 {released[2]}")
                    t.stores((places[4], B, before, 16))
                assert t.lent.position == before + used
        t.drop(permutation[::-1])


def map_blocks_of_entries(t):
    """Which block it is: entries 0 to 251 stand in the first map block, 252 to 256 in the second."""
    g = Geometry(1024, 1, 257)
    image = Image("two-maps.img", g)
    some = [text(f"map blocks, two maps, text {n}", g.B) for n in range(9)]
    blocks = {(0, 0): 2048, (0, 1): 3072, (1, 0): 5120, (1, 1): 6144}
    free = [7, 130, 254]
    rest = [psi for psi in range(257) if psi not in free]
    t.say("Two map blocks: volume 0 has them from bytes 2,048 and 3,072 on, volume 1 from 5,120 and 6,144 on. Each call stores the",
          "one of its entry alone, with tape bytes that no other has.")
    t.lend("two-maps.img", g, free + rest, f"{SHUFFLED_NOISE} 16384", 11)
    t.open(image.key[1], "0 1")
    rows = [t.lent.maps[:257], t.lent.maps[257:514]]

    def stored(volume, logical, entry, claimed):
        """Places by hand, and the entries of the block: those of the opening with what was set since."""
        position = t.lent.position - 16
        rows[volume][logical] = entry
        at = blocks[volume, 0 if logical < 252 else 1]
        slices = [(1024 * (46 + 2 * entry), 2048, position - 1024, 1024)] if claimed else []
        t.stores(*slices, (at, 1024, position, 16))
        t.map_block_is(at, volume, rows[volume][:252] if logical < 252 else rows[volume][252:])

    for n, (volume, logical) in enumerate(((1, 251), (1, 252), (0, 251))):
        t.write(volume, logical, some[n], f"0 claimed {free[n]} 1")
        stored(volume, logical, free[n], True)
    for volume, logical, psi in ((0, 252, 256), (1, 253, 255), (0, 250, 251), (1, 1, 1), (0, 0, 0), (0, 256, 252), (1, 249, 253)):
        t.release(volume, logical, f"0 {psi}")
        stored(volume, logical, MARK, False)
    # The start place is that of slice 0, the first of the rest.
    t.starts(3)
    for n, (volume, logical, psi, probes) in enumerate(((0, 253, 0, 1), (1, 256, 1, 1), (0, 252, 251, 248), (1, 0, 252, 1))):
        t.write(volume, logical, some[n + 3], f"0 claimed {psi} {probes}")
        stored(volume, logical, psi, True)
    t.say("A rewrite stores none.")
    t.write(1, 251, some[7], "0 rewritten 7 0")
    t.stores((1024 * 60, 16, t.lent.position - 16, 16), (1024 * 61, 1024, 0, 0))
    t.say("What the next opening finds.")
    t.open(image.key[1], "0 1")
    assert t.lent.maps[:514] == rows[0] + rows[1]
    t.reads((1, 251, some[7]), (1, 252, some[1]), (0, 251, some[2]), (0, 253, some[3]), (1, 256, some[4]), (0, 252, some[5]),
            (1, 0, some[6]), (1, 253, None), (0, 250, None), (1, 1, None), (0, 0, None), (0, 256, None), (1, 249, None))
    t.open(image.key[0], "0 0")
    t.reads((0, 251, some[2]), (0, 253, some[3]), (0, 252, some[5]), (0, 250, None))

    t.say("All 15 volumes of blocks of 4,096 bytes: the map block of volume v stands from byte 8,192 x (v + 1) on.")
    g = Geometry(4096, 2, 4)
    image = Image("fifteen.img", g)
    t.lend("fifteen.img", g, [2, 0, 1, 3], f"{SHUFFLED_NOISE} 65536")
    t.open(image.key[14], "0 14")
    t.starts(0)
    for volume in range(VOLUMES):
        held = {0: [MARK, MARK, MARK, 0], 9: [MARK, MARK, 1], 14: [3]}.get(volume, [])
        t.write(volume, 3, text(f"map blocks, fifteen, volume {volume}", 4096), "0 claimed 2 1")
        t.stores((4096 * 37, 3 * 4096, 4128 * volume, 4096), (8192 * (volume + 1), 4096, 4128 * volume + 4096, 16))
        t.map_block_is(8192 * (volume + 1), volume, held[:1] + [MARK] * (1 - len(held)) + [2] + held[2:])
        t.release(volume, 1, "0 2")
        t.stores((8192 * (volume + 1), 4096, 4128 * volume + 4112, 16))
        t.map_block_is(8192 * (volume + 1), volume, held)
    t.open(image.key[14], "0 14")
    t.reads(*((14, address, text(f"fifteen, block {address} of volume 14", g.B)) for address in (0, 1)), (14, 3, None))


def map_blocks_with_bad_entries(t):
    """Bad entries in the map block of the asked entry, in the other one, and in other rows."""
    g = Geometry(1024, 1, 257)
    image = Image("two-maps.img", g)
    some = text("map blocks, bad entries", g.B)
    t.say("Two map blocks, and a bad entry in one of them. Volume 0 maps its even logical slices, volume 1 odd ones. Claims and",
          "releases in the same block of the same volume are 9; all others are 21, as rewrites are: 15 bytes of the tape are left.")
    t.lend("two-maps.img", g, [7, *range(7), *range(8, 257)], f"{SHUFFLED_NOISE} 15")
    t.open(image.key[1], "0 1")
    asked = {0: ((0, 2, 248, 250), (1, 249, 251), (252, 254, 256), (253, 255)),
             1: ((1, 3, 247, 249), (0, 250, 251), (253,), (252, 254, 255, 256))}
    for volume, sigma, bad in (
        (0, 0, 257), (0, 1, MARK - 1), (0, 251, 258), (0, 250, 2**31), (0, 252, 257), (0, 253, 65536 + 7), (0, 256, MARK - 1),
        (1, 0, 257), (1, 246, MARK - 1), (1, 247, 512), (1, 251, 257), (1, 252, 4097), (1, 256, 2**31 + 1),
        (2, 0, 257), (2, 100, MARK - 1), (2, 256, 257), (14, 256, 257),
    ):
        before = t.lent.maps[volume * 257 + sigma]
        t.given(f"entry {volume} {sigma} {bad}")
        for i, (mapped, unmapped, mapped_second, unmapped_second) in asked.items():
            for logical in mapped + unmapped + mapped_second + unmapped_second:
                judged = i == volume and (logical < 252) == (sigma < 252)
                itself = (i, logical) == (volume, sigma)
                is_mapped = logical in mapped + mapped_second
                if is_mapped:
                    t.write(i, logical, some, "9 0" if itself else "21 0")
                else:
                    t.write(i, logical, some, "9 0" if judged else "21 1")
                t.release(i, logical, "9" if judged else "21" if is_mapped else "25")
        t.given(f"entry {volume} {sigma} {entry_word(before)}")
    t.image("two-maps.img")
    t.say("In the last row of the table: volume 14 of a session with all keys. Its second map block has entries 252 to 256 alone.")
    t.given(f"session 1024 1 257 14 1 0 257*15 {words(vek.hex() for vek in image.vek)}")
    for sigma, bad in ((0, 257), (251, MARK - 1), (252, 257), (256, 257)):
        t.given(f"entry 14 {sigma} {bad}")
        for logical in (1, 250, 253, 255):
            judged = (logical < 252) == (sigma < 252)
            t.write(14, logical, some, "9 0" if judged else "21 1")
            t.release(14, logical, "9" if judged else "25")
        t.given(f"entry 14 {sigma} -")
    t.given(f"tape {SHUFFLED_NOISE} 1040")
    t.write(14, 256, some, "0 claimed 7 1")
    t.stores((1024 * 60, 2048, 0, 1024), (1024 * 45, 1024, 1024, 16))
    t.map_block_is(1024 * 45, 14, [MARK] * 4 + [7])

    t.say("Volumes of their own length, 5, 1, 7 and 3 of 7: an entry from the count on is bad also where it is a slice. Claims and",
          "releases of that volume are 9, and of no other.")
    image = counted_image()
    t.lend("counts.img", COUNTED, COUNTED_PERMUTATION, f"{SHUFFLED_NOISE} 15")
    t.open(image.key[3], "0 3")
    for volume, sigma, entry in ((0, 5, 2), (0, 6, 6), (0, 6, 7), (1, 1, 4), (1, 6, 3), (2, 6, 7), (2, 0, MARK - 1), (3, 3, 4),
                                 (3, 6, 1), (4, 0, 7), (14, 6, 0)):
        before = t.lent.maps[volume * 7 + sigma]
        t.given(f"entry {volume} {sigma} {entry}")
        for i, unmapped, mapped in ((0, 0, 4), (2, 1, 6), (3, 1, 2)):
            t.write(i, 3 * unmapped, some, "9 0" if i == volume else "21 1")
            t.release(i, unmapped, "9" if i == volume else "25")
            t.release(i, mapped, "9" if i == volume else "21")
            t.write(i, 3 * mapped, some, "9 0" if (i, mapped, entry) == (volume, sigma, 7) else "21 0")
        t.release(1, 0, "9" if volume == 1 else "21")
        t.write(1, 0, some, "21 0")
        t.given(f"entry {volume} {sigma} {entry_word(before)}")
    t.image("counts.img")


def map_blocks_judged_in_order(t):
    """Where 9 stands among the other refusals."""
    image = counted_image()
    key, some = image.key, SOME_COUNTED
    served = f"session 1024 3 7 3 1 2 5,1,7,3 {words(vek.hex() for vek in image.vek[:4])}"
    bad = ("entry 0 5 2", "entry 2 6 7")
    t.say("A claim, with a bad entry in its map block: 9 comes after 20, 2, 4, 5 for the length, 11, 12 and 13, and before 5, 22 and",
          "21. All stand at first; then one less each time. Without the bad entry the next one comes.")
    t.given("tape 00")
    for judged in (True, False):
        for line in (COUNTED_WHOLE, "maps 105 -", "owners 1 1 1 1 1 1 1", "permutation 7 7 7 7 7 7", "device counts.img 60415",
                     "maps 104 -", "position 2", served.replace(" 3 1 2 ", " 3 1 8 ")):
            t.given(line)
        for line, volume, address, length, answer in (
            ("position 3", 4, 15, 5, "20 0"), (served, 4, 15, 5, "2 0"), (COUNTED_WHOLE, 4, 15, 5, "4 0"),
            ("maps 105 -", 4, 15, 5, "5 0"), ("permutation 7 7 7 7 7 7 7", 4, 15, 5, "11 0"), (bad[0], 0, 15, 5, "12 0"),
            (bad[1], 2, 21, 5, "12 0"), ("position 2", 0, 0, 5, "13 0"), ("position 2", 2, 0, 1023, "13 0"),
        ):
            t.given(line)
            t.write(volume, address, some[:length], answer)
        if not judged:
            t.given("maps 105 -")
        for line, answer in (("start 0", "5 1"), (f"permutation {words(COUNTED_PERMUTATION)}", "22 7"), ("start 7", "22 0"),
                             ("owners 1 1 0 1 1 1 1", "22 0"), ("start 1", "21 2"), ("position 0", "21 2")):
            t.given(line)
            for volume in (0, 2):
                place = t.lent.session.start
                t.write(volume, 0, some, "9 0" if judged else answer)
                t.given(f"start {place}")
    t.say("A release: 9 comes after 20, 2, 4, 5, 11 and 12, and before 25 and 21.")
    for judged in (True, False):
        for line in ("device counts.img 60415", "maps 104 -", "permutation 7 6 2 0 5 4 1", "position 2",
                     served.replace(" 3 1 2 ", " 3 0 2 ")):
            t.given(line)
        for line, volume, logical, answer in (
            ("position 3", 4, 5, "20"), (served, 4, 5, "2"), (COUNTED_WHOLE, 4, 5, "4"), ("maps 105 -", 4, 5, "5"),
            (f"permutation {words(COUNTED_PERMUTATION)}", 4, 5, "11"), (bad[0], 0, 5, "12"), (bad[1], 2, 7, "12"),
        ):
            t.given(line)
            t.release(volume, logical, answer)
        if not judged:
            t.given("maps 105 -")
        for line, answers in (("position 2", "25 25"), ("entry 0 1 0", "21 25"), ("entry 2 1 5", "21 21"), ("position 0", "21 21")):
            t.given(line)
            for volume, answer in zip((0, 2), answers.split(" ")):
                t.release(volume, 1, "9" if judged else answer)
    t.say("With a tape both are served.")
    t.given(f"tape {SHUFFLED_NOISE} 1072")
    t.release(0, 1, "0 0")
    t.release(2, 1, "0 5")
    t.given("start 2")
    t.write(2, 0, some, "0 claimed 2 1")


def map_blocks_past_the_last(t):
    """What the device holds behind the P entries, and what is stored there."""
    g, image = COUNTED, counted_image()
    some = SOME_COUNTED
    t.say("Behind the P entries of a map block any numbers may stand on the device, slices that are mapped too. They are ignored, and",
          "where the block is stored marks take their place; the blocks of other volumes keep theirs.")
    t.lend("counts.img", g, COUNTED_PERMUTATION, f"{SHUFFLED_NOISE} 4096")
    past = ([0, 7, MARK - 1, 6, 2, 3] * 41)[:245]
    for i in range(4):
        t.given_bytes(g.map_block(i, 0), image.enciphered_map(i, COUNTED_ROWS[i] + past))
    t.open(image.key[3], "0 3")
    t.release(0, 4, "0 6")
    t.stores((2048, 1024, 0, 16))
    t.map_block_is(2048, 0, [MARK, 0])
    t.write(2, 0, some, "0 claimed 6 1")
    t.stores((1024 * (31 + 4 * 6), 4096, 16, 1024), (6144, 1024, 1040, 16))
    t.map_block_is(6144, 2, [6] + [MARK] * 5 + [5])
    t.map_block_is(4096, 1, COUNTED_ROWS[1] + past)
    t.drop(COUNTED_PERMUTATION[::-1])

    t.say("The second block of two: 247 places behind the last entry, with numbers from P on, or slices.")
    g = Geometry(1024, 1, 257)
    image = Image("two-maps.img", g)
    t.lend("two-maps.img", g, [7, *range(7), *range(8, 257)], f"{SHUFFLED_NOISE} 4096")
    t.open(image.key[1], "0 1")
    rows = [t.lent.maps[252:257], t.lent.maps[509:514]]
    t.map_block_is(3072, 0, rows[0] + list(range(257, 504)))
    t.map_block_is(6144, 1, rows[1] + list(range(247)))
    t.release(0, 252, "0 256")
    t.map_block_is(3072, 0, [MARK] + rows[0][1:])
    t.write(1, 252, some, "0 claimed 7 1")
    t.map_block_is(6144, 1, [7] + rows[1][1:])


def map_blocks_that_stay(t, image):
    """Tables that are not the device's: what a rewrite and a close make of them."""
    some = small_text(0, 4, "seventh")
    t.say("Entries that the caller set: a rewrite and a close store none of them, nor do calls of other volumes. A call of the same",
          "volume stores them with its own.")
    t.lend("small.img", SMALL, [2, 0, 3, 1], f"{SHUFFLED_NOISE} 4096")
    t.open(image.key[2], "0 2")
    t.given("entry 1 0 1")
    t.given("owner 1 2")
    t.write(1, 13, some, "0 rewritten 0 0")
    t.stores((31760, 16, 0, 16), (33792, 1024, 0, 0))
    t.release(2, 0, "0 3")
    t.stores((6144, 1024, 16, 16))
    t.close("0")
    t.stores()
    t.open(image.key[2], "0 2")
    t.reads((1, 0, None), (1, 13, some), (2, 0, None))
    t.given("entry 1 0 1")
    t.given("owner 1 2")
    t.given("start 2")
    t.write(1, 4, some, "0 claimed 3 1")
    t.stores((48128 - 1024, 5120, 32, 1024), (4096, 1024, 1056, 16))
    t.map_block_is(4096, 1, [1, 3, MARK, 0])
    t.close("0")
    t.open(image.key[2], "0 2")
    t.find(1, 0, "1024 37888")
    t.reads((1, 4, some), (1, 5, None))

    t.say("Closes: without a tape, with positions past its end, with any entries and owners in the tables. Device, tape and position",
          "stay; a second one is 20.")
    for tape_bytes, position in (("-", 0), ("-", 1), ("00", 2**64 - 1), ("0001020304", 3)):
        t.given(SMALL_WHOLE)
        t.given("permutation 3 2 1 0")
        for k in range(3):
            t.open(image.key[k], f"0 {k}")
            t.given(f"tape {tape_bytes}")
            t.given(f"position {position}")
            if position:
                for line in ("row 0 4 4294967294 2 2", "row 1 - 9 - -", "row 14 0 1 2 3", "owners 255 0 9 1"):
                    t.given(line)
            t.close("0")
            t.image("small.img")
            t.close("20")
            t.starts((0, 0, 2)[k])
    t.say("Before it comes 2, then 4; with bad entries, and without a tape.")
    t.open(image.key[2], "0 2")
    for line in ("maps 61 4", "owners 2 0 1", "device small.img 52223"):
        t.given(line)
    for line, answer in (("position 9", "2"), (SMALL_WHOLE, "4"), ("maps 60 4", "4"), ("maps 59 4", "4"), ("owners 2 0 1 9", "4"),
                         ("maps 60 4", "0"), ("maps 60 4", "20")):
        t.given(line)
        t.close(answer)


def map_blocks_of_4096(t):
    """Map blocks of 1,020 entries: 253 and 1,020 of them in one block, one more in two."""
    some = [text(f"map blocks, blocks of 4,096, text {n}", 4096) for n in range(4)]
    for P, asked in ((300, ((251, 0), (252, 0), (299, 0))), (1021, ((1019, 0), (1020, 1), (252, 0)))):
        g = Geometry(4096, 1, P)
        image = Image(f"blocks of 4,096, {P}", g)
        count = g.m
        t.say(f"Blocks of 4,096 bytes and {P} slices, on zeros with a cell, a header and m {count} map blocks for volumes 0 and 1,",
              "all entries marks.")
        t.given(f"geometry {words(g)}")
        t.given(f"zeros {g.length}")
        t.given(f"maps {15 * P} -")
        t.given(f"owners {words([0] * P)}")
        t.given(f"order {add('orders.bin', two_bytes(*range(P)))} {P}")
        for i in range(2):
            t.given_bytes(g.cell(i), image.sealed_cell(i))
            t.given_bytes(g.header(i), image.sealed_header(i))
            for n in range(count):
                t.given_bytes(4096 * (2 + i * (1 + count) + n), image.enciphered_map(i, [MARK] * 1020))
        t.given(f"tape {SHUFFLED_NOISE} 16384")
        t.given("position 0")
        t.open(image.key[1], "0 1")
        row = [MARK] * P
        for slice, (logical, n) in enumerate(asked):
            position = t.lent.position
            t.write(1, logical, some[slice], f"0 claimed {slice} 1")
            t.stores((4096 * (1 + 15 * (1 + count) + 2 * slice), 8192, position, 4096),
                     (4096 * (3 + count + n), 4096, position + 4096, 16))
            row[logical] = slice
            t.map_block_is(4096 * (3 + count + n), 1, row[1020 * n : 1020 * n + 1020])
        for slice, (logical, n) in list(enumerate(asked))[:2]:
            position = t.lent.position
            t.release(1, logical, f"0 {slice}")
            t.stores((4096 * (3 + count + n), 4096, position, 16))
            row[logical] = MARK
            t.map_block_is(4096 * (3 + count + n), 1, row[1020 * n : 1020 * n + 1020])
        t.say("Bad entries: the first and the last of each block.")
        t.given(f"tape {SHUFFLED_NOISE} 15")
        t.given("position 0")
        for sigma in sorted({0, 251, min(P, 1020) - 1, P - 1}):
            t.given(f"entry 0 {sigma} {P}")
            for logical in sorted({1, 250, 255, min(P, 1020) - 2, P - 2, P - 1} - {sigma}):
                judged = logical // 1020 == sigma // 1020
                t.write(0, logical, some[3], "9 0" if judged else "21 1")
                t.release(0, logical, "9" if judged else "25")
            t.given(f"entry 0 {sigma} -")
        t.open(image.key[1], "0 1")
        t.reads((1, asked[2][0], some[2]), (1, asked[0][0], None), (1, asked[1][0], None))


def dropped():
    """Sessions that end without a close."""
    t = Transcript(
        "dropped.txt",
        "Sessions that are dropped between two calls, without a close. The next opening, with the same key and another permutation,",
        "finds every block of every volume as it was.",
    )
    dropped_after_each_call(t, small_image())
    dropped_below_other_volumes(t, small_image())
    dropped_again_and_again(t)
    dropped_on_other_devices(t)
    t.finish()


def dropped_after_each_call(t, image):
    """After a call of each kind, served and refused."""
    key = image.key
    fresh = [small_text(volume, 99, "eighth") for volume in range(3)]
    t.say("After the opening, and after calls that write nothing.")
    t.lend("small.img", SMALL, [2, 0, 3, 1], f"{SHUFFLED_NOISE} 8192")
    t.open(key[2], "0 2")
    t.drop([1, 0, 2, 3])
    t.starts(0)
    t.find(0, 7, "1024 46080")
    t.read(0, 16, "12")
    t.release(0, 0, "25")
    t.write(3, 0, fresh[0], "11 0")
    t.drop([0, 2, 3, 1])
    t.starts(3)
    t.say("After a rewrite.")
    t.write(0, 5, fresh[0], "0 rewritten 2 0")
    t.drop([3, 1, 0, 2])
    t.starts(1)
    t.say("After a claim.")
    t.write(1, 2, fresh[1], "0 claimed 1 1")
    t.drop([0, 1, 2, 3])
    t.starts(4)
    t.say("After a claim that no slice was free for.")
    t.write(2, 12, fresh[2], "22 0")
    t.drop([2, 3, 0, 1])
    t.starts(4)
    t.say("After a release.")
    t.release(0, 1, "0 2")
    t.starts(0)
    t.drop([1, 3, 2, 0])
    t.starts(2)
    t.say("After a claim of what was given back, by another volume.")
    t.write(2, 12, fresh[2], "0 claimed 2 1")
    t.drop([2, 1, 0, 3])
    t.starts(4)
    t.say("After two releases, and a claim and a release for which the tape is too short.")
    t.release(1, 3, "0 0")
    t.starts(2)
    t.release(2, 0, "0 3")
    t.starts(2)
    position = t.lent.position
    t.given("position 8177")
    t.write(1, 12, fresh[1], "21 1")
    t.release(1, 0, "21")
    t.drop([3, 0, 1, 2])
    t.starts(0)
    t.say("After two claims, a rewrite and a release of one of them.")
    t.given(f"position {position}")
    t.write(0, 4, fresh[0], "0 claimed 3 1")
    t.write(0, 8, fresh[1], "0 claimed 0 1")
    t.write(0, 7, fresh[2], "0 rewritten 3 0")
    t.release(0, 2, "0 0")
    t.drop([1, 2, 3, 0])
    t.starts(3)
    t.say("A close adds nothing: what it leaves opens to the same.")
    blocks = dict(t.blocks)
    t.close("0")
    t.open(key[2], "0 2")
    t.reads(*((*place, data) for place, data in blocks.items()))


def dropped_below_other_volumes(t, image):
    """Sessions of lower keys: what stands above is as it was, while no slice of it is taken."""
    key = image.key
    fresh = [small_text(volume, 98, "eighth") for volume in range(3)]
    t.say("Key 1, then key 0: they take slice 1, which is free for all, and give it back. Volumes above k stay.")
    t.given(SMALL_WHOLE)
    t.given("position 0")
    for k in (1, 0):
        t.given("permutation 1 2 0 3")
        t.open(key[k], f"0 {k}")
        t.starts(0)
        t.write(k, 0, fresh[k], "0 claimed 1 1")
        t.drop([3, 2, 1, 0])
        t.open(key[2], "0 2")
        t.reads((k, 0, fresh[k]), *small_blocks(0, 1, 2))
        t.open(key[k], f"0 {k}")
        t.release(k, 0, "0 1")
        t.drop([0, 1, 2, 3])
        t.open(key[2], "0 2")
        t.reads((k, 0, None), *small_blocks(0, 1, 2))


def dropped_again_and_again(t):
    """After every call of a run that noise decides. What is held is kept beside it, and the answers follow from that."""
    g = COUNTED
    key, counts = format_keys(0, 1, 2), (5, 1, 7)
    noise = Noise("dropped again and again")
    t.say("After every call of a run: writes and releases of a device that formatting made, with 5, 1 and 7 logical slices. Each",
          "session has one call.")
    t.given(f"geometry {words(g)}")
    t.given(f"zeros {g.length}")
    t.given("maps 105 -")
    t.given("owners 0 0 0 0 0 0 0")
    t.given(f"permutation {words(COUNTED_PERMUTATION)}")
    t.given("tape two-maps.img 100000 100000")
    t.given("position 0")
    t.format(key, "0", counts=counts)
    t.open(key[2], "0 2")
    held = {}
    for n in range(40):
        what, volume, address = noise.take(3)
        volume %= 3
        address %= 3 * counts[volume]
        entry = volume, address // 3
        free = [psi for psi in t.lent.permutation if psi not in held.values()]
        data = text(f"dropped, text {n}", g.B)
        if what % 3 == 0:
            t.release(*entry, f"0 {held[entry]}" if entry in held else "25")
            held.pop(entry, None)
        elif entry in held:
            t.write(volume, address, data, f"0 rewritten {held[entry]} 0")
        elif free:
            t.write(volume, address, data, f"0 claimed {free[0]} 1")
            held[entry] = free[0]
        else:
            t.write(volume, address, data, "22 0")
        t.drop(noise.shuffled(range(7)))


def dropped_on_other_devices(t):
    """All 15 volumes, blocks of 4,096 bytes, slices of 64 blocks, two map blocks."""
    g = Geometry(4096, 2, 4)
    image = Image("fifteen.img", g)
    t.say("Blocks of 4,096 bytes and all 15 volumes.")
    t.lend("fifteen.img", g, [3, 1, 0, 2], f"{SHUFFLED_NOISE} 16384")
    t.open(image.key[14], "0 14")
    t.write(7, 3, text("dropped, fifteen", g.B), "0 claimed 2 1")
    t.release(9, 2, "0 1")
    t.drop([2, 1, 3, 0])
    t.starts(1)

    g = Geometry(1024, 64, 1)
    image = Image("widest.img", g)
    t.say("One slice of 64 blocks.")
    t.lend("widest.img", g, [0], f"{SHUFFLED_NOISE} 4096")
    t.open(image.key[1], "0 1")
    t.release(1, 0, "0 0")
    t.drop([0])
    t.starts(0)
    t.write(0, 63, text("dropped, widest", g.B), "0 claimed 0 1")
    t.drop([0])
    t.starts(1)

    g = Geometry(1024, 1, 253)
    key = format_keys(0, 1)
    t.say("Two map blocks, P 253, with 253 logical slices and with 2.")
    t.given(f"geometry {words(g)}")
    t.given(f"zeros {g.length}")
    t.given(f"maps {15 * 253} -")
    t.given(f"owners {words([0] * 253)}")
    t.given(f"permutation {words(range(253))}")
    t.given(f"tape two-maps.img 0 {g.length + 2 * 120}")
    t.given("position 0")
    t.format(key, "0", counts=[253, 2])
    t.given("position 5000")
    t.open(key[1], "0 1")
    for n, (volume, address) in enumerate(((0, 251), (0, 252), (1, 1), (0, 0))):
        t.write(volume, address, text(f"dropped, two maps, text {n}", g.B), f"0 claimed {n} 1")
    t.drop(range(252, -1, -1))
    t.release(0, 252, "0 1")
    t.write(1, 0, text("dropped, two maps, text 4", g.B), "0 claimed 252 1")
    t.drop(range(253))
    t.starts(1)


def ordering(others):
    """The permutation that drawn places lead to, those for the last place first. It is built from place 1 up: the number of
    each further place goes to where the number of the drawn place stands, and that one to the end."""
    order = [0]
    for number, other in enumerate(reversed(others), 1):
        order.append(other)
        order[order.index(other)] = number
    return order


def all_zeros(P):
    """What draws of 0 lead to."""
    return [*range(1, P), 0]


def first_thrown(choices):
    """The largest multiple of the number of choices not above 65,536."""
    return range(0, 65537, choices)[-1]


def all_thrown(choices):
    """The draws that are thrown away, if any."""
    return range(first_thrown(choices), 65536)


MANY = (4096, 4095, 257, 256, 253, 252, 7, 5, 4, 3, 2, 1)
SHUFFLED_NOISE = "two-maps.img 60000"  # tapes, and lists that are no permutation


def shuffles():
    """Permutations that the tape makes, and sessions with them."""
    t = Transcript(
        "shuffles.txt",
        "Shuffles: the permutation and the position afterwards, and that all else stays. A draw is two bytes of the tape.",
    )
    shuffles_of_few(t)
    shuffles_to_each_ordering(t)
    shuffles_that_throw_away(t)
    shuffles_and_tape_ends(t)
    shuffles_and_lists(t)
    shuffles_not_allowed(t)
    shuffles_of_many(t)
    shuffles_and_sessions(t, small_image())
    shuffles_beside_a_session(t, small_image())
    shuffles_and_a_formatting(t)
    shuffles_of_other_devices(t)
    t.finish()


def shuffles_of_few(t):
    """Worked out by hand."""
    t.say("P 4, draws of 0: place 3, then 2, then 1 is exchanged with place 0. 0 1 2 3 becomes 3 1 2 0, 2 1 3 0, 1 2 3 0.")
    t.given("geometry 1024 4 4")
    t.given("permutation 9 9 9 9")
    t.given("tape 000000000000")
    t.shuffle("0", [1, 2, 3, 0], 6)
    t.say("Each place is exchanged with itself; with the place before it; place 3 with place 2, and the others with themselves.")
    for tape_bytes, order in (("000300020001", [0, 1, 2, 3]), ("000200010000", [3, 0, 1, 2]), ("000200020001", [0, 1, 3, 2])):
        t.given(f"tape {tape_bytes}")
        t.given("position 0")
        t.shuffle("0", order, 6)
    t.say("P 1 draws nothing: the position stays, also at the tape's end.")
    t.given("geometry 1024 4 1")
    for tape_bytes, position in (("-", 0), ("07", 0), ("07", 1), ("ffff", 0), ("ffff", 1), ("ffff", 2)):
        t.given("permutation 7")
        t.given(f"tape {tape_bytes}")
        t.given(f"position {position}")
        t.shuffle("0", [0], position)
    t.say("P 2: an even draw exchanges the two places. No draw is thrown away.")
    t.given("geometry 1024 4 2")
    t.given("permutation 7 7")
    drawn = (0, 1, 65535, 65534, 256, 255, 32768, 32767, 257, 254)
    t.given(tape_line(two_bytes(*drawn)))
    t.given("position 0")
    for n, draw in enumerate(drawn):
        t.shuffle("0", [1, 0] if draw % 2 == 0 else [0, 1], 2 * n + 2)
    t.shuffle("21")
    t.say("P 3: three choices for place 2, then two for place 1.")
    t.given("geometry 1024 4 3")
    t.given("permutation 7 7 7")
    runs = (
        (0, 0, [1, 2, 0]), (0, 1, [2, 1, 0]), (1, 0, [2, 0, 1]), (1, 1, [0, 2, 1]), (2, 0, [1, 0, 2]), (2, 1, [0, 1, 2]),
        (65532, 65534, [1, 2, 0]), (65533, 65534, [2, 0, 1]), (65534, 65535, [0, 1, 2]), (255, 256, [1, 2, 0]),
        (256, 255, [0, 2, 1]), (257, 258, [1, 0, 2]), (512, 513, [0, 1, 2]), (32768, 32768, [1, 0, 2]),
    )
    t.given(tape_line(two_bytes(*(draw for run in runs for draw in run[:2]))))
    t.given("position 0")
    for n, (_, _, order) in enumerate(runs):
        t.shuffle("0", order, 4 * n + 4)
    t.shuffle("21")


def shuffles_to_each_ordering(t):
    """Every run of drawn places, for few slices."""
    noise = Noise("draws to each ordering")
    for P in (4, 5):
        t.say(f"P {P}: every run of drawn places once, and so every ordering once. The list has what the shuffle before it left.")
        t.given(f"geometry 1024 4 {P}")
        t.given(f"permutation {words([7] * P)}")
        runs = list(itertools.product(*(range(choices) for choices in range(P, 1, -1))))
        drawn = []
        for others in runs:
            for choices, other in zip(range(P, 1, -1), others):
                drawn.append(other + choices * (int.from_bytes(noise.take(2), "big") % (65536 // choices)))
        t.given(tape_line(two_bytes(*drawn)))
        t.given("position 0")
        seen = []
        for n, others in enumerate(runs):
            t.shuffle("0", ordering(others), 2 * (P - 1) * (n + 1))
            seen.append(tuple(t.lent.permutation))
        assert sorted(seen) == sorted(itertools.permutations(range(P)))
        t.shuffle("21")


def shuffles_that_throw_away(t):
    """Draws at the largest multiple, above it and just below it."""
    for P in range(3, 17):
        thrown, below = all_thrown(P), first_thrown(P) - 1
        t.say(f"{P} choices: {words(thrown) or 'none'} thrown away; {below} is place {P - 1}, {below - P + 1} place 0.")
        t.given(f"geometry 1024 4 {P}")
        t.given(f"permutation {words([7] * P)}")
        t.given(tape_line(two_bytes(*thrown, below, *[0] * (P - 2), *reversed(thrown), below - P + 1, *[0] * (P - 2))))
        t.given("position 0")
        used = 2 * (len(thrown) + P - 1)
        t.shuffle("0", [*range(1, P - 1), 0, P - 1], used)
        t.shuffle("0", all_zeros(P), 2 * used)
    t.say("Draws that are thrown away for places 6, 5, 4 and 2. For places 3 and 1 they are accepted.")
    t.given("geometry 1024 4 7")
    t.given(f"permutation {words([7] * 7)}")
    t.given(tape_line(two_bytes(65534, 65535, 6, 65532, 65534, 65533, 65535, 5, 65535, 4, 65535, 65535, 2, 65535)))
    t.given("position 0")
    t.shuffle("0", range(7), 28)
    t.say("Two hundred thrown away in a row; then with the tape cut behind them, and in the first draw behind them.")
    t.given("geometry 1024 4 3")
    t.given("permutation 7 7 7")
    for length, answer in ((404, "0"), (403, "21"), (402, "21"), (401, "21"), (400, "21"), (399, "21")):
        t.given(tape_line(two_bytes(*[65535] * 200, 65533, 65534)[:length]))
        t.given("position 0")
        t.shuffle(answer, [2, 0, 1], 404)
    t.say("All FF: P 1 is served, and P 2 by one draw. With more slices nothing is accepted from the first number of choices on",
          "that does not divide 65,536, and the tape ends, however long it is.")
    for P in range(1, 9):
        t.given(f"geometry 1024 4 {P}")
        t.given(f"permutation {words([7] * P)}")
        for length in sorted({0, 1, 2, 3, 4, 5, 2 * P - 2, 2 * P, 64, 65, 900}):
            t.given(tape_line(bytes([255]) * length))
            t.given("position 0")
            t.shuffle("0" if P == 1 or P == 2 <= length else "21", range(P), 2 * P - 2)


def shuffles_and_tape_ends(t):
    """Every length of the tape around its end, with every position."""
    data = bytes(range(10))
    for P in range(1, 5):
        t.say(f"P {P}: tapes of 0 to {2 * P + 1} bytes, and each position to two past the end. One byte left over is no draw.")
        t.given(f"geometry 1024 4 {P}")
        t.given(f"permutation {words([7] * P)}")
        for length in range(2 * P + 2):
            t.given(tape_line(data[:length]))
            for position in range(length + 3):
                t.given(f"position {position}")
                used = range(position, position + 2 * P - 2, 2)
                others = [(256 * at + at + 1) % choices for at, choices in zip(used, range(P, 1, -1))]
                t.shuffle("0" if position + 2 * P - 2 <= length else "21", ordering(others), position + 2 * P - 2)
    t.say("Positions far past the end, some of which are small modulo 2^32, or once a draw is added.")
    for P in (1, 2, 3):
        t.given(f"geometry 1024 4 {P}")
        t.given(f"permutation {words([7] * P)}")
        for tape_bytes in ("-", "00010203"):
            t.given(f"tape {tape_bytes}")
            for position in (256, 65536, 2**32, 2**32 + 4, 2**63, 2**64 - 4, 2**64 - 2, 2**64 - 1):
                t.given(f"position {position}")
                t.shuffle("21")
    t.say("P 3, with draws that are thrown away before the end. From an even position FF 02 and FF FF are accepted, from an odd",
          "one 02 FF and FF 00.")
    data = bytes.fromhex("ffffffffff02ffff00")
    for length in range(len(data) + 1):
        t.given(tape_line(data[:length]))
        for position in range(length + 2):
            t.given(f"position {position}")
            if position in (0, 2, 4) and length >= 8:
                t.shuffle("0", [0, 1, 2], 8)
            elif position in (1, 3, 5) and length == 9:
                t.shuffle("0", [1, 0, 2], 9)
            else:
                t.shuffle("21")


def shuffles_and_lists(t):
    """What the lent list holds, and its length."""
    t.say("What the list held before has no influence: the same draws lead to the same permutation.")
    for P, drawn, order in ((4, (2, 0, 1), [3, 1, 0, 2]), (7, (6, 4, 4, 2, 2, 0), [1, 0, 3, 2, 5, 4, 6])):
        t.given(f"geometry 1024 4 {P}")
        t.given(tape_line(b"\7\7\7" + two_bytes(*drawn) + b"\7"))
        for held in ([0] * P, [MARK] * P, range(P), order, range(P)[::-1], [P] * P, range(2**31, 2**31 + P), all_zeros(P)):
            t.given(f"permutation {words(held)}")
            t.given("position 3")
            t.shuffle("0", order, 3 + 2 * len(drawn))
    t.say("4: a list that is not P long, without a tape, with a position past the end, and with all else right. Then one that is.")
    others = {1: [257], 2: [258], 4: [1, 2, 6, 8, 60, 256, 260], 257: [1, 2], 4096: [1, 8192]}
    for P in MANY:
        t.given(f"geometry 1024 4 {P}")
        for count in sorted({0, P - 1, P + 1, *others.get(P, ())}):
            t.given(f"order {SHUFFLED_NOISE} {count}")
            for tape_words, position in (("-", 0), (f"{SHUFFLED_NOISE} 100", 101), (f"{SHUFFLED_NOISE} 16384", 0)):
                t.given(f"tape {tape_words}")
                t.given(f"position {position}")
                t.shuffle("4")
        t.given(f"order {SHUFFLED_NOISE} {P}")
        t.shuffle("0")


def shuffles_not_allowed(t):
    """Geometries, and the order of refusals."""
    t.say("1: geometries that are not allowed, with a list of P, or of 4 where P is too large, and a long tape; then with",
          "everything else wrong too.")
    for geometry in NOT_ALLOWED:
        P = int(geometry.split(" ")[2])
        t.given(f"geometry {geometry}")
        t.given(f"order {SHUFFLED_NOISE} {P if P <= 4097 else 4}")
        t.given(f"tape {SHUFFLED_NOISE} 16384")
        t.given("position 0")
        t.shuffle("1")
        t.given("permutation 0 0 0")
        t.given("tape -")
        t.given("position 1")
        t.shuffle("1")
    t.say("All at once; then one refusal less each time. The 1 comes before the 21 alone, and before the 4 alone.")
    for line, answer in (
        ("geometry 4096 257 4", "1"), ("tape 000000000000", "1"), ("position 0", "1"), ("permutation 0 0 0 0", "1"),
        ("position 7", "1"), ("permutation 0 0 0", "1"), ("geometry 4096 256 4", "4"), ("permutation 0 0 0 0", "21"),
        ("position 1", "21"), ("position 0", "0"),
    ):
        t.given(line)
        t.shuffle(answer, [1, 2, 3, 0], 6)
    t.say("B and S that are allowed, up to their edges, make no difference.")
    for geometry in ("1024 1 4", "1024 64 4", "4096 1 4", "4096 64 4", "4096 256 4"):
        t.given(f"geometry {geometry}")
        t.given("position 0")
        t.shuffle("0", [1, 2, 3, 0], 6)


def shuffles_of_many(t):
    """Up to 4,096 slices. A tape has draws for 4,096 choices, then for one fewer, down to 2; those that fewer slices need are
    its last ones."""

    def drawn_for_each(draws, data=b""):
        """Such a tape, with bytes before it, and the position at which the draws for each number of choices begin."""
        begins = {}
        for choices in range(4096, 0, -1):
            begins[choices] = len(data)
            data += two_bytes(*draws(choices)) if choices > 1 else b""
        return data, begins

    def each(data, begins, answer, order=lambda P: None):
        for P in MANY:
            t.given(f"geometry 1024 1 {P}")
            t.given(f"order {SHUFFLED_NOISE} {P}")
            t.given(f"position {begins[P]}")
            t.shuffle(answer(P), order(P), len(data))

    def each_to_the_end(data, begins, order):
        """With the whole tape, and with one byte less: it ends in the last draw then, and for P 1 before the position."""
        for length, answer in ((len(data), "0"), (len(data) - 1, "21")):
            t.given(tape_line(data[:length]))
            each(data, begins, lambda P: answer, order)

    t.say("Draws of 0; then with one byte less.")
    each_to_the_end(*drawn_for_each(lambda choices: [0]), all_zeros)
    t.say("The first draw that is thrown away, then the last that is accepted: each place is exchanged with itself. Then with one",
          "byte less.")
    each_to_the_end(*drawn_for_each(lambda choices: [*all_thrown(choices)[:1], first_thrown(choices) - 1]), range)
    t.say("The last and the first that are thrown away, then any that is accepted, from odd positions; then with one byte less.")
    noise = Noise("draws of many")
    accepted = {choices: int.from_bytes(noise.take(4), "big") % first_thrown(choices) for choices in range(4096, 1, -1)}
    data, begins = drawn_for_each(lambda n: [*all_thrown(n)[:-2:-1], *all_thrown(n)[:1], accepted[n]], b"\0")
    each_to_the_end(data, begins, lambda P: ordering([accepted[choices] % choices for choices in range(P, 1, -1)]))
    t.say("All FF.")
    data, begins = drawn_for_each(lambda choices: [65535])
    t.given(tape_line(data))
    each(data, begins, lambda P: "0" if P <= 2 else "21", range)
    t.say("Noise, from an even position and from an odd one, and around byte 65,536.")
    for P in MANY:
        t.given(f"geometry 1024 1 {P}")
        t.given(f"order {SHUFFLED_NOISE} {P}")
        t.given(f"tape {SHUFFLED_NOISE} 16384")
        for position in (0, 4099):
            t.given(f"position {position}")
            t.shuffle("0")
    t.given("geometry 1024 1 7")
    t.given(f"order {SHUFFLED_NOISE} 7")
    t.given("tape two-maps.img 100000 70000")
    for position in (65523, 65531, 65536, 65537):
        t.given(f"position {position}")
        t.shuffle("0")


def shuffles_and_sessions(t, image):
    """Sessions with the permutation that a shuffle made, which draw from the same tape."""
    key = image.key
    fresh = [small_text(volume, 99, "sixth") for volume in range(3)]
    t.say("The list is no permutation, and an opening refuses it, until the tape has made it one. Slice 1 is free, at place 1.")
    t.lend("small.img", SMALL, [9, 9, 9, 9],
           tape("shuffles", 8192, at_0=two_bytes(65534, 65535, 3, 65535), at_3160=two_bytes(0, 0, 0)), 0)
    t.open(key[2], "5")
    t.shuffle("0", [3, 1, 0, 2], 8)
    t.open(key[2], "0 2")
    t.starts(1)
    t.reads(*small_blocks(0, 1, 2))
    t.write(1, 1, fresh[1], "0 claimed 1 1")
    t.starts(2)
    t.write(0, 0, fresh[0], "22 2")
    t.starts(4)
    t.say("Releases: the start place is the slice's place in it, and claims follow it.")
    t.release(1, 3, "0 0")
    t.starts(2)
    t.write(2, 15, fresh[2], "0 claimed 0 1")
    t.starts(3)
    t.release(2, 0, "0 3")
    t.starts(0)
    t.write(0, 8, fresh[0], "0 claimed 3 1")
    t.starts(1)
    t.close("0")
    assert t.lent.position == 8 + 3 * 1040 + 2 * 16
    t.say("The next session, with a permutation from the rest of the tape. Under key 1 the slice of volume 2 is free, at place 3.")
    t.shuffle("0", [1, 2, 3, 0], 3166)
    t.open(key[1], "0 1")
    t.starts(3)
    t.open(key[2], "0 2")
    t.starts(4)
    t.reads((1, 1, fresh[1]), (2, 15, fresh[2]), (0, 8, fresh[0]), (0, 4, small_text(0, 4)), (2, 0, None), (1, 13, None))
    t.release(0, 2, "0 3")
    t.starts(2)
    t.release(1, 0, "0 1")
    t.starts(0)
    t.write(2, 0, fresh[2], "0 claimed 1 1")
    t.write(2, 4, fresh[2], "0 claimed 3 2")
    t.write(2, 8, fresh[2], "22 1")
    t.close("0")
    t.open(key[2], "0 2")
    t.starts(4)
    t.reads((2, 0, fresh[2]), (2, 4, fresh[2]), (2, 15, fresh[2]), (0, 8, None), (1, 1, None), (0, 7, small_text(0, 7)))


def shuffles_beside_a_session(t, image):
    """A shuffle takes no session, and none is changed."""
    key = image.key
    fresh = small_text(0, 99, "sixth")
    t.say("Beside an open session: shuffles for other geometries, and refused ones, leave device, tables and session.")
    t.lend("small.img", SMALL, [2, 0, 1, 3], tape("shuffles", 8192), 100)
    t.open(key[2], "0 2")
    t.starts(2)
    for geometry, count, position, answer in (
        ("1024 4 7", 7, 100, "0"), ("4096 2 4", 4, 200, "0"), ("1024 1 257", 257, 300, "0"), ("1024 4 1", 1, 8192, "0"),
        ("1024 4 5", 4, 100, "4"), ("1024 4 0", 0, 100, "1"), ("1024 4 4", 4, 8187, "21"), ("1024 4 1", 1, 8193, "21"),
    ):
        t.given(f"geometry {geometry}")
        t.given(f"order {SHUFFLED_NOISE} {count}")
        t.given(f"position {position}")
        t.shuffle(answer)
        t.image("small.img")
        t.starts(2)
        t.reads((0, 4, small_text(0, 4)), (1, 13, small_text(1, 13)), (2, 3, small_text(2, 3)))
    t.say("Another permutation in the middle of the session, 0 3 2 1: the start place stays 2, and a claim looks from there on.")
    t.given("geometry 1024 4 4")
    t.given("permutation 2 0 1 3")
    t.given("tape 000100020001")
    t.given("position 0")
    t.shuffle("0", [0, 3, 2, 1], 6)
    t.starts(2)
    t.given(f"tape {tape('shuffles', 8192)}")
    t.write(0, 0, fresh, "0 claimed 1 2")
    t.starts(4)
    t.release(2, 0, "0 3")
    t.starts(1)
    t.close("0")
    t.say("Beside a closed session, which holds no keys and stays closed.")
    t.shuffle("0")
    t.release(0, 1, "20")
    t.open(key[2], "0 2")
    t.reads((0, 0, fresh), (0, 4, small_text(0, 4)), (2, 0, None))


def shuffles_and_a_formatting(t):
    """A device from nothing but keys and a tape."""
    key = format_keys(0, 1, 2)
    fresh = [text(f"shuffles, text {n}", 1024) for n in range(4)]
    t.say("Formatting, shuffle and session from one tape. The device is empty: claims take the slices in the permutation's order.")
    t.given("geometry 1024 4 4")
    t.given("zeros 52224")
    t.given("permutation 0 0 0 0")
    t.given("tape two-maps.img 100000 70000")
    t.given("position 0")
    t.format(key, "0")
    assert t.lent.position == 52224 + 3 * 104
    t.shuffle("0")
    order = list(t.lent.permutation)
    t.open(key[2], "0 2")
    t.starts(0)
    for n, (volume, address) in enumerate(((1, 5), (0, 0), (2, 15), (0, 9))):
        t.write(volume, address, fresh[n], f"0 claimed {order[n]} 1")
        t.starts(n + 1)
    t.write(2, 0, fresh[0], "22 0")
    t.release(0, 0, f"0 {order[1]}")
    t.starts(1)
    t.write(2, 0, fresh[3], f"0 claimed {order[1]} 1")
    t.close("0")
    t.say("Two more, each with a session: the slice that is given back is found at its place.")
    for _ in range(2):
        t.shuffle("0")
        order = t.lent.permutation
        t.open(key[2], "0 2")
        t.starts(4)
        psi = t.lent.maps[4 * 1 + 1]
        t.release(1, 1, f"0 {psi}")
        t.starts(order.index(psi))
        t.write(1, 5, fresh[0], f"0 claimed {psi} 1")
        t.starts(order.index(psi) + 1)
        t.reads((1, 5, fresh[0]), (2, 15, fresh[2]), (0, 9, fresh[3]), (2, 0, fresh[3]), (0, 0, None))


def shuffles_of_other_devices(t):
    """Seven slices, 257 and one."""
    for name, image, k in (("counts.img", counted_image(), 3), ("two-maps.img", Image("two-maps.img", Geometry(1024, 1, 257)), 1)):
        g = image.g
        t.say(f"P {g.P}: an opening finds the first free place of the permutation, and claims follow it from there on.")
        t.lend(name, g, [0] * g.P, f"{SHUFFLED_NOISE} 16384", 1)
        for _ in range(2):
            t.shuffle("0")
            t.open(image.key[k], f"0 {k}")
            order = t.lent.permutation
            free = [place for place in range(g.P) if t.lent.owners[order[place]] == 0]
            unmapped = [sigma for sigma in range(t.lent.session.counts[0]) if t.lent.maps[sigma] == MARK]
            start = free[0]
            t.starts(start)
            for place, sigma in zip(free, unmapped):
                t.write(0, sigma * g.S, SOME_COUNTED, f"0 claimed {order[place]} {place + 1 - start}")
                start = place + 1
                t.starts(start)
            t.release(0, unmapped[0], f"0 {order[free[0]]}")
            t.starts(free[0])
    t.say("One slice of 64 blocks: the list is 0, whatever the tape has.")
    image = Image("widest.img", Geometry(1024, 64, 1))
    t.lend("widest.img", Geometry(1024, 64, 1), [1], f"{SHUFFLED_NOISE} 2048", 7)
    t.open(image.key[1], "5")
    t.shuffle("0", [0], 7)
    t.open(image.key[1], "0 1")
    t.release(1, 0, "0 0")
    t.write(0, 63, SOME_COUNTED, "0 claimed 0 1")
    t.reads((0, 63, SOME_COUNTED), (0, 62, None))


def make():
    check_layout()
    FILES["texts.bin"] = bytes(4096)  # zeros first: what an unmapped block reads as
    small()
    check_small_after()
    twomaps()
    fifteen()
    widest()
    above()
    refusals()
    tables()
    damaged()
    twocells()
    ignored()
    lengths()
    format_small()
    check_formatted()
    format_sizes()
    format_refusals()
    lower_cells()
    start_places()
    counts()
    format_counts()
    releases()
    map_blocks()
    dropped()
    shuffles()


def main():
    if sys.argv[1:] not in ([], ["--check"]):
        sys.exit("usage: make.py [--check]")
    make()
    folder = os.path.dirname(os.path.abspath(__file__))
    wrong = []
    for name in sorted(FILES):
        path = os.path.join(folder, name)
        if sys.argv[1:]:
            if not os.path.exists(path) or open(path, "rb").read() != FILES[name]:
                wrong.append(name)
        else:
            with open(path, "wb") as file:
                file.write(FILES[name])
    others = [name for name in sorted(os.listdir(folder)) if name.endswith((".img", ".txt", ".bin")) and name not in FILES]
    total = sum(len(data) for data in FILES.values())
    print(f"{len(FILES)} files, {total} bytes")
    if wrong or others:
        sys.exit(f"not as made: {words(wrong)}; not made here: {words(others)}")


if __name__ == "__main__":
    main()
