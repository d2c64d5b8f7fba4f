#!/usr/bin/python3
"""Tests of the nbdkit plugin from outside: by NBD clients, the command, file systems and kills.

    nbd/tests.py [NAME..]

Prints one line for each test and, last, how many passed and failed; the exit status is 0 where none failed and some
passed. Names run those tests alone.

HIWALGAM_PROGRAMS        the folder of the programs; otherwise target/programs of the repository
HIWALGAM_SEED            repeats the random choices of a run (not the slices that claims take: the plugin draws those)
HIWALGAM_TURNS_SECONDS   how long the test `turns` goes on; otherwise 120
"""

import contextlib
import ctypes
import dataclasses
import fcntl
import functools
import hashlib
import itertools
import json
import mmap
import os
import pathlib
import random
import re
import shutil
import signal
import stat
import subprocess
import sys
import tempfile
import time
import traceback

import nbd

REPOSITORY = pathlib.Path(__file__).resolve().parent.parent
PROGRAMS = pathlib.Path(os.environ.get("HIWALGAM_PROGRAMS", REPOSITORY / "target" / "programs")).resolve()
COMMAND = PROGRAMS / "hiwalgam"
PLUGIN = PROGRAMS / "nbdkit-hiwalgam-plugin.so"

# Of Debian; tools/set-up installs them.
OTHER_PROGRAMS = ["nbdkit", "nbdinfo", "nbdcopy", "nbdfuse", "fusermount3", "fio", "mkfs.ext4", "mke2fs", "e2fsck",
                  "debugfs", "mount", "umount", "losetup"]
os.environ["PATH"] += ":/usr/sbin:/sbin"  # which the path of a user may not have

MIB = 1 << 20
ROOM = 1 << 30  # bytes that the temporary folder needs
PATIENCE = 60  # seconds after which a program counts as stuck
NOBODY = 65534
HOLE = nbd.STATE_HOLE | nbd.STATE_ZERO


class Failed(Exception):
    """A test found what is not due."""


class Skipped(Exception):
    """The machine does not allow the test."""


# Judging


def expect(condition, what):
    if not condition:
        raise Failed(what)


def same(found, due, what):
    expect(found == due, f"{what}: {found!r}, due is {due!r}")


def same_bytes(found, due, what):
    if found == due:
        return
    same(len(found), len(due), f"{what}: bytes")
    at = next(i for i, (one, other) in enumerate(zip(found, due)) if one != other)
    raise Failed(f"{what}: byte {at} of {len(due)} is {found[at]:#04x}, due is {due[at]:#04x}")


def refused(name, what, call, *arguments, **options):
    """The call has to fail with the named errno."""
    try:
        call(*arguments, **options)
    except nbd.Error as error:
        same(error.errno, name, what)
    else:
        raise Failed(f"{what}: served, due is {name}")


def run(*arguments, status=0, **options):
    """Runs a program to its end, which has to have this exit status; gives standard output and error."""
    if "input" not in options:
        options["stdin"] = subprocess.DEVNULL
    done = subprocess.run([str(a) for a in arguments], capture_output=True, timeout=PATIENCE, **options)
    errors = done.stderr.decode(errors="replace")
    if done.returncode != status:
        words = " ".join(str(a) for a in arguments[:3])
        raise Failed(f"{words} ..: exit status {done.returncode}, due is {status}: {errors.strip()[-300:]}")
    return done.stdout.decode(errors="replace"), errors


def wait_for(condition):
    """Waits until a condition holds; gives whether it did in time."""
    end = time.monotonic() + PATIENCE
    while not condition():
        if time.monotonic() > end:
            return False
        time.sleep(0.003)
    return True


def written(path):
    """Whether a file holds a whole line, as nbdkit's with its process id does when it serves."""
    return path.exists() and path.read_text().endswith("\n")


def fingerprint(path):
    """Equal where the bytes of a file are."""
    return hashlib.sha256(path.read_bytes()).hexdigest()


def number(text):
    return int(text.replace(",", ""))


# Sticks and servers


class Stick:
    """A stick image with a key file for each volume, formatted by the command in a folder of its own."""

    def __init__(self, folder, block_bytes, slice_blocks, slices, counts):
        folder.mkdir(parents=True)
        self.folder = folder
        self.image = folder / "image"
        self.block_bytes, self.slice_blocks, self.slices, self.counts = block_bytes, slice_blocks, slices, counts
        self.slice_bytes = slice_blocks * block_bytes
        self.keys = [folder / f"key{volume}" for volume in range(len(counts))]
        for key in self.keys:
            key.write_bytes(os.urandom(32))
        self.format()

    def format(self):
        options = [f"--volume={count}" for count in self.counts]
        for key in self.keys:
            options += ["-k", key]
        run(COMMAND, "format", self.image, *self.geometry(), "--slices", self.slices, "--force", *options)

    def geometry(self):
        return ["-B", self.block_bytes, "-S", self.slice_blocks]

    def top(self):
        return len(self.counts) - 1

    def blocks(self, volume):
        return self.counts[volume] * self.slice_blocks

    def size(self, volume):
        return self.counts[volume] * self.slice_bytes

    def command(self, subcommand, *arguments, volume=None, status=0, **options):
        """The command over this image, with the key of a volume (otherwise the highest)."""
        key = self.keys[self.top() if volume is None else volume]
        return run(COMMAND, subcommand, self.image, *arguments, *self.geometry(), "-k", key, status=status, **options)

    def get(self, volume):
        """All bytes of a volume, by the command."""
        path = self.folder / "got"
        self.command("get", volume, path)
        return path.read_bytes()

    def mapped(self):
        """How many slices each volume has, by the command."""
        lines = self.command("volumes")[0]
        return [number(n) for n in re.findall(r"^volume \d+: .*?([\d,]+) slices mapped", lines, re.MULTILINE)]


class Nbdkit:
    """nbdkit with a plugin and its parameters; entering the context starts it, leaving ends it by SIGTERM."""

    def __init__(self, folder, *arguments, user=None):
        self.folder, self.arguments, self.user = folder, arguments, user
        self.process, self.handles, self.log = None, [], folder / "log"

    def line(self, *options):
        # nbdkit refuses a socket that is there already, and leaves its own behind: each start has another.
        self.socket = next(path for n in itertools.count() if not (path := self.folder / f"s{n}").exists())
        return [str(part) for part in ("nbdkit", *options, "-U", self.socket, *self.arguments)]

    def as_user(self):
        return {} if self.user is None else {"user": self.user, "group": self.user, "extra_groups": []}

    def __enter__(self):
        ready = self.folder / "ready"
        ready.unlink(missing_ok=True)
        with open(self.log, "wb") as log:
            self.process = subprocess.Popen(self.line("--exit-with-parent", "-P", ready), stdin=subprocess.DEVNULL,
                                            stdout=log, stderr=log, **self.as_user())
        wait_for(lambda: written(ready) or self.process.poll() is not None)
        if not written(ready):
            self.kill()
            raise Failed(f"the server did not start: {self.said().strip()[-300:]}")
        return self

    def __exit__(self, *_):
        if self.process.poll() is None:
            self.end()

    def end(self):
        """Ends the server by SIGTERM; gives its exit status."""
        # nbdkit waits for its clients to leave.
        for handle in self.handles:
            with contextlib.suppress(nbd.Error):
                handle.shutdown()
        self.process.terminate()
        try:
            return self.process.wait(PATIENCE)
        except subprocess.TimeoutExpired:
            self.kill()
            raise Failed("the server did not end after SIGTERM") from None

    def kill(self):
        self.process.kill()
        self.process.wait()

    def said(self):
        return self.log.read_text(errors="replace")

    def refused(self):
        """A start that has to fail: gives what the server said."""
        # Where it starts against expectation, --run ends it at once with status 0.
        done = subprocess.run(self.line("--run", "true"), capture_output=True, timeout=PATIENCE, **self.as_user())
        said = done.stderr.decode(errors="replace").strip()
        expect(done.returncode != 0, f"a start that is due to be refused was served: {self.arguments}")
        expect(done.returncode > 0, f"nbdkit died of signal {-done.returncode}: {self.arguments}: {said[-300:]}")
        return said

    def uri(self, export=""):
        return f"nbd+unix:///{export}?socket={self.socket}"

    def connect(self, export=""):
        handle = nbd.NBD()
        # Unaligned requests have to reach the server: the client is not to refuse them itself.
        handle.set_strict_mode(handle.get_strict_mode() & ~nbd.STRICT_ALIGN)
        handle.add_meta_context(nbd.CONTEXT_BASE_ALLOCATION)
        handle.set_full_info(True)
        handle.set_export_name(str(export))
        handle.connect_unix(str(self.socket))
        self.handles.append(handle)
        return handle


class Server(Nbdkit):
    """The plugin over a stick, with the key of a volume (otherwise the highest), or with a `secret`."""

    def __init__(self, stick, volume=None, image=None, secret=None, block_bytes=None, slice_blocks=None, filters=(),
                 user=None):
        key = stick.keys[stick.top() if volume is None else volume]
        block_bytes = stick.block_bytes if block_bytes is None else block_bytes
        slice_blocks = stick.slice_blocks if slice_blocks is None else slice_blocks
        super().__init__(stick.folder, *filters, PLUGIN, f"image={image or stick.image}", secret or f"key={key}",
                         f"block-bytes={block_bytes}", f"slice-blocks={slice_blocks}", user=user)
        self.stick = stick

    def connect_all(self):
        return [self.connect(volume) for volume in range(len(self.stick.counts))]


def read_all(handle):
    size = handle.get_size()
    return b"".join(handle.pread(min(MIB, size - at), at) for at in range(0, size, MIB))


def extents(handle):
    """[(offset, length, flags)] of the whole export, neighbours of equal flags joined."""
    found, at, size = [], 0, handle.get_size()

    def take(_context, offset, entries, _error):
        for length, flags in zip(entries[::2], entries[1::2]):
            if found and found[-1][2] == flags:
                found[-1] = (found[-1][0], found[-1][1] + length, flags)
            else:
                found.append((offset, length, flags))
            offset += length

    while at < size:
        handle.block_status(size - at, at, take)
        after = found[-1][0] + found[-1][1] if found else 0
        expect(after > at, "block status made no progress")
        at = after
    return found


def mapped_slices(handle, stick):
    """The logical slices that the extents show as data; all others have to be holes that read as zeros."""
    mapped = []
    for offset, length, flags in extents(handle):
        what = f"extent of {length} bytes from {offset}"
        expect(offset % stick.slice_bytes == 0 and length % stick.slice_bytes == 0, f"{what}: not of whole slices")
        expect(flags in (0, HOLE), f"{what}: flags {flags}")
        if flags == 0:
            mapped += range(offset // stick.slice_bytes, (offset + length) // stick.slice_bytes)
    return mapped


# What volumes are due to hold


@dataclasses.dataclass
class Change:
    """A request that alters a volume; `data` is a write's, `flags` are those of the request."""

    kind: str
    volume: int
    first: int  # block
    count: int  # blocks
    data: bytes = b""
    flags: int = 0


class Model:
    """What the volumes of a stick are due to hold: their bytes, and which logical slices have a slice."""

    def __init__(self, stick):
        self.stick = stick
        self.contents = [bytearray(stick.size(volume)) for volume in range(len(stick.counts))]
        self.mapped = [set() for _ in stick.counts]

    def free(self):
        return self.stick.slices - sum(len(mapped) for mapped in self.mapped)

    def whole_slices(self, change):
        blocks = self.stick.slice_blocks
        return range(-(-change.first // blocks), (change.first + change.count) // blocks)

    def fill(self, volume, first, data):
        at = first * self.stick.block_bytes
        self.contents[volume][at:at + len(data)] = data

    def release(self, volume, logical_slice):
        self.mapped[volume].discard(logical_slice)
        self.fill(volume, logical_slice * self.stick.slice_blocks, bytes(self.stick.slice_bytes))

    def make(self, change):
        """Makes a change; False where it is due to be refused for want of a slice, after the blocks before."""
        if change.kind == "write":
            return self.write(change)
        if change.kind == "zero":
            self.fill(change.volume, change.first, bytes(change.count * self.stick.block_bytes))
        if change.kind == "trim" or not change.flags & nbd.CMD_FLAG_NO_HOLE:
            for logical_slice in self.whole_slices(change):
                self.release(change.volume, logical_slice)
        return True

    def write(self, change):
        size = self.stick.block_bytes
        mapped = self.mapped[change.volume]
        for place in range(change.count):
            logical_slice = (change.first + place) // self.stick.slice_blocks
            if logical_slice not in mapped:
                if self.free() == 0:
                    return False
                mapped.add(logical_slice)
            self.fill(change.volume, change.first + place, change.data[place * size:(place + 1) * size])
        return True

    def block(self, volume, address):
        at = address * self.stick.block_bytes
        return self.contents[volume][at:at + self.stick.block_bytes]


def draw_change(draw, stick, volume, kinds):
    """A change of one block or a run of blocks, at most three slices long."""
    kind = draw.choices(list(kinds), kinds.values())[0]
    first = draw.randrange(stick.blocks(volume))
    count = 1 if draw.random() < 0.4 else draw.randint(1, 3 * stick.slice_blocks)
    count = min(count, stick.blocks(volume) - first)
    flags = nbd.CMD_FLAG_FUA if draw.random() < 0.02 else 0
    if kind == "zero" and draw.random() < 0.4:
        flags |= nbd.CMD_FLAG_NO_HOLE
    data = draw.randbytes(count * stick.block_bytes) if kind == "write" else b""
    return Change(kind, volume, first, count, data, flags)


def send(handle, change, block_bytes):
    """Sends a change; False where it was refused by ENOSPC."""
    at, length = change.first * block_bytes, change.count * block_bytes
    try:
        if change.kind == "write":
            handle.pwrite(change.data, at, change.flags)
        elif change.kind == "zero":
            handle.zero(length, at, change.flags)
        else:
            handle.trim(length, at, change.flags)
    except nbd.Error as error:
        if error.errno != "ENOSPC":
            raise
        return False
    return True


def change_both(handles, model, change):
    """Makes a change on the server and in the model; they have to agree whether it is served."""
    served = send(handles[change.volume], change, model.stick.block_bytes)
    free = model.free()
    due = model.make(change)
    what = f"{change.kind} of {change.count} blocks from {change.first} of volume {change.volume}"
    answer = "served" if served else "refused by ENOSPC"
    expect(served == due, f"{what} with {free} slices free: {answer}, which is not due")
    return served


def compare_all(handles, model):
    """Compares every byte and the mapped slices of every volume; gives the number of blocks."""
    for volume, handle in enumerate(handles):
        same_bytes(read_all(handle), model.contents[volume], f"volume {volume}")
        same(mapped_slices(handle, model.stick), sorted(model.mapped[volume]), f"volume {volume}: slices with data")
    return sum(model.stick.blocks(volume) for volume in range(len(handles)))


# Tests: each takes a folder of its own and a random generator, and gives what it counted.

TESTS = {}


def test(function):
    TESTS[function.__name__.replace("_", "-")] = function
    return function


def nbdinfo_exports(server, volume=""):
    output = run("nbdinfo", "--json", *(["--list"] if volume == "" else []), server.uri(volume))[0]
    return {export["export-name"]: export for export in json.loads(output)["exports"]}


def check_export(export, stick, volume):
    due = {"export-size": stick.size(volume), "is_read_only": False, "can_trim": True, "can_zero": True,
           "can_flush": True, "can_fua": True, "can_multi_conn": True, "can_fast_zero": False,
           "contexts": ["base:allocation"], "block_size_minimum": stick.block_bytes,
           "block_size_preferred": stick.block_bytes}
    for name, value in due.items():
        same(export.get(name), value, f"export {volume}: {name}")
    expect(export["block_size_maximum"] >= MIB, f"export {volume}: block_size_maximum {export['block_size_maximum']}")


@test
def nbdinfo(folder, _draw):
    about = run("nbdkit", "--dump-plugin", PLUGIN)[0].splitlines()
    for line in ("name=hiwalgam", "thread_model=serialize_all_requests"):
        expect(line in about, f"nbdkit --dump-plugin has no line {line}")
    seen = 0
    for place, geometry in enumerate([(4096, 256, 8), (1024, 4, 8), (1024, 1, 8)]):
        stick = Stick(folder / str(place), *geometry, counts=[5, 3, 7])
        for key in range(3):
            with Server(stick, key) as server:
                seen += check_exports(server, stick, key)
    return f"{seen} exports under 9 keys"


def check_exports(server, stick, key):
    """The exports are those that the key of volume `key` opens; gives their number."""
    names = [str(volume) for volume in range(key + 1)]
    same(list(nbdinfo_exports(server)), names, f"exports with key {key}")
    shown = run("nbdinfo", "--list", server.uri())[0]
    same(re.findall(r'^export="(.*)":$', shown, re.MULTILINE), names, f"nbdinfo --list with key {key}")
    for volume in range(key + 1):
        check_export(nbdinfo_exports(server, volume)[str(volume)], stick, volume)
    default = server.connect()
    same(default.get_canonical_export_name(), str(key), "default export")
    same(default.get_size(), stick.size(key), "size of the default export")
    for name in (str(key + 1), "00", "01", "+0", "-1", " 0", "0 ", "x", str(1 << 64)):
        refused_name(server, name)
    return len(names)


def refused_name(server, name):
    try:
        server.connect(name)
    except nbd.Error:
        return
    raise Failed(f"export {name!r} was served")


@test
def round_trips(folder, draw):
    copied = 0
    # The last has the most slices that a stick can have, 4,096.
    geometries = [(4096, 256, [3, 5]), (1024, 4, [300, 150]), (1024, 1, [200, 90]), (4096, 1, [3000, 1096])]
    for place, (block_bytes, slice_blocks, counts) in enumerate(geometries):
        stick = Stick(folder / str(place), block_bytes, slice_blocks, sum(counts), counts)
        texts = [draw.randbytes(stick.size(volume)) for volume in range(len(counts))]
        with Server(stick) as server:
            for volume, text in enumerate(texts):
                (folder / "in").write_bytes(text)
                run("nbdcopy", folder / "in", server.uri(volume))
            copied += copy_back(server, texts, folder)
        with Server(stick) as server:
            copied += copy_back(server, texts, folder)
    return f"{copied} bytes copied back, at four geometries"


def copy_back(server, texts, folder):
    for volume, text in enumerate(texts):
        run("nbdcopy", server.uri(volume), folder / "out")
        same_bytes((folder / "out").read_bytes(), text, f"volume {volume} copied back")
    return sum(map(len, texts))


@test
def sparse_copies(folder, draw):
    stick = Stick(folder / "stick", 4096, 16, 64, [64, 64])
    model = Model(stick)
    with Server(stick) as server:
        handles = server.connect_all()
        for logical_slice in draw.sample(range(64), 5):
            first = logical_slice * 16 + draw.randrange(16)
            change_both(handles, model, Change("write", 0, first, 1, draw.randbytes(4096)))
        # nbdcopy is not to look for zeros itself (-S 0), so that the holes are those of the extents, which it follows
        # by whole requests.
        run("nbdcopy", "-S", "0", f"--request-size={stick.slice_bytes}", server.uri(0), folder / "out")
        same_bytes((folder / "out").read_bytes(), model.contents[0], "volume 0 copied to a file")
        room = (folder / "out").stat().st_blocks * 512
        expect(room < 6 * stick.slice_bytes, f"the copy of 5 slices of {stick.slice_bytes} bytes takes {room}")
        slices = make_sparse_file(folder / "in", stick, draw, model)
        run("nbdcopy", folder / "in", server.uri(1))
        model.mapped[1] = slices
        compare_all(handles, model)
    same(stick.mapped(), [5, len(slices)], "slices mapped, by the command")
    return f"{room} bytes on disk for 5 slices of 64, {len(slices)} slices claimed for a sparse file of 64"


def make_sparse_file(path, stick, draw, model):
    """A file as long as volume 1, with data in seven of its slices; the model gets its bytes."""
    slices = set(draw.sample(range(64), 7))
    with open(path, "wb") as file:
        file.truncate(stick.size(1))
        for logical_slice in slices:
            first, data = logical_slice * 16 + draw.randrange(13), draw.randbytes(3 * 4096)
            file.seek(first * 4096)
            file.write(data)
            model.fill(1, first, data)
    return slices


@test
def block_status(folder, draw):
    stick = Stick(folder / "stick", 1024, 8, 40, [40])
    asked = 0
    with Server(stick) as server:
        handle = server.connect(0)
        mapped = set()
        for logical_slice in draw.sample(range(40), 20):
            handle.pwrite(draw.randbytes(1024), (logical_slice * 8 + draw.randrange(8)) * 1024)
            mapped.add(logical_slice)
            same(mapped_slices(handle, stick), sorted(mapped), "slices with data")
            for _ in range(20):
                check_status(handle, stick, mapped, draw)
                asked += 1
    return f"{asked} requests from and to inside of slices, half of them for one extent"


def check_status(handle, stick, mapped, draw):
    """Block status of a random run of blocks, which may begin and end inside of slices."""
    first = draw.randrange(stick.blocks(0))
    count = draw.randint(1, stick.blocks(0) - first)
    one = draw.random() < 0.5
    due = [0 if block // stick.slice_blocks in mapped else HOLE for block in range(first, stick.blocks(0))]
    answers = []
    flags = nbd.CMD_FLAG_REQ_ONE if one else 0
    handle.block_status(count * 1024, first * 1024, lambda *answer: answers.append(answer), flags)
    what = f"block status of {count} blocks from {first}"
    _context, offset, entries, _error = answers[0]
    same(offset, first * 1024, f"{what}: offset")
    found = [flags for length, flags in zip(entries[::2], entries[1::2]) for _ in range(length // 1024)]
    same(found, due[:len(found)], what)
    if one:
        same(len(entries), 2, f"{what}: numbers for one extent")
        alike = len(list(itertools.takewhile(lambda flags: flags == due[0], due)))
        same(len(found), min(count, alike), f"{what}: blocks")
    else:  # the last extent may go on past what was asked for
        expect(len(found) >= count, f"{what}: {len(found)} blocks")


@test
def connections(folder, draw):
    stick = Stick(folder / "stick", 4096, 8, 24, [12, 12])
    model = Model(stick)
    changes = 1500
    with Server(stick) as server:
        groups = [server.connect_all() for _ in range(4)]

        def compare(change, when):
            found = draw.choice(groups)[change.volume].pread(4096, change.first * 4096)
            due = model.block(change.volume, change.first)
            same_bytes(found, due, f"block {change.first} of volume {change.volume} {when} a {change.kind}")

        for turn in range(changes):
            change = draw_change(draw, stick, draw.randrange(2), {"write": 4, "trim": 1, "zero": 1})
            compare(change, "before")
            change_both(draw.choice(groups), model, change)
            compare(change, "after")
            if turn % 300 == 299:
                for handles in groups:
                    compare_all(handles, model)
    return f"{changes} changes by 8 connections, seen by the others without a flush"


@test
def zeros(folder, draw):
    stick = Stick(folder / "stick", 1024, 8, 24, [16, 8])
    model = Model(stick)
    no_hole = nbd.CMD_FLAG_NO_HOLE
    with Server(stick) as server:
        handles = server.connect_all()

        def zero(first, count, flags, due, what):
            change_both(handles, model, Change("zero", 0, first, count, flags=flags))
            same(mapped_slices(handles[0], stick), due, f"slices with data after zeros {what}")

        for flags in (0, no_hole):
            zero(0, stick.blocks(0), flags, [], "over an empty volume")
            zero(3, 7, flags, [], "over some blocks of an empty volume")
        change_both(handles, model, Change("write", 0, 0, 48, draw.randbytes(48 * 1024)))
        zero(8, 16, no_hole, list(range(6)), "that may make no hole")
        zero(25, 7, 0, list(range(6)), "over a part of a slice")
        zero(31, 18, 0, list(range(4)), "over a block and two whole slices")
        compare_all(handles, model)
        compared, changes = 0, 1500
        for turn in range(changes):
            change_both(handles, model, draw_change(draw, stick, draw.randrange(2), {"write": 5, "zero": 5}))
            if turn % 50 == 49:
                compared += compare_all(handles, model)
    return f"{changes} changes, {compared} blocks compared"


@test
def trims(folder, draw):
    stick = Stick(folder / "stick", 1024, 4, 8, [8, 8])
    model = Model(stick)
    with Server(stick) as server:
        handles = server.connect_all()

        def trim(first, count, due):
            change_both(handles, model, Change("trim", 0, first, count))
            same(mapped_slices(handles[0], stick), due, f"slices with data after a trim of {count} blocks from {first}")
            compare_all(handles, model)

        def claim(block):
            return change_both(handles, model, Change("write", 1, block, 1, draw.randbytes(1024)))

        change_both(handles, model, Change("write", 0, 0, 32, draw.randbytes(32 * 1024)))
        refused("ENOSPC", "a claim of volume 1 on a full stick", handles[1].pwrite, bytes(1024), 0)
        # From the second block of slice 2 to the third of slice 5: slices 3 and 4 lie wholly inside.
        trim(9, 14, [0, 1, 2, 5, 6, 7])
        for first, count in ((1, 3), (7, 1), (23, 4)):
            trim(first, count, [0, 1, 2, 5, 6, 7])
        expect(claim(6) and claim(17), "no claim after a trim")
        # This also finds that the rest of the slices claimed again is zeros, not what volume 0 had there.
        compare_all(handles, model)
        expect(not claim(31), "a third claim after a trim of two slices")
        trim(0, 32, [])
    same(stick.mapped(), [0, 2], "slices mapped, by the command")
    return "2 slices trimmed inside a run, 2 claimed by the other volume, a third refused"


def draw_range(draw, size):
    """An offset and a length, odd ones, short and long, often near the borders of blocks."""
    offset = draw.randrange(size - 1)
    if draw.random() < 0.3:
        offset = max(0, min(size - 2, offset // 4096 * 4096 + draw.randint(-2, 2)))
    length = draw.choice((draw.randint(1, 40), draw.randint(1, 6000), draw.randint(1, 60000)))
    return offset, min(length, size - offset)


def change_unaligned(handle, held, draw, slice_bytes):
    """One random request of any alignment, on the server and in `held`."""
    kind = draw.choices(("read", "write", "zero", "trim"), (4, 4, 2, 2))[0]
    offset, length = draw_range(draw, len(held))
    if kind == "read":
        same_bytes(handle.pread(length, offset), held[offset:offset + length], f"read of {length} bytes from {offset}")
    elif kind == "write":
        data = draw.randbytes(length)
        handle.pwrite(data, offset)
        held[offset:offset + length] = data
    elif kind == "zero":
        handle.zero(length, offset, draw.choice((0, nbd.CMD_FLAG_NO_HOLE)))
        held[offset:offset + length] = bytes(length)
    else:
        handle.trim(length, offset)
        for logical_slice in range(-(-offset // slice_bytes), (offset + length) // slice_bytes):
            held[logical_slice * slice_bytes:(logical_slice + 1) * slice_bytes] = bytes(slice_bytes)


@test
def unaligned(folder, draw):
    stick = Stick(folder / "stick", 4096, 4, 30, [30])
    held, requests = bytearray(stick.size(0)), 5000
    with Server(stick, filters=["--filter=blocksize"]) as server:
        handle = server.connect(0)
        for turn in range(requests):
            change_unaligned(handle, held, draw, stick.slice_bytes)
            if turn % 100 == 99:
                same_bytes(read_all(handle), held, f"the volume after {turn + 1} requests")
    with Server(stick) as server:
        handle = server.connect(0)
        count = 0
        for offset, length in ((1, 4096), (0, 4095), (4097, 1), (8192, 4097), (512, 512), (4096, 1024)):
            refused("EINVAL", f"read of {length} from {offset}", handle.pread, length, offset)
            refused("EINVAL", f"write of {length} to {offset}", handle.pwrite, bytes(length), offset)
            refused("EINVAL", f"zero of {length} from {offset}", handle.zero, length, offset)
            refused("EINVAL", f"trim of {length} from {offset}", handle.trim, length, offset)
            count += 4
        same_bytes(read_all(handle), held, "the volume after requests refused by EINVAL")
        expect("blocksize" in server.said(), "the message of an unaligned request does not name the filter blocksize")
    return f"{requests} requests of any alignment, {count} refused without the filter"


FIO_JOB = """
[volume{volume}]
uri={uri}
bs={block}k
size={size}
# The pattern has the volume and the offset: a block of another volume or place is noticed.
verify_pattern="volume {volume}"%o
"""

FIO_HEAD = """
[global]
ioengine=nbd
# One process, which ends with its jobs when it is killed.
thread
rw=randwrite
iodepth=16
verify=pattern
verify_fatal=1
verify_state_save=0
"""


def run_fio(folder, server, stick, *options):
    """Runs a job for each volume, all at once; gives the number of blocks verified."""
    jobs = [FIO_JOB.format(volume=volume, uri=server.uri(volume), block=(4, 4, 16)[volume], size=stick.size(volume))
            for volume in range(len(stick.counts))]
    (folder / "jobs").write_text(FIO_HEAD + "".join(jobs))
    output = folder / "fio.json"
    run("fio", *options, "--output-format=json", f"--output={output}", folder / "jobs", cwd=folder)
    text = output.read_text()
    verified = 0
    for volume, job in enumerate(json.loads(text[text.index("{"):])["jobs"]):
        same(job["error"], 0, f"error of fio's job {volume}")
        same(job["read"]["io_bytes"], stick.size(volume), f"bytes verified of volume {volume}")
        verified += stick.size(volume) // stick.block_bytes
    return verified


@test
def fio(folder, _draw):
    stick = Stick(folder / "stick", 4096, 64, 48, [16, 12, 20])
    with Server(stick) as server:
        verified = run_fio(folder, server, stick)
    with Server(stick) as server:
        verified += run_fio(folder, server, stick, "--verify_only=1")
    return f"{verified} blocks of 3 volumes verified, half of them after the server had been closed"


# File systems


class FuseFile:
    """An export as a file in a folder of its own, by nbdfuse; leaving the context unmounts it."""

    def __init__(self, uri, folder):
        self.uri, self.folder, self.file = uri, folder, folder / "nbd"

    def __enter__(self):
        self.folder.mkdir(exist_ok=True)
        self.process = subprocess.Popen(["nbdfuse", str(self.folder), self.uri], stdin=subprocess.DEVNULL,
                                        stdout=subprocess.DEVNULL, stderr=subprocess.PIPE)
        wait_for(lambda: self.file.exists() or self.process.poll() is not None)
        if not self.file.exists():
            self.process.kill()
            raise Failed(f"nbdfuse did not start: {self.process.communicate()[1].decode(errors='replace')}")
        return self.file

    def __exit__(self, *_):
        unmount(self.folder, "fusermount3", "-u")
        try:
            self.process.wait(10)
        except subprocess.TimeoutExpired:
            self.process.kill()
            self.process.wait()


def unmount(folder, *program):
    """Unmounts; a loop device lets go of its file a moment after its own unmount."""
    for _ in range(100):
        if not os.path.ismount(folder):
            return
        if subprocess.run([*(program or ["umount"]), str(folder)], capture_output=True, timeout=PATIENCE).returncode:
            time.sleep(0.05)
    raise Failed(f"{folder} cannot be unmounted")


@contextlib.contextmanager
def mounted(file, folder, options="loop"):
    folder.mkdir(exist_ok=True)
    run("mount", "-o", options, file, folder)
    try:
        yield folder
    finally:
        unmount(folder)


def try_mounts(folder):
    """Skips the test where a loop mount of a file of nbdfuse is not possible, tried without the plugin."""
    folder.mkdir()
    try:
        with Nbdkit(folder, "memory", "4M") as server, FuseFile(server.uri(), folder / "fuse") as file:
            run("mkfs.ext4", "-q", "-F", file)
            with mounted(file, folder / "mount"):
                pass
    except Failed as error:
        raise Skipped(f"no loop mount of a file of nbdfuse here: {' '.join(str(error).split())[:200]}") from None


def make_tree(folder, draw):
    """Files of the repository, and some with unusual names, modes and lengths."""
    folder.mkdir()
    for source in (REPOSITORY / part for part in ("docs", "include", "c")):
        shutil.copytree(source, folder / source.name)
    for source in (REPOSITORY / "crates").glob("*/src"):
        shutil.copytree(source, folder / "crates" / source.parent.name)
    (folder / "empty").touch()
    (folder / ("long" * 63)).write_bytes(draw.randbytes(5000))
    (folder / "größe — 大きさ").write_bytes(draw.randbytes(1))
    (folder / "random").write_bytes(draw.randbytes(3 * MIB + 1))  # another one in each tree
    (folder / "link").symlink_to("docs/FORMAT.md")
    with open(folder / "holes", "wb") as file:
        file.seek(700_000)
        file.write(b"end")
    for name, mode in (("empty", 0o400), ("random", 0o751), ("holes", 0o606), ("docs", 0o751)):
        (folder / name).chmod(mode)


def listing(folder):
    """Every name below a folder with its mode and content."""
    found = {}
    for path in sorted(folder.rglob("*")):
        name = str(path.relative_to(folder))
        if name == "lost+found":
            continue
        mode = path.lstat().st_mode
        content = os.readlink(path) if stat.S_ISLNK(mode) else path.read_bytes() if stat.S_ISREG(mode) else None
        found[name] = (stat.S_IFMT(mode), stat.S_IMODE(mode), content)
    return found


def same_listing(found, due, what):
    same(sorted(found), sorted(due), f"{what}: names")
    for name, entry in due.items():
        same(found[name][:2], entry[:2], f"{what}: kind and mode of {name}")
        expect(found[name][2] == entry[2], f"{what}: content of {name} differs")


def compare_file_system(server, volume, tree, folder):
    with FuseFile(server.uri(volume), folder / f"fuse{volume}") as file:
        run("e2fsck", "-fn", file)
        with mounted(file, folder / f"mount{volume}", "loop,ro") as mount:
            same_listing(listing(mount), tree, f"volume {volume}")


def fill_file_systems(server, sources, folder):
    """A file system in each volume, all mounted at once; the trees are copied in part by part, by turns."""
    with contextlib.ExitStack() as stack:
        mounts = []
        for volume in range(len(sources)):
            file = stack.enter_context(FuseFile(server.uri(volume), folder / f"fuse{volume}"))
            run("mkfs.ext4", "-q", "-F", file)
            mounts.append(stack.enter_context(mounted(file, folder / f"mount{volume}")))
        for name in os.listdir(sources[0]):
            for source, mount in zip(sources, mounts):
                run("cp", "-a", source / name, mount)


@test
def ext4(folder, draw):
    try_mounts(folder / "trial")
    stick = Stick(folder / "stick", 4096, 256, 56, [32, 40])
    sources = [folder / f"tree{volume}" for volume in (0, 1)]
    for source in sources:
        make_tree(source, draw)
    trees = [listing(source) for source in sources]
    any_alignment = ["--filter=blocksize"]
    with Server(stick, filters=any_alignment) as server:
        fill_file_systems(server, sources, folder)
    with Server(stick, filters=any_alignment) as server:
        for volume in (0, 1):
            compare_file_system(server, volume, trees[volume], folder)
    with Server(stick, 0, filters=any_alignment) as server:
        same(list(nbdinfo_exports(server)), ["0"], "exports with the lower key")
        refused_name(server, "1")
        compare_file_system(server, 0, trees[0], folder)
    bytes_held = sum(len(entry[2] or "") for tree in trees for entry in tree.values())
    return f"{sum(map(len, trees))} names with {bytes_held} bytes in 2 file systems, 3 openings"


@test
def ext4_unmounted(folder, draw):
    stick = Stick(folder / "stick", 4096, 256, 40, [40, 32])
    make_tree(folder / "tree", draw)
    due = listing(folder / "tree")
    made, out = folder / "made", folder / "out"
    run("mke2fs", "-q", "-t", "ext4", "-d", folder / "tree", made, f"{stick.size(1) // 1024}k")
    with Server(stick) as server:
        run("nbdcopy", made, server.uri(1))
    with Server(stick) as server:
        run("nbdcopy", server.uri(1), out)
    same_bytes(out.read_bytes(), made.read_bytes(), "the file system copied out")
    run("e2fsck", "-fn", out)
    (folder / "dumped").mkdir()
    run("debugfs", "-R", f"rdump / {folder / 'dumped'}", out)
    same_listing(listing(folder / "dumped"), due, "the tree taken out")
    return f"{len(due)} names in a file system of {stick.size(1)} bytes, {stick.mapped()[1]} of 32 slices claimed"


# Two volumes by turns, and kills


@test
def turns(folder, draw):
    seconds = float(os.environ.get("HIWALGAM_TURNS_SECONDS", "120"))
    stick = Stick(folder / "stick", 1024, 4, 24, [20, 18])
    model = Model(stick)
    counts = dict.fromkeys(("changes", "when_full", "refused", "compared", "whole"), 0)
    end = time.monotonic() + seconds
    with Server(stick) as server:
        handles = server.connect_all()
        whole_at = time.monotonic() + 1
        while time.monotonic() < end:
            take_turn(handles, model, draw, counts)
            if time.monotonic() >= whole_at:
                counts["compared"] += compare_all(handles, model)
                counts["whole"] += 1
                whole_at = time.monotonic() + 1
        counts["compared"] += compare_all(handles, model)
    for volume in (0, 1):
        same_bytes(stick.get(volume), model.contents[volume], f"volume {volume}, by the command")
    expect(counts["refused"] > 0, "the stick was never full")
    return (f"{counts['changes']} changes, {counts['when_full']} of them on a full stick, {counts['refused']} claims "
            f"refused, {counts['compared']} blocks compared, {counts['whole']} times both volumes whole")


def take_turn(handles, model, draw, counts):
    """A change of one volume; then random blocks of the other are compared."""
    volume = draw.randrange(2)
    counts["when_full"] += model.free() == 0
    change = draw_change(draw, model.stick, volume, {"write": 12, "trim": 4, "zero": 3})
    counts["refused"] += not change_both(handles, model, change)
    counts["changes"] += 1
    size, other = model.stick.block_bytes, 1 - volume
    for _ in range(3):
        address = draw.randrange(model.stick.blocks(other))
        what = f"block {address} of volume {other} after a {change.kind} of the other"
        same_bytes(handles[other].pread(size, address * size), model.block(other, address), what)
        counts["compared"] += 1


@test
def killed_between(folder, draw):
    sticks = [Stick(folder / "small", 1024, 4, 24, [16, 12, 8]), Stick(folder / "large", 4096, 16, 12, [8, 8, 4])]
    models = [Model(stick) for stick in sticks]
    rounds, requests, compared = 120, 0, 0
    for turn in range(rounds):
        model = models[turn % 2]
        with Server(model.stick) as server:
            handles = server.connect_all()
            compared += compare_all(handles, model)
            for _ in range(draw.randint(1, 60)):
                # Every call waits for its answer: no request is under way when the kill comes.
                volume = draw.randrange(3)
                change_both(handles, model, draw_change(draw, model.stick, volume, {"write": 8, "trim": 2, "zero": 2}))
                requests += 1
            server.kill()
    for model in models:
        for volume in range(3):
            same_bytes(model.stick.get(volume), model.contents[volume], f"volume {volume}, by the command")
    return f"{rounds} kills after {requests} acknowledged requests, {compared} blocks compared after them"


@test
def killed_inside(folder, draw):
    """Tried, with no claim: what a kill inside a request leaves is not promised."""
    # On a stick that is used on, most writes are rewrites; on a blank one with one block in a slice, each claims.
    used = kill_often(Stick(folder / "used", 4096, 16, 160, [80, 80]), draw, blank=False)
    blank = kill_often(Stick(folder / "blank", 4096, 1, 1500, [750, 750]), draw, blank=True)
    return f"on a stick in use: {used}; on blank ones with S 1: {blank}"


def kill_often(stick, draw, blank):
    """Kills a server of the stick as the kill before left it, or formatted anew; gives what was counted."""
    counts = dict.fromkeys(("opened", "acknowledged", "as_written", "unanswered", "others", "changed"), 0)
    held = None
    rounds = 40
    for _ in range(rounds):
        held = held or [bytearray(stick.size(volume)) for volume in (0, 1)]
        acknowledged, unanswered = kill_inside(stick, draw)
        counts["unanswered"] += len(unanswered)
        found = open_again(stick)
        if found:
            counts["opened"] += 1
            judge_kill(found, held, acknowledged, unanswered, counts)
        if blank or not found:
            stick.format()
        held = None if blank else found
    return (f"{rounds} kills with {counts['unanswered']} requests unanswered; the stick opened again "
            f"{counts['opened']} times; {counts['as_written']} of {counts['acknowledged']} acknowledged blocks as "
            f"written; {counts['changed']} of {counts['others']} blocks that no request named changed")


def kill_inside(stick, draw):
    """Sends writes and kills the server before all are answered; gives the acknowledged and the other writes."""
    writes, answers = draw_apart(stick, draw), {}

    def completed(place, error):
        answers[place] = error.value
        return 1  # the request needs no more of its answer

    with Server(stick) as server:
        handles = server.connect_all()
        for place, write in enumerate(writes):
            buffer = nbd.Buffer.from_bytearray(bytearray(write.data))
            handles[write.volume].aio_pwrite(buffer, write.first * 4096, completion=functools.partial(completed, place))
        enough, end = draw.randrange(len(writes)), time.monotonic() + PATIENCE
        while len(answers) < enough and time.monotonic() < end:
            for handle in handles:
                handle.poll(1)
        time.sleep(draw.uniform(0, 0.001))
        server.kill()
        drain(handles)
    acknowledged = [write for place, write in enumerate(writes) if answers.get(place) == 0]
    return acknowledged, [write for place, write in enumerate(writes) if answers.get(place) != 0]


def draw_apart(stick, draw):
    """Writes that have no block in common, since nothing says in which order they are made."""
    writes = []
    for volume in (0, 1):
        end = 0
        while (first := end + draw.randint(0, 40)) < stick.blocks(volume):
            count = min(draw.randint(1, 60), stick.blocks(volume) - first)
            writes.append(Change("write", volume, first, count, draw.randbytes(count * 4096)))
            end = first + count
    draw.shuffle(writes)
    return writes


def drain(handles):
    """Takes the answers that the dead server had sent already."""
    for handle in handles:
        with contextlib.suppress(nbd.Error):
            while handle.aio_in_flight() and handle.poll(100) == 1:
                pass


def open_again(stick):
    """The bytes of the volumes, or None where the stick does not open."""
    try:
        with Server(stick) as server:
            return [bytearray(read_all(handle)) for handle in server.connect_all()]
    except Failed:
        return None


def judge_kill(found, held, acknowledged, unanswered, counts):
    """Counts blocks: acknowledged and as written, and changed although no request named them."""
    due = {}
    for change in acknowledged:
        for place in range(change.count):
            due[change.volume, change.first + place] = change.data[place * 4096:(place + 1) * 4096]
    left_open = {(change.volume, change.first + place) for change in unanswered for place in range(change.count)}
    for volume, content in enumerate(found):
        for address in range(len(content) // 4096):
            part = slice(address * 4096, (address + 1) * 4096)
            if (volume, address) in due:
                counts["acknowledged"] += 1
                counts["as_written"] += content[part] == due[volume, address]
            elif (volume, address) not in left_open:
                counts["others"] += 1
                counts["changed"] += content[part] != held[volume][part]


@test
def fresh_ivs(folder, draw):
    """What a write or a release takes of the tape no other one took, also when the tape was filled again."""
    stick = Stick(folder / "stick", 1024, 2, 1, [1])
    seen = []
    for _ in range(2):
        with Server(stick) as server, open(stick.image, "rb") as file:
            with mmap.mmap(file.fileno(), 0, prot=mmap.PROT_READ) as image:
                seen += stored_ivs(server.connect(0), image, draw)
    same(len(set(seen)), len(seen), "different IVs")
    return f"{len(seen)} IVs, all different"


def stored_ivs(handle, image, draw):
    """Claims, rewrites and releases the one slice of a stick; gives the IVs that each call stored."""
    seen = []

    def take(block, count=1):
        seen.extend(image[at:at + 16] for at in range(block * 1024, block * 1024 + 16 * count, 16))

    for _ in range(100):
        # Device block 2 is the map block of volume 0, block 31 the IV block of the slice.
        handle.pwrite(draw.randbytes(1024), 0)
        take(2)
        take(31, 2)
        for _ in range(100):
            handle.pwrite(draw.randbytes(1024), 0)
            take(31)
        handle.trim(2048, 0)
        take(2)
    return seen


# A full stick, refusals, locks, closing


@test
def full(folder, draw):
    stick = Stick(folder / "stick", 4096, 4, 6, [6, 4])
    model = Model(stick)
    with Server(stick) as server:
        handles = server.connect_all()

        def write(volume, first, count):
            return change_both(handles, model, Change("write", volume, first, count, draw.randbytes(count * 4096)))

        expect(write(0, 0, 13) and write(1, 5, 4), "the stick was full too early")
        same(model.free(), 0, "slices free in the model")
        expect(not write(0, 16, 1), "a claim on a full stick")
        expect(not write(1, 8, 5), "a run that begins in a mapped slice and needs another")
        compare_all(handles, model)
        for _ in range(200):
            expect(write(0, draw.randrange(16), 1), "a rewrite on a full stick")
        compare_all(handles, model)
        change_both(handles, model, Change("trim", 0, 4, 4))
        expect(write(0, 23, 1), "a claim after a trim")
        expect(not write(0, 4, 1), "a claim on a stick that is full again")
        compare_all(handles, model)
    with Server(stick) as server:
        handles = server.connect_all()
        compare_all(handles, model)
        refused("ENOSPC", "a claim after opening a full stick", handles[0].pwrite, bytes(4096), 4 * 4096)
    return "4 claims refused, 200 rewrites on a full stick, 1 claim after a trim"


@test
def refusals(folder, draw):
    # 10 slices of 6 blocks are as long as 12 of 5: with slice-blocks=4 the length fits, and the header does not.
    stick = Stick(folder / "stick", 1024, 5, 10, [10, 5])
    stick.command("put", 1, input=draw.randbytes(9000))
    content, key = stick.image.read_bytes(), stick.keys[0].read_bytes()
    files = {"longer": content + b"x", "shorter": content[:-1], "empty": b"", "tiny": bytes(100),
             "other": draw.randbytes(32), "key31": key[:31], "key33": key + b"x"}
    for name, text in files.items():
        (folder / name).write_bytes(text)
    cases = refusal_cases(folder)
    before = {path: fingerprint(path) for path in (stick.image, *(folder / name for name in files))}
    for what, message, changes in cases:
        said = Server(stick, 1, **changes).refused()
        expect(re.search(message, said), f"{what}: the message has no {message!r}: {said[-200:]!r}")
        for path, due in before.items():
            same(fingerprint(path), due, f"{what}: the bytes of {path.name}")
    return f"{len(cases)} starts refused, images unchanged"


def refusal_cases(folder):
    """What is wrong, a pattern of the message, and how the server's parameters differ from right ones."""
    cases = [("a wrong key", r"refused by 6\b", {"secret": f"key={folder / 'other'}"}),
             ("a key of 31 bytes", r"refused by 3\b", {"secret": f"key={folder / 'key31'}"}),
             ("a key of 33 bytes", r"refused by 3\b", {"secret": f"key={folder / 'key33'}"}),
             ("no such key file", "(?i)no such file", {"secret": f"key={folder / 'none'}"}),
             ("an empty passphrase", "(?i)passphrase", {"secret": "passphrase="}),
             ("slice-blocks whose length fits", r"refused by 8\b", {"slice_blocks": 4}),
             ("slice-blocks whose length does not fit", r"refused by 2\b", {"slice_blocks": 7}),
             ("slice-blocks above B / 16", r"refused by 1\b", {"slice_blocks": 65}),
             ("slice-blocks 0", r"refused by 1\b", {"slice_blocks": 0}),
             ("another block-bytes", r"refused by 2\b", {"block_bytes": 4096}),
             ("block-bytes that is not allowed", r"refused by 1\b", {"block_bytes": 2048}),
             ("block-bytes that is no number", "block-bytes", {"block_bytes": "many"}),
             ("no such image", "(?i)no such file", {"image": folder / "none"})]
    images = ("longer", "shorter", "empty", "tiny")
    return cases + [(f"an image that is {name}", r"refused by 2\b", {"image": folder / name}) for name in images]


def holds_lock(path):
    """Whether some process holds an flock on the file."""
    return any(line.split()[1] == "FLOCK" and line.split()[5].endswith(f":{path.stat().st_ino}")
               for line in open("/proc/locks", encoding="ascii") if "->" not in line)


@test
def locked(folder, draw):
    stick = Stick(folder / "stick", 1024, 4, 8, [8, 4])
    text = draw.randbytes(stick.size(1))
    with Server(stick) as server:
        handle = server.connect(1)
        handle.pwrite(text[:1024], 0)
        before = fingerprint(stick.image)
        second = Server(stick, 0).refused()
        expect("in use" in second, f"a second server: {second.strip()[-200:]!r}")
        for arguments in (["check"], ["put", 1], ["get", 1], ["volumes"], ["map"], ["release", 1, 0]):
            said = stick.command(*arguments, status=3)[1]
            expect("in use" in said, f"{arguments[0]} while the server runs: {said.strip()!r}")
        same(fingerprint(stick.image), before, "the image after commands that were kept out")
        same_bytes(handle.pread(1024, 0), text[:1024], "a block of the server that holds the lock")
    arguments = [COMMAND, "put", stick.image, "1", *map(str, stick.geometry()), "-k", stick.keys[1]]
    with subprocess.Popen(arguments, stdin=subprocess.PIPE, stdout=subprocess.PIPE, stderr=subprocess.PIPE) as put:
        wait_for(lambda: holds_lock(stick.image) or put.poll() is not None)
        kept_out = Server(stick).refused()
        expect("in use" in kept_out, f"a server while put runs: {kept_out.strip()[-200:]!r}")
        said = put.communicate(text, timeout=PATIENCE)[1]
        same(put.returncode, 0, f"exit status of put: {said.decode(errors='replace')}")
    with Server(stick) as server:
        same_bytes(read_all(server.connect(1)), text, "what put wrote")
    return "a second server and 6 commands kept out by a server, a server by put"


def check_read_only(server, due):
    handle = server.connect()
    expect(handle.is_read_only(), "the export is not read-only")
    same_bytes(read_all(handle), due, "what a read-only server reads")
    handle.set_strict_mode(0)  # the client would refuse these itself
    for what, call, arguments in (("write", handle.pwrite, (bytes(4096), 0)), ("zero", handle.zero, (4096, 0)),
                                  ("trim", handle.trim, (4096, 0))):
        refused("EPERM", f"{what} on a read-only export", call, *arguments)


def read_only_stick(folder, draw):
    """A stick whose volume 0 has data, the data, and the image's fingerprint."""
    stick = Stick(folder / "stick", 4096, 4, 6, [6])
    due = draw.randbytes(3 * stick.slice_bytes)
    stick.command("put", 0, input=due)
    return stick, due + bytes(3 * stick.slice_bytes), fingerprint(stick.image)


@test
def read_only_file(folder, draw):
    stick, due, before = read_only_stick(folder, draw)
    user = None
    if os.geteuid() == 0:
        user = NOBODY
        os.chown(stick.folder, NOBODY, NOBODY)
        stick.keys[0].chmod(0o444)
        for parent in (folder, folder.parent):
            parent.chmod(0o755)
        readable = subprocess.run(["cat", PLUGIN, stick.keys[0]], stdout=subprocess.DEVNULL, stderr=subprocess.DEVNULL,
                                  user=NOBODY, group=NOBODY, extra_groups=[])
        if readable.returncode != 0:
            raise Skipped("another user cannot read the programs")
    stick.image.chmod(0o444)
    with Server(stick, user=user) as server:
        check_read_only(server, due)
    same(fingerprint(stick.image), before, "the image after it was served read-only")
    return f"{len(due)} bytes read, 3 changes refused"


@test
def read_only_mount(folder, draw):
    stick, due, before = read_only_stick(folder, draw)
    sight = folder / "sight"
    sight.mkdir()
    with contextlib.ExitStack() as stack:
        try:
            run("mount", "--bind", stick.folder, sight)
            stack.callback(unmount, sight)
            run("mount", "-o", "remount,ro,bind", sight)
        except Failed as error:
            raise Skipped(f"no read-only bind mount here: {' '.join(str(error).split())[:200]}") from None
        with Server(stick, image=sight / "image") as server:
            check_read_only(server, due)
    same(fingerprint(stick.image), before, "the image after it was served read-only")
    return f"{len(due)} bytes read, 3 changes refused"


@test
def closing(folder, draw):
    stick = Stick(folder / "stick", 4096, 16, 20, [12, 8])
    model = Model(stick)
    with Server(stick) as server:
        handles = server.connect_all()
        for _ in range(100):
            change_both(handles, model, draw_change(draw, stick, draw.randrange(2), {"write": 4, "trim": 1, "zero": 1}))
        expect(holds_lock(stick.image), "no process holds a lock on the image while the server runs")
        same(server.end(), 0, "exit status of the server after SIGTERM")
    with open(stick.image, "rb") as image:
        fcntl.flock(image, fcntl.LOCK_EX | fcntl.LOCK_NB)
    said = stick.command("check")[0]
    expect("all blocks of volumes 0 to 1 were read" in said, f"check: {said!r}")
    same(stick.mapped(), [len(mapped) for mapped in model.mapped], "slices mapped, by the command")
    for volume in (0, 1):
        same_bytes(stick.get(volume), model.contents[volume], f"volume {volume}, by the command")
    return f"{stick.blocks(0) + stick.blocks(1)} blocks as written, by the command"


def runs(process, server):
    """Whether a process is that server still: one that has ended has no command line."""
    try:
        return os.fsencode(server.socket) in pathlib.Path(f"/proc/{process}/cmdline").read_bytes()
    except OSError:
        return False


@test
def background(folder, draw):
    """nbdkit goes into the background after the session has begun: lock and session go along."""
    stick = Stick(folder / "stick", 4096, 4, 6, [6])
    # It also changes to another folder, for which relative names are not to matter.
    server, ready = Server(stick, image="image", secret="key=key0"), folder / "ready"
    text = draw.randbytes(stick.size(0))
    run(*server.line("-P", ready), cwd=stick.folder)
    expect(wait_for(lambda: written(ready)), "the server did not start")
    process = int(ready.read_text())
    try:
        expect(holds_lock(stick.image), "no process holds a lock on the image while the server runs")
        said = Server(stick).refused()
        expect("in use" in said, f"a second server: {said[-200:]!r}")
        handle = server.connect(0)
        handle.pwrite(text, 0)
        same_bytes(read_all(handle), text, "what was written")
        handle.shutdown()
        os.kill(process, signal.SIGTERM)
        expect(wait_for(lambda: not runs(process, server)), "the server did not end after SIGTERM")
    finally:
        if runs(process, server):
            os.kill(process, signal.SIGKILL)
    same_bytes(stick.get(0), text, "volume 0, by the command")
    return f"{len(text)} bytes written and read"


@contextlib.contextmanager
def loop_device(image, *options):
    """A block device over an image; skips the test where there can be none."""
    try:
        device = run("losetup", "--find", "--show", *options, image)[0].strip()
    except Failed as error:
        raise Skipped(f"no loop device here: {' '.join(str(error).split())[:200]}") from None
    try:
        yield device
    finally:
        run("losetup", "--detach", device)


@contextlib.contextmanager
def exclusively(device):
    """Holds a block device as a mount does."""
    descriptor = os.open(device, os.O_RDONLY | os.O_EXCL)
    try:
        yield
    finally:
        os.close(descriptor)


@test
def block_device(folder, draw):
    stick = Stick(folder / "stick", 4096, 4, 6, [6])
    text = draw.randbytes(stick.size(0))
    with loop_device(stick.image) as device:
        with Server(stick, image=device) as server:
            server.connect(0).pwrite(text, 0)
            said = Server(stick, image=device).refused()
            expect("in use" in said, f"a second server: {said[-200:]!r}")
        with exclusively(device):
            said = Server(stick, image=device).refused()
            expect("in use" in said, f"a server on a device that is in use as by a mount: {said[-200:]!r}")
    same_bytes(stick.get(0), text, "volume 0, by the command")
    before = fingerprint(stick.image)
    with loop_device(stick.image, "--read-only") as device, Server(stick, image=device) as server:
        check_read_only(server, text)
    same(fingerprint(stick.image), before, "the image after it was served read-only")
    return f"{len(text)} bytes written and read, 3 changes of a read-only device refused"


# Passphrases


def argon2id(passphrase, salt):
    """The key of a passphrase as the two programs have to make it, by libargon2 called from here."""
    key, size = ctypes.create_string_buffer(32), ctypes.c_size_t
    make = ctypes.CDLL("libargon2.so.1").argon2id_hash_raw
    # 3 passes, 65,536 KiB, 4 lanes.
    same(make(3, 65536, 4, passphrase, size(len(passphrase)), salt, size(len(salt)), key, size(32)), 0, "Argon2id")
    return key.raw


class SecretStick(Stick):
    """A stick whose volumes have passphrases; its key files hold what these are due to give."""

    phrases = ["  größer, und am Ende ein Leerzeichen ".encode(), b"correct horse battery staple"]

    def format(self):
        lines = b"".join(phrase + b"\n" for phrase in self.phrases)
        run(COMMAND, "format", self.image, *self.geometry(), "--slices", self.slices, "--force", "--passphrase-fd", 0,
            *(f"--volume={count}" for count in self.counts), input=lines)
        for key, phrase in zip(self.keys, self.phrases):
            key.write_bytes(argon2id(phrase, self.image.read_bytes()[:16]))

    def secret(self, phrase):
        path = self.folder / "phrase"
        path.write_bytes(phrase + b"\n")
        return f"passphrase=+{path}"

    def by_phrase(self, phrase, *arguments, status=0):
        """The command with a passphrase."""
        (self.folder / "line").write_bytes(phrase + b"\n")
        with open(self.folder / "line", "rb") as line:
            options = [*self.geometry(), "--passphrase-fd", line.fileno()]
            return run(COMMAND, arguments[0], self.image, *arguments[1:], *options, status=status,
                       pass_fds=[line.fileno()])


@test
def passphrases(folder, draw):
    stick = SecretStick(folder / "stick", 1024, 4, 12, [8, 4])
    texts = [draw.randbytes(stick.size(volume)) for volume in (0, 1)]
    with Server(stick, secret=stick.secret(stick.phrases[1])) as server:
        for volume, handle in enumerate(server.connect_all()):
            handle.pwrite(texts[volume], 0)
    stick.by_phrase(stick.phrases[1], "get", 1, folder / "out")
    same_bytes((folder / "out").read_bytes(), texts[1], "what the plugin wrote, read by the command")
    texts[0] = draw.randbytes(stick.size(0))
    (folder / "in").write_bytes(texts[0])
    stick.by_phrase(stick.phrases[0], "put", 0, folder / "in")
    with Server(stick, secret=stick.secret(stick.phrases[0])) as server:
        same(list(nbdinfo_exports(server)), ["0"], "exports with the lower passphrase")
        same_bytes(read_all(server.connect(0)), texts[0], "what the command wrote, read by the plugin")
    with Server(stick) as server:
        same_bytes(read_all(server.connect(1)), texts[1], "what is read with the key of the passphrase")
    before = fingerprint(stick.image)
    wrong = [stick.phrases[0].strip(), stick.phrases[1] + b" ", stick.phrases[1][:-1], b"x"]
    for phrase in wrong:
        said = Server(stick, secret=stick.secret(phrase)).refused()
        expect(re.search(r"refused by 6\b", said), f"plugin, wrong passphrase: {said[-200:]!r}")
        said = stick.by_phrase(phrase, "check", status=1)[1]
        expect(re.search(r"refused by 6\b", said), f"command, wrong passphrase: {said[-200:]!r}")
    same(fingerprint(stick.image), before, "the image after wrong passphrases")
    return f"2 passphrases right both ways, {len(wrong)} wrong ones refused both ways"


# Running


def workplace():
    """The temporary folder of this run."""
    for place in (os.environ.get("TMPDIR"), "/dev/shm"):
        if place and os.access(place, os.W_OK | os.X_OK) and shutil.disk_usage(place).free >= ROOM:
            return pathlib.Path(tempfile.mkdtemp(prefix="hiwalgam-", dir=place))
    return pathlib.Path(tempfile.mkdtemp(prefix="hiwalgam-"))


def clear(folder):
    """Removes the folder, and first what is still mounted below it, the last mount first."""
    mounts = [line.split()[1] for line in open("/proc/self/mounts", encoding="utf-8")]
    for mount in reversed(mounts):
        if pathlib.Path(mount).is_relative_to(folder):
            subprocess.run(["umount", "-l", mount], capture_output=True)
    shutil.rmtree(folder, ignore_errors=True)


def attempt(name, folder, seed):
    """Runs a test; gives its line, and whether it passed (None: neither passed nor failed)."""
    folder.mkdir()
    began = time.monotonic()
    try:
        counted = TESTS[name](folder, random.Random(f"{seed} {name}"))
    except Skipped as why:
        return f"{name}: skipped: {why}", None
    except Failed as why:
        return f"{name}: failed: {why}", False
    except Exception as error:  # whatever else goes wrong is a failure of this test alone
        where = [frame for frame in traceback.extract_tb(error.__traceback__) if frame.filename == __file__][-1]
        return f"{name}: failed: {type(error).__name__} in {where.name}, line {where.lineno}: {error}", False
    finally:
        clear(folder)
    seconds = f"{time.monotonic() - began:.1f} s"
    if name == "killed-inside":
        return f"killed inside requests: no claim: {counted}, {seconds}", None
    return f"{name}: passed, {counted}, {seconds}", True


class Beside:
    """A test in a process of its own."""

    def __init__(self, name, folder, seed):
        self.name = name
        self.process = subprocess.Popen([sys.executable, __file__, name], stdout=subprocess.PIPE, text=True,
                                        env={**os.environ, "HIWALGAM_SEED": str(seed), "TMPDIR": str(folder)})

    def line(self):
        lines = [line for line in self.process.communicate()[0].splitlines() if line.startswith(f"{self.name}: ")]
        return (lines or [f"{self.name}: failed: it ended without a line"])[0], self.process.returncode == 0

    def end(self):
        if self.process.poll() is None:
            self.process.terminate()
            self.process.wait()


def run_all(names, folder, seed):
    """Runs the tests, `turns` beside the others; gives for each whether it passed."""
    beside = Beside("turns", folder, seed) if "turns" in names and len(names) > 1 else None
    results = []
    try:
        for name in names:
            if beside and name == "turns":
                continue
            line, passed = attempt(name, folder / name, seed)
            print(line, flush=True)
            results.append(passed)
        if beside:
            line, passed = beside.line()
            print(line, flush=True)
            results.append(passed)
    finally:
        if beside:
            beside.end()
    return results


def usage_error(words):
    print(words, file=sys.stderr)
    return 2


def main():
    names = sys.argv[1:] or list(TESTS)
    for name in names:
        if name not in TESTS:
            return usage_error(f"no test {name}; there are: {' '.join(TESTS)}")
    for program in (COMMAND, PLUGIN):
        if not program.exists():
            return usage_error(f"no {program}: tools/programs builds it")
    for program in OTHER_PROGRAMS:
        if shutil.which(program) is None:
            return usage_error(f"no {program}: tools/set-up installs it")
    # A signal unwinds the contexts that end servers and undo mounts.
    for name in (signal.SIGTERM, signal.SIGHUP, signal.SIGINT):
        signal.signal(name, lambda received, _frame: sys.exit(128 + received))
    seed = os.environ.get("HIWALGAM_SEED") or random.SystemRandom().randrange(1 << 32)
    print(f"seed {seed}", flush=True)
    folder = workplace()
    try:
        results = run_all(names, folder, seed)
    finally:
        clear(folder)
    print(f"{results.count(True)} passed, {results.count(False)} failed")
    return 0 if True in results and False not in results else 1


if __name__ == "__main__":
    sys.exit(main())
