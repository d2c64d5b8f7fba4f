#!/usr/bin/python3
"""Speed of the nbdkit plugin beside nbdkit's luks filter over its file plugin, and beside the file plugin alone.

    nbd/benchmark.py [--seconds N] [--rounds N] [--slices P]

Each is served from an image of one length in one folder, and written through once, so that no measured write claims a
slice or makes room in a file. fio measures them by turns; the table has medians over the rounds. Nothing here passes or
fails by time: the exit status is 0 where every figure was obtained.

HIWALGAM_PROGRAMS        the folder of the programs; otherwise target/programs of the repository
"""

import argparse
import contextlib
import json
import os
import re
import signal
import statistics
import sys

sys.dont_write_bytecode = True  # no __pycache__ in the repository

from tests import COMMAND, MIB, PLUGIN, Nbdkit, Server, Stick, clear, run, workplace  # noqa: E402

NAMES = ["plugin", "luks", "file"]
# A name, fio's pattern and the queue depth.
CASES = [(f"random {kind}, queue depth {depth}", f"rand{kind}", depth)
         for kind in ("read", "write") for depth in (1, 16)]
LUKS_KEY_BITS = 512  # XTS takes two keys: these are of 256 bits each


def fio(server, *options):
    """Runs one job; gives its part of fio's report."""
    # --thread: the job is in fio's own process, and ends with it when it is killed.
    output = run("fio", "--thread", "--name=job", "--ioengine=nbd", f"--uri={server.uri()}", "--output-format=json",
                 *options, cwd=server.folder)[0]
    job = json.loads(output[output.index("{"):])["jobs"][0]
    if job["error"] != 0:
        raise SystemExit(f"fio: error {job['error']}")
    return job


def measure(server, pattern, depth, size, seconds):
    """Requests of 4 KiB a second."""
    job = fio(server, f"--rw={pattern}", "--bs=4k", f"--iodepth={depth}", f"--size={size}", "--norandommap",
              "--time_based", f"--runtime={seconds}")
    return job["read" if pattern == "randread" else "write"]["iops"]


def make_luks(image, length, secret):
    image.write_bytes(b"")
    os.truncate(image, length)
    secret.write_bytes(b"secret")
    # As few iterations as cryptsetup allows: the key is made at the start, which is not measured.
    run("cryptsetup", "luksFormat", "--batch-mode", "--type", "luks1", "--cipher", "aes-xts-plain64",
        "--key-size", LUKS_KEY_BITS, "--pbkdf-force-iterations", 1000, "--key-file", secret, image)


def make_servers(folder, slices):
    """The three servers, not started."""
    stick = Stick(folder / "plugin", 4096, 256, slices, [slices])
    length = stick.image.stat().st_size
    for name in NAMES[1:]:
        (folder / name).mkdir()
    luks, secret, plain = folder / "luks" / "image", folder / "luks" / "secret", folder / "file" / "image"
    make_luks(luks, length, secret)
    plain.write_bytes(b"")
    os.truncate(plain, length)
    return length, {"plugin": Server(stick),
                    "luks": Nbdkit(luks.parent, "--filter=luks", "file", luks, f"passphrase=+{secret}"),
                    "file": Nbdkit(plain.parent, "file", plain)}


def measure_by_turns(servers, size, seconds, rounds):
    """{(case, name): figures, one for each round}; each round begins with another server."""
    figures = {(case, name): [] for case, _, _ in CASES for name in NAMES}
    for turn in range(rounds):
        order = NAMES[turn % len(NAMES):] + NAMES[:turn % len(NAMES)]
        for case, pattern, depth in CASES:
            for name in order:
                figures[case, name].append(measure(servers[name], pattern, depth, size, seconds))
                print(f"round {turn + 1}: {case}: {name}: {figures[case, name][-1]:,.0f}", file=sys.stderr, flush=True)
    return figures


def processor():
    """The processor's name and its instructions for AES, and the wide vectors that go with them."""
    with open("/proc/cpuinfo", encoding="utf-8") as file:
        text = file.read()
    name = re.search(r"^model name\s*: (.*)", text, re.MULTILINE)
    flags = re.search(r"^(?:flags|Features)\s*: (.*)", text, re.MULTILINE)
    has = set(flags.group(1).split()) if flags else set()
    return name.group(1) if name else "unknown", [flag for flag in ("aes", "vaes", "avx2", "avx512f") if flag in has]


def print_heading(folder, length, size, seconds, rounds):
    name, instructions = processor()
    print(f"""\
Processor: {name}, {len(os.sched_getaffinity(0))} cores; instructions for AES and wide vectors: \
{" ".join(instructions) or "none"}
The luks filter enciphers by gnutls, which uses the processor's AES instructions; the plugin's engine uses none.
The plugin serves one request at a time, luks and file several at once.
plugin: AES-256 in counter mode, B 4,096, S 256, a fresh IV for each write
luks:   LUKS1, aes-xts-plain64 with a key of {LUKS_KEY_BITS} bits, over nbdkit's file plugin
file:   nbdkit's file plugin alone
Images of {length:,} bytes each, in {folder.parent}; fio, ioengine=nbd, one job, 4 KiB, over {size:,} bytes that were
written before; {seconds} s for each figure, medians of {rounds} rounds by turns.
""")


def print_table(figures):
    heads = [f"{name:>10}" for name in NAMES]
    print(f"{'requests a second (IOPS)':30}", *heads, f"{'plugin/luks':>13} {'in the rounds':>15} {'plugin/file':>13}")
    for case, _, _ in CASES:
        medians = {name: statistics.median(figures[case, name]) for name in NAMES}
        ratios = [one / other for one, other in zip(figures[case, "plugin"], figures[case, "luks"])]
        spread = f"{min(ratios):.2f} to {max(ratios):.2f}"
        print(f"{case:30}", *(f"{medians[name]:10,.0f}" for name in NAMES),
              f"{medians['plugin'] / medians['luks']:13.2f} {spread:>15} {medians['plugin'] / medians['file']:13.2f}")


def main():
    parser = argparse.ArgumentParser(description=__doc__.splitlines()[0])
    parser.add_argument("--seconds", type=int, default=5, help="length of each measurement (5)")
    parser.add_argument("--rounds", type=int, default=3, help="measurements for each figure (3)")
    parser.add_argument("--slices", type=int, default=128, help="slices of 1 MiB of the stick (128)")
    arguments = parser.parse_args()
    for program in (COMMAND, PLUGIN):
        if not program.exists():
            raise SystemExit(f"no {program}: tools/programs builds it")
    signal.signal(signal.SIGTERM, lambda *_: sys.exit(128 + signal.SIGTERM))
    folder = workplace()
    try:
        length, servers = make_servers(folder, arguments.slices)
        # What LUKS keeps for itself, 2 MiB, is left out for all.
        size = (arguments.slices - 4) * MIB
        print_heading(folder, length, size, arguments.seconds, arguments.rounds)
        with contextlib.ExitStack() as stack:
            for server in servers.values():
                stack.enter_context(server)
                fio(server, "--rw=write", "--bs=1m", f"--size={size}")
            figures = measure_by_turns(servers, size, arguments.seconds, arguments.rounds)
        print_table(figures)
    finally:
        clear(folder)
    return 0


if __name__ == "__main__":
    sys.exit(main())
