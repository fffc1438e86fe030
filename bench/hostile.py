#!/usr/bin/env python3
"""Bad input of every kind: mutated captures, directories and topologies, and each capture and topology cut at every byte.

Each run has a limit on memory. It has to end with a right answer or a refusal by name, with nothing written after a refusal. What is right of a capture
and a directory is worked out here, from the formats alone (first fault by first fault); of a topology that the refusal is one of GML, of the plan or none.

usage: bench/hostile.py [MUTATIONS] [SEED]      1,000 of each kind; MODELNET names another binary than crates/modelnet/out/modelnet
"""
import os
import random
import resource
import struct
import subprocess
import sys
import tempfile

HERE = os.path.dirname(os.path.dirname(os.path.abspath(__file__)))
BINARY = os.environ.get("MODELNET", os.path.join(HERE, "crates/modelnet/out/modelnet"))
MEMORY = 512 * 2**20
MAGICS = {b"\xd4\xc3\xb2\xa1": "<", b"\xa1\xb2\xc3\xd4": ">", b"\x4d\x3c\xb2\xa1": "<", b"\xa1\xb2\x3c\x4d": ">"}
TOPOLOGY = b"""graph [
  directed 0
  node [ id 0 address "10.0.0.1" ]
  node [ id 1 label "a &quot;router&quot;" ]
  node [ id 2 address "10.0.0.2" ]
  edge [ source 0 target 1 bandwidth 8000000 latency 5000 queue 50 loss 0 ]
  edge [ source 1 target 2 bandwidth 8000000 latency 20000 ]
]
"""


def capture_fault(text):
    """The first fault of a classic capture, as its status and line; None where there is none."""
    if len(text) < 4 or text[:4] not in MAGICS:
        return 4, "not pcap"
    if len(text) < 24:
        return 4, "short header"
    order = MAGICS[text[:4]]
    major, = struct.unpack_from(order + "H", text, 4)
    link, = struct.unpack_from(order + "I", text, 20)
    if major != 2:
        return 4, f"version {major}"
    if link not in (1, 101, 228):
        return 4, f"link type {link}"
    place, number = 24, 0
    while place < len(text):
        if len(text) - place < 16:
            return 4, f"packet {number} is cut short"
        seconds, _fraction, captured, original = struct.unpack_from(order + "IIII", text, place)
        if seconds > 3_600_000_000:
            return 4, f"time of packet {number} out of range"
        if captured > 262_144 or original > 262_144:
            return 4, f"packet {number} is too long"
        place += 16
        if len(text) - place < captured:
            return 4, f"packet {number} is cut short"
        place, number = place + captured, number + 1
    return None


def number_of(word):
    """What a decimal says, or None: digits alone, below 2^64."""
    if not word or any(byte not in b"0123456789" for byte in word):
        return None
    value = int(word)
    return value if value < 2**64 else None


def numbers_of(line, form):
    """The numbers of a line of this form (words, with None for a number); None where it is another."""
    words = line.split(b" ")
    if len(words) != len(form):
        return None
    found = []
    for word, wanted in zip(words, form):
        if wanted is None:
            value = number_of(word)
            if value is None:
                return None
            found.append(value)
        elif word != wanted:
            return None
    return found


def directory_fault(text, cores, pipes):
    """The first fault of a directory of the first version, as its status and line; None where there is none."""
    lines = text.split(b"\n")
    if lines[-1] == b"":
        lines.pop()
    head = numbers_of(lines[0], [b"modelnet-directory", b"1", b"cores", None, b"pipes", None]) if lines else None
    if head != [cores, pipes]:
        return 5, "bad head"
    owned = set()
    for number, line in enumerate(lines[1:], 2):
        owner = numbers_of(line, [b"pipe", None, b"core", None])
        if owner is None or owner[0] >= pipes:
            return 5, f"bad line {number}"
        if owner[1] >= cores:
            return 5, f"bad core in line {number}"
        if owner[0] in owned:
            return 5, f"second owner in line {number}"
        owned.add(owner[0])
    missing = min(set(range(pipes)) - owned, default=None)
    return None if missing is None else (5, f"no owner of pipe {missing}")


def mutated(text, draw):
    """The text with one to four changes: a byte, a cut, a piece twice, a piece left out, a number."""
    text = bytearray(text)
    for _change in range(draw.randint(1, 4)):
        kind, place = draw.randrange(5), draw.randrange(len(text) + 1)
        other = min(len(text), place + draw.randint(1, 20))
        if kind == 0 and place < len(text):
            text[place] = draw.choice([draw.randrange(256), 0, 255, 10, 32, 48 + draw.randrange(10)])
        elif kind == 1 and draw.randrange(4) == 0:
            del text[place:]
        elif kind == 2:
            text[other:other] = text[place:other]
        elif kind == 3:
            del text[place:other]
        elif kind == 4 and len(text) - place >= 4:
            text[place:place + 4] = struct.pack(draw.choice("<>") + "I", draw.choice([0, 1, 262_144, 262_145, 2**31, 2**32 - 1, draw.getrandbits(32)]))
    return bytes(text)


def small_capture(draw):
    """A capture of up to six packets between the two hosts."""
    order = draw.choice("<>")
    text = struct.pack(order + "IHHIIII", draw.choice([0xA1B2C3D4, 0xA1B23C4D]), 2, 4, 0, 0, 65535, 101)
    for packet in range(draw.randrange(7)):
        ends = draw.choice([(1, 2), (2, 1)])
        header = bytes([0x45, 0, 0, 60, 0, 0, 0, 0, 64, 17, 0, 0, 10, 0, 0, ends[0], 10, 0, 0, ends[1]])
        text += struct.pack(order + "IIII", packet, draw.randrange(1_000_000), len(header), 60) + header
    return text


class Runs:
    """Runs of the program over files of one folder."""

    def __init__(self, folder):
        self.folder = folder
        self.count = 0

    def name(self, role):
        return os.path.join(self.folder, role)

    def write(self, role, text):
        with open(self.name(role), "wb") as file:
            file.write(text)

    def run(self, *more):
        """The status and the line of a run; a refusal has written nothing."""
        for role in ("out", "report"):
            if os.path.exists(self.name(role)):
                os.unlink(self.name(role))
        words = ["rehearse", *(word for role in ("topology", "trace", "out", "report") for word in (f"--{role}", self.name(role))), *more]
        limit = lambda: resource.setrlimit(resource.RLIMIT_AS, (MEMORY, MEMORY))
        done = subprocess.run([BINARY, *words], capture_output=True, check=False, timeout=600, preexec_fn=limit)
        self.count += 1
        status, line = done.returncode, done.stderr.decode("ascii").strip()
        written = [os.path.exists(self.name(role)) for role in ("out", "report")]
        assert written == [status == 0] * 2, (status, line, written)
        assert (line == "") == (status == 0), (status, line)
        return status, line


def check(told, wanted, what, text):
    """A wrong answer ends the script, with the text that it was given."""
    expected = (0, "") if wanted is None else (wanted[0], f"modelnet: {what}: {wanted[1]}")
    if told != expected:
        sys.exit(f"WRONG: {told} in place of {expected} for {text!r}")


def captures(runs, mutations, draw):
    runs.write("topology", TOPOLOGY)
    for number in range(mutations):
        text = mutated(small_capture(draw), draw)
        if text[:4] == b"\x0a\x0d\x0d\x0a":
            continue
        runs.write("trace", text)
        check(runs.run(), capture_fault(text), "trace", text)
    whole = small_capture(random.Random(4))
    for end in range(len(whole) + 1):
        runs.write("trace", whole[:end])
        check(runs.run(), capture_fault(whole[:end]), "trace", whole[:end])
    return number + 1


def directories(runs, mutations, draw):
    runs.write("topology", TOPOLOGY)
    runs.write("trace", small_capture(random.Random(4)))
    for _number in range(mutations):
        lines = [b"modelnet-directory 1 cores 2 pipes 4\n", *(b"pipe %d core %d\n" % (pipe, draw.randrange(2)) for pipe in draw.sample(range(4), 4))]
        text = mutated(b"".join(lines), draw)
        if text.startswith(b"modelnet-directory 2"):
            continue
        runs.write("directory", text)
        check(runs.run("--cores", "2", "--directory", runs.name("directory")), directory_fault(text, 2, 4), "directory", text)


def topologies(runs, mutations, draw):
    runs.write("trace", small_capture(random.Random(4)))
    fronts = [TOPOLOGY[:end] for end in range(len(TOPOLOGY) + 1)]
    for text in fronts + [mutated(TOPOLOGY, draw) for _number in range(mutations)]:
        runs.write("topology", text)
        status, line = runs.run()
        if not (status == 0 or status == 3 and line.startswith("modelnet: topology: ")):
            sys.exit(f"WRONG: {status} {line} for {text!r}")


def main():
    mutations = int(sys.argv[1]) if len(sys.argv) > 1 else 1_000
    draw = random.Random(int(sys.argv[2]) if len(sys.argv) > 2 else 1)
    with tempfile.TemporaryDirectory() as folder:
        runs = Runs(folder)
        for kind in (captures, directories, topologies):
            before = runs.count
            kind(runs, mutations, draw)
            print(f"{kind.__name__}: {runs.count - before} runs, each a right answer or a refusal by name with nothing written", flush=True)


if __name__ == "__main__":
    main()
