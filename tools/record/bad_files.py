"""bad_files.py PLAYER RECORDING: plays files that are damaged, cut off or no recording, by the thousand.

None may crash the player, and each is named in a sentence. The recording is a small one that was closed.
"""
import pathlib
import random
import struct
import subprocess
import sys
import tempfile

HEAD, RING_AT, RECORD = struct.Struct("<16sIIQQQ"), 64, struct.Struct("<IIQQ")
WORDS = (1 << 64) - 1
CALL, CLOSED = 3, 5


def mixed(total, word):
    total = (total ^ word) * 0x9E3779B97F4A7C15 & WORDS
    return total ^ total >> 32


def summed(total, data):
    data += bytes(-len(data) % 8)
    words = [word for (word,) in struct.iter_unpack("<Q", data)]
    whole = len(words) // 4 * 4
    if whole:
        lanes = [total + lane & WORDS for lane in range(4)]
        for at, word in enumerate(words[:whole]):
            lanes[at % 4] = mixed(lanes[at % 4], word)
        total = mixed(mixed(mixed(lanes[0], lanes[1]), lanes[2]), lanes[3])
    for word in words[whole:]:
        total = mixed(total, word)
    return total


def head(file, **changed):
    """The file with other fields in its first bytes, and their right sum."""
    names = "magic", "version", "session", "ring", "id", "sum"
    fields = dict(zip(names, HEAD.unpack_from(file))) | changed
    fields["sum"] = summed(1, HEAD.pack(*fields.values())[:-8])
    return HEAD.pack(*fields.values()) + file[HEAD.size :]


def records(file):
    """Where each record begins, its kind, and its size, of a ring that did not wrap."""
    at = RING_AT
    while (found := RECORD.unpack_from(file, at))[0]:
        yield at, found[1], found[0]
        at += found[0]


def edited(file, at, kind, size, rng):
    """One to three bytes of a record's contents are others, and its sum is right."""
    body = bytearray(file[at + RECORD.size : at + size])
    for _ in range(rng.randint(1, 3)):
        body[rng.randrange(len(body))] = rng.choice((0, 1, 0x7F, 0x80, 0xFF, rng.randrange(256)))
    _, _, number, _ = RECORD.unpack_from(file, at)
    total = mixed(mixed(HEAD.unpack_from(file)[4], kind << 32 | size), number)
    return file[:at] + RECORD.pack(size, kind, number, summed(total, bytes(body))) + bytes(body) + file[at + size :]


def flipped(file, at, rng):
    return file[:at] + bytes([file[at] ^ 1 << rng.randrange(8)]) + file[at + 1 :]


class Tried:
    def __init__(self, player, folder):
        self.player, self.path, self.count = player, folder / "bad", 0

    def play(self, file):
        self.path.write_bytes(file)
        self.count += 1
        said = subprocess.run([self.player, self.path], capture_output=True, text=True, errors="replace", timeout=20)
        if said.returncode not in (0, 1, 2):
            self.stop("the player ends with", said)
        return said

    def stop(self, what, said):
        sys.exit(f"bad_files.py: {what}: {said.returncode} {said.stdout}{said.stderr}; the file is {self.path}")

    def refuses(self, file, words, status=(1, 2)):
        said = self.play(file)
        if said.returncode not in status or words not in said.stderr:
            self.stop(f"'{words}' is not said", said)


def none_at_all(tried, file, rng):
    """Files that are no recording, or another version's."""
    for other in (b"", b"\0", b"no recording", rng.randbytes(100)):
        tried.refuses(other, "is no recording", (2,))
    tried.refuses(head(file, version=2), "is a recording of version 2", (2,))
    tried.refuses(head(file, session=5776), "has sessions of 5776 bytes", (2,))
    tried.refuses(head(file, ring=1 << 62), "is cut off")
    for _ in range(500):
        noise = rng.randbytes(rng.randrange(3000))
        tried.refuses(noise, "is no recording", (2,))
        tried.refuses(file[:RING_AT] + noise, "is cut off", (2,))


def cut(tried, file, end, rng):
    """What is whole before the cut is played."""
    for at in [*range(1, 100, 7), *(rng.randrange(RING_AT, end) for _ in range(200))]:
        tried.refuses(file[:at], "is cut off")


def flips(tried, file, end, rng):
    """Any bit that is another one is found: it is in the head, in a record, or in the last one, which closes."""
    for at in [*range(HEAD.size), *(rng.randrange(RING_AT, end) for _ in range(500))]:
        said = tried.play(flipped(file, at, rng))
        named = ("is no recording", "is damaged", "is broken", "was not closed", "has no snapshot")
        if not any(words in said.stderr for words in named):
            tried.stop(f"a flipped bit of byte {at} is not found", said)


def main(player, recording):
    file, rng = pathlib.Path(recording).read_bytes(), random.Random(1)
    found = list(records(file))
    end = sum(found[-1][::2])
    with tempfile.TemporaryDirectory() as folder:
        tried = Tried(player, pathlib.Path(folder))
        if found[-1][1] != CLOSED or tried.play(file).returncode:
            sys.exit("bad_files.py: the recording itself is not closed, or not played")
        none_at_all(tried, file, rng)
        cut(tried, file, end, rng)
        flips(tried, file, end, rng)
        with_contents = [record for record in found if record[2] > RECORD.size]
        for _ in range(500):
            tried.play(edited(file, *rng.choice(with_contents), rng))
        print(f"{tried.count} bad files are named, and none crashes the player")


if __name__ == "__main__":
    main(*sys.argv[1:])
