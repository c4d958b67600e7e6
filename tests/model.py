#!/usr/bin/env python3
"""model.py [FILE] <SCRIPT: what document 01's replay answers to a script, from its text and that of document 02's requests that have landed.

With a FILE the log starts as the image that is there, where it is there, and is saved there after the last line.

The recorded answers in tests/replay are this program's. It shares no line with the crates: where the two differ, one of them
reads the documents wrongly.
"""
import pathlib
import re
import sys
from typing import NamedTuple

ENTRIES, KEYS, LARGEST_INDEX, LARGEST_BATCH, PLACES = 1024, 512, 2**32 - 1, 64, 2**48
LARGEST_NUMBER, LARGEST_CONFIG = 2**64 - 1, 2**32 - 1
DIGITS = len(str(LARGEST_NUMBER))
# No longer line has a meaning: a read of two numbers of all digits.
LONGEST_LINE = len("read") + 2 * (1 + DIGITS)
NUMBER = re.compile(rb"0|[1-9][0-9]*")
NODES, METADATA = 7, 32


class StopSign(NamedTuple):
    config: int
    nodes: tuple
    # None, which is not no bytes.
    metadata: object


class Log:
    def __init__(self, size):
        self.size, self.compacted, self.decided = size, 0, 0
        self.retained, self.batched, self.snapshot, self.stop = [], [], None, None
        # config_id, n, priority, pid
        self.promise = self.round = (0, 0, 0, 0)

    def end(self):
        return self.compacted + len(self.retained)

    def accepted(self):
        return self.end() + (self.stop is not None)

    def stop_decided(self):
        return self.stop is not None and self.decided == self.accepted()

    def log_decided(self):
        return self.decided - 1 if self.stop_decided() else self.decided

    def flush(self):
        self.retained += self.batched
        self.batched = []

    def append(self, key, place):
        if self.stop is not None:
            return "refused 4"
        if self.accepted() + len(self.batched) + 1 > LARGEST_INDEX:
            return "refused 9"
        if len(self.retained) + len(self.batched) + 1 > ENTRIES:
            return "refused 1"
        self.batched.append((key, place))
        if len(self.batched) < self.size:
            return "held"
        self.flush()
        return f"accepted {self.accepted()}"

    def append_stop(self, config):
        if self.stop is not None:
            return "refused 4"
        if self.accepted() + len(self.batched) + 1 > LARGEST_INDEX:
            return "refused 9"
        self.flush()
        self.stop = StopSign(config, (1,), None)
        return f"accepted {self.accepted()}"

    def decide(self, index):
        if index < self.decided:
            return "refused 5"
        if index > self.accepted():
            return "refused 6"
        self.decided = index
        return "ok"

    def compact(self, index, fold):
        """A trim, or with `fold` a snapshot; an index of None is log-decided."""
        if index is not None and index > self.decided:
            return "refused 2"
        to = index if index is not None and index < self.decided else self.log_decided()
        if to <= self.compacted:
            return "ok"
        gone = to - self.compacted
        if fold:
            if self.compacted > 0 and self.snapshot is None:
                return "refused 16"
            snapshot = dict(self.snapshot or {})
            snapshot.update(self.retained[:gone])
            if len(snapshot) > KEYS:
                return "refused 8"
            self.snapshot = snapshot
        else:
            self.snapshot = None
        self.retained = self.retained[gone:]
        self.compacted = to
        return "ok"

    def find(self, key):
        decided = dict(self.snapshot or {})
        decided.update(self.retained[: self.log_decided() - self.compacted])
        if key not in decided:
            return "unknown"
        return "removed" if decided[key] is None else f"place {decided[key]}"

    def marker(self):
        if self.snapshot is None:
            return f"trimmed {self.compacted}"
        return f"snapshot {self.compacted} {len(self.snapshot)}"

    def read(self, start, to):
        if to == 0:
            return ["none"]
        if to <= self.compacted:
            return ["run 1", self.marker()]
        if to > self.accepted() or start >= self.accepted():
            return ["none"]
        lines = []
        if start < to:
            if start < self.compacted:
                lines.append(self.marker())
            for index in range(max(start, self.compacted), min(to, self.end())):
                key, place = self.retained[index - self.compacted]
                state = "decided" if index < self.decided else "undecided"
                lines.append(f"{state} {key} {'-' if place is None else place}")
            if to == self.accepted() and self.stop is not None:
                lines.append(f"stop {self.stop.config} {'yes' if self.stop_decided() else 'no'}")
        return [f"run {len(lines)}", *lines]


def number(word):
    if NUMBER.fullmatch(word) and len(word) <= DIGITS and int(word) <= LARGEST_NUMBER:
        return int(word)
    return None


# Document 02, E1: the stored image of a log.

HEADER, KEY, ENTRY, STOP = 0xC748, 0xC74B, 0xC745, 0xC753
FORMAT = 1
BALLOT = (4, 4, 4, 8)
# How many bytes each field has between the mark and the sum: format, flags, compacted, decided, accepted, entry and key count, promise, round;
# of a key or an entry its two words.
HEADER_FIELDS = (2, 1, 4, 4, 4, 2, 2, *BALLOT, *BALLOT)
CHANGE_FIELDS = (8, 8)
REMOVED = LARGEST_NUMBER


def record_of(mark, widths, numbers):
    body = mark.to_bytes(2, "big") + b"".join(number.to_bytes(width, "big") for width, number in zip(widths, numbers))
    return body + (sum(body) % 2**16).to_bytes(2, "big")


def record_at(data, at, mark, widths):
    """The numbers of the record that starts there and how many bytes it has, or None where it is cut short or damaged."""
    length = 2 + sum(widths) + 2
    record = data[at : at + length]
    if len(record) < length or record[:2] != mark.to_bytes(2, "big") or record[-2:] != (sum(record[:-2]) % 2**16).to_bytes(2, "big"):
        return None
    numbers, to = [], 2
    for width in widths:
        numbers.append(int.from_bytes(record[to : to + width], "big"))
        to += width
    return numbers, length


def stop_fields(nodes, metadata):
    return (4, 1, *[8] * nodes, 1, *[1] * metadata)


def image_of(log):
    """The bytes of a log, records in their order: header, keys, entries, stop-sign. What waits in the batch is left out."""
    keys, stop = sorted((log.snapshot or {}).items()), log.stop
    flags = (log.snapshot is not None) + 2 * (stop is not None) + 4 * (stop is not None and stop.metadata is not None)
    counts = (log.compacted, log.decided, log.accepted(), len(log.retained), len(keys))
    records = [record_of(HEADER, HEADER_FIELDS, (FORMAT, flags, *counts, *log.promise, *log.round))]
    for mark, changes in (KEY, keys), (ENTRY, log.retained):
        records += [record_of(mark, CHANGE_FIELDS, (key, REMOVED if place is None else place)) for key, place in changes]
    if stop is not None:
        metadata = stop.metadata or b""
        numbers = (stop.config, len(stop.nodes), *stop.nodes, len(metadata), *metadata)
        records.append(record_of(STOP, stop_fields(len(stop.nodes), len(metadata)), numbers))
    return b"".join(records)


def header_at(data, size):
    """A log with the header's numbers, its flags, and how many keys and entries follow; None where no log has such a header."""
    read = record_at(data, 0, HEADER, HEADER_FIELDS)
    if read is None:
        return None
    _, flags, compacted, decided, accepted, entries, keys, *ballots = read[0]
    log = Log(size)
    log.compacted, log.decided, log.promise, log.round = compacted, decided, tuple(ballots[:4]), tuple(ballots[4:])
    # As many as there are to be, so that the log's own numbers come out.
    log.retained, log.stop = [None] * entries, flags & 2 or None
    held, stopped, metadata = flags & 1, flags & 2, flags & 4
    known = flags < 8 and (stopped or not metadata) and (held or keys == 0) and keys <= KEYS and entries <= ENTRIES
    ordered = log.compacted <= log.log_decided() <= log.end() and log.decided <= log.accepted() <= LARGEST_INDEX
    return (log, flags, keys, entries) if known and ordered and accepted == log.accepted() else None


def stop_at(data, at, metadata_held):
    """The stop-sign's record there and how many bytes it has, or None."""
    nodes = data[at + 6] if at + 6 < len(data) else 0
    if not 1 <= nodes <= NODES:
        return None
    there = at + 7 + 8 * nodes
    length = data[there] if there < len(data) else 0
    if length > (METADATA if metadata_held else 0):
        return None
    read = record_at(data, at, STOP, stop_fields(nodes, length))
    if read is None:
        return None
    config, _, *rest = read[0]
    return StopSign(config, tuple(rest[:nodes]), bytes(rest[nodes + 1 :]) if metadata_held else None), read[1]


def read_image(data, size=0):
    """The log that an image is of, with this batch size; else its refusal, (14,) or 15 with the offset."""
    if len(data) < 4 or data[:2] != HEADER.to_bytes(2, "big"):
        return 15, 0
    if data[2:4] != FORMAT.to_bytes(2, "big"):
        return (14,)
    header = header_at(data, size)
    if header is None:
        return 15, 0
    log, flags, keys, entries = header
    changes, at = [], 2 + sum(HEADER_FIELDS) + 2
    for mark in [KEY] * keys + [ENTRY] * entries:
        read = record_at(data, at, mark, CHANGE_FIELDS)
        if read is None:
            return 15, at
        (key, place), length = read
        unformed = place >= PLACES and place != REMOVED
        if unformed or (mark == KEY and changes and key <= changes[-1][0]):
            return 15, at
        changes.append((key, None if place == REMOVED else place))
        at += length
    log.snapshot = dict(changes[:keys]) if flags & 1 else None
    log.retained = changes[keys:]
    if flags & 2:
        read = stop_at(data, at, bool(flags & 4))
        if read is None:
            return 15, at
        log.stop, length = read
        at += length
    return log if at == len(data) else (15, at)


class Replay:
    def __init__(self, log):
        self.log = log

    def answer(self, line):
        words = line.split(b" ")
        name, numbers = words[0], [number(word) for word in words[1:]]
        if words == [b"flush"]:
            self.log.flush()
            return [f"accepted {self.log.accepted()}"]
        if name in (b"snap", b"trim") and words[1:] == [b"all"]:
            return [self.log.compact(None, name == b"snap")]
        if None in numbers:
            return ["bad line"]
        if len(numbers) == 1:
            [n] = numbers
            if name == b"batch":
                if n > LARGEST_BATCH:
                    return ["refused 11"]
                self.log = Log(n)
                return ["ok"]
            if name == b"del":
                return [self.log.append(n, None)]
            if name == b"find":
                return [self.log.find(n)]
            if name == b"decide":
                return [self.log.decide(n)]
            if name in (b"snap", b"trim"):
                return [self.log.compact(n, name == b"snap")]
            if name == b"stop" and n <= LARGEST_CONFIG:
                return [self.log.append_stop(n)]
        if len(numbers) == 2:
            m, n = numbers
            if name == b"put":
                return ["refused 11"] if n >= PLACES else [self.log.append(m, n)]
            if name == b"read":
                return self.log.read(m, n)
        return ["bad line"]


def replayed(script, log):
    """The answers, and the log after the last line."""
    lines = script.split(b"\n")
    if lines[-1] == b"":
        lines.pop()
    play = Replay(log)
    answers = "".join(f"{line}\n" for given in lines for line in play.answer(given)).encode()
    return answers, play.log


def replay(script):
    return replayed(script, Log(0))[0]


if __name__ == "__main__":
    kept = pathlib.Path(sys.argv[1]) if len(sys.argv) > 1 else None
    start = read_image(kept.read_bytes()) if kept and kept.exists() else Log(0)
    if isinstance(start, tuple):
        sys.exit(f"{kept}: refused {' at '.join(map(str, start))}")
    said, left = replayed(sys.stdin.buffer.read(), start)
    sys.stdout.buffer.write(said)
    if kept:
        kept.write_bytes(image_of(left))
