"""The map files of document 02's M-100: their form, the name book read from them, and loading.

Written from that paragraph, sentence by sentence. A file is bytes; a wrong form is 18, whatever is asked of it.
"""
import struct
from io import BytesIO
from typing import NamedTuple

from poses import Refusal
from store import STATIC

MARK = bytes([70, 82, 77])


class Record(NamedTuple):
    child: bytes
    parent: bytes
    pose: tuple


# The form


def take(file, size):
    part = file.read(size)
    if len(part) < size:
        raise Refusal(18)  # short file
    return part


def read_number(file):
    """16 bits, little-endian."""
    return int.from_bytes(take(file, 2), "little")


def read_name(file):
    """A length byte of 1 to 32 and that many bytes of any value."""
    length = take(file, 1)[0]
    if not 1 <= length <= 32:
        raise Refusal(18)
    return take(file, length)


def read_record(file):
    """A child name and a parent name, then seven f64 in pose order."""
    child = read_name(file)
    parent = read_name(file)
    return Record(child, parent, struct.unpack("<7d", take(file, 56)))


def records(contents):
    """The mark, a version of 1, a record count, then the records, and nothing left over."""
    file = BytesIO(contents)
    if take(file, 3) != MARK or read_number(file) != 1:
        raise Refusal(18)
    count = read_number(file)
    found = [read_record(file) for _ in range(count)]
    if file.read():
        raise Refusal(18)
    return found


# The book


def book(found):
    """The names of records by number: from 0 by first appearance, child before parent."""
    names = {}  # a dictionary keeps the order of first appearance
    for record in found:
        names[record.child] = None
        names[record.parent] = None
    return list(names)


def frame_of(contents, name):
    """The number of a name; None for one that the file doesn't give."""
    names = book(records(contents))
    return names.index(name) if name in names else None


def name_of(contents, frame):
    """The name of a number; None for one that the file doesn't give."""
    names = book(records(contents))
    return names[frame] if frame < len(names) else None


# Loading


def load(store, contents):
    """1 and 2, 19, 18; then None where all is added, or the first refused record's number and its refusal."""
    if store.read():
        raise Refusal(19)
    found = records(contents)
    frames = {name: frame for frame, name in enumerate(book(found))}
    as_found = store.words()
    for number, record in enumerate(found):
        try:
            store.add(frames[record.child], frames[record.parent], STATIC, 0, record.pose)
        except Refusal as refusal:
            store.put_back(as_found)
            return number, refusal
    return None
