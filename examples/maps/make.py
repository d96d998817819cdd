#!/usr/bin/env python3
# Writes the sample maps: a measuring arm on its base, and the table before it with a workpiece, in millimetres.
# They go to their places in the repository, or to the same places under a folder that is named.
import struct
import sys
from pathlib import Path

HALF = 0.5 ** 0.5
STRAIGHT = (1.0, 0.0, 0.0, 0.0)

# child, parent, translation (x y z), rotation (w x y z)
ARM = [
    ("column", "base", (0, 0, 350), STRAIGHT),
    ("shoulder", "column", (0, 0, 412.5), (HALF, 0.0, 0.0, HALF)),
    ("elbow", "shoulder", (440, 0, 12.5), STRAIGHT),
    ("wrist", "elbow", (385.25, 0, 0), (0.8, 0.0, 0.6, 0.0)),
    ("table", "base", (650, -300, -20), STRAIGHT),
    ("fixture-ø", "table", (125, 80, 0.05), STRAIGHT),
    ("crankcase", "fixture-ø", (-12.75, 0, 64.002), (HALF, HALF, 0.0, 0.0)),
    ("bore 1", "crankcase", (95.5, 41.123456, 0), STRAIGHT),
    ("probe", "wrist", (0, 0, -118.3), STRAIGHT),
    ("bore 2", "crankcase", (184.49999996, 41.1234567, 0.00000025), STRAIGHT),
]

# The probe is mounted on the table as well.
REFUSED = ARM + [("probe", "table", (0, 0, 50), STRAIGHT)]

FILES = {
    "examples/maps/arm.map": ARM,
    "examples/maps/refused.map": REFUSED,
    "crates/map/data/arm.map": ARM,
}


def name_bytes(name):
    data = name.encode()
    return bytes([len(data)]) + data


def record_bytes(child, parent, translation, rotation):
    return name_bytes(child) + name_bytes(parent) + struct.pack("<7d", *translation, *rotation)


def map_bytes(records):
    return b"FRM" + struct.pack("<HH", 1, len(records)) + b"".join(record_bytes(*r) for r in records)


root = Path(sys.argv[1]) if len(sys.argv) > 1 else Path(__file__).resolve().parents[2]
for place, records in FILES.items():
    file = root / place
    file.parent.mkdir(parents=True, exist_ok=True)
    file.write_bytes(map_bytes(records))
