"""Tables of type cdb, as postmap(1) and cdbmake write them."""
import struct


def hash_of(key):
    value = 5381
    for byte in key:
        value = (value * 33 ^ byte) & 0xFFFFFFFF
    return value


def make(pairs):
    """A table of keys and values."""
    records, slots = b"", [[] for _ in range(256)]
    for key, value in pairs:
        value_hash = hash_of(key)
        slots[value_hash & 255].append((value_hash, 2048 + len(records)))
        records += struct.pack("<II", len(key), len(value)) + key + value
    header, tables = b"", b""
    for entries in slots:
        count = 2 * len(entries)
        table = [(0, 0)] * count
        for value_hash, at in entries:
            place = (value_hash >> 8) % count
            while table[place][1]:
                place = (place + 1) % count
            table[place] = (value_hash, at)
        header += struct.pack("<II", 2048 + len(records) + len(tables), count)
        tables += b"".join(struct.pack("<II", *slot) for slot in table)
    return header + records + tables
