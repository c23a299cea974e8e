"""Writes a GTIRB file: of about a size, with many small nodes or few large contents; or a program of so many intervals;
or one with two tables of so many entries in all, whose blocks stand in order, in descending order, or all at one
offset."""
import struct
import sys


def varint(value):
    out = bytearray()
    while value >= 128:
        out.append(value & 127 | 128)
        value >>= 7
    out.append(value)
    return bytes(out)


def run(field, *parts):
    payload = b"".join(parts)
    return varint(8 * field + 2) + varint(len(payload)) + payload


def number(field, value):
    return varint(8 * field) + varint(value)


def identifier(kind, index):
    return bytes([kind]) * 8 + index.to_bytes(8, "little")


# A name of some length, as linkers make them.
NAME = b"_ZN4llvm16SmallVectorHeaderINS_9StringRefEE12number%08dB5cxx11ERKNSt7__cxx1112basic_stringIcSt11char_traitsIcEEE"


def many_nodes(size):
    """A symbol and a code block to each 268 bytes, with an edge and an expression: 500,000 nodes in 64 MiB."""
    count = size // 268
    symbols, blocks, expressions, edges = [], [], [], []
    for index in range(count):
        block, symbol = identifier(1, index), identifier(2, index)
        blocks.append(run(2, number(1, 4 * index), run(2, run(1, block), number(3, 4))))
        symbols.append(run(9, run(1, symbol), run(3, NAME % index), run(5, block)))
        expressions.append(run(3, number(1, 4 * index), run(2, run(2, number(1, index), run(2, symbol)), run(4, varint(3)))))
        edges.append(run(2, run(1, block), run(2, identifier(1, (index + 1) % count)), run(5, number(2, 1), number(3, 2))))
    interval = run(5, run(1, identifier(4, 0)), *blocks, *expressions, number(6, 4 * count))
    module = run(3, run(1, identifier(3, 0)), *symbols, run(12, run(1, identifier(5, 0)), run(2, b".text"), interval))
    return run(1, identifier(6, 0)) + module + number(6, 4) + run(7, *edges)


def large_contents(size):
    """Eight intervals of one block each."""
    each = size // 8 - 128
    intervals = [run(5, run(1, identifier(1, index)), run(2, number(1, 0), run(3, run(1, identifier(2, index)), number(3, each))), number(6, each), run(7, bytes([index]) * each))
                 for index in range(8)]
    module = run(3, run(1, identifier(3, 0)), run(12, run(1, identifier(5, 0)), run(2, b".data"), *intervals))
    return run(1, identifier(6, 0)) + module + number(6, 4)


BLOCKS = 100_000


def table(name, type_name, entries):
    return run(17, run(1, name), run(2, run(1, type_name), run(2, struct.pack("<Q", len(entries)), b"".join(entries))))


def program(entries, blocks, is_sorted=True):
    """100,000 blocks, each with a symbol and, where it isn't empty, a branch to the next; two tables of so many entries in
    all, in the order of a sorted map, by identifier and then by offset, or else with keys that ascend in part only."""
    entries //= 2
    text = identifier(4, 0)
    places = [text + struct.pack("<Q", index % (4 * BLOCKS)) for index in range(entries)]
    # Offsets repeat past the interval's size: keys must differ, so later ones name other identifiers.
    places = [place if index < 4 * BLOCKS else identifier(7, index) + place[16:] for index, place in enumerate(places)]
    if is_sorted:
        places.sort(key=lambda place: (place[:16], struct.unpack("<Q", place[16:])))
    sizes = table(b"symbolicExpressionSizes", b"mapping<Offset,uint64_t>", [place + struct.pack("<Q", 8) for place in places])
    comments = table(b"comments", b"mapping<Offset,string>", [place + struct.pack("<Q", 4) + b"seen" for place in places])
    symbols = [run(9, run(1, identifier(2, index)), run(3, b"b%d" % index), run(5, identifier(1, index))) for index in range(BLOCKS)]
    expressions = [run(3, number(1, 4 * index), run(2, run(2, run(2, identifier(2, (index + 1) % BLOCKS))))) for index in range(BLOCKS)]
    contents = struct.pack("<I", 0x14000000) * BLOCKS
    interval = run(5, run(1, text), *blocks, *expressions, number(6, 4 * BLOCKS), run(7, contents))
    section = run(12, run(1, identifier(5, 0)), run(2, b".text"), interval, number(6, 4))
    module = run(3, run(1, identifier(3, 0)), number(6, 7), *symbols, section, comments, sizes, run(18, identifier(1, 0)), number(19, 2))
    return run(1, identifier(6, 0)) + module + number(6, 4)


def block(index, offset, size):
    return run(2, number(1, offset), run(2, run(1, identifier(1, index)), number(3, size)))


def in_order(entries):
    return program(entries, [block(index, 4 * index, 4) for index in range(BLOCKS)])


def unsorted_tables(entries):
    return program(entries, [block(index, 4 * index, 4) for index in range(BLOCKS)], is_sorted=False)


def descending(entries):
    return program(entries, [block(index, 4 * index, 4) for index in reversed(range(BLOCKS))])


def at_one_offset(entries):
    """All blocks but the first are empty and stand at its start."""
    return program(entries, [block(0, 0, 4 * BLOCKS)] + [block(index, 0, 0) for index in range(1, BLOCKS)])


def intervals(count):
    """So many intervals of one NOP each, which is a code block; the first is the entry."""
    each = [run(5, run(1, identifier(4, index)), block(index, 0, 4), number(6, 4), run(7, struct.pack("<I", 0xD503201F))) for index in range(count)]
    section = run(12, run(1, identifier(5, 0)), run(2, b".text"), *each, number(6, 4))
    module = run(3, run(1, identifier(3, 0)), number(6, 7), section, run(18, identifier(1, 0)), number(19, 2))
    return run(1, identifier(6, 0)) + module + number(6, 4)


KINDS = {"nodes": many_nodes, "contents": large_contents, "intervals": intervals, "program": in_order, "unsorted-tables": unsorted_tables, "descending": descending, "one-offset": at_one_offset}

if __name__ == "__main__":
    kind, size, path = sys.argv[1:]
    body = KINDS[kind](int(size))
    with open(path, "wb") as file:
        file.write(b"GTIRB\0\0\4" + body)
