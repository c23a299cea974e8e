"""Writes IRs as protoc's text form: a small program, every field set, and a large one."""
import sys


def identifier(number):
    return '"' + "".join(f"\\{byte:03o}" for byte in number.to_bytes(16, "big")) + '"'


def message(name, *lines):
    return [f"{name} {{"] + ["  " + line for part in lines for line in ([part] if isinstance(part, str) else part)] + ["}"]


def entry(name, key, value):
    return message(name, f"key: {key}", message("value", *value))


def words(*values):
    return '"' + "".join(f"\\{byte:03o}" for value in values for byte in value.to_bytes(4, "little")) + '"'


def small():
    """Puts 3 into X0 and exits, in one section, with a symbol and a branch between two blocks."""
    code = words(0xD2800060, 0x14000001, 0xD2800BA8, 0xD4000001)
    block = lambda number, offset: message("blocks", f"offset: {offset}", message("code", f"uuid: {identifier(number)}", "size: 8"))
    interval = message(
        "byte_intervals", f"uuid: {identifier(4)}", block(5, 0), block(6, 8),
        entry("symbolic_expressions", 4, [message("addr_const", f"symbol_uuid: {identifier(7)}")]),
        "size: 16", f"contents: {code}")
    section = message("sections", f"uuid: {identifier(3)}", 'name: ".text"', interval,
                      *[f"section_flags: {flag}" for flag in ("Readable", "Executable", "Loaded", "Initialized")])
    symbol = message("symbols", f"uuid: {identifier(7)}", f"referent_uuid: {identifier(6)}", 'name: "leave"')
    module = message("modules", f"uuid: {identifier(2)}", "isa: 7", 'name: "exit"', symbol, section,
                     f"entry_point: {identifier(5)}", "byte_order: 2")
    edge = message("edges", f"source_uuid: {identifier(5)}", f"target_uuid: {identifier(6)}",
                   message("label", "direct: true", "type: Branch"))
    cfg = message("cfg", edge, f"vertices: {identifier(5)}", f"vertices: {identifier(6)}")
    return [f"uuid: {identifier(1)}", *module, "version: 4", *cfg]


def whole():
    """Every field of every message, with numbers at their ends and members of both kinds."""
    tables = [entry("aux_data", key, ['type_name: "string"', 'data: "\\000\\377"']) for key in ('"b"', '""', '"a\\303\\251"')]
    blocks = [message("blocks", "offset: 18446744073709551615", message("code", f"uuid: {identifier(10)}", "size: 8", "decode_mode: 1")),
              message("blocks", "offset: 1", message("data", f"uuid: {identifier(11)}", "size: 18446744073709551615")),
              message("blocks", "offset: 2")]
    constant = [message("addr_const", "offset: -9223372036854775808", f"symbol_uuid: {identifier(13)}"), "attribute_flags: -2147483648", "attribute_flags: 300"]
    difference = [message("addr_addr", "scale: -1", "offset: 9223372036854775807", f"symbol1_uuid: {identifier(13)}", f"symbol2_uuid: {identifier(14)}")]
    expressions = [entry("symbolic_expressions", 18446744073709551615, constant), entry("symbolic_expressions", 0, difference),
                   entry("symbolic_expressions", 7, []), entry("symbolic_expressions", 128, [message("addr_const")])]
    interval = message("byte_intervals", f"uuid: {identifier(9)}", *blocks, *expressions, "has_address: true",
                       "address: 18446744073709551615", "size: 3", 'contents: "abc"')
    section = message("sections", f"uuid: {identifier(8)}", 'name: "\\342\\202\\254"', interval,
                      *[f"section_flags: {flag}" for flag in ("ThreadLocal", "Section_Undefined", "Writable")])
    symbols = [message("symbols", f"uuid: {identifier(13)}", "value: 0", 'name: "zero"', "at_end: true"),
               message("symbols", f"uuid: {identifier(14)}", f"referent_uuid: {identifier(11)}", 'name: "there"'),
               message("symbols", f"uuid: {identifier(15)}", "value: 18446744073709551615"),
               message("symbols", f"uuid: {identifier(16)}")]
    module = message("modules", f"uuid: {identifier(2)}", 'binary_path: "/bin/all"', "preferred_addr: 4096", "rebase_delta: -1",
                     "file_format: -1", "isa: 7", 'name: "all"', *symbols, section, message("proxies", f"uuid: {identifier(17)}"),
                     *tables, f"entry_point: {identifier(10)}", "byte_order: 2147483647")
    edges = [message("edges", f"source_uuid: {identifier(10)}", f"target_uuid: {identifier(17)}",
                     message("label", "conditional: true", "direct: true", "type: Sysret")),
             message("edges", f"source_uuid: {identifier(10)}", f"target_uuid: {identifier(10)}", message("label")),
             message("edges", f"source_uuid: {identifier(10)}", f"target_uuid: {identifier(11)}")]
    cfg = message("cfg", *edges, f"vertices: {identifier(10)}", f"vertices: {identifier(17)}")
    bare = message("modules", f"uuid: {identifier(18)}")
    return [f"uuid: {identifier(1)}", *module, *bare, *[line for table in tables for line in table], "version: 255", *cfg]


def large(count):
    """So many blocks, symbols, edges and expressions."""
    lines = [f"uuid: {identifier(1)}", "version: 4", "modules {", f"uuid: {identifier(2)}", 'name: "large"']
    for number in range(count):
        lines += message("symbols", f"uuid: {identifier(2 ** 64 + number)}", f"referent_uuid: {identifier(2 ** 65 + number)}", f'name: "symbol{number}"')
    lines += ["sections {", f"uuid: {identifier(3)}", 'name: ".text"', "byte_intervals {", f"uuid: {identifier(4)}"]
    for number in range(count):
        lines += message("blocks", f"offset: {4 * number}", message("code", f"uuid: {identifier(2 ** 65 + number)}", "size: 4"))
    for number in reversed(range(count)):
        lines += entry("symbolic_expressions", 4 * number, [message("addr_const", "offset: -1", f"symbol_uuid: {identifier(2 ** 64 + number)}")])
    lines += [f"size: {4 * count}", f"contents: {words(*[0xD503201F] * count)}", "}", "}", "}", "cfg {"]
    for number in range(count):
        lines += message("edges", f"source_uuid: {identifier(2 ** 65 + number)}", f"target_uuid: {identifier(2 ** 65 + (number + 1) % count)}",
                         message("label", "type: Fallthrough"))
    return lines + ["}"]


if __name__ == "__main__":
    folder = sys.argv[1]
    for name, lines in (("small", small()), ("whole", whole()), ("large", large(20000))):
        with open(f"{folder}/{name}.text", "w") as file:
            file.write("\n".join(lines) + "\n")
