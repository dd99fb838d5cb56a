#!/usr/bin/env python3
"""Writes the named character references of HTML for the crates html_entities and html_tokenizer.

The names and their code points come from Python's html.entities. They are written twice: as the
constant of the program and as the definition that its contract speaks of. The prover compares
the two, and shows that the rows make a table. A third file says where the characters of each row lie
in the constant's block, which the prover computes. Two more are the indexes of the names of these
rows and of the built-in ones, by which a name is found: see the crate hesc_table, src/index.rt.
The names that need no `;` are written twice, too.

With --by-character, it reads rows `NAME CODE..` from standard input and writes them as the list of
a test. The list that is checked in is PHP's, which goes from characters to names:

    php -r 'foreach (get_html_translation_table(HTML_ENTITIES, ENT_QUOTES | ENT_HTML5) as $c => $n)
      echo substr($n, 1, -1), " ", implode(" ", unpack("N*", iconv("UTF-8", "UTF-32BE", $c))), "\\n";' |
      tools/named_references.py --by-character
"""
import html.entities
import pathlib
import re
import sys

CRATES = pathlib.Path(__file__).resolve().parent.parent / "crates"
BY = "Written by tools/named_references.py; not edited by hand."


def rows():
    """The names that end in `;`, without it, by rising bytes, each with its code points."""
    named = {name[:-1]: [ord(c) for c in value] for name, value in html.entities.html5.items() if name.endswith(";")}
    return sorted(named.items())


def legacy():
    """The names that need no `;`, by rising bytes."""
    return sorted(name for name in html.entities.html5 if not name.endswith(";"))


def escaped(codes):
    return "".join(f"\\u{{{code:X}}}" for code in codes)


def constant(named):
    lines = [
        f"//! The named character references of HTML. {BY}",
        "",
        "/// The names of the HTML Standard, 13.5, that end in `;`, by rising bytes and without the `;`, each",
        "/// with its one or two characters.",
        f"pub const ROWS: [(&[u8], &str); {len(named)}] = [",
        *[f'    (b"{name}", "{escaped(codes)}"),' for name, codes in named],
        "];",
    ]
    return lines


def definition(named):
    lines = [
        "-- The named character references of HTML: each name with the code points of its characters, in the order of the bytes of the names.",
        f"-- HTML Standard, 13.5 Named character references, the names that end in `;`. {BY}",
        "use Rattle.std.specs.Prelude.{ℕ, List, [], ◌∷◌, ◌++◌, codes, encode_utf8}",
        "use Rattle.hesc_specs.specs.References.Rows.{Row}",
        "use Rattle.hesc_table.specs.NamedRows.{named}",
        "",
        "-- the row of a name and two code points",
        "abbrev pub named_pair : List ℕ → ℕ → ℕ → Row",
        "named_pair name first second = (name, encode_utf8 first ++ encode_utf8 second)",
        "",
        "abbrev pub named_references : List Row",
        "named_references =",
    ]
    for at, (name, points) in enumerate(named):
        word = "named" if len(points) == 1 else "named_pair"
        lines.append(f"    {'∷ ' if at else ''}{word} (codes \"{name}\") {' '.join(f'0x{it:X}' for it in points)}")
    return [*lines, "    ∷ []"]


def wrapped(items):
    lines, line = [], "   "
    for item in items:
        if len(line) + len(item) > 110:
            lines.append(line)
            line = "   "
        line += f" {item} ∷"
    return [*lines, f"{line} []"]


def places(named):
    """The characters of all rows as the compiler keeps them, each text once, and where each row's lie."""
    texts, found, spans = b"", {}, []
    for _, points in named:
        text = "".join(map(chr, points)).encode()
        if text not in found:
            found[text] = len(texts)
            texts += text
        spans.append(f"({found[text]}, {len(text)})")
    return [
        f"-- The bytes of the values of all rows, each value once, and where each row's value lies among them. {BY}",
        "use Rattle.std.proofs.Common.{ℕ, List, [], ◌∷◌}",
        "use borrow.Rule.StaticParts.{Span}",
        "",
        "abbrev pub texts : List ℕ",
        "texts =",
        *wrapped([str(byte) for byte in texts]),
        "",
        "abbrev pub spans : List Span",
        "spans =",
        *wrapped(spans),
    ]


def built_in_names():
    """The names of the built-in table, in order, as bytes."""
    source = (CRATES / "hesc_table/src/entities.rt").read_text(encoding="utf-8")
    return [name.encode() for name in re.findall(r'^    \(b"(\w+)", ', source, re.MULTILINE)]


def hash_of(name):
    """The hash of a name as src/index.rt of the crate hesc_table computes it."""
    count = 8 if len(name) >= 8 else 4 if len(name) >= 4 else 2
    first = int.from_bytes(name[:count], "little")
    last = int.from_bytes(name[-count:], "little")
    scatter = 0x9E3779B97F4A7C15
    return (first + last * scatter + len(name)) * scatter % 2**64


def place(count, number):
    return (number % 2**64 >> 48) & (count - 1)


def index_of(names, seed_count, slot_count):
    """Seeds by which each name has a slot of its own, and the row in each slot: the groups with
    most names are placed first, each by the first seed that leads to free slots."""
    groups = [[] for _ in range(seed_count)]
    for row, name in enumerate(names):
        groups[place(seed_count, hash_of(name))].append((hash_of(name), row))
    seeds, slots = [0] * seed_count, {}
    for group in sorted(range(seed_count), key=lambda group: -len(groups[group])):
        for seed in range(2**16):
            placed = {place(slot_count, number * seed): row for number, row in groups[group]}
            if len(placed) == len(groups[group]) and not placed.keys() & slots.keys():
                break
        else:
            sys.exit(f"no seed places the group {group}")
        seeds[group] = seed
        slots.update(placed)
    return seeds, [slots.get(slot, 0) for slot in range(slot_count)]


def found(index, name):
    seeds, slots = index
    number = hash_of(name)
    return slots[place(len(slots), number * seeds[place(len(seeds), number)])]


def filled(items):
    lines, line = [], "   "
    for item in items:
        if len(line) + len(item) + 2 > 99:
            lines.append(line)
            line = "   "
        line += f" {item},"
    return [*lines, line]


def index(names, seed_count, slot_count):
    made = index_of(names, seed_count, slot_count)
    for row, name in enumerate(names):
        if found(made, name) != row:
            sys.exit(f"the index does not find {name.decode()}")
    seeds, slots = made
    return [
        "//! The index of the names of this crate's rows.",
        f"//! {BY}",
        "",
        f"pub(crate) static SEEDS: [u16; {len(seeds)}] = [",
        *filled([str(seed) for seed in seeds]),
        "];",
        "",
        f"pub(crate) static SLOTS: [u16; {len(slots)}] = [",
        *filled([str(slot) for slot in slots]),
        "];",
    ]


def legacy_constant(names):
    return [
        "//! The names of character references that need no `;`.",
        f"//! {BY}",
        "",
        "/// The names of the HTML Standard, 13.5, that do not end in `;`, by rising bytes.",
        f"pub(crate) static LEGACY_NAMES: [&[u8]; {len(names)}] = [",
        *filled([f'b"{name}"' for name in names]),
        "];",
    ]


def legacy_definition(names):
    return [
        "-- The names of character references that need no `;`, in the order of their bytes.",
        f"-- HTML Standard, 13.5 Named character references, the names that do not end in `;`. {BY}",
        "use Rattle.std.specs.Prelude.{ℕ, List, [], ◌∷◌, codes}",
        "",
        "abbrev pub legacy_names : List (List ℕ)",
        "legacy_names =",
        *wrapped([f'codes "{name}"' for name in names]),
    ]


def by_character(text):
    named = [(line.split()[0], [int(it) for it in line.split()[1:]]) for line in text.splitlines()]
    named.sort(key=lambda row: (row[1], row[0]))
    lines, line = [], "    "
    for name, points in named:
        entry = f"{'+'.join(f'{point:04X}' for point in points)} {name},"
        if len(line) + len(entry) > 98:
            lines.append(line + "\\")
            line = "     "
        line += entry
    return [
        "//! Names by their characters, from a second source: PHP's table for HTML 5.",
        f"//! {BY}",
        "",
        f"/// The code points of {len(named)} characters, each with a name of it, by rising code points.",
        'pub static NAMES: &str = "\\',
        *lines,
        f'{line[:-1]}";',
    ]


def write(path, lines):
    (CRATES / path).write_text("\n".join(lines) + "\n", encoding="utf-8")


if __name__ == "__main__":
    if sys.argv[1:] == ["--by-character"]:
        write("test_operations/src/tests/entities/by_character.rt", by_character(sys.stdin.read()))
    elif sys.argv[1:]:
        sys.exit("usage: named_references.py [--by-character]")
    else:
        write("html_entities/src/rows.rt", constant(rows()))
        write("html_entities/specs/NamedReferences.antt", definition(rows()))
        write("html_entities/proofs/RowPlaces.antt", places(rows()))
        write("html_tokenizer/src/values/legacy_names.rt", legacy_constant(legacy()))
        write("html_tokenizer/specs/Tokenizer/Values/LegacyNames.antt", legacy_definition(legacy()))
        write("html_entities/src/index.rt", index([name.encode() for name, _ in rows()], 512, 4096))
        write("hesc_table/src/index/built_in.rt", index(built_in_names(), 32, 128))
