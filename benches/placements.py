#!/usr/bin/env python3
"""Times what is computed of units and placements: the units of large sources, and placements of many instances.

    benches/placements.py              makes the sources and the placements, runs the built program on each
    benches/placements.py --only WORD  only those whose name has this word in it
    benches/placements.py --program P  with the program P in place of crates/worked_programs/out/worked_programs

The program reads a source, cuts it into units twice (once for any number of operators, once for those of the target), prints
them, and decides the placement. A line says how many units and instances there are, how long the source is, how many seconds of
the processor the run took, its greatest memory in megabytes, and what was decided. In a placement no instance stands in an
earlier stage than a later instance, so each pair is looked at. Linux and Python 3 are all that is needed; the program is built by
`rt run` in crates/worked_programs.
"""
import argparse
import os
import sys
import tempfile

from checks import ROOT, named, pipeline, run

PROGRAM = os.path.join(ROOT, "crates", "worked_programs", "out", "worked_programs")
STAGES = 64
TARGET = f"""stages = {STAGES}
memory_bits = 1000000000
stateful = 1024
stateless = 1024
table_bits = 1000000000
ternary_bits = 1000000000
header_bits = 1000000
ops = 64
"""


def loop(units, locations, turns):
    """One loop of calls, each of an action with so many locations that no other names, and a placement of all instances."""
    pairs = [[(named("x", unit * 100 + i), named("y", unit * 100 + i)) for i in range(locations // 2)] for unit in range(units)]
    names = [named("q", unit) for unit in range(units)]
    actions = [
        f"action {name}[int i]() {{ " + " ".join(f"meta.{to}[i] = meta.{of}[i];" for to, of in pairs[unit]) + " }"
        for unit, name in enumerate(names)
    ]
    source = pipeline(
        top="symbolic int n;",
        metadata=" ".join(f"bit<1>[n] {name};" for some in pairs for pair in some for name in pair),
        actions="\n".join(actions),
        body="for (i < n) {\n" + "\n".join(f"{name}[i]();" for name in names) + "\n}",
    )
    count = units * turns
    places = " ".join(f"{i % units}.{i // units}.{STAGES - 1 - i * STAGES // count}" for i in range(count))
    return source, f"sizes n {turns}\nat {places}\n", count


def statements(count, length):
    """So many assignments over 1000 fields, and a source of this length."""
    names = [named("x", i) for i in range(1000)]
    lines = [f"meta.{names[i % 1000]} = meta.{names[(7 * i + 1) % 1000]} + hdr.h.v" for i in range(count)]
    source = pipeline(metadata=" ".join(f"bit<8> {name};" for name in names), body="\n".join(line + ";" for line in lines))
    spaces = " " * ((length - len(source)) // count)
    source = source.replace(" + hdr.h.v;", spaces + " + hdr.h.v;")
    return source, "", 0


def calls(count):
    """So many calls, each of an action of its own."""
    names = [named("q", i) for i in range(count)]
    fields = [named("x", i) for i in range(1000)]
    source = pipeline(
        metadata=" ".join(f"bit<8> {field};" for field in fields),
        actions="\n".join(
            f"action {name}(bit<8> a) {{ meta.{fields[i % 1000]} = meta.{fields[(7 * i + 1) % 1000]} + a; }}"
            for i, name in enumerate(names)
        ),
        body="\n".join(f"{name}({i % 256});" for i, name in enumerate(names)),
    )
    return source, "", 0


SOURCES = [
    ("wide_units", 64, lambda: loop(64, 20, 16)),
    ("one_unit", 1, lambda: loop(1, 2, 20000)),
    ("hundred_units", 100, lambda: loop(100, 2, 200)),
    ("thousand_units", 1000, lambda: loop(1000, 2, 20)),
    ("5000_units", 5000, lambda: loop(5000, 2, 4)),
    ("statements", 20000, lambda: statements(20000, 2 * 1024 * 1024)),
    ("calls", 20000, lambda: calls(20000)),
]


def decided(output):
    """The last line that says what was decided."""
    said = ""
    for line in output:
        if line.startswith((b"fit", b"answer")):
            said = line.decode("utf-8", "replace").strip()
    return said


def measure(program, name, units, make, folder):
    """Prints the line of a source and a placement."""
    source, questions, instances = make()
    words = [program]
    for ending, text in (("p4", source), ("toml", TARGET), ("txt", questions)):
        path = os.path.join(folder, f"{name}.{ending}")
        with open(path, "w", encoding="utf-8") as file:
            file.write(text)
        words.append(path)
    with tempfile.TemporaryFile() as output:
        _, usage, status = run(words, output)
        said = decided(output)
    seconds = usage.ru_utime + usage.ru_stime
    print(
        f"{name:15} {units:6} {instances:9} {len(source):8} {seconds:8.2f} {usage.ru_maxrss / 1024:6.0f}  {said} (status {status})",
        flush=True,
    )


def main():
    reader = argparse.ArgumentParser(description="Times what is computed of units and placements.")
    reader.add_argument("--only", default="", metavar="WORD", help="only those with this word in their name")
    reader.add_argument("--program", default=PROGRAM, metavar="P", help="the program to run")
    given = reader.parse_args()
    if not os.access(given.program, os.X_OK):
        sys.exit("The program isn't built yet: `rt run` in crates/worked_programs builds it.")
    print(f"{'source':15} {'units':>6} {'instances':>9} {'bytes':>8} {'seconds':>8} {'MB':>6}  decided")
    with tempfile.TemporaryDirectory() as folder:
        for name, units, make in SOURCES:
            if given.only in name:
                measure(given.program, name, units, make, folder)


if __name__ == "__main__":
    main()
