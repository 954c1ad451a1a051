#!/usr/bin/env python3
"""Times the bounds of sizes and the integer program of large programs.

    benches/models.py              makes the sources, and runs the built program on each
    benches/models.py --only WORD  only those whose name has this word in it
    benches/models.py --program P  with the program P in place of crates/worked_programs/out/worked_programs

The program reads a source, cuts it into units, finds their bounds, writes their integer program, and prints how many variables and
rows it has. A line says this, how many seconds of the processor the run took, and its greatest memory in megabytes. Linux and
Python 3 are all that is needed; the program is built by `rt run` in crates/worked_programs.
"""
import argparse
import os
import sys
import tempfile

from checks import ROOT, named, pipeline, run

PROGRAM = os.path.join(ROOT, "crates", "worked_programs", "out", "worked_programs")


def target(stages):
    """A target with room for every instance."""
    return f"""stages = {stages}
memory_bits = 1000000
stateful = 1024
stateless = 1024
table_bits = 1000000
ternary_bits = 1000000
header_bits = 1000000
ops = 64
"""


def chains(turns):
    """A register of symbolic length at each index of a loop, and four units that carry on what is read there."""
    return pipeline(
        top=f"symbolic int n; symbolic int c; assume(n <= {turns}); assume(c <= 1000); maximize(n + c); Register<bit<32>>(c)[n] kept;",
        fields="bit<32> v;",
        metadata="bit<32>[n] place; " + " ".join(f"bit<32>[n] x{i};" for i in range(5)),
        actions="action count[int i]() { meta.place[i] = hash(i, hdr.h.v, c); meta.x0[i] = kept[i].read(meta.place[i]);"
        + " kept[i].write(meta.place[i], meta.x0[i] + 1); }\n"
        + "\n".join(f"action go{i}[int i]() {{ meta.x{i}[i] = meta.x{i - 1}[i] + 1; }}" for i in range(1, 5)),
        body="for (i < n) {\ncount[i]();\n" + "\n".join(f"go{i}[i]();" for i in range(1, 5)) + "\n}",
    )


def apart(units, turns):
    """Units of one loop, none of which names what another does."""
    names = [named("q", unit) for unit in range(units)]
    fields = [(named("x", unit), named("y", unit)) for unit in range(units)]
    return pipeline(
        top=f"symbolic int n; assume(n <= {turns}); maximize(n);",
        metadata=" ".join(f"bit<1>[n] {field};" for pair in fields for field in pair),
        actions="\n".join(f"action {name}[int i]() {{ meta.{to}[i] = meta.{of}[i]; }}" for name, (to, of) in zip(names, fields)),
        body="for (i < n) {\n" + "\n".join(f"{name}[i]();" for name in names) + "\n}",
    )


SOURCES = [
    ("chains", 64, lambda: chains(200)),
    ("half_the_chains", 64, lambda: chains(100)),
    ("one_unit", 64, lambda: apart(1, 1000)),
    ("thousand_units", 64, lambda: apart(1000, 1)),
    ("four_stages", 4, lambda: apart(100, 10)),
]


def measure(program, name, stages, make, folder):
    """Prints the line of a source on a target with so many stages."""
    words = [program, "--count"]
    for ending, text in (("p4", make()), ("toml", target(stages))):
        path = os.path.join(folder, f"{name}.{ending}")
        with open(path, "w", encoding="utf-8") as file:
            file.write(text)
        words.append(path)
    with tempfile.TemporaryFile() as output:
        _, usage, status = run(words, output)
        counted = " ".join(output.read().decode("utf-8", "replace").split())
    seconds = usage.ru_utime + usage.ru_stime
    print(f"{name:16} {stages:6} {seconds:8.2f} {usage.ru_maxrss / 1024:6.0f}  {counted} (status {status})", flush=True)


def main():
    reader = argparse.ArgumentParser(description="Times bounds and integer programs.")
    reader.add_argument("--only", default="", metavar="WORD", help="only those with this word in their name")
    reader.add_argument("--program", default=PROGRAM, metavar="P", help="the program to run")
    given = reader.parse_args()
    if not os.access(given.program, os.X_OK):
        sys.exit("The program isn't built yet: `rt run` in crates/worked_programs builds it.")
    print(f"{'source':16} {'stages':>6} {'seconds':>8} {'MB':>6}  integer program")
    with tempfile.TemporaryDirectory() as folder:
        for name, stages, make in SOURCES:
            if given.only in name:
                measure(given.program, name, stages, make, folder)


if __name__ == "__main__":
    main()
