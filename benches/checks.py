#!/usr/bin/env python3
"""Times `p4all size` on large sources, each of them typed.

    benches/checks.py                 makes the sources, runs the built program on each, and prints what each took
    benches/checks.py --only WORD     only the sources whose name has this word in it
    benches/checks.py --part N        with every count divided by N
    benches/checks.py --write FOLDER  only writes the sources, each as FOLDER/NAME.p4

Each source stands twice, the second time with twice as much in it. A line says how long the source is, how many seconds
the run took, its greatest memory in megabytes, how many times the seconds of the first one the second took, and what
was printed. A source with `main` is refused as not supported yet behind the check and its units, or for a
unit with too many operators; one of symbols alone is refused behind the bounds of its symbols. Linux and Python 3 are all that is needed; the program is
built by ./p4all (see README.md).
"""
import argparse
import os
import resource
import sys
import tempfile
import time

ROOT = os.path.dirname(os.path.dirname(os.path.abspath(__file__)))
PROGRAM = os.path.join(ROOT, "crates", "p4all", "out", "p4all")
TARGET = os.path.join(ROOT, "crates", "examples", "data", "one_stage.toml")
MOST_BYTES = 16777216
SECONDS_ALLOWED = 300
DIGITS = "0123456789abcdefghijklmnopqrstuvwxyz"


def named(first, number):
    """A name of five letters and digits. No reserved word begins with one of the letters that are given below."""
    digits = ""
    for _ in range(4):
        number, digit = divmod(number, len(DIGITS))
        digits = DIGITS[digit] + digits
    return first + digits


def pipeline(top="", fields="bit<8> v;", metadata="", states=None, actions="", body=""):
    """A source with one header, a parser, a control and a deparser."""
    if states is None:
        states = "state start { pkt.extract(hdr.h); transition accept; }"
    return f"""{top}
header h_t {{ {fields} }}
struct headers_t {{ h_t h; }}
struct meta_t {{ {metadata} }}
parser P(packet_in pkt, out headers_t hdr, inout meta_t meta, inout std_t std) {{
{states}
}}
control C(inout headers_t hdr, inout meta_t meta, inout std_t std) {{
{actions}
apply {{
{body}
}} }}
control D(packet_out pkt, in headers_t hdr) {{ apply {{ pkt.emit(hdr.h); }} }}
Pisa(P(), C(), D()) main;
"""


def constants(count):
    """Constants, and as many assignments, each of which uses one."""
    names = [named("k", i) for i in range(count)]
    return pipeline(
        top="\n".join(f"const bit<8> {name}=1;" for name in names),
        metadata="bit<8> a;",
        body="\n".join(f"meta.a={name};" for name in names),
    )


def entries(count):
    """One table with so many entries of eight keys."""
    keys = " ".join(f"hdr.h.v{i} : {'ternary' if i % 2 else 'exact'};" for i in range(8))
    rows = "\n".join(
        f"({i % 256},{i // 256 % 256}&&&255,{i % 7},_,4,5,6,7) : set({i % 256});" for i in range(count)
    )
    table = f"table t {{ key = {{ {keys} }} actions = {{ set; }} const entries = {{\n{rows}\n}} size = {count}; }}"
    return pipeline(
        fields=" ".join(f"bit<8> v{i};" for i in range(8)),
        actions="action set(bit<8> n) { hdr.h.v0 = n; }\n" + table,
        body="t.apply();",
    )


def states(count):
    """States in a chain, each with a `select` that goes on to the next one."""
    names = ["start"] + [named("q", i) for i in range(1, count)] + ["accept"]
    chain = "\n".join(
        f"state {names[i]} {{ transition select(hdr.h.v) {{ 0: {names[i + 1]}; 1 &&& 3: reject; default: accept; }} }}"
        for i in range(count)
    )
    return pipeline(states=chain)


def actions(count):
    """Actions of 20 statements, each called in 20 loops."""
    names = [named("q", i) for i in range(count)]
    statements = "meta.x[i]=meta.x[i]+1;" * 20
    calls = "\n".join(f"{name}[i]();" for name in names)
    return pipeline(
        top="symbolic int n; assume(n <= 4);",
        metadata="bit<8>[n] x;",
        actions="\n".join(f"action {name}[int i]() {{ {statements} }}" for name in names),
        body="\n".join(f"for (i < n) {{\n{calls}\n}}" for _ in range(20)),
    )


def sizes(symbols, comparisons):
    """Symbols, and comparisons of two of them."""
    names = [named("y", i) for i in range(symbols)]
    declared = "\n".join(f"symbolic int {name};" for name in names)
    compared = []
    for number in range(comparisons):
        turn, i = divmod(number, symbols)
        other = names[(i + 1 + turn * 7) % symbols]
        compared.append(f"assume({names[i]} + {other} <= {1000 + i % 10});")
    return declared + "\n" + "\n".join(compared) + f"\nmaximize({names[0]});\n"


def comparisons(count):
    """Comparisons over 2000 symbols."""
    return sizes(2000, count)


def symbols(count):
    """Symbols, and five times as many comparisons."""
    return sizes(count, 5 * count)


SOURCES = [
    ("constants", constants, 200000),
    ("entries", entries, 100000),
    ("states", states, 20000),
    ("actions", actions, 5000),
    ("comparisons", comparisons, 10000),
    ("symbols", symbols, 2000),
]


def write(make, count, path):
    """Writes a source, by a process of its own: else its memory would count as that of the program."""
    child = os.fork()
    if child == 0:
        status = 1
        try:
            with open(path, "w", encoding="utf-8") as file:
                file.write(make(count))
            status = 0
        finally:
            os._exit(status)
    _, ended = os.waitpid(child, 0)
    if ended != 0:
        sys.exit(f"{path}: not written")


def run(words, output):
    """Runs a program by its words: its seconds, its usage of the processor and of memory, and its status."""
    begun = time.monotonic()
    child = os.fork()
    if child == 0:
        os.dup2(output.fileno(), 1)
        resource.setrlimit(resource.RLIMIT_CPU, (SECONDS_ALLOWED, SECONDS_ALLOWED))
        try:
            os.execv(words[0], words)
        except OSError:
            os._exit(127)
    _, ended, usage = os.wait4(child, 0)
    seconds = time.monotonic() - begun
    output.seek(0)
    return seconds, usage, os.waitstatus_to_exitcode(ended)


def measure(name, make, count, folder):
    """Prints the two lines of a source, and of one with twice as much."""
    before = None
    for factor in (1, 2):
        source = os.path.join(folder, f"{name}_{factor}.p4")
        write(make, count * factor, source)
        size = os.path.getsize(source)
        if size > MOST_BYTES:
            sys.exit(f"{name}: {size} bytes, which is more than a source may have")
        with tempfile.TemporaryFile() as output:
            seconds, usage, status = run([PROGRAM, "size", source, TARGET], output)
            said = output.read(200).decode("utf-8", "replace").strip().replace("\n", " / ")
        memory = usage.ru_maxrss / 1024
        times = "" if before is None else f"{seconds / before:6.2f}"
        print(
            f"{name:11} {count * factor:7} {size:9} {seconds:9.2f} {memory:8.0f} {times:>6}  {said} (status {status})",
            flush=True,
        )
        before = seconds


def main():
    reader = argparse.ArgumentParser(description="Times `p4all size` on large typed sources.")
    reader.add_argument("--only", default="", metavar="WORD", help="only the sources with this word in their name")
    reader.add_argument("--part", type=int, default=1, metavar="N", help="divide every count by N")
    reader.add_argument("--write", metavar="FOLDER", help="only write the sources, and run nothing")
    given = reader.parse_args()
    chosen = [(name, make, max(1, count // given.part)) for name, make, count in SOURCES if given.only in name]
    if given.write:
        os.makedirs(given.write, exist_ok=True)
        for name, make, count in chosen:
            write(make, count, os.path.join(given.write, f"{name}.p4"))
        return
    if not os.access(PROGRAM, os.X_OK):
        sys.exit("The program isn't built yet: run ./p4all size SRC TARGET once.")
    print(f"{'source':11} {'count':>7} {'bytes':>9} {'seconds':>9} {'MB':>8} {'times':>6}  printed")
    with tempfile.TemporaryDirectory() as folder:
        for name, make, count in chosen:
            measure(name, make, count, folder)


if __name__ == "__main__":
    main()
