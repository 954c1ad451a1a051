#!/usr/bin/env python3
"""Compares the search of integer programs with GLPK and CBC on the same ones.

    benches/optima.py              every program of crates/worked_programs/data and examples/ with its target
    benches/optima.py --only WORD  only those whose name has this word in it
    benches/optima.py --seconds N  gives each solver N seconds (20 where nothing is said)
    benches/optima.py --program P  with the program P in place of crates/worked_programs/out/worked_programs

For each program a line says how our search ended, the value of its best point, its splits and its seconds, and beside it the value
and the seconds of `glpsol` and of `cbc` (Debian's packages glpk-utils and coinor-cbc), which read the integer program as the program
writes it; `-` stands where one of them isn't there or didn't end in time. Where a search that was closed and a solver differ in their values,
the line ends with `DIFFERENT`, and the run with status 1.
"""
import argparse
import glob
import os
import re
import shutil
import subprocess
import sys
import tempfile
import time

from checks import ROOT

DATA = os.path.join(ROOT, "crates", "worked_programs", "data")
EXAMPLES = os.path.join(ROOT, "crates", "examples", "data")
PROGRAM = os.path.join(ROOT, "crates", "worked_programs", "out", "worked_programs")


def pairs():
    """Each source with its targets."""
    for source in sorted(glob.glob(os.path.join(DATA, "*.p4"))):
        yield source, source[:-3] + ".toml"
    for source in sorted(glob.glob(os.path.join(EXAMPLES, "*.p4"))):
        for target in sorted(glob.glob(os.path.join(EXAMPLES, "*.toml"))):
            yield source, target


def timed(words, seconds):
    """What a program prints, and its seconds, or nothing where it didn't end in time."""
    begun = time.monotonic()
    try:
        ended = subprocess.run(words, capture_output=True, text=True, timeout=seconds, check=False)
    except subprocess.TimeoutExpired:
        return None, seconds
    return ended.stdout, time.monotonic() - begun


def by_glpk(path, folder, seconds):
    """The value that GLPK finds, `none` where it finds no point, or nothing."""
    if not shutil.which("glpsol"):
        return None, 0.0
    shown = os.path.join(folder, "glpk.txt")
    output, took = timed(["glpsol", "--lp", path, "--tmlim", str(seconds), "-o", shown], seconds + 5)
    if output is None or "TIME LIMIT" in output:
        return None, took
    if "NO PRIMAL FEASIBLE" in output or "NO INTEGER FEASIBLE" in output or "NO FEASIBLE" in output:
        return "none", took
    found = re.search(r"Objective:\s+\S+ = (\S+)", open(shown, encoding="utf-8").read())
    return (int(float(found.group(1))) if found else None), took


def by_cbc(path, seconds):
    """The same of CBC."""
    if not shutil.which("cbc"):
        return None, 0.0
    output, took = timed(["cbc", path, "sec", str(seconds), "ratio", "0", "solve", "quit"], seconds + 5)
    if output is None or "Stopped on time" in output:
        return None, took
    if "infeasible" in output.lower() and "Objective value" not in output:
        return "none", took
    found = re.search(r"Objective value:\s+(\S+)", output)
    return (round(abs(float(found.group(1)))) if found else None), took


def measure(program, source, target, seconds, folder):
    """Prints the line of a source and a target, and answers whether all agree."""
    name = os.path.basename(source)[:-3] + " " + os.path.basename(target)[:-5]
    found, ours = timed([program, "--search", source, target], 10 * seconds)
    words = (found or "").split()
    if not words or words[0] == "refused":
        print(f"{name:38} {' '.join(words) or 'no answer'}", flush=True)
        return True
    path = os.path.join(folder, "model.lp")
    with open(path, "w", encoding="utf-8") as file:
        subprocess.run([program, "--lp", source, target], stdout=file, check=True)
    base = int(open(path, encoding="utf-8").readline().split()[-1])
    value = words[1] if words[0] != "none" else "none"
    splits = words[words.index("splits") + 1]
    line = f"{name:38} {words[0]:10} {value:>12} {splits:>7} {ours:7.2f}"
    same = True
    for other, took in (by_glpk(path, folder, seconds), by_cbc(path, seconds)):
        shown = "-" if other is None else str(other if other == "none" else other + base)
        line += f"  {shown:>12} {took:7.2f}"
        same = same and (words[0] == "unfinished" or shown in ("-", value))
    print(line + ("" if same else "  DIFFERENT"), flush=True)
    return same


def main():
    reader = argparse.ArgumentParser(description="Compares the search with other solvers.")
    reader.add_argument("--only", default="", metavar="WORD", help="only those with this word in their name")
    reader.add_argument("--seconds", type=int, default=20, metavar="N", help="seconds for each solver")
    reader.add_argument("--program", default=PROGRAM, metavar="P", help="the program to run")
    given = reader.parse_args()
    if not os.access(given.program, os.X_OK):
        sys.exit("The program isn't built yet: `rt run` in crates/worked_programs builds it.")
    print(f"{'program and target':38} {'ended':10} {'value':>12} {'splits':>7} {'seconds':>7}  {'GLPK':>12} {'seconds':>7}  {'CBC':>12} {'seconds':>7}")
    same = True
    with tempfile.TemporaryDirectory() as folder:
        for source, target in pairs():
            if given.only in source or given.only in target:
                same = measure(given.program, source, target, given.seconds, folder) and same
    sys.exit(0 if same else 1)


if __name__ == "__main__":
    main()
