#!/usr/bin/env python3
"""measure_runs.py [SHOW]: instructions a statement in whole runs of the show program (default crates/show/out/show), on the programs of
bench/programs.py. What show prints is held to the model's line first. `bench/run` has the Rust, a C loop and times beside them.
"""
import os
import sys
import tempfile

ROOT = os.path.dirname(os.path.dirname(os.path.abspath(__file__)))
sys.path.insert(0, os.path.join(ROOT, "bench"))
import measure  # noqa: E402
import programs  # noqa: E402


def prepared(engine, folder, make, turns):
    path = os.path.join(folder, f"{make.__name__}-{turns}.dat")
    with open(path, "wb") as out:
        out.write(make(turns))
    line, expected = measure.printed(engine, path), programs.model.show(make(turns))
    if line != expected:
        sys.exit(f"measure_runs: show prints {line}, the model says {expected}")
    return measure.Run(path, int(line.split(",")[2]))


def main():
    show = sys.argv[1] if len(sys.argv) > 1 else os.path.join(ROOT, "crates", "show", "out", "show")
    engine = measure.Engine("show", lambda path: [show], True)
    for name, make, short, long in programs.PROGRAMS:
        with tempfile.TemporaryDirectory() as folder:
            runs = [prepared(engine, folder, make, turns) for turns in (short, long)]
            each = measure.instructions(engine, *runs)
        print(f"{name}: {each:.1f} instructions a statement ({runs[0].count} and {runs[1].count} statements)", flush=True)


if __name__ == "__main__":
    main()
