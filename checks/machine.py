"""Compares what the machine shows of code with what the JVM does, on methods that have every kind of instruction it runs.

usage: python3 checks/machine.py PROGRAM [CALLS [SEED]], with the built runs_check as PROGRAM.
Static methods of a class that javac makes (`machine_sources.py`) and of one made here (`machine_codes.py`) are called, CALLS
times in all (100,000), with numbers mostly around the limits of their types. What the machine asks is answered from a heap
(`runs.py`); calls within the class are runs of their own. Results with the elements of arrays, and exceptions, have to be
those of the JVM. The exit status is 1 where one isn't.
"""
import pathlib, subprocess, sys, tempfile
import machine_codes, machine_sources
from asking import ask_each, end, given
from random_methods import letters
from runs import Program, number, word_of

FOLDER = pathlib.Path(__file__).parent
STEPS = 20_000


def compile_in(folder):
    (folder / "M.java").write_text(machine_sources.source())
    (folder / "H.class").write_bytes(machine_codes.class_file())
    words = ["javac", "-nowarn", "-Xlint:none", "--release", "8", "-d", folder, folder / "M.java", FOLDER / "Runs.java"]
    subprocess.run(words, check=True, stderr=subprocess.DEVNULL)


def main(words):
    path, count, rng = given(words, 100_000)
    with tempfile.TemporaryDirectory() as room:
        folder = pathlib.Path(room)
        compile_in(folder)
        machine = Program(path, "machine", STEPS)
        for name in "MH":
            machine.add("class", (folder / f"{name}.class").read_bytes(), f"L{name};")
        methods = [(owner[1:-1], name, letters(descriptor)[0], place) for (owner, name, descriptor), place in machine.places.items() if name.startswith("t_")]
        calls = [(owner, name, kinds, place, [number(rng, kind) for kind in kinds]) for n in range(count) for owner, name, kinds, place in [methods[n % len(methods)]]]
        lines = [" ".join([f"{owner}.{name}", *map(str, values)]) for owner, name, _, _, values in calls]
        wrong = []
        for line, (*_, kinds, place, values), wanted in zip(lines, calls, ask_each(["java", "-Xshare:auto", "-cp", room, "Runs"], lines)):
            machine.clear()
            found = machine.ended(place, [word_of(kind, value) for kind, value in zip(kinds, values)])
            if found != wanted:
                wrong.append((line, wanted, found))
    print(f"{len(methods)} methods, {count} calls, {machine.asked} runs")
    return end("calls that end otherwise than in the JVM", wrong)


if __name__ == "__main__":
    sys.exit(main(sys.argv[1:]))
