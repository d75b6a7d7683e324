"""Runs the program on each worked run of rows/, and compares text, report and status with what is wanted.

usage: python3 checks/rows.py [PROGRAM]

PROGRAM is crates/decompile/out/decompile where none is given. What the files of a row are says rows/README.md. Each
run that differs has a line, the last line is 'N passed, M failed', and the exit status is 1 where one differs or none
was run.
"""
import os, pathlib, shutil, subprocess, sys, tempfile

ROOT = pathlib.Path(__file__).resolve().parent.parent
PROGRAM = ROOT / "crates/decompile/out/decompile"
NOT_OF_THE_RUN = ("words", "text", "report", "status", "sizes")
SECONDS = 120


def place_files(row, folder):
    """Puts the files that the run needs into its folder."""
    shutil.copytree(row, folder, ignore=shutil.ignore_patterns(*NOT_OF_THE_RUN), dirs_exist_ok=True)
    sizes = row / "sizes"
    for line in sizes.read_text().splitlines() if sizes.exists() else ():
        name, size = line.split()
        with open(folder / name, "wb") as file:
            file.truncate(int(size))


def shown(given, wanted):
    """Both, from a little before the first byte that differs."""
    same = len(os.path.commonprefix([given, wanted]))
    part = slice(max(0, same - 20), same + 60)
    return f"{given[part]!r} and not {wanted[part]!r}, which differ from byte {same} on"


def differences(program, row):
    """What the run of a row wrote, or ended with, that isn't what is wanted."""
    words = (row / "words").read_text().splitlines()
    with tempfile.TemporaryDirectory() as room:
        folder = pathlib.Path(room) / "run"
        place_files(row, folder)
        how = {"cwd": folder, "stdin": subprocess.DEVNULL, "capture_output": True, "timeout": SECONDS}
        try:
            ran = subprocess.run([program, *words], **how)
        except subprocess.TimeoutExpired:
            return [f"no end after {SECONDS} seconds"]
    given = {"text": ran.stdout, "report": ran.stderr, "status": b"%d\n" % ran.returncode}
    wanted = {name: (row / name).read_bytes() for name in given}
    return [f"{name} {shown(given[name], wanted[name])}" for name in given if given[name] != wanted[name]]


def main(words):
    program = pathlib.Path(words[0] if words else PROGRAM).resolve()
    rows = sorted(it for it in (ROOT / "rows").iterdir() if it.is_dir())
    if not rows or not program.is_file():
        print("there is no row" if not rows else f"there is no program {program}")
        return 1
    failed = 0
    for row in rows:
        found = differences(program, row)
        if found:
            failed += 1
            print(f"{row.name}: {'; '.join(found)}")
    print(f"{len(rows) - failed} passed, {failed} failed")
    return 1 if failed else 0


if __name__ == "__main__":
    sys.exit(main(sys.argv[1:]))
