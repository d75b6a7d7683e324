"""What the measurements share: the program, parts of class files, a run, and the line on it."""
import os, pathlib, struct, subprocess, time

ROOT = pathlib.Path(__file__).resolve().parent.parent
PRINT = ROOT / "crates/decompile/out/decompile"
MOST = 65_535
LIST = b"\x00\x00"


def utf8(text):
    return b"\x01" + struct.pack(">H", len(text)) + text.encode()


def attribute(name, content):
    return struct.pack(">HI", name, len(content)) + content


def counted(items):
    return struct.pack(">H", len(items)) + b"".join(items)


def write(path, make):
    """Writes a file in a process of its own, since a program that is started counts the memory of the one that starts it."""
    child = os.fork()
    if child == 0:
        path.write_bytes(make())
        os._exit(0)
    os.waitpid(child, 0)
    return path.stat().st_size


def run(path):
    """The seconds that the program takes, its memory in bytes, its report and its status."""
    began = time.time()
    ran = subprocess.Popen([PRINT, path], stdout=subprocess.DEVNULL, stderr=subprocess.PIPE)
    report = ran.stderr.read()
    _, status, used = os.wait4(ran.pid, 0)
    return time.time() - began, used.ru_maxrss * 1024, report, os.waitstatus_to_exitcode(status)


def tell(make, size, took, memory, report, good):
    """Prints what a file took, and whether that is as it should be."""
    name = make.__name__.replace("_", " ")
    print(f"{name}: {size} bytes, {took}, {memory / 1e6:.1f} MB, {report[:40].decode()!r}{'' if good else ', NOT AS IT SHOULD BE'}")
