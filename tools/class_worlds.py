"""Worlds of stubs: of the classes that some class files need, from libraries and a JDK."""
import dataclasses
import hashlib
import os
import re

import class_stubs
from class_sources import NoSource

# The classes that the program knows without a file, so that none of them stands otherwise than in the JDK (`dj_core`).
CORE = [b"java/lang/" + name for name in (
    b"Object Cloneable Comparable CharSequence Class String StringBuilder Throwable Exception RuntimeException Error "
    b"ArithmeticException IndexOutOfBoundsException ArrayStoreException ClassCastException NegativeArraySizeException "
    b"NullPointerException IllegalMonitorStateException IllegalArgumentException ArrayIndexOutOfBoundsException "
    b"CloneNotSupportedException InterruptedException").split()] + [b"java/io/Serializable", b"java/io/IOException"]
PLAIN = re.compile(rb"[\w$-][\w$.-]{0,200}(/[\w$-][\w$.-]{0,200})*")


@dataclasses.dataclass
class Stub:
    """The bytes of a stub, the names right above its class, and those that its members name, but for private ones."""

    content: bytes
    above: list
    named: set


class Library:
    """The classes of several sources, the first that has a name before the others, each read once."""

    def __init__(self, sources):
        self.sources, self.known = sources, {}

    def find(self, name):
        """The stub of the class of this name, or None where no source has one that can be read."""
        if name not in self.known:
            self.known[name] = next(filter(None, (self.stub_in(it, name) for it in self.sources)), None)
        return self.known[name]

    def stub_in(self, source, name):
        """The stub of the class of this name in one source, or None."""
        data = source.find(name)
        try:
            found = data and class_stubs.read(data)
            if not found or found.name != name:
                return None
            named = found.named_by_members(class_stubs.PRIVATE | class_stubs.SYNTHETIC)
            return Stub(class_stubs.stub(found), found.above(), named)
        except class_stubs.Broken:
            return None


def world_of(named, library):
    """What classes need, given the names that each of them mentions, by its own name: stubs by name, and the missing names."""
    needed, missing = {}, set()

    def climb(names):
        """Adds these classes and all above them."""
        left = sorted(names)
        while left:
            name = left.pop()
            if name in named or name in needed or name in missing:
                continue
            found = library.find(name)
            if found is None:
                missing.add(name)
            else:
                needed[name] = found
                left.extend(found.above)

    climb({*CORE, *(name for names in named.values() for name in names)})
    climb({name for found in [*needed.values()] for name in found.named})
    return needed, missing


def stub_path(name):
    """Where the stub of a class lies in its world."""
    if PLAIN.fullmatch(name):
        return f"classes/{os.fsdecode(name)}.class"
    return f"others/{hashlib.sha256(name).hexdigest()}.class"


def write_world(needed, folder, prefix):
    """Writes stubs, by their names, into a folder, and LIST, in which each path stands behind the prefix."""
    if "\n" in prefix:
        raise NoSource(f"{prefix!r}: a list can't have a path with an end of line")
    paths = [stub_path(name) for name in sorted(needed)]
    for name, path in zip(sorted(needed), paths):
        os.makedirs(os.path.dirname(os.path.join(folder, path)), exist_ok=True)
        with open(os.path.join(folder, path), "wb") as file:
            file.write(needed[name].content)
    with open(os.path.join(folder, "LIST"), "w", encoding="utf-8") as file:
        file.writelines(f"{os.path.join(prefix, path)}\n" for path in paths)


def shown(name):
    """A name of a class as a message has it."""
    return name.decode(errors="backslashreplace")
