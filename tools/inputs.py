"""The class files of jars and folders, as files in one room, with what each class names.

An archive that unpacks to more than 1 GiB or 100,000 entries, or to more than 200 times its size, is refused, as are names
that leave its folder and damaged entries. Paths in the room begin with the name of the jar or folder.
"""
import dataclasses
import os
import shutil
import zipfile

import class_stubs
from class_sources import MOST, UNREAD, NoSource, why

MOST_BYTES, MOST_ENTRIES, MOST_TIMES = 1 << 30, 100_000, 200
# Below this size nothing is called a bomb.
HARMLESS = 1 << 20


@dataclasses.dataclass
class Input:
    """A class file: its path in the room, its size, its class's name (None where it is broken), how many methods it has,
    the names that it mentions, and whether a file before it has its class."""

    path: str
    size: int
    name: bytes | None = None
    methods: int = 0
    names: frozenset = frozenset()
    is_twice: bool = False


class Room:
    """A folder in which each jar or folder that is given has a place of its own."""

    def __init__(self, folder, goes_on):
        self.folder, self.goes_on = folder, goes_on
        self.bytes = self.entries = 0
        self.paths, self.lost, self.taken = [], [], set()

    def place(self, path):
        """A free name in the room for a jar or a folder."""
        base = os.path.basename(os.path.abspath(path)) or "root"
        base = f"_{base}" if base.startswith("-") else base
        name = next(it for it in (base, *(f"{base}_{at}" for at in range(2, 100_000))) if it not in self.taken)
        self.taken.add(name)
        return name

    def count(self, path, entries, size, packed):
        """Counts what is unpacked, and refuses what is too much."""
        self.bytes, self.entries = self.bytes + size, self.entries + entries
        if self.entries > MOST_ENTRIES:
            raise NoSource(f"{path}: more than {MOST_ENTRIES:,} entries")
        if self.bytes > MOST_BYTES:
            raise NoSource(f"{path}: more than {MOST_BYTES:,} bytes unpacked")
        if size > HARMLESS and size > MOST_TIMES * packed:
            raise NoSource(f"{path} unpacks to more than {MOST_TIMES} times its size")

    def add(self, path):
        """Puts the class files of a jar or a folder into the room."""
        if os.path.isdir(path):
            self.add_folder(path)
        else:
            self.add_jar(path)

    def add_folder(self, path):
        """Has the room lead to a folder, and adds the class files below it."""
        name = self.place(path)
        os.symlink(os.path.abspath(path), os.path.join(self.folder, name))
        for at, folders, files in os.walk(path):
            folders.sort()
            below = os.path.relpath(at, path)
            for file in sorted(it for it in files if it.endswith(".class") and os.path.isfile(os.path.join(at, it))):
                self.keep(os.path.normpath(os.path.join(name, below, file)))

    def keep(self, inside):
        """Adds a file that the program can load: its path is a word, and it isn't too large."""
        if os.fsencode(inside).decode(errors="ignore") != inside:
            self.lose(NoSource(f"{inside!r}: a path that isn't UTF-8"))
        elif os.path.getsize(os.path.join(self.folder, inside)) > MOST:
            self.lose(NoSource(f"{inside}: more than {MOST:,} bytes"))
        else:
            self.paths.append(inside)

    def lose(self, error):
        """Passes a file over, where that was asked for."""
        if not self.goes_on:
            raise error
        self.lost.append(str(error))

    def add_jar(self, path):
        """Unpacks the class files of a jar; raises NoSource where it is a bomb or a name leaves its folder."""
        try:
            jar = zipfile.ZipFile(path)
        except UNREAD as error:
            self.lose(NoSource(f"{path} is no jar that can be read: {why(error)}"))
            return
        with jar:
            entries = jar.infolist()
            self.count(path, len(entries), sum(it.file_size for it in entries), os.path.getsize(path))
            for entry in entries:
                parts = entry.filename.rstrip("/").split("/")
                if entry.filename.startswith("/") or ".." in parts:
                    raise NoSource(f"{path}: the entry {entry.filename!r} leaves the folder")
            name = self.place(path)
            # The entries below META-INF are for later releases alone.
            for entry in sorted(entries, key=lambda it: it.filename):
                if entry.filename.endswith(".class") and not entry.filename.startswith("META-INF/"):
                    self.unpack(path, jar, entry, os.path.normpath(os.path.join(name, entry.filename)))

    def unpack(self, path, jar, entry, inside):
        """Unpacks an entry; its parts are plain, so it lies in the room."""
        target = os.path.join(self.folder, inside)
        try:
            os.makedirs(os.path.dirname(target), exist_ok=True)
            with jar.open(entry) as packed, open(target, "wb") as file:
                shutil.copyfileobj(packed, file)
        except UNREAD as error:
            if isinstance(error, OSError) and error.filename is None and error.errno:
                raise
            self.lose(NoSource(f"{path}: {entry.filename} can't be unpacked: {why(error)}"))
        else:
            self.keep(inside)

    def inputs(self):
        """The class files of the room in the order in which they were added."""
        kept = {}
        for path in self.paths:
            with open(os.path.join(self.folder, path), "rb") as file:
                data = file.read()
            try:
                found = class_stubs.read(data)
            except class_stubs.Broken:
                yield Input(path, len(data))
            else:
                names = frozenset(kept.setdefault(name, name) for name in found.names())
                yield Input(path, len(data), found.name, len(found.methods), names)


class InputSource:
    """The classes of inputs, as a source of library classes."""

    def __init__(self, folder, inputs):
        self.folder = folder
        self.paths = {it.name: it.path for it in inputs if it.name is not None and not it.is_twice}

    def find(self, name):
        """The bytes of the first input with the class of this name, or None."""
        path = self.paths.get(name)
        if path is None:
            return None
        with open(os.path.join(self.folder, path), "rb") as file:
            return file.read()
