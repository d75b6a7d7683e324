"""Where classes come from: folders, jars, and JDKs from 8 on, by their runtime image, their rt.jar or their ct.sym.

Each source has `find(name)`, which answers the bytes of the class file of that name, or None. `NoSource` says why something
is no source. An image has its own order of bytes; what is read of it is what JDK 9 and all since then have (version 1.0).
"""
import mmap
import os
import shutil
import struct
import zipfile
import zlib

# A class file of more bytes than the program takes is none of ours.
MOST = 16_777_216
# What zipfile raises on archives that are none, are cut off, or are damaged.
UNREAD = (OSError, zipfile.BadZipFile, zlib.error, RuntimeError, NotImplementedError, EOFError, ValueError)


class NoSource(Exception):
    """Why something is no source of classes."""


def why(error):
    """What went wrong, in words."""
    if isinstance(error, OSError) and error.strerror:
        return f"{error.filename}: {error.strerror}" if error.filename else error.strerror
    return str(error)


class FolderSource:
    """Class files below a folder, each where its name says."""

    def __init__(self, folder):
        self.folder = os.fsencode(folder)

    def find(self, name):
        """The bytes of the file where the class of this name lies, or None; NoSource where it can't be read."""
        if any(segment in (b"", b".", b"..") for segment in name.split(b"/")) or b"\0" in name:
            return None
        try:
            with open(os.path.join(self.folder, name + b".class"), "rb") as file:
                return file.read(MOST + 1)
        except (FileNotFoundError, NotADirectoryError, IsADirectoryError):
            return None
        except OSError as error:
            raise NoSource(f"{why(error)}") from None


def place_in_jar(name):
    """The name of the class of an entry of a jar, None where it is no class, or one for later releases alone."""
    return name.removesuffix(".class") if name.endswith(".class") and not name.startswith("META-INF/") else None


class JarSource:
    """The classes of a jar: `place` tells the name of the class of an entry, or None."""

    def __init__(self, path, place=place_in_jar):
        try:
            self.jar = zipfile.ZipFile(path)
        except UNREAD as error:
            raise NoSource(f"{path} is no jar that can be read: {why(error)}") from None
        self.path, self.entries = path, {}
        for entry in self.jar.infolist():
            name = place(entry.filename)
            if name is not None:
                self.entries.setdefault(os.fsencode(name), entry)

    def find(self, name):
        """The bytes of the entry of the class of this name, or None; NoSource where it can't be read."""
        entry = self.entries.get(name)
        if entry is None or entry.file_size > MOST:
            return None
        try:
            return self.jar.read(entry)
        except UNREAD as error:
            raise NoSource(f"{self.path}: {entry.filename} can't be read: {why(error)}") from None


def place_in_symbols(letter):
    """Where the classes of a release lie in a ct.sym: below a folder of the letters of releases, and from JDK 12 on a module."""

    def place(name):
        """The name of the class of an entry, or None."""
        folder, _, rest = name.partition("/")
        if letter not in folder or not rest.endswith(".sig"):
            return None
        first, _, below = rest.partition("/")
        return (below if "." in first else rest).removesuffix(".sig")

    return place


class ImageSource:
    """The classes of a JDK's lib/modules (its jimage), those of java.base first."""

    # What the attributes of a location are (their order in the format).
    END, MODULE, PARENT, BASE, EXTENSION, OFFSET, COMPRESSED, UNCOMPRESSED = range(8)

    def __init__(self, path):
        try:
            with open(path, "rb") as file:
                self.data = mmap.mmap(file.fileno(), 0, access=mmap.ACCESS_READ)
            self.path, self.classes = path, {}
            self.read_locations()
        except (OSError, ValueError, struct.error, IndexError) as error:
            raise NoSource(f"{path} is no runtime image that can be read: {why(error)}") from None

    def read_locations(self):
        """Finds the tables of the image, and the location of each class."""
        order = "<" if self.data[:1] == b"\xda" else ">"
        magic, _, _, _, length, places, texts = struct.unpack_from(order + "7I", self.data)
        if magic != 0xCAFEDADA:
            raise ValueError("it begins otherwise")
        at = 28 + 4 * length
        offsets = struct.unpack_from(f"{order}{length}I", self.data, at)
        self.places = at + 4 * length
        self.texts = self.places + places
        self.resources = self.texts + texts
        strings = self.data[self.texts:self.resources]
        for offset in offsets:
            self.add(self.location(self.places + offset), strings)

    def location(self, at):
        """The attributes of a location by their kinds (0 where one is missing)."""
        found = [0] * 8
        while self.data[at] >> 3:
            kind, size = self.data[at] >> 3, (self.data[at] & 7) + 1
            found[kind] = int.from_bytes(self.data[at + 1:at + 1 + size], "big")
            at += 1 + size
        return found

    def add(self, found, strings):
        """Keeps a location that is a class of a module."""
        at = lambda kind: strings[found[kind]:strings.index(b"\0", found[kind])]
        if at(self.EXTENSION) == b"class" and at(self.MODULE) not in (b"", b"modules", b"packages"):
            name = at(self.PARENT) + b"/" + at(self.BASE) if found[self.PARENT] else at(self.BASE)
            if name not in self.classes or at(self.MODULE) == b"java.base":
                self.classes[name] = found

    def find(self, name):
        """The bytes of the resource of the class of this name, or None; NoSource where it is compressed."""
        found = self.classes.get(name)
        if found is None or found[self.UNCOMPRESSED] > MOST:
            return None
        if found[self.COMPRESSED]:
            raise NoSource(f"{self.path} is compressed: name a release of its ct.sym by --release")
        start = self.resources + found[self.OFFSET]
        return self.data[start:start + found[self.UNCOMPRESSED]]


def jdk_home(given):
    """The home of the JDK: the one given, else that of JAVA_HOME, else that of the java on the PATH."""
    java = shutil.which("java")
    home = given or os.environ.get("JAVA_HOME") or (java and os.path.dirname(os.path.dirname(os.path.realpath(java))))
    if not home:
        raise NoSource("there is no JDK: name one by --jdk")
    return home


def release_source(home, release):
    """The classes of an older release that a JDK's ct.sym has."""
    path = os.path.join(home, "lib", "ct.sym")
    if not 7 <= release <= 35:
        raise NoSource(f"there is no release {release} in a ct.sym")
    letter = str(release) if release < 10 else chr(ord("A") + release - 10)
    source = JarSource(path, place_in_symbols(letter))
    if source.find(b"java/lang/Object") is None:
        raise NoSource(f"{path} doesn't have release {release}")
    return source


def jdk_source(given, release=None):
    """The classes of a JDK, or of a release in its ct.sym; raises NoSource where there are none."""
    home = jdk_home(given)
    if release is not None:
        return release_source(home, release)
    if os.path.isfile(os.path.join(home, "lib", "modules")):
        source = ImageSource(os.path.join(home, "lib", "modules"))
    else:
        jars = [os.path.join(home, *it) for it in (("jre", "lib", "rt.jar"), ("lib", "rt.jar"))]
        jar = next(filter(os.path.isfile, jars), None)
        source = JarSource(jar) if jar else FolderSource(home)
    if source.find(b"java/lang/Object") is None:
        raise NoSource(f"{home} is no JDK: it has no java/lang/Object in lib/modules, rt.jar or class files")
    return source


def source_of(path):
    """The classes of a folder or a jar; raises NoSource where it is neither."""
    return FolderSource(path) if os.path.isdir(path) else JarSource(path)
