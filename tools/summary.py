"""What a report of the program comes to: how many classes and methods there are, and why some aren't printed."""
import collections
import re

# Where the files of libraries lie, seen from the classes.
WORLDS = b"../worlds/"


def kinds_of(lines):
    """Counts of what lines of a report tell: of classes, fields, methods and files of libraries, each by kind and cause."""
    counts = {place: collections.Counter() for place in ("classes", "fields", "methods", "libraries")}
    for line in lines:
        words = line.rstrip(b"\n").split(b" ")
        if len(words) < 2:
            continue
        kind = words[1].decode(errors="replace")
        cause = f"{kind} {words[2].decode(errors='replace')}" if len(words) > 2 and kind not in ("notyet", "bad") else kind
        counts[place_of(words)][cause] += 1
    return counts


def place_of(words):
    """Whether the words of a line are on a class, a field, a method or a library file: a class's name has no dot."""
    if words[0].startswith(WORLDS):
        return "libraries"
    if words[1] in (b"broken", b"clash") or b"." not in words[0]:
        return "classes"
    return "methods" if re.search(rb"\)[^:]*$", words[0]) else "fields"


def refused_classes(lines):
    """The names of the classes that are refused as a whole, as the report writes them."""
    return {line.split(b" ")[0] for line in lines if b" refused " in line and b"." not in line.split(b" ")[0]}


def reported(text):
    """A path or name as the report writes it: a UTF-16 unit that isn't from 33 to 126, or is the backslash, as \\u and digits."""
    units = memoryview(text.encode("utf-16-le", "surrogatepass")).cast("H")
    return "".join(chr(it) if 33 <= it <= 126 and it != 92 else f"\\u{it:04x}" for it in units).encode()


def reported_name(name):
    """The name of a class as the report writes it, from the text of the class file (JVMS 4.4.7)."""
    return reported(name.replace(b"\xc0\x80", b"\0").decode("utf-8", "surrogatepass"))


def summary_of(lines, inputs):
    """The lines of the summary of a report on inputs."""
    counts, refused = kinds_of(lines), refused_classes(lines)
    classes = len(inputs) - sum(counts["classes"].values())
    hidden = sum(it.methods for it in inputs if it.name is not None and reported_name(it.name) in refused)
    unread = sum(it.methods for it in inputs if it.is_twice)
    methods = sum(it.methods for it in inputs)
    printed = methods - hidden - unread - sum(counts["methods"].values())
    yield f"classes: {len(inputs)}, printed {classes}{share(classes, len(inputs))}"
    yield from listed(counts["classes"])
    yield f"methods: {methods}, printed {printed}{share(printed, methods)}"
    yield from listed(collections.Counter({"in classes that aren't printed": hidden + unread}) + counts["methods"])
    for place, label in (("fields", "fields that aren't printed"), ("libraries", "files of libraries that aren't of the world")):
        if counts[place]:
            yield f"{label}: {sum(counts[place].values())}"
            yield from listed(counts[place])


def share(part, whole):
    """A part in hundredths, in brackets."""
    return f" ({100 * part / whole:.1f} %)" if whole else ""


def listed(counts):
    """A line for each kind, the most frequent first."""
    for kind, count in sorted(counts.items(), key=lambda it: (-it[1], it[0])):
        yield f"  {count} {kind}"
