"""Compares files_check with a second reading of command lines on 200,000 random lists of words, most of them near the grammar.

usage: python3 checks/words.py PROGRAM [COUNT [SEED]], with the built files_check as PROGRAM.
The second reading is written from what clap documents of its builder. Each list that differs has a line, and then the
exit status is 1.
"""
import collections, sys
from asking import ask_each, end, given

VALUES = ["C.class", "D.class", "L", "x", "a/b.class", "1", "7", "1000", "1001", "0", "01", "+1", "1_0", "", "-", "--", "-1",
          "-x", "--x", "=", "a=b", "--raw", "--world", "--make", "\u00e9", "make", "help"]
OPTIONS = ["--raw", "--world", "--make", "--world=L", "--make=1", "--make=", "--world=", "--raw=true", "--raw=", "--wor", "--make1",
           "---raw", "--Raw", "-raw", "-r", "--help", "-h", "--version", "-V", "--world=--raw", "--make=0", "--", "--=x", "--CLASS"]


class Refused(Exception):
    """The command doesn't take the words."""


def take(words):
    """What clap finds in the words behind the program's name: CLASS words, and the value of each option and flag."""
    classes, once = [], {}

    def use(name, value):
        if name in once:
            raise Refused
        once[name] = value

    words = collections.deque(words)
    while words:
        word = words.popleft()
        if word == "--":
            return classes + list(words), once
        if word.startswith("--"):
            name, equals, value = word[2:].partition("=")
            if name == "raw":
                if equals:
                    raise Refused
                use(name, True)
            elif name in ("world", "make"):
                if not equals:
                    # What looks like a flag is no value, but `-` alone is one.
                    if not words or (words[0].startswith("-") and words[0] != "-"):
                        raise Refused
                    value = words.popleft()
                use(name, value)
            else:
                raise Refused
        elif word.startswith("-") and word != "-":
            raise Refused
        else:
            classes.append(word)
    return classes, once


def reading(words):
    """What the words ask for, as files_check tells it."""
    try:
        classes, once = take(words[1:])
    except Refused:
        return "usage Words"
    if "make" in once:
        if classes or "world" in once or "raw" in once:
            return "usage TwoOrders"
        text = once["make"]
        plain = text.isascii() and text.isdigit() and text[0] != "0" and len(text) <= 4 and int(text) <= 1000
        return f"make {text}" if plain else "usage Number"
    if not classes:
        return "usage NoFile"
    return "files" + "".join(f" <{it}>" for it in classes) + (f" world <{once['world']}>" if "world" in once else "") + (" raw" if "raw" in once else "")


def near_the_grammar(rng):
    """A line as the command takes it, now and then with a word that is doubled, cut, dropped or put elsewhere."""
    if rng.random() < 0.1:
        return rng.choice([["--make", rng.choice(VALUES)], ["--make=" + rng.choice(VALUES)]])
    groups = [["--raw"], ["--world", rng.choice(VALUES)], ["--make", rng.choice(VALUES)]]
    rng.shuffle(groups)
    chosen = groups[: rng.choice([0, 0, 1, 1, 2, 3])]
    split = rng.randrange(len(chosen) + 1)
    flat = lambda parts: [word for part in parts for word in part]
    words = flat(chosen[:split]) + [rng.choice(VALUES) for _ in range(rng.choice([0, 0, 1, 1, 2, 3]))] + flat(chosen[split:])
    for _ in range(rng.choice([0, 0, 0, 1, 1, 2])):
        at = rng.randrange(len(words) + 1)
        what = rng.randrange(5)
        if what == 0:
            words.insert(at, rng.choice(OPTIONS))
        elif what == 1:
            words.insert(at, rng.choice(VALUES))
        elif at < len(words):
            if what == 2:
                words.insert(at, words[at])
            elif what == 3:
                del words[at]
            elif words[at]:
                words[at] = words[at][: rng.randrange(len(words[at]))]
    return words


def any_words(rng):
    """Words of any kind, in any order."""
    return [rng.choice(VALUES + OPTIONS) for _ in range(rng.randrange(7))]


def main(words):
    program, count, rng = given(words, 200_000)
    lists = [["decompile"] + (near_the_grammar if rng.random() < 0.8 else any_words)(rng) for _ in range(count)]
    answers = ask_each([program], ["\t".join(it) for it in lists], "words")
    wanted = [reading(it) for it in lists]
    kinds = collections.Counter(" ".join(it.split(" <")[0].split()[:2]) if it.startswith("usage") else it.split()[0] for it in wanted)
    print(", ".join(f"{kind} {number}" for kind, number in sorted(kinds.items())))
    wrong = [(it, given, want) for it, given, want in zip(lists, answers, wanted) if given != want]
    return end(f"of {count} lists differ", wrong)


if __name__ == "__main__":
    sys.exit(main(sys.argv[1:]))
