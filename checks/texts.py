"""Compares texts_check with javac's parser: the trees that it makes of the texts of units.

usage: python3 checks/texts.py PROGRAM [COUNT [SEED]], with the built texts_check as PROGRAM, or - for javac and the rules of the text alone.
COUNT units (20,000) are made by `random_units.py`, every kind of expression, statement and member nested; their texts and shapes
`unit_texts.py` and `unit_shapes.py` write from the rules alone. javac has to take each text and to make a tree of that shape; PROGRAM
has to read each, to print what it read as the same text, and to tell that shape. The same of texts of which one token is deleted or
doubled: where PROGRAM reads one, javac takes it, with the same shape, and the rules give the unit of that shape (`unit_trees.py`) this
very text. A difference that no rule named here explains is printed, and the exit status is 1.

PROGRAM reads lines and answers each by one:

    read TEXT       what the text is: `unit SHAPE`, `misread` where it is no unit's, `deep` where it nests too deep to be read, or
                    `otherwise` where what is read is printed as another text

A TEXT is the bytes of a text in hexadecimal. A SHAPE is the tree that javac's parser makes of the text, as one of

    NAME                                    a name, a keyword (`this`, `super`, `true`, `false`, `null`), or a primitive type (`int`, `void`)
    -                                       a part that isn't there
    (PART PART..)                           a list, without spaces around its parts; () is an empty one
    (WORD PART..)                           a node

where the nodes are

    (unit PACKAGE () (TYPE))                TYPE is (class MODIFIERS NAME SUPERCLASS INTERFACES MEMBERS), or `interface` with - as its superclass
    (var MODIFIERS TYPE NAME VALUE)         a field, a parameter, a local variable, a variable of a catch clause
    (method MODIFIERS TYPES RESULT NAME PARAMETERS THROWN BODY)   a constructor is named <init> and has - as its result
    (type T BOUND)                          a type parameter, which the helper alone has
    (static STATEMENT..)                    a static initialiser
    (array TYPE)                            a type; a class is its name
    (. EXPRESSION NAME)                     a name behind a dot: a.b.C is (. (. a b) C), also as a type, a package and before `class` and `super`
    (int N) (long N) (text "TEXT")          literals, by value; -5 is (int -5), and -(5) is (neg (paren (int 5)))
    (paren E) (index E E) (new CLASS ARGUMENTS) (newarray TYPE SIZES) (cast TYPE E) (instanceof E TYPE) (neg E) (! E)
    (OPERATOR E E) (? E E E) (= VARIABLE E)
    (call TYPES FUNCTION ARGUMENTS)         FUNCTION is (. E NAME), or `this` or `super` where a constructor is called; TYPES is () but for the helper
    (block S..) (label NAME S) (run E) (if E BLOCK BLOCK) (while E BLOCK) (do BLOCK E) (break NAME) (continue NAME) (return E) (throw E)
    (for () E (RUN) BLOCK)                  RUN is (run (= VARIABLE E))
    (switch E CASE..)                       CASE is (case LABEL S..), LABEL a literal or `default`; of a group the last label has the statements
    (try () BLOCK CATCHES BLOCK)            CATCHES are (catch VAR BLOCK)..; the last block is that of `finally`, or -
    (synchronized E BLOCK)

The condition of `if`, `while` and `do`, what a `switch` chooses by and a `synchronized` locks is a (paren E). MODIFIERS are
words in the order public protected private abstract static final synchronized native transient volatile default. The units
of a text are those from 33 to 126 but for the backslash, else `\\u` and four digits in lower case. NewArray's type is that of
its elements when all SIZES are taken: new int[a][][] is (newarray (array (array int)) (a)).

Not made, since Java takes no such text: fields of an interface without a value, its constructors and initialisers; and as
what stands before a dot or a bracket no number of 0 or more, since `5.x` begins with a floating-point literal.
"""
import collections, pathlib, random, re, subprocess, sys, tempfile
from asking import ask_each
from random_units import Maker
from unit_shapes import shape
from unit_texts import text
from unit_trees import tree

FOLDER = pathlib.Path(__file__).parent
BATCH = 2_000
TOKEN = re.compile(r'"(?:\\.|[^"\\])*"|[\w$]+|>>>|>>|<<|[<>=!]=|&&|\|\||\s|.', re.S)
# Where javac refuses what is a unit by the Java Language Specification: in its own words, and what the text then has.
QUIRKS = [
    (r"illegal (unicode )?escape", r"\\ud[89ab]..\\\\", "a backslash behind a high surrogate (JLS 3.3)"),
    (r"sealed classes are not supported", r"\bsealed ", "a class named sealed, as the type of a member (JLS 3.9)"),
]


def damaged(rng, written):
    """The text with one of its tokens, or a space, deleted or doubled."""
    tokens = TOKEN.findall(written)
    place = rng.randrange(len(tokens))
    copies = rng.choice([[], [tokens[place], tokens[place]], [tokens[place], " ", tokens[place]]])
    return "".join(tokens[:place] + copies + tokens[place + 1:])


def explains(written, complaint):
    return next((rule for words, has, rule in QUIRKS if re.search(words, complaint) and re.search(has, written)), None)


class Referee:
    def __init__(self, program, folder):
        self.program, self.java = program, ["java", "-Xss64m", "-cp", folder, "Texts"]
        self.tally, self.wrong = collections.Counter(), []

    def differ(self, who, written, wanted, given):
        rule = explains(written, given) if given.startswith("refused") else None
        self.tally[rule or "differ without a named rule"] += 1
        if rule is None:
            at = next((n for n, pair in enumerate(zip(wanted, given)) if pair[0] != pair[1]), 0)
            self.wrong.append((who, wanted[max(0, at - 40):at + 60], given[max(0, at - 40):at + 60], written))

    def whole(self, who, texts, shapes):
        """Texts of units, with the shapes that they have to have."""
        for written, wanted, given in zip(texts, shapes, ask_each(self.java, [each.encode().hex() for each in texts])):
            self.tally[who] += 1
            if given != wanted:
                self.differ(who + ", javac", written, wanted, given)
        if self.program:
            for written, wanted, given in zip(texts, shapes, ask_each([self.program], ["read " + each.encode().hex() for each in texts])):
                if given != "unit " + wanted:
                    self.differ(who + ", texts_check", written, "unit " + wanted, given)

    def changed(self, rng, texts):
        """Texts of units with a change: what the program reads, javac takes, and is the text that the rules give it."""
        texts = [damaged(rng, each) for each in texts]
        theirs = ask_each(self.java, [each.encode().hex() for each in texts])
        ours = ask_each([self.program], ["read " + each.encode().hex() for each in texts]) if self.program else ["misread"] * len(texts)
        for written, mine, given in zip(texts, ours, theirs):
            self.tally["changed, " + ("refused" if given.startswith("refused") else "taken") + " by javac, " + mine.split()[0]] += 1
            if mine != "misread" and mine != "unit " + given:
                self.differ("changed", written, mine, "unit " + given if not given.startswith("refused") else given)
            elif mine != "misread" and text(tree(given)) != written:
                self.differ("changed, text", written, text(tree(given)), written)

    def batch(self, rng, count):
        units = [Maker(rng).unit() for _ in range(count)]
        texts, shapes = [text(unit) for unit in units], [shape(unit) for unit in units]
        self.whole("whole", texts, shapes)
        self.changed(rng, texts)


def main(words):
    count, seed = int(words[1]) if len(words) > 1 else 20_000, int(words[2]) if len(words) > 2 else 1
    rng = random.Random(seed)
    with tempfile.TemporaryDirectory() as folder:
        subprocess.run(["javac", "-d", folder, str(FOLDER / "Texts.java")], check=True)
        referee = Referee(None if words[0] == "-" else words[0], folder)
        for done in range(0, count, BATCH):
            referee.batch(rng, min(BATCH, count - done))
    for what, number in sorted(referee.tally.items()):
        print(number, what)
    for who, wanted, given, written in referee.wrong[:5]:
        print(f"{who}: {given}, and not {wanted}, of\n{written}")
    return 1 if referee.wrong else 0


if __name__ == "__main__":
    sys.exit(main(sys.argv[1:]))
