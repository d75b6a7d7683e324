"""What the checks share: the words that they are given, what programs answer, and how a check ends."""
import random, re, subprocess


def given(words, count):
    """The program, how many inputs are wanted, `count` where that isn't told, and a source of random numbers."""
    most = int(words[1]) if len(words) > 1 else count
    return words[0], most, random.Random(int(words[2]) if len(words) > 2 else 1)


def ask(command, lines, word=""):
    """The lines that a program answers to these lines, each behind the word that says what it is on, where there is one."""
    question = "".join(f"{word} {line}\n" if word else f"{line}\n" for line in lines).encode()
    return subprocess.run(command, input=question, stdout=subprocess.PIPE, check=True).stdout.decode().split("\n")[:-1]


def ask_each(command, lines, word=""):
    """The answers of a program that answers each line by one."""
    answers = ask(command, lines, word)
    assert len(answers) == len(lines), (command, len(answers), len(lines))
    return answers


def rule_for(rules, words):
    """The rule whose pattern is found in these words, or None."""
    return next((rule for pattern, rule in rules if re.search(pattern, words)), None)


def end(words, wrong):
    """Says how many differ, shows the first of them, and gives the exit status."""
    print(f"{words}:", len(wrong))
    for row in wrong[:20]:
        print(" ", row)
    return 1 if wrong else 0
