"""The pages of the program's help, read from the sources in crates/p3l_help/src.

Of a command's page the first lines are its usage, a line of two spaces and a word describes that
word, with further lines to the right of it, and the last lines are an example.
"""

import re

from repository import ROOT

HELP = ROOT / "crates/p3l_help/src"
WIDTH = 80
TEXT = re.compile(r'const (\w+): &str =\s*"((?:[^"\\]|\\.)*)";', re.S)
PAGE = re.compile(r'topic: "([^"]*)",\s*text: (?:(\w+)|"((?:[^"\\]|\\.)*)"),', re.S)
WORD = re.compile(r"^  (--[a-z]+|[A-Z]+)(?: ([A-Z]+))? {2,}(.*)$")
FURTHER = re.compile(r"^ {10,}(\S.*)$")
LISTED = re.compile(r"^  ([a-z-]+)[^ ]*.*?  +([a-z].*)$", re.M)
FILES = ("FILE", "PROGRAM", "IMAGE", "SNAPSHOT", "PREFIX")
SCHEDULES = ("rr", "seed:", "file:")


def plain(literal):
    """The text that a literal of the sources spells."""
    return re.sub(r"\\(.)", lambda mark: {"n": "\n"}.get(mark[1], mark[1]), literal)


def texts_in(name):
    """The named texts of a file of the help."""
    return {name: plain(text) for name, text in TEXT.findall((HELP / f"{name}.rt").read_text())}


def pages_in(name, texts):
    """The pages of a file of the help by their topics; named texts are looked up."""
    found = PAGE.findall((HELP / f"{name}.rt").read_text())
    return {topic: texts[named] if named else plain(text) for topic, named, text in found}


class Word:
    """A word of a command: an option, or a value of its own."""

    def __init__(self, name, value, text):
        self.name, self.value, self.text = name, value, text
        self.is_option = name.startswith("--")
        self.takes_file = (value or name) in FILES
        self.schedules = [it for it in SCHEDULES if re.search(rf"\b{it}", text)]


def words_in(lines):
    """The words that lines describe."""
    words = []
    for line in lines:
        if found := WORD.match(line):
            words.append(list(found.groups()))
        elif words and (found := FURTHER.match(line)):
            words[-1][2] += " " + found[1]
    return [Word(*found) for found in words]


class Command:
    """A command, as its page describes it: its usage, what it does, its words, and an example."""

    def __init__(self, name, summary, page):
        self.name, self.summary, self.page = name, summary, page
        usage, *self.parts, words, example = page.rstrip("\n").split("\n\n")
        self.usage = [line.removeprefix("usage: ") for line in usage.split("\n")]
        self.words = words_in(words.split("\n"))
        self.example = [line.removeprefix("example: ") for line in example.split("\n")]

    def options(self):
        return [word for word in self.words if word.is_option]


class Help:
    """All pages."""

    def __init__(self):
        named = {**texts_in("program"), **texts_in("command"), **texts_in("language")}
        self.program, self.status = named["PROGRAM"], named["STATUS"]
        self.language, self.version = named["LANGUAGE"], named["VERSION"].split("\n")[0]
        listed = self.program.partition("commands:\n")[2].partition("\n\n")[0]
        summaries = dict(LISTED.findall(listed))
        pages = pages_in("command", named)
        self.commands = [Command(name, summaries.get(name, ""), pages[name]) for name in pages]
        numbers = {}
        for file in sorted((HELP / "fault").glob("*.rt")):
            numbers |= pages_in(f"fault/{file.stem}", named)
        self.numbers = dict(sorted(numbers.items(), key=lambda page: int(page[0])))
        self.topics = ["status", "language", *self.numbers]

    def all(self):
        """Each page, with its topic."""
        yield from (("help", self.program), ("status", self.status), ("language", self.language))
        yield from ((command.name, command.page) for command in self.commands)
        yield from self.numbers.items()
