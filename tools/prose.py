#!/usr/bin/env python3
"""The prose of the documents: its width, the length of its sentences, and phrases that have a plainer form.

    tools/prose.py --check              checks README.md, CHANGES.md, docs/*.md and crates/*/README.md
    tools/prose.py --check FILE..       checks these files
    tools/prose.py --sources            counts such phrases in the doc comments and texts of each crate

It ends with 1 at a fault. A line of prose or of a table has at most 100 columns; in README.md a line of a session has, too. A
sentence has at most 30 words, where it ends at one of . : ; ? ! and a text in backquotes is one
word. Lines that begin with a label as `Clause:` are lists of names, and are not counted.
"""

import pathlib
import re
import sys

ROOT = pathlib.Path(__file__).resolve().parent.parent
COLUMNS = 100
WORDS = 30
LINES_OF_README = 120

# A phrase, and what to write in its place.
PHRASES = [
    (r"\bwant of memory\b|\bmemory was wanting\b", "out of memory"),
    (r"\ba line that turns\b", "a one-line mutation"),
    (r"\bis taken again\b|\bare taken again\b", "reused"),
    (r"\bis seen of\b|\bare seen of\b|\bof what is seen\b", "name what determines it"),
    (r"\bwhat is dear\b|\bis dear\b|\bare dear\b|\bdearer?\b", "slow, costly"),
    (r"\bare held too\b", "count as owned values"),
    (r"\bdoes where it\b.*\bfirst\b", "at its first use"),
    (r"\bother work doesn't move\b", "stable under load"),
    (r"\ball fronts\b|\bfronts of\b", "every prefix"),
    (r"\bwhat is then in\b|\bthat is then in\b", "save the network's state"),
    (r"\bgoe?s? on from\b|\bwent on from\b|\bgoing on from\b", "continue from"),
    (r"\banew\b", "again, or a verb with re-"),
    (r"\ball that is there of\b", "count them"),
    (r"\bwhat else is to be done\b", "the remaining work"),
    (r"\bnothing but want\b|\brefuses? it but\b", "it fails only if"),
    (r"\bwhat was answered once\b", "every later call returns the same"),
    (r"\bif there is one, of\b|\bwithout words, and the first\b", "say which one"),
    (r"\bof which that is known\b", "whose state is already up to date"),
    (r"\blets? (?:\w+ )?out that it holds\b", "removes the held token"),
    (r"\blets? go of\b", "clears"),
    (r"\bnot to be had\b|\bto be had\b", "not possible"),
    (r"\bis what it was\b|\bare what they were\b", "did not change"),
    (r"\bby when it\b", "what must have happened before"),
    (r"\bhangs? on\b|\bhung on\b", "depends on"),
    (r"\bwhatever was before\b|\bwhatever it was before\b", "sets or clears"),
    (r"\bto mend (?:it|this|them)\b|\bmends? it\b", "to fix it"),
    (r"\beach once at most\b|\bonce each at most\b", "at most once each"),
    (r"\bstand in any order\b", "may come in any order"),
    (r"\b(?:comes?|came|coming) to (?:a|its|the first) trap\b", "traps"),
    (r"\bof which no \w+\b", "name the thing, then say what is true of it"),
    (r"\bthat which\b|\bthose which\b", "name the thing"),
    (r"\bwhat there is of\b|\bwhat there was of\b", "name the thing"),
]
PHRASES = [(re.compile(phrase, re.I), plain) for phrase, plain in PHRASES]
LABEL = re.compile(r"\s*(?:Clauses?|Definitions?|Edits?|Call|Files?|Tests?): ")
ITEM = re.compile(r"^\s*(?:[-*]|\d+\.) ")
END = re.compile(r"[.:;?!][)\"'*_]*\s+")
BEGINS = re.compile(r"(?:What|That|Where|Whether)\b")


class Line:
    """A line of a document, and whether a reader sees it as it is written."""

    def __init__(self, number, text, fenced):
        self.number, self.text, self.fenced = number, text, fenced


def lines_of(text):
    """The lines of a document, each with its number."""
    fenced = False
    for number, line in enumerate(text.split("\n"), 1):
        fence = line.lstrip().startswith("```")
        yield Line(number, line, fenced or fence)
        fenced = fenced != fence


def is_link(line):
    """A line that is one link or one picture can't be cut."""
    return re.fullmatch(r"\s*!?\[[^\]]*\]\([^)]*\)\s*", line) is not None


def paragraphs_of(text):
    """The paragraphs of a document, each an item of a list too: the number of its line and its text."""
    start, parts = 0, []
    for line in [*lines_of(text), Line(0, "", False)]:
        plain = line.text.strip()
        apart = line.fenced or not plain or plain.startswith(("#", "|", "![")) or line.text.startswith("    ")
        if parts and (apart or ITEM.match(line.text) or LABEL.match(line.text)):
            yield start, " ".join(parts)
            parts = []
        if not apart and not LABEL.match(line.text):
            start, parts = (start, parts) if parts else (line.number, [])
            parts.append(ITEM.sub("", line.text).strip())
        elif LABEL.match(line.text):
            parts = []


def sentences_of(paragraph):
    """Its sentences, where each text in backquotes is one word."""
    plain = re.sub(r"`[^`]*`", "`code`", paragraph)
    return [it for it in END.split(plain) if it.strip()]


def words_of(sentence):
    return [word for word in sentence.split() if re.search(r"\w", word)]


def faults_of(name, text):
    """Each fault of a document, as a line with its place."""
    for line in lines_of(text):
        counted = not line.fenced or name == "README.md"
        if counted and len(line.text) > COLUMNS and not is_link(line.text):
            yield f"{name}:{line.number}: {len(line.text)} columns"
    for start, paragraph in paragraphs_of(text):
        bare = re.sub(r"`[^`]*`", "``", paragraph)
        for phrase, plain in PHRASES:
            if found := phrase.search(bare):
                yield f"{name}:{start}: \"{found[0]}\": {plain}"
        for sentence in sentences_of(paragraph):
            count = len(words_of(sentence))
            if count > WORDS:
                yield f"{name}:{start}: {count} words: {sentence[:60]} .."
    if name == "README.md" and text.count("\n") > LINES_OF_README:
        yield f"{name}: {text.count(chr(10))} lines"


def named(file):
    """The name of a file from the top of the repository on, where it is in it."""
    file = file.resolve()
    return str(file.relative_to(ROOT) if file.is_relative_to(ROOT) else file)


def check(files):
    faults = [fault for file in files for fault in faults_of(named(file), file.read_text())]
    for fault in faults:
        print(f"prose: {fault}")
    print(f"prose: {len(files)} files, {len(faults)} faults")
    return 1 if faults else 0


def count_sources():
    """Of each crate how many doc comments begin with a word that names nothing, and how many lines have such a phrase."""
    for crate in sorted((ROOT / "crates").iterdir()):
        begins = phrases = 0
        for file in sorted(crate.glob("src/**/*.rt")):
            before = ""
            for line in file.read_text().splitlines():
                doc = re.match(r"\s*//[/!] ?(.*)", line)
                if doc and not before and BEGINS.match(doc[1]):
                    begins += 1
                before = doc[1] if doc else ""
                told = doc[1] if doc else line if crate.name == "p3l_help" else ""
                phrases += any(phrase.search(told) for phrase, _ in PHRASES)
        if begins or phrases:
            print(f"{crate.name}: {begins} doc comments begin with What, That, Where or Whether; {phrases} phrases")
    return 0


def main(words):
    if words == ["--sources"]:
        return count_sources()
    if words[:1] != ["--check"]:
        print(__doc__.split("\n\n")[1], file=sys.stderr)
        return 2
    named = [pathlib.Path(word) for word in words[1:]]
    written = [ROOT / "README.md", ROOT / "CHANGES.md", *sorted((ROOT / "docs").glob("*.md"))]
    written += sorted((ROOT / "crates").glob("*/README.md"))
    return check(named or [file for file in written if file.exists()])


if __name__ == "__main__":
    sys.exit(main(sys.argv[1:]))
