#!/usr/bin/env python3
"""The man page and the completions of bash, zsh and fish, made from the pages of the help.

    tools/make_pages.py PREFIX      writes them under PREFIX/share
    tools/make_pages.py --check     says whether each names every command and option of
                                    docs/COMMANDS.md, whether the commands and numbers of that file,
                                    of the pages and of the sources are the same, whether each page
                                    fits 80 columns, and how bash completes odd names of files
    tools/make_pages.py --lint      says what mandoc finds in the man page, and which of its lines
                                    don't fit 80 columns

The pages are in crates/p3l_help/src.
"""

import pathlib
import re
import shutil
import subprocess
import sys

import odd_names
from completions import bash_completion, fish_completion, zsh_completion
from help_pages import WIDTH, Help
from man_page import TYPED, man_page
from repository import ROOT

# What a line of a page may have that the man page sets seven columns to the right.
TYPED_WIDTH = WIDTH - 7 + len(TYPED)
# How the sources write a number of refusal with its name: as two rows of matches, or in a line.
NUMBERED = re.compile(r"\b(?:Line)?Fault::(\w+) => (\d+),")
PRINTED = re.compile(r'"(?:[\w{} ]+: )*(\d+) ([A-Z]\w+)')
# How the sources write a row of the table of commands, an option in it, and the name of a value.
ROW = re.compile(r'\(\s*Verb::\w+,\s*"([a-z-]+)",\s*&\[(.*?)\]', re.S)
OPTION = re.compile(r"\b(?:Mandatory|Optional|Flag)\((\w+)\)")
NAMED = re.compile(r'((?:\|? ?Value::\w+ )+)=> "([a-z]+)"')
OVERSTRUCK = re.compile(r".\x08")
PLACES = {
    "man": "man/man1/p3l.1",
    "bash": "bash-completion/completions/p3l",
    "zsh": "zsh/site-functions/_p3l",
    "fish": "fish/vendor_completions.d/p3l.fish",
}
MAKERS = {
    "man": man_page,
    "bash": bash_completion,
    "zsh": zsh_completion,
    "fish": fish_completion,
}


def documented():
    """The options of each command, and each number with its name, as docs/COMMANDS.md has them."""
    text = (ROOT / "docs/COMMANDS.md").read_text()
    usage = text.partition("```\n")[2].partition("```")[0]
    commands = {}
    for line in usage.splitlines():
        found = re.match(r"p3l ([a-z-]+) [A-Z]", line)
        if found:
            commands[found[1]] = re.findall(r"--[a-z]+", line)
    table = text.partition("## Numbers and names")[2]
    return commands, dict(re.findall(r"\| (\d+) \| (\w+) (?=\|)", table))


def parsed():
    """The options of each command, as the table of the sources has them."""
    words, table = (ROOT / f"crates/p3l_opts/src/{it}.rt" for it in ("word", "table"))
    names = {}
    for values, name in NAMED.findall(words.read_text()):
        names |= dict.fromkeys(re.findall(r"Value::(\w+)", values), f"--{name}")
    rows = ROW.findall(table.read_text())
    return {name: sorted(names[it] for it in OPTION.findall(row)) for name, row in rows}


def refusals():
    """Each number of refusal that the program can print, with its name, by the sources."""
    found = {}
    reports = (ROOT / "crates/p3l_report/src").glob("*.rt")
    for file in (ROOT / "crates/p3l_ast/src/refusal.rt", *reports):
        text = file.read_text()
        for fault, number in NUMBERED.findall(text):
            name = re.search(rf'Fault::{fault} => "(\w+)"', text)
            found[number] = name[1] if name else ""
        found.update(PRINTED.findall(text))
    return dict(sorted(found.items(), key=lambda pair: int(pair[0])))


def faults_of_commands(pages):
    """Commands and options that the documents or the sources have otherwise than the pages."""
    commands, _ = documented()
    paged = {it.name: sorted(option.name for option in it.options()) for it in pages.commands}
    if paged != {name: sorted(options) for name, options in commands.items()}:
        yield f"commands and options: {paged} in the pages, {commands} in docs/COMMANDS.md"
    if paged != parsed():
        yield f"commands and options: {paged} in the pages, {parsed()} in p3l_opts"
    for command in pages.commands:
        if not command.summary:
            yield f"{command.name} has no line in the list of commands"


def faults_of_numbers(pages):
    """Numbers that one of the documents, the sources and the pages has, and another lacks."""
    _, numbers = documented()
    titles = dict(page.split("\n")[0].split(" ", 1) for page in pages.numbers.values())
    for topic, title in zip(pages.numbers, titles):
        if topic != title:
            yield f"number: the page of {topic} begins as that of {title}"
    for place, others in ("docs/COMMANDS.md", numbers), ("the sources of its lines", refusals()):
        for number, name in sorted(titles.items() ^ others.items()):
            where = "the pages" if titles.get(number) == name else place
            yield f"number: {number} {name} is in {where} alone"


def faults_of_widths(pages):
    """Lines of pages that a terminal of 80 columns cuts, or that are too long for the man page."""
    for topic, page in pages.all():
        for number, line in enumerate(page.split("\n"), 1):
            most = TYPED_WIDTH if topic in pages.numbers and line.startswith(TYPED) else WIDTH
            if len(line) > most:
                yield f"help {topic}: line {number} has {len(line)} columns, and not {most}"


def faults_of_made(pages):
    """Commands, options and numbers that a man page or a completion lacks."""
    commands, numbers = documented()
    for kind, make in MAKERS.items():
        text = make(pages).replace("\\-", "-")
        for name, options in commands.items():
            wanted = [name, *(f"-l {it[2:]}" if kind == "fish" else it for it in options)]
            yield from (f"{kind} lacks {it} of {name}" for it in wanted if it not in text)
        for number in numbers:
            if not re.search(rf"\b{number}\b", text):
                yield f"{kind} lacks {number}"
        if kind != "man" and shutil.which(kind):
            how = {"input": make(pages), "text": True, "capture_output": True}
            ran = subprocess.run([kind, "-n", "/dev/stdin"], **how)
            if ran.returncode:
                yield f"{kind}: {ran.stderr}"


def faults_of_options(pages):
    """Commands whose options bash completes otherwise than docs/COMMANDS.md has them."""
    for name, options in documented()[0].items():
        words = f"COMP_WORDS=(p3l {name} --)\nCOMP_CWORD=2\n_p3l\n"
        script = bash_completion(pages) + words + "printf '%s\\n' \"${COMPREPLY[@]}\"\n"
        ran = subprocess.run(["bash"], input=script, text=True, capture_output=True)
        if sorted(ran.stdout.split()) != sorted([*options, "--help"]):
            yield f"bash completes {name} by {ran.stdout.split()}"


def faults(pages):
    """Whatever is wrong with the pages, and with what is made of them."""
    yield from faults_of_commands(pages)
    yield from faults_of_numbers(pages)
    yield from faults_of_widths(pages)
    yield from faults_of_made(pages)
    yield from faults_of_options(pages)
    yield from odd_names.faults(bash_completion(pages))


def faults_of_man(pages):
    """What mandoc and groff find in the man page, and its lines that a terminal cuts."""
    text = man_page(pages)
    for words in ["mandoc", "-Tlint"], ["groff", "-man", "-ww", "-z"]:
        if shutil.which(words[0]):
            ran = subprocess.run(words, input=text, text=True, capture_output=True)
            yield from (ran.stdout + ran.stderr).splitlines()
    for words in ["mandoc", "-Tascii", f"-Owidth={WIDTH}"], ["groff", "-man", "-Tascii", "-P-c"]:
        if shutil.which(words[0]):
            ran = subprocess.run(words, input=text, text=True, capture_output=True)
            for line in OVERSTRUCK.sub("", ran.stdout).splitlines():
                if len(line) > WIDTH:
                    yield f"{words[0]}: {len(line)} columns: {line}"


def lint(pages):
    """Looks at the man page by what reads it."""
    if not shutil.which("mandoc"):
        print("make_pages: mandoc is not installed, so nothing is known of the man page")
        return 1
    found = list(faults_of_man(pages))
    for fault in found:
        print(f"make_pages: {fault}")
    print(f"make_pages: the man page, {len(found)} faults")
    return 1 if found else 0


def check(pages):
    """Compares the pages with the documents and the sources."""
    found = list(faults(pages))
    for fault in found:
        print(f"make_pages: {fault}")
    counts = f"{len(pages.commands)} commands, {len(pages.numbers)} numbers"
    print(f"make_pages: {counts}, {len(found)} faults")
    return 1 if found else 0


def write(pages, prefix):
    """Writes what is made of the pages under a prefix."""
    for kind, make in MAKERS.items():
        file = pathlib.Path(prefix) / "share" / PLACES[kind]
        file.parent.mkdir(parents=True, exist_ok=True)
        file.write_text(make(pages))
        print(file)
    return 0


def main(words):
    pages = Help()
    if words == ["--check"]:
        return check(pages)
    if words == ["--lint"]:
        return lint(pages)
    if len(words) != 1 or words[0].startswith("-"):
        print(__doc__.split("\n\n")[1], file=sys.stderr)
        return 2
    return write(pages, words[0])


if __name__ == "__main__":
    sys.exit(main(sys.argv[1:]))
