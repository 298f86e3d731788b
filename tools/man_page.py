"""The man page, made from the pages of the program's help: filled text, with lines as they are only
where they are typed."""

import datetime
import re
import subprocess
import textwrap

from help_pages import HELP
from repository import ROOT

SPECIAL = {"\\": "\\e", "-": "\\-", "'": "\\(aq", "`": "\\(ga", "^": "\\(ha", "~": "\\(ti"}
STATUS = re.compile(r"^ +(\d+)  (.*)$")
INDENT = re.compile(r"^ +(\S.*)$")
TYPED = "    "
NUMBER_NOTE = re.compile(r"\n*This is the refusal \d+\..*\Z", re.S)
FILES = [
    ("PROGRAM, as m.p3l", "A program: text of at most 1,048,576 bytes."),
    ("the FILE of \\-\\-costs, as m.toml", "Costs of modules, in TOML: at most 1,048,576 bytes."),
    ("IMAGE, as m.img", "A program with its worker counts and its network, by compile."),
    ("SNAPSHOT, as m.shot", "The state of a run that save stopped, with its image."),
    ("the FILE of \\-\\-cert, as m.cert", "A certificate that worker counts are the best."),
    ("the FILE of \\-\\-trace, as m.trace", "Which process each pick took, and what it did."),
    ("the FILE of \\-\\-picks and of file:NAME", "In what order processes fired."),
]
ENVIRONMENT = [
    ("P3L_MESSAGES", "If it is long, messages to the standard error say more than a line; if it is "
     "short, they do not. Otherwise they do at a terminal."),
    ("NO_COLOR", "If it is not empty, messages have no colour. Otherwise they have at a terminal."),
]
MORE = """The repository of p3l has a tutorial, docs/TUTORIAL.md, the language, docs/LANGUAGE.md,
and the formats of all files, docs/FORMATS.md."""


def escaped(text):
    return "".join(SPECIAL.get(sign, sign) for sign in text)


def line_of(text):
    """A line of text, none of whose signs is taken for a request."""
    line = escaped(text)
    front = "\\&" if line[:1] == "." or text[:1] == "'" else ""
    return f"{front}{line}\\&" if line.endswith("..") else front + line


def filled(text):
    """Lines of text that are filled, each sentence from a line of its own."""
    sentences = re.split(r"(?<=[.:]) +(?=[A-Z`])", " ".join(text.split()))
    how = {"width": 60, "break_long_words": False, "break_on_hyphens": False}
    return [line_of(line) for it in sentences for line in textwrap.wrap(it, **how)]


def typed(lines):
    """Lines that stand as they are."""
    return [".EX", *(line_of(line) for line in lines), ".EE"]


def paragraphs(text):
    """Filled paragraphs, and typed ones where a page has them four spaces to the right."""
    out = []
    for part in text.strip("\n").split("\n\n"):
        lines = part.split("\n")
        is_typed = all(line.startswith(TYPED) for line in lines)
        out.append(".PP")
        out += typed([line[len(TYPED) :] for line in lines]) if is_typed else filled(part)
    return out


def described(name, text):
    return [".TP", name, *filled(text)]


def word(it):
    """A word of a command, with what it is."""
    name = f"\\fB{escaped(it.name)}\\fR" if it.is_option else f"\\fI{it.name}\\fR"
    return described(f"{name} \\fI{it.value}\\fR" if it.value else name, it.text)


def command(it):
    out = [f".SS {escaped(it.name)}", *typed(it.usage)]
    for part in it.parts:
        out += paragraphs(part)
    for each in it.words:
        out += word(each)
    return out


def statuses(page):
    """The page of statuses: a row a status, and paragraphs before and after."""
    out = []
    for part in page.strip("\n").split("\n\n"):
        lines = part.split("\n")
        if not STATUS.match(lines[0]):
            out += paragraphs(part)
            continue
        for line in lines:
            if row := STATUS.match(line):
                out += [".TP", row[1], line_of(row[2])]
            else:
                out += [".br", *filled(INDENT.match(line)[1])]
    return out


def number(page):
    """The page of a number of refusal."""
    title, _, rest = NUMBER_NOTE.sub("", page).partition("\n\n")
    return [f".SS {escaped(title)}", *paragraphs(rest)]


def about(pages):
    """What the program is: the first and the last paragraph of its page."""
    first, *_, last = pages.program.strip("\n").split("\n\n")
    return [*filled(first), ".PP", *filled(last)]


def date():
    """The day on which the pages changed last."""
    words = ["git", "log", "-1", "--format=%cs", "--", str(HELP)]
    try:
        said = subprocess.run(words, cwd=ROOT, capture_output=True, text=True).stdout.strip()
    except OSError:
        said = ""
    newest = max(file.stat().st_mtime for file in HELP.rglob("*.rt"))
    return said or datetime.date.fromtimestamp(newest).isoformat()


def man_page(pages):
    out = [f'.TH P3L 1 "{date()}" "{pages.version}" "User Commands"', ".nh", ".SH NAME"]
    out += ["p3l \\- compile P3L programs, and run them on streams", ".SH SYNOPSIS", ".B p3l"]
    out += ['.IR COMMAND " .."', ".br", ".B p3l help", ".RI [ TOPIC ]"]
    out += [".SH DESCRIPTION", *about(pages), ".SH COMMANDS"]
    for each in pages.commands:
        out += command(each)
    out += [".SH EXIT STATUS", *statuses(pages.status), ".SH NUMBERS OF REFUSAL"]
    for page in pages.numbers.values():
        out += number(page)
    out += [".SH EXAMPLES"]
    for each in pages.commands:
        summary = each.summary[:1].upper() + each.summary[1:]
        out += [".PP", f"{line_of(summary)}:", ".PP", *typed(each.example)]
    out += [".SH ENVIRONMENT"]
    for name, text in ENVIRONMENT:
        out += described(f".B {name}", text)
    out += [".SH FILES"]
    for name, text in FILES:
        out += described(name, text)
    out += [".SH SEE ALSO", ".BR dot (1),", ".BR parallel (1)", ".PP", *filled(MORE)]
    heads = (".SH", ".SS")
    kept = [it for it, before in zip(out, ["", *out]) if it != ".PP" or before[:3] not in heads]
    return "\n".join(kept) + "\n"
