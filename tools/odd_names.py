"""Names of files with blanks, stars and quotes, completed by a bash that is typed to."""

import os
import pty
import re
import select
import subprocess
import tempfile
import time

SECONDS = 20
KEY = b"\x14"
# The words as typed before the tab, and as they must then stand. Each folder has one file.
TYPED = [
    ("p3l run my", "my file.p3l", "p3l run my\\ file.p3l "),
    ("p3l run st", "st*r.p3l", "p3l run st\\*r.p3l "),
    ("p3l run 'my", "my file.p3l", "p3l run 'my file.p3l' "),
    ('p3l run "my', "my file.p3l", 'p3l run "my file.p3l" '),
    ("p3l run my\\ f", "my file.p3l", "p3l run my\\ file.p3l "),
    ("p3l run m.p3l --costs co", "co st.toml", "p3l run m.p3l --costs co\\ st.toml "),
    ("p3l run m.p3l --costs=co", "co st.toml", "p3l run m.p3l --costs=co\\ st.toml "),
    ("p3l run m.p3l --schedule file:pi", "pi cks", "p3l run m.p3l --schedule file:pi\\ cks "),
    ("p3l run m.p3l --sch", "m.p3l", "p3l run m.p3l --schedule "),
    ("p3l run m.p3l --schedule se", "m.p3l", "p3l run m.p3l --schedule seed:"),
    ("p3l comp", "m.p3l", "p3l compile "),
    ("p3l run m.p3l --processors ", "one", "p3l run m.p3l --processors "),
]


class Shell:
    """An interactive bash on a terminal, in a folder, with a completion."""

    def __init__(self, folder, completion):
        self.terminal, inner = pty.openpty()
        env = {**os.environ, "TERM": "dumb", "PS1": "$ ", "HISTFILE": "", "INPUTRC": "/dev/null"}
        words = ["bash", "--norc", "--noprofile", "-i"]
        how = {"stdin": inner, "stdout": inner, "stderr": inner, "start_new_session": True}
        self.child = subprocess.Popen(words, cwd=folder, env=env, **how)
        os.close(inner)
        self.type(f". {completion}; bind 'set bell-style none'\r")
        self.type("""bind -x '"\\C-t": printf "\\n<%s>\\n" "$READLINE_LINE"'; echo re''ady\r""")
        self.wait_for(re.compile(rb"\nready\r?\n"))

    def type(self, text):
        os.write(self.terminal, text.encode())

    def wait_for(self, form):
        """What was written until it has this form, or nothing where it doesn't in time."""
        said, ends = b"", time.monotonic() + SECONDS
        while time.monotonic() < ends:
            if select.select([self.terminal], [], [], 0.1)[0]:
                said += os.read(self.terminal, 4096)
            if found := form.search(said):
                return found
        return None

    def completed(self, words):
        """How the line of words stands after a tab."""
        self.type(words + "\t")
        time.sleep(0.2)
        os.write(self.terminal, KEY)
        found = self.wait_for(re.compile(rb"\n<(.*)>\r?\n"))
        self.type("\x15")
        return found[1].decode(errors="replace") if found else "no answer"

    def end(self):
        self.child.kill()
        self.child.wait()
        os.close(self.terminal)


def faults(completion):
    """Each line that bash completes otherwise."""
    for words, name, wanted in TYPED:
        with tempfile.TemporaryDirectory() as room:
            with open(f"{room}/.completion", "w") as file:
                file.write(completion)
            open(f"{room}/{name}", "w").close()
            shell = Shell(room, f"{room}/.completion")
            try:
                found = shell.completed(words)
            finally:
                shell.end()
        if found != wanted:
            yield f"bash completes {words!r} to {found!r}, and not to {wanted!r}"
