"""Exported programs, for scripts that compile them."""

import subprocess


def write(binary, source, words, made):
    """Exports a program's source to the file `made`, with options; what came of it: the status, the
    output and the lines.
    """
    words = [binary, "export", source, *words, "--output", made]
    done = subprocess.run(words, stdin=subprocess.DEVNULL, capture_output=True)
    return done.returncode, done.stdout, done.stderr
