"""The completions of bash, zsh and fish, made from the pages of the program's help."""

import re

# Names of files are left to the shell, which knows blanks, stars and quotes in them. A word is cut
# by bash at `:` and `=`, so what stands before those is looked at, too.
BASH_HEAD = """\
# Completions of p3l for bash.
_p3l() {
  local word=${COMP_WORDS[COMP_CWORD]} at=$((COMP_CWORD - 1)) words=
  [[ $word == [:=] ]] && word= && at=$COMP_CWORD
  local before=${COMP_WORDS[at]}
  [[ $before == = ]] && before=${COMP_WORDS[at - 1]}
  [[ $before == : && ${COMP_WORDS[at - 1]} == file ]] && before=file:
  COMPREPLY=()"""
BASH_TAIL = """\
  if [[ -z $words || $word != -* && COMP_CWORD -gt 1 && ${COMP_WORDS[1]} != help ]]; then
    compopt -o default 2>/dev/null
    return
  fi
  mapfile -t COMPREPLY < <(compgen -W "$words" -- "$word")
}
complete -F _p3l p3l"""


def by_kind(pages):
    """The options that take a file, and those that take another value."""
    options = {it.name: it for command in pages.commands for it in command.options()}.values()
    files = sorted(it.name for it in options if it.takes_file)
    others = [it.name for it in options if it.value and not it.takes_file and it.value != "S"]
    return files, sorted(others)


def bash_schedules(pages):
    out = ["    --schedule)", "      compopt -o nospace 2>/dev/null"]
    out += ["      case ${COMP_WORDS[1]} in"]
    for command in pages.commands:
        for it in command.options():
            if it.value == "S":
                out += [f"        {command.name}) words='{' '.join(it.schedules)}' ;;"]
    out += ["      esac", '      mapfile -t COMPREPLY < <(compgen -W "$words" -- "$word")']
    return [*out, "      return", "      ;;"]


def bash_completion(pages):
    names = " ".join(command.name for command in pages.commands)
    files, others = (f"{'|'.join(found)})" for found in by_kind(pages))
    out = [BASH_HEAD, "  case $before in", *bash_schedules(pages)]
    out += [f"    file:|{files}", "      compopt -o default 2>/dev/null"]
    out += ["      return", "      ;;"]
    out += [f"    {others} return ;;", "  esac", "  if ((COMP_CWORD == 1)); then"]
    out += [f"    words='{names} help --help --version'", "  else", "    case ${COMP_WORDS[1]} in"]
    for command in pages.commands:
        listed = " ".join([*(option.name for option in command.options()), "--help"])
        out += [f"      {command.name}) words='{listed}' ;;"]
    out += [f"      help) words='{names} {' '.join(pages.topics)}' ;;"]
    out += ["    esac", "  fi", BASH_TAIL]
    return "\n".join(out) + "\n"


def quoted(text):
    """A text within single quotes of a shell."""
    return text.replace("'", "'\\''")


def zsh_word(it):
    """The row of a word for zsh."""
    schedules = " ".join(it.schedules).replace(":", "\\:")
    action = "_files" if it.takes_file else f"({schedules})" if it.value == "S" else " "
    text = quoted(re.sub(r"([\[\]:])", r"\\\1", it.text))
    if not it.is_option:
        return f"'1:{it.name}:{action}'"
    return f"'{it.name}[{text}]:{it.value}:{action}'" if it.value else f"'{it.name}[{text}]'"


def zsh_completion(pages):
    out = ["#compdef p3l", "# Completions of p3l for zsh.", "_p3l() {", "  local -a commands"]
    out += ["  commands=("]
    out += [f"    '{command.name}:{quoted(command.summary)}'" for command in pages.commands]
    out += ["    'help:say what a topic is'", "  )", "  if ((CURRENT == 2)); then"]
    out += ["    _describe command commands", "    return", "  fi", "  local command=$words[2]"]
    out += ["  shift words", "  ((CURRENT--))", "  case $command in"]
    for command in pages.commands:
        rows = [*map(zsh_word, command.words), "'--help[say what the command does]'"]
        out += [f"    {command.name})", "      _arguments " + " \\\n        ".join(rows)]
        out += ["      ;;"]
    names = " ".join([*(command.name for command in pages.commands), *pages.topics])
    out += ["    help)", f"      _values topic {names}", "      ;;", "  esac", "}", '_p3l "$@"']
    return "\n".join(out) + "\n"


def fish_option(command, it):
    """The line of an option for fish."""
    seen = f"-n '__fish_seen_subcommand_from {command.name}' -l {it.name[2:]}"
    schedules = f"-x -a '{' '.join(it.schedules)}'"
    other = schedules if it.value == "S" else "-x" if it.value else "-f"
    return f"complete -c p3l {seen} {'-r' if it.takes_file else other} -d '{quoted(it.text)}'"


def fish_completion(pages):
    first, later = "-n __fish_use_subcommand", "-n 'not __fish_use_subcommand'"
    out = ["# Completions of p3l for fish."]
    out += [f"complete -c p3l {first} -f -l help -d 'list the commands'"]
    out += [f"complete -c p3l {first} -f -l version -d 'say the version'"]
    out += [f"complete -c p3l {later} -f -l help -d 'say what the command does'"]
    for command in pages.commands:
        about = f"-d '{quoted(command.summary)}'"
        out.append(f"complete -c p3l {first} -f -a {command.name} {about}")
        out += [fish_option(command, it) for it in command.options()]
    names = " ".join([*(command.name for command in pages.commands), *pages.topics])
    out.append(f"complete -c p3l {first} -f -a help -d 'say what a topic is'")
    out.append(f"complete -c p3l -n '__fish_seen_subcommand_from help' -f -a '{names}'")
    return "\n".join(out) + "\n"
