#!/usr/bin/env python3
"""Makes the manual page and the completions of shells, under share/, of the words of `vap --help` and of the help of each command.

With --write it writes them; without, it compares: each file must be what is made of the program's help. The last line is
'N passed, M failed'.
"""
import re
import subprocess
import sys
from pathlib import Path

from outcome import ended

TOP = Path(__file__).resolve().parent.parent
PROGRAM = TOP / "crates/vap/out/vap"
SHARE = TOP / "share"
ENTRY = re.compile(r"  +(?P<name>\S.*?)(?:  +(?P<words>\S.*))?")
FLAG = re.compile(r"(?:-(?P<short>\w), )?--(?P<long>[\w-]+)(?: <(?P<value>\w+)>)?")
VALUES = re.compile(r" \[possible values: (?P<values>[^]]*)\]")
MADE = "made by tests/manual.py of the words of `vap --help`"


class Command:
    """A command by its help: its path, what it is about, its usage, its lists, and the notes after them."""

    def __init__(self, path):
        self.path = path
        told = subprocess.run([PROGRAM, *path, "--help"], capture_output=True, timeout=60, check=True)
        self.help = told.stdout.decode()
        lines = self.help.splitlines()
        at = next(number for number, line in enumerate(lines) if line.startswith("Usage: "))
        self.about = " ".join(lines[:at]).strip()
        self.usage = lines[at].removeprefix("Usage: ")
        self.lists, rest = {}, lines[at + 1 :]
        while len(rest) > 1 and not rest[0] and rest[1] in ("Commands:", "Arguments:", "Options:"):
            end = next((number for number in range(2, len(rest)) if not rest[number]), len(rest))
            self.lists[rest[1].rstrip(":")] = [ENTRY.fullmatch(line).groupdict() for line in rest[2:end]]
            rest = rest[end:]
        self.notes = rest[1:]
        self.below = [Command([*path, it["name"]]) for it in self.lists.get("Commands", []) if it["name"] != "help"]

    def all(self):
        """The command, and those below it."""
        yield self
        for below in self.below:
            yield from below.all()

    def name(self):
        return " ".join(["vap", *self.path])

    def flags(self):
        """The options with their names, the values that each may have, and what they mean."""
        for option in self.lists["Options"]:
            flag = FLAG.fullmatch(option["name"])
            words = option["words"] or ""
            values = VALUES.search(words)
            yield {**flag.groupdict(), "values": values["values"].split(", ") if values else [], "words": words}

    def takes_file(self):
        return any(it["name"] == "<FILE>" for it in self.lists.get("Arguments", []))


def roff(text):
    """A line as roff shows it."""
    text = text.replace("\\", "\\e").replace("-", "\\-").replace("`", "\\(ga").replace("'", "\\(aq")
    return f"\\&{text}" if text.startswith(".") else text


def entries(command):
    for title in ("Commands", "Arguments", "Options"):
        for it in command.lists.get(title, []):
            yield from (".TP", f".B {roff(it['name'])}", roff(it["words"] or ""))


def manual(program):
    """The manual page."""
    version = subprocess.run([PROGRAM, "--version"], capture_output=True, timeout=60, check=True).stdout.decode().strip()
    yield f'.\\" {MADE}'
    yield f'.TH VAP 1 "" "{version}" "User Commands"'
    yield from (".SH NAME", f"vap \\- {roff(program.about)}", ".SH SYNOPSIS", f".B {roff(program.usage)}", ".SH COMMANDS")
    yield from entries(program)
    for command in list(program.all())[1:]:
        yield from (f'.SH "{command.name().upper()}"', roff(command.about), ".PP", f".B {roff(command.usage)}")
        yield from entries(command)
        if command.notes:
            yield from (".PP", ".nf", *map(roff, command.notes), ".fi")


def words_of(command):
    """The words that may follow a command: those below it, and its options."""
    below = [it["name"] for it in command.lists.get("Commands", [])]
    return below + [f"--{flag['long']}" for flag in command.flags()]


def bash(program):
    """The completion of bash."""
    yield from (f"# {MADE}", "_vap() {", '    local word="${COMP_WORDS[COMP_CWORD]}" before="${COMP_WORDS[COMP_CWORD - 1]}"')
    yield from ('    local path="" at', "    for ((at = 1; at < COMP_CWORD; at++)); do", '        case "$path ${COMP_WORDS[at]}" in')
    for command in list(program.all())[1:]:
        yield f'        " {" ".join(command.path)}") path=" {" ".join(command.path)}" ;;'
    yield from ("        esac", "    done", '    case "$path $before" in')
    for command in program.all():
        for flag in command.flags():
            if flag["values"]:
                yield f'    "{"".join(" " + it for it in command.path)} --{flag["long"]}")'
                yield f'        COMPREPLY=($(compgen -W "{" ".join(flag["values"])}" -- "$word"))'
                yield from ("        return", "        ;;")
    yield from ("    esac", '    case "$path" in')
    for command in program.all():
        yield f'    "{"".join(" " + it for it in command.path)}")'
        files = ' $(compgen -f -- "$word")' if command.takes_file() else ""
        yield f'        COMPREPLY=($(compgen -W "{" ".join(words_of(command))}" -- "$word"){files})'
        yield "        ;;"
    yield from ("    esac", "}", "complete -o filenames -F _vap vap")


def quoted(text):
    return "'" + text.replace("\\", "\\\\").replace("'", "\\'") + "'"


def fish(program):
    """The completion of fish."""
    yield f"# {MADE}"
    yield "complete -c vap -f"
    for command in program.all():
        below = " ".join(it["name"] for it in command.lists.get("Commands", []))
        seen = " ".join(f"; and __fish_seen_subcommand_from {it}" for it in command.path).removeprefix("; and ")
        none = f"not __fish_seen_subcommand_from {below}" if below else ""
        where = quoted("; and ".join(filter(None, [seen, none])))
        for it in command.lists.get("Commands", []):
            yield f"complete -c vap -n {where} -a {it['name']} -d {quoted(it['words'])}"
        for flag in command.flags():
            short = f" -s {flag['short']}" if flag["short"] else ""
            value = f" -x -a {quoted(' '.join(flag['values']))}" if flag["value"] else ""
            yield f"complete -c vap -n {where} -l {flag['long']}{short}{value} -d {quoted(flag['words'])}"
        if command.takes_file():
            yield f"complete -c vap -n {where} -F"


def zsh_quoted(text):
    return "'" + text.replace("'", "'\\''") + "'"


def zsh_words(text):
    return text.replace("\\", "\\\\").replace(":", "\\:").replace("[", "\\[").replace("]", "\\]")


def zsh_name(command):
    return "_".join(["_vap", *command.path])


def zsh(program):
    """The completion of zsh."""
    yield from ("#compdef vap", f"# {MADE}")
    for command in program.all():
        yield f"{zsh_name(command)}() {{"
        yield "    local state line"
        yield "    _arguments -C \\"
        for flag in command.flags():
            value = f":{flag['value']}:({' '.join(flag['values'])})" if flag["value"] else ""
            yield f"        {zsh_quoted('--' + flag['long'] + '[' + zsh_words(flag['words']) + ']' + value)} \\"
        if command.below:
            yield from ("        '1: :->command' \\", "        '*:: :->rest'", '    case "$state" in', "    command)")
            yield "        local -a commands=("
            for it in command.lists["Commands"]:
                yield f"            {zsh_quoted(it['name'] + ':' + zsh_words(it['words']))}"
            yield from ("        )", "        _describe command commands", "        ;;", "    rest)", '        case "$line[1]" in')
            for below in command.below:
                yield f"        {below.path[-1]}) {zsh_name(below)} ;;"
            yield from ("        esac", "        ;;", "    esac")
        elif command.takes_file():
            yield "        '1:FILE:_files'"
        else:
            yield "        '1:EXPR:'"
        yield "}"
    yield "_vap \"$@\""


# What is made of the program's help, by the files under share/.
FILES = {
    "man/man1/vap.1": manual,
    "bash-completion/completions/vap": bash,
    "fish/vendor_completions.d/vap.fish": fish,
    "zsh/site-functions/_vap": zsh,
}


def unmet(name, text):
    """Why a file is not what is made of the help, or None."""
    file = SHARE / name
    if file.is_file() and file.read_text(encoding="utf-8") == text:
        return None
    return f"share/{name} is not what the help says: tests/manual.py --write makes it anew"


def plain(page):
    """The words of a manual page."""
    for escaped, shown in (("\\-", "-"), ("\\(ga", "`"), ("\\(aq", "'"), ("\\&", ""), ("\\e", "\\")):
        page = page.replace(escaped, shown)
    return page


def unmet_words(command, page):
    """Which line of a command's notes, or which words of its lists, are not in the manual page, or None."""
    texts = [command.about, *command.notes]
    texts += [it["words"] or "" for entries in command.lists.values() for it in entries]
    lacking = [text for text in texts if text not in page]
    return f"{command.name()}: the manual page has no {lacking[0]!r}" if lacking else None


def unmet_bash():
    """Why bash does not complete as it should, each, or None."""
    rows = [("vap r", ["replay", "report"]), ("vap report --output j", ["json"]), ("vap image e", ["encode"]), ("vap replay --a", ["--audit"])]
    for line, wanted in rows:
        words = line.split(" ")
        quoted_words = " ".join(f"'{word}'" for word in words)
        script = f'source "$1"; COMP_WORDS=({quoted_words}); COMP_CWORD={len(words) - 1}; _vap; printf "%s\\n" "${{COMPREPLY[@]}}"'
        ran = subprocess.run(["bash", "-c", script, "bash", SHARE / "bash-completion/completions/vap"], capture_output=True, timeout=60)
        found = ran.stdout.decode().split()
        yield None if found == wanted else f"{line!r} completes to {found}, wanted {wanted}; {ran.stderr.decode()}"


def main(words):
    program = Command([])
    made = {name: "".join(line + "\n" for line in make(program)) for name, make in FILES.items()}
    if words == ["--write"]:
        for name, text in made.items():
            (SHARE / name).parent.mkdir(parents=True, exist_ok=True)
            (SHARE / name).write_text(text, encoding="utf-8")
        return 0
    whys = [unmet(name, text) for name, text in made.items()]
    page = plain(made["man/man1/vap.1"])
    whys += [unmet_words(command, page) for command in program.all()]
    whys += unmet_bash()
    return ended(whys)


if __name__ == "__main__":
    sys.exit(main(sys.argv[1:]))
