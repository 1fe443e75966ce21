"""Compares the words that farm_jobs makes of commands with those that sh makes of them: database.py FARM_JOBS."""
import json
import random
import re
import subprocess
import sys

from checks import end, expect, fail

FIXED = [
    "gcc x.c",
    r"gcc -DNAME=\"value\" x.c",
    r"gcc '-DNAME=\"two words\"' 'x y.c'",
    r'''gcc "-DA=\"b\" \\ \$c \`d\` \e" x.c''',
    "gcc  -I'a b'\"c d\"\\ e x.c",
    "x '' \"\" a''b",
    "x a\\\nb \"c\\\nd\"",
    "\t x \t y ",
    r"x \\ \' \# '#' \$HOME '$HOME' \* \~",
]
BARE = "abcXYZ019-=+./_,:@%^"
QUOTED = BARE + " \t#&;|<>()*?[]~{}!"


def part(rng):
    """A piece of a command that means the same to every shell: nothing that is expanded is outside quotes."""
    kind = rng.randrange(7)
    some = lambda bytes_, most: "".join(rng.choice(bytes_) for _ in range(rng.randrange(most)))
    if kind == 0:
        return " " * rng.randrange(1, 3)
    if kind == 1:
        return "'" + some(QUOTED + '"\\$`', 6) + "'"
    if kind == 2:
        inner = "".join(rng.choice([some(QUOTED + "'", 4), r"\"", r"\\", r"\$", r"\`", r"\a", "\\\n"]) for _ in range(rng.randrange(4)))
        return '"' + inner + '"'
    if kind == 3:
        return "\\" + rng.choice(QUOTED + "'\"\\$`\n")
    return some(BARE, 8)


def by_shell(command):
    ran = subprocess.run(["sh", "-c", 'printf "%s\\0" ' + command], stdout=subprocess.PIPE, check=True)
    return ran.stdout.split(b"\0")[:-1]


def by_list(line):
    """The words of a line that farm_jobs wrote: each between double quotes."""
    words = re.findall(rb'"((?:[^"\\]|\\.)*)"', line)
    return [re.sub(rb"\\(.)", rb"\1", word) for word in words]


def main():
    rng = random.Random(1)
    commands = FIXED + ["x" + "".join(part(rng) for _ in range(rng.randrange(12))) for _ in range(500)]
    database = json.dumps([{"directory": "/", "file": "x", "command": command} for command in commands])
    ran = subprocess.run([sys.argv[1], "--count", "512"], input=database.encode(), stdout=subprocess.PIPE, stderr=subprocess.PIPE, check=False)
    lines = ran.stdout.split(b"\n")[:-1]
    expect("a line for each command:", ran.returncode == 0 and len(lines) == len(commands), (ran.returncode, len(lines), ran.stderr))
    wrong = [command for command, line in zip(commands, lines) if by_list(line) != by_shell(command)]
    for command in wrong[:5]:
        fail(f"{command!r}: the shell has {by_shell(command)}")
    end()


main()
