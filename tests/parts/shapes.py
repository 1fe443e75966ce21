"""Runs each row of tests/parts/shapes three ways, and compares what is left and said: shapes.py FARM PORT FOLDER [PATTERN]. The ways are the compiler
by itself, `farm cc` without a host, and `farm cc` with the farmd at this port. FOLDER is for files. With PATTERN only the rows are run whose text it fits."""
import concurrent.futures
import os
import re
import shlex
import shutil
import stat
import subprocess
import sys
import time
from collections import Counter
from typing import NamedTuple

from checks import end, expect, fail
from shapes_sources import FILES, SOURCES

FARM, PORT, FOLDER = sys.argv[1:4]
PARTS = os.path.dirname(os.path.abspath(__file__))
WAYS = ("alone", "local", "farmd")
LONGEST = 300  # seconds


class Shape(NamedTuple):
    row: str
    compiler: str
    course: str
    source: str
    files: list
    excepted: list
    words: str


class Difference(NamedTuple):
    ways: list
    parts: list
    reason: str


def rows(name, columns):
    with open(os.path.join(PARTS, name), encoding="utf-8") as file:
        for line in file.read().split("\n"):
            if line and not line.startswith("#"):
                fields = [field.strip() for field in line.split("|", columns - 1)]
                expect(f"{name}: a row has {columns} columns:", len(fields) == columns, line)
                yield line, fields


def expect_documented():
    """Each reason is a line of the chapter that users of distcc read."""
    with open(os.path.join(PARTS, "../../docs/from-distcc.md"), encoding="utf-8") as file:
        lines = file.read().split("\n")
    for name, difference in TABLE.items():
        expect(f"docs/from-distcc.md has the reason of {name}:", f"- {difference.reason}" in lines, difference.reason)


def words_of(text):
    """The words of a column; a dash is none."""
    return [] if text == "-" else shlex.split(text)


def known_differences():
    return {name: Difference(ways.split(), parts.split(), reason) for _, (name, ways, parts, reason) in rows("shapes-differ", 4)}


def is_program(path):
    """Whether a file is a program, and no script that begins one: only then its words may be no UTF-8."""
    with open(path, "rb") as file:
        return file.read(4) == b"\x7fELF"


def shapes():
    for row, (course, compilers, source, files, excepted, words) in rows("shapes", 6):
        for compiler in compilers.split():
            yield Shape(row, compiler, course, source, words_of(files), words_of(excepted), words)


# ---- one run

def put(path, data):
    os.makedirs(os.path.dirname(path), exist_ok=True)
    with open(path, "wb") as file:
        file.write(data)
    os.utime(path, (1700000000, 1700000000))


def prepare(folder, shape):
    """Writes the source and the other files of a shape, and gives the source's path."""
    kind, _, path = shape.source.partition("=")
    path = path or ("x.cc" if "++" in shape.compiler else "x.c")
    if kind != "-":
        put(os.path.join(folder, path), SOURCES[kind])
    for name in shape.files:
        if name.endswith("/"):
            os.makedirs(os.path.join(folder, name), exist_ok=True)
        else:
            put(os.path.join(folder, name), FILES[os.path.basename(name)])
    return path


def tree(folder):
    """What is below a folder: by its path a mode, and a link's text or a file's bytes."""
    found = {}
    for at, folders, names in os.walk(folder):
        for name in folders + names:
            path = os.path.join(at, name)
            mode = os.lstat(path).st_mode
            data = b""
            if stat.S_ISLNK(mode):
                data = os.readlink(path).encode()
            elif stat.S_ISREG(mode):
                with open(path, "rb") as file:
                    data = file.read()
            found[os.path.relpath(path, folder)] = (stat.filemode(mode), data)
    return found


def run(shape, number, way):
    """What a run leaves, by the names of its parts; and the place at which its command was done. Each run has a new folder. All three of a shape have one path, since
    objects name their folder."""
    folder = os.path.join(FOLDER, f"{number:04}")
    os.makedirs(folder)
    source = prepare(folder, shape)
    compiler = shape.compiler if way == "alone" else f"{FARM} cc {shape.compiler}"
    environment = {name: value for name, value in os.environ.items() if not name.startswith(("DISTCC_", "FARM_"))}
    environment.update(CC=compiler, SOURCE_DATE_EPOCH="1700000000")
    if way == "farmd":
        environment.update(DISTCC_HOSTS=f"127.0.0.1:{PORT}/4", FARM_NOTICES="all")
    words = shape.words.replace("%", shlex.quote(source))
    command = words if "$CC" in words else "$CC " + words
    done = subprocess.run(["bash", "-c", command], cwd=folder, env=environment, stdin=subprocess.DEVNULL, capture_output=True, check=False, timeout=LONGEST)
    parts = {"status": b"%d" % done.returncode, "stdout": done.stdout, "stderr": done.stderr}
    parts.update({f"{name} ({mode})": data for name, (mode, data) in tree(folder).items()})
    shutil.rmtree(folder)
    course = None
    if way == "farmd":
        notices = re.findall(rb"^farm: 127.*\n", done.stderr, re.M)
        course = "sent" if any(b" answered 00000000" in line for line in notices) else "here"
        parts["stderr"] = re.sub(rb"^farm: 127.*\n", b"", done.stderr, flags=re.M)
    return parts, course


# ---- what differs by its nature, each by a rule with a name

def temporary_names(parts):
    """Drivers print the names of their temporary files."""
    name = re.compile(re.escape(os.environ["TMPDIR"].encode()) + rb"/[\w.+-]+")
    return {part: name.sub(b"TEMPORARY", data) if part in ("stdout", "stderr") else data for part, data in parts.items()}


def coverage_stamps(parts):
    """A .gcno file and its object have a stamp of the time."""
    stamps = {data[8:12] for name, data in parts.items() if ".gcno (" in name and len(data) >= 16}
    for stamp in stamps:
        parts = {name: data.replace(stamp, bytes(4)) for name, data in parts.items()}
    return parts


def precompiled(parts):
    """A precompiled header of gcc is an image of memory."""
    return {name: data[:8] if data.startswith(b"gpch") else data for name, data in parts.items()}


def figures(parts, words):
    """Times, sizes of memory and numbers of processes."""
    if not re.search(r"-f(time-|proc-stat|save-opt)|-Q|-save-stats", words):
        return parts
    return {name: b"" if re.search(r"^stderr|\.json|report|\.stats", name) else data for name, data in parts.items()}


def normal(shape, parts):
    return figures(precompiled(coverage_stamps(temporary_names(parts))), shape.words)


# ---- comparison

def output_of(*words):
    return subprocess.run(words, capture_output=True, check=False).stdout


def debug_names(path):
    """The names and folders in the debug information of an object, and the lines that its code has."""
    names = re.findall(rb"DW_AT_(?:name|comp_dir) *: (?:\(.*?\): )?(.*)", output_of("readelf", "--debug-dump=info", path))
    lines = re.findall(rb"(?m)^\S.* (\d+) +(?:0x)?[0-9a-f]+ ", output_of("objdump", "-WL", path))
    return b"\n".join(sorted({name.strip().removeprefix(b"./") for name in names} | set(lines)))


def without_debug(data, path, keeps_names):
    """An object without debug information, or with only its names and lines."""
    with open(path, "wb") as file:
        file.write(data)
    names = debug_names(path) if keeps_names else b""
    output_of("objcopy", "-g", path)
    with open(path, "rb") as file:
        return file.read() + names


def faults_named(text):
    """The warnings and errors of messages, each once, without what is quoted of a source, notes, columns and colours."""
    text = re.sub(rb"\x1b\[[\d;]*[mK]", b"", text)
    lines = {re.sub(rb"^(\S+?:\d+):\d+:", rb"\1:", line) for line in text.split(b"\n") if re.search(rb"(^|: )(fatal )?(warning|error): ", line)}
    return b"\n".join(sorted(lines))


def let_differ(allowed, parts, number):
    """The parts of a run, without what an exception lets differ."""
    for part in allowed:
        if part in ("debug", "columns"):
            path = os.path.join(FOLDER, f"{number:04}.o")
            parts = {name: without_debug(data, path, part == "columns") if data[:4] == b"\x7fELF" else data for name, data in parts.items()}
        elif part == "messages":
            parts = dict(parts, stderr=faults_named(parts["stderr"]))
        else:
            parts = {name: data for name, data in parts.items() if name.split(" ")[0] != part}
    return parts


def differences(wanted, seen):
    return [name for name in {**wanted, **seen} if wanted.get(name) != seen.get(name)]


def told(name, wanted, seen):
    """One difference, in short."""
    if wanted is None or seen is None:
        return f"{name}: only {'by farm' if wanted is None else 'by the compiler'}"
    at = next((k for k, (one, other) in enumerate(zip(wanted, seen)) if one != other), min(len(wanted), len(seen)))
    begin = max(0, at - 40)
    return f"{name} at {at} of {len(wanted)} and {len(seen)}: {wanted[begin:at + 120]!r} {seen[begin:at + 120]!r}"


class Seen(NamedTuple):
    shape: Shape
    course: str
    faults: list
    used: set


def compare(numbered):
    number, shape = numbered
    runs = {}
    for way in WAYS:  # the farmd's course is the last
        parts, course = run(shape, number, way)
        runs[way] = normal(shape, parts)
    faults, used = [], set()
    for way in WAYS[1:]:
        wanted, seen = runs["alone"], runs[way]
        for name in shape.excepted:
            before = differences(wanted, seen)
            if before and way in TABLE[name].ways:
                wanted, seen = (let_differ(TABLE[name].parts, parts, number) for parts in (wanted, seen))
                if differences(wanted, seen) != before:
                    used.add(name)
        faults += [f"{way}: {told(name, wanted.get(name), seen.get(name))}" for name in differences(wanted, seen)]
    if course != shape.course:
        faults.append(f"its course is {course}, and its row says {shape.course}")
    return Seen(shape, course, faults, used)


def chosen():
    """The shapes whose rows fit the pattern and that can be run here."""
    pattern = re.compile(sys.argv[4] if len(sys.argv) > 4 else "")
    left_out = Counter()
    for shape in shapes():
        if not pattern.search(f"{shape.compiler} {shape.row}"):
            continue
        if shutil.which(shape.compiler) is None:
            left_out[f"{shape.compiler} is missing"] += 1
        elif "\\xff." in shape.words and not is_program(FARM):
            left_out["FARM names a script"] += 1
        else:
            yield shape
    for reason, count in left_out.items():
        print(f"tests/shapes: {count} not compared, since {reason}")


def main():
    begun = time.monotonic()
    with concurrent.futures.ThreadPoolExecutor(len(os.sched_getaffinity(0))) as pool:
        seen = list(pool.map(compare, enumerate(chosen())))
    used = {(one.shape.row, name) for one in seen for name in one.used}
    for one in seen:
        for fault in one.faults:
            fail(f"{one.shape.compiler} | {one.shape.row}\n  {fault}")
    for row in {one.shape.row: one.shape for one in seen}.values():
        for name in row.excepted:
            expect(f"an exception that isn't needed, {name}:", (row.row, name) in used, row.row)
    courses = Counter(one.course for one in seen)
    print(f"{len({one.shape.row for one in seen})} shapes, {len(seen)} with each compiler: {courses['sent']} compiled by farmd, "
          f"{courses['here']} here; {len(used)} differ as an exception says; {time.monotonic() - begun:.0f} s")
    end()


TABLE = known_differences()
expect_documented()
main()
