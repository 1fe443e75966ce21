"""Writes three projects of 30 sources with a test of their own, by_make, by_cmake and by_configure: projects.py FOLDER.

projects.py --graph reads what make would run, and writes it as a job graph: a command needs each command before it that makes a
file that it names."""
import os
import sys

from checks import write

COUNT = 30

PART = """#include "whole.h"
#include <string.h>

#ifndef SCALE
#define SCALE 1
#endif

int part{k}(const char *text)
{{
    return (int)strlen(text) * {k} * SCALE;
}}
"""

MAKEFILE = """CC = gcc
CFLAGS = -O2 -Wall -DSCALE=2
objects = $(patsubst %.c,%.o,$(wildcard *.c))
whole: $(objects)
\t$(CC) $(CFLAGS) -o $@ $(objects)
%.o: %.c whole.h
\t$(CC) $(CFLAGS) -MD -MF $*.d -c $< -o $@
"""

CMAKE = """cmake_minimum_required(VERSION 3.13)
project(whole C)
enable_testing()
file(GLOB sources *.c)
add_executable(whole ${sources})
target_compile_definitions(whole PRIVATE SCALE=2)
add_test(whole whole)
"""

CONFIGURE = """AC_INIT([whole], [1])
AM_INIT_AUTOMAKE([foreign])
AC_PROG_CC
AC_CHECK_HEADERS([string.h strings.h no_such.h])
AC_CHECK_FUNCS([strlen no_such_function])
AC_CHECK_SIZEOF([long])
AC_C_INLINE
AC_C_BIGENDIAN
CPPFLAGS="$CPPFLAGS -DSCALE=2"
AC_CONFIG_FILES([Makefile])
AC_OUTPUT
"""


def sources(folder):
    os.makedirs(folder)
    numbers = range(1, COUNT + 1)
    write(f"{folder}/whole.h", "".join(f"int part{k}(const char *text);\n" for k in numbers))
    for k in numbers:
        write(f"{folder}/part{k}.c", PART.format(k=k))
    total = " + ".join(f'part{k}("abc")' for k in numbers)
    write(f"{folder}/main.c", f'#include "whole.h"\nint main(void) {{ return {total} == {3 * 2 * sum(numbers)} ? 0 : 1; }}\n')
    return " ".join([f"part{k}.c" for k in numbers] + ["main.c"])


def made_by(words):
    """The file that a command makes."""
    if "-o" in words:
        return words[words.index("-o") + 1]
    return words[2] if words[0] == "ar" else words[-1]


def graph():
    number, makers = 0, {}
    for line in sys.stdin:
        words = line.split()
        if not words or words[0] not in ("gcc", "ar", "ranlib"):
            continue
        number += 1
        needs = sorted({makers[word] for word in words if word in makers})
        if needs:
            print("needs:", *needs)
        print(" ".join(words))
        makers[made_by(words)] = number


def main():
    if sys.argv[1] == "--graph":
        graph()
        return
    top = sys.argv[1]
    sources(f"{top}/by_make")
    write(f"{top}/by_make/Makefile", MAKEFILE)
    sources(f"{top}/by_cmake")
    write(f"{top}/by_cmake/CMakeLists.txt", CMAKE)
    names = sources(f"{top}/by_configure")
    write(f"{top}/by_configure/configure.ac", CONFIGURE)
    write(f"{top}/by_configure/Makefile.am", f"bin_PROGRAMS = whole\nwhole_SOURCES = {names} whole.h\nTESTS = whole\n")


main()
