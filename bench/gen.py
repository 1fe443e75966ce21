#!/usr/bin/env python3
"""Writes N small C files, f1.c to fN.c, to a folder: bench/gen.py FOLDER N. The same N gives the same files."""
import os
import random
import sys

HEAD = """#include <stdint.h>
#include <stdio.h>
#include <string.h>

struct rec { uint32_t a, b; double w; char name[32]; };
"""

MIX = """
static uint32_t mix_{f}(uint32_t x, const struct rec *p, size_t n) {{
    uint32_t h = x ^ {c[0]}u;
    for (size_t i = 0; i < n; i++) {{
        h = (h * {c[1]}u) + p[i].a;
        if (h & {c[2]}u) h ^= p[i].b >> {shift};
        else h += (uint32_t)(p[i].w * {c[3]}.0);
        for (int j = 0; j < 32 && p[i].name[j]; j++) h = h * 31u + (unsigned char)p[i].name[j];
    }}
    return h;
}}
"""


def source(k):
    """The k-th file: 2 to 9 functions that mix, and one that calls them all."""
    rng = random.Random(k)
    functions = range(2 + k * 7 % 8)
    parts = [HEAD]
    for f in functions:
        parts.append(MIX.format(f=f, c=[rng.randrange(1, 1000) for _ in range(4)], shift=rng.randrange(13)))
    parts.append(f"\nuint32_t unit_{k}(const struct rec *p, size_t n) {{\n    uint32_t h = {k};\n")
    parts += [f"    h = mix_{f}(h, p, n);\n" for f in functions]
    parts.append('    if (h == 42) printf("%u\\n", h);\n    return h;\n}\n')
    return "".join(parts)


def main():
    folder, count = sys.argv[1], int(sys.argv[2])
    os.makedirs(folder, exist_ok=True)
    for k in range(1, count + 1):
        with open(os.path.join(folder, f"f{k}.c"), "w", encoding="ascii") as file:
            file.write(source(k))


main()
