"""Writes ordinary C for measurements: python3 bench/source.py BYTES > FILE"""
import random
import sys

random.seed(7)

PARTS = ("count", "node", "buffer", "length", "table", "entry", "state", "index", "size", "next", "list", "value",
         "flags", "total", "cursor")
NAMES = [f"{a}_{b}" for a in PARTS for b in ("of", "in", "at", "for", "new", "old")] + list("abcdijknpqrsxyz")
CONSTANTS = (0, 1, 2, 10, 255, "0x1F", "4096UL", "1.5")
OPERATORS = ("+", "-", "*", "<", "==", "&&", "||", ">>", "&", "!=")


def name():
    return random.choice(NAMES)


def expression(depth=0):
    r = random.random()
    if depth > 3 or r < .35:
        return name()
    if r < .5:
        return str(random.choice(CONSTANTS))
    if r < .75:
        return f"{expression(depth + 1)} {random.choice(OPERATORS)} {expression(depth + 1)}"
    if r < .85:
        return f"{name()}({', '.join(expression(depth + 2) for _ in range(random.randint(0, 3)))})"
    if r < .92:
        return f"{name()}->{name()}"
    return f"{name()}[{expression(depth + 1)}]"


def statement():
    r = random.random()
    if r < .4:
        return f"    {name()} = {expression()};"
    if r < .6:
        return f"    if ({expression()})\n        return {expression()};"
    if r < .75:
        i, j, k = (random.choice("ijk") for _ in range(3))
        return f"    for ({i} = 0; {j} < {expression(3)}; {k}++)\n        {name()}({expression()});"
    if r < .85:
        return f'    printf("%d entries of %s\\n", {expression()}, {expression()});'
    return f"    while ({expression()}) {{\n        {name()} += {expression()};\n        break;\n    }}"


def function(i):
    lines = [f"/* Function {i}: adds the entries of a table to the total, and says where it ends. */",
             f"static int {name()}_{i}(struct {name()} *{name()}, unsigned long {name()})", "{",
             f"    int {name()} = {expression()};"]
    lines += [statement() for _ in range(random.randint(3, 14))]
    return "\n".join(lines + ["    return 0;", "}", ""]) + "\n"


def source(size):
    text, i = [], 0
    left = size
    while True:
        part = function(i)
        if len(part) > left:
            return "".join(text) + " " * left
        text.append(part)
        left -= len(part)
        i += 1


sys.stdout.write(source(int(sys.argv[1])))
