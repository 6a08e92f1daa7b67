#!/usr/bin/env python3
"""Compares the program's first fault with that of a table of the grammar, on models with tokens dropped, doubled or exchanged.

usage: broken_texts.py PROGRAM [TEXTS [SEED]]

The grammar is read by Earley's algorithm, which knows at each token whether some program goes on with it. The last line
counts the texts that agree. A text that does not is printed."""

import random
import re
import subprocess
import sys
import tempfile

from random_models import RandomModel

WORDS = """MODULE VAR ASSIGN TRANS INIT INVAR DEFINE FAIRNESS JUSTICE SPEC CTLSPEC boolean init next case esac union in mod xor
TRUE FALSE EX EF EG AX AF AG A E U""".split()
LEFT_OUT = """IVAR process COMPASSION LTLSPEC INVARSPEC COMPUTE FROZENVAR CONSTANTS ISA self array word real xnor BU EBF ABF EBG
ABG""".split()
MARKS = "<-> .. := != <= >= -> ( ) { } [ ] , ; : . = < > + - * / ! & |".split()
TOKEN = re.compile(
    r"(?P<gap>[ \t\r\n]+|--[^\n]*)|(?P<name>[A-Za-z_](?:[A-Za-z0-9_$#]|-(?![->]))*)|(?P<number>[0-9]+)|(?P<mark>"
    + "|".join(re.escape(mark) for mark in MARKS) + ")"
)
PREFIXES = "! EX EF EG AX AF AG".split()
BINARY = {2: ["<->"], 3: ["|", "xor"], 4: ["&"], 6: "= != < <= > >=".split(), 7: ["in"], 8: ["union"], 9: ["mod"], 10: ["+", "-"], 11: ["*", "/"]}
RULES = """
program -> module | module program
module -> MODULE NAME formals sections
formals -> | ( ) | ( names )
names -> NAME | NAME , names
sections -> | section sections
section -> VAR declarations | ASSIGN assignments | DEFINE definitions | condition e1 | condition e1 ;
condition -> TRANS | INIT | INVAR | FAIRNESS | JUSTICE | SPEC | CTLSPEC
declarations -> | NAME : type ; declarations
type -> boolean | { items } | int .. int | NAME | NAME ( ) | NAME ( e1s )
items -> item | item , items
item -> NAME | int
int -> NUMBER | - NUMBER
assignments -> | target := e1 ; assignments
target -> path | init ( path ) | next ( path )
definitions -> | NAME := e1 ; definitions
path -> NAME | NAME . path
e1s -> e1 | e1 , e1s
e1 -> e2 | e2 -> e1
e5 -> e6 | pre e5 | e6 = pre e5 | e6 != pre e5
e12 -> int | int .. int | - e12 | TRUE | FALSE | path | ( e1 ) | { e1s } | case branches esac | next ( e1 ) | A [ e1 U e1 ] | E [ e1 U e1 ]
branches -> branch | branch branches
branch -> e1 : e1 ;
"""


def grammar():
    rules = {"pre": [[prefix] for prefix in PREFIXES]}
    for line in RULES.strip().splitlines():
        head, bodies = line.split(" -> ", 1)
        rules[head] = [body.split() for body in bodies.split("|")]
    for level, marks in BINARY.items():
        rules[f"e{level}"] = [[f"e{level + 1}"]] + [[f"e{level}", mark, f"e{level + 1}"] for mark in marks]
    return rules


GRAMMAR = grammar()
EMPTY = {head for head, bodies in GRAMMAR.items() if [] in bodies}


class Chart:
    """The items of Earley's algorithm, one set for each place."""

    def __init__(self):
        self.sets = []
        self.add({("program", tuple(body), 0, 0) for body in GRAMMAR["program"]})

    def add(self, seeds):
        here, found, work, wanted = len(self.sets), {}, list(seeds), {}
        self.sets.append(wanted)
        while work:
            item = work.pop()
            if item in found:
                continue
            found[item] = True
            head, body, dot, start = item
            if dot == len(body):
                if start != here:
                    work += [(h, b, d + 1, s) for h, b, d, s in self.sets[start].get(head, [])]
                continue
            wanted.setdefault(body[dot], []).append(item)
            if body[dot] in GRAMMAR:
                work += [(body[dot], tuple(b), 0, here) for b in GRAMMAR[body[dot]]]
                if body[dot] in EMPTY:
                    work.append((head, body, dot + 1, start))
        self.ended = any(head == "program" and dot == len(body) and start == 0 for head, body, dot, start in found)

    def take(self, kind):
        """Whether some program goes on with a token of this kind."""
        seeds = [(head, body, dot + 1, start) for head, body, dot, start in self.sets[-1].get(kind, [])]
        if seeds:
            self.add(seeds)
        return bool(seeds)


class Depth:
    """How many operators stand in the element of the expression and of each open bracket."""

    OPERATORS = set(PREFIXES) | {"->"} | {mark for marks in BINARY.values() for mark in marks}

    def __init__(self):
        self.declares, self.counts = False, [0]

    def take(self, kind):
        """Whether the token is too deep."""
        if kind in self.OPERATORS:
            self.counts[-1] += 1
        elif kind == "(" and self.declares:
            self.declares, self.counts[-1] = False, 0
        elif kind in ("(", "{", "[", "case"):
            self.counts.append(0)
        elif kind in (")", "}", "]", "esac"):
            self.declares = self.declares or len(self.counts) == 1
            self.counts = self.counts[:max(1, len(self.counts) - 1)]
        elif kind in (",", ";", ":", "U"):
            self.counts[-1] = 0
        elif kind in (":=", "MODULE", "VAR", "ASSIGN", "DEFINE") or [kind] in GRAMMAR["condition"]:
            self.declares, self.counts = kind == "VAR", [0]
        return len(self.counts) > 129 or sum(self.counts) > 1000


def tokens(text):
    """Each token with its kind and its place."""
    for it in TOKEN.finditer(text):
        spelled = it.group()
        if it.lastgroup == "number":
            yield "NUMBER", spelled, it.start()
        elif it.lastgroup != "gap":
            yield spelled if it.lastgroup == "mark" or spelled in WORDS or spelled in LEFT_OUT else "NAME", spelled, it.start()


def first_fault(text):
    """The name of the grammar's first fault, its place and the left-out word, or None."""
    chart, depth = Chart(), Depth()
    for kind, spelled, place in tokens(text):
        if not chart.take(kind):
            return ("LeftOut", place, spelled) if kind in LEFT_OUT else ("Syntax", place, None)
        if depth.take(kind):
            return "TooDeep", place, None
        if kind == "NUMBER" and int(spelled) > 1000000:
            return "RangeTooWide", place, None
    return None if chart.ended else ("Syntax", len(text), None)


def told(file, text, fault):
    name, place, word = fault
    line, column = text.count("\n", 0, place) + 1, place - text.rfind("\n", 0, place)
    return f"model: {name} at {line}:{column}" + (f" {word}" if word else "")


def other(rng, found):
    """A token to stand in the place of another."""
    made = [rng.choice(WORDS), rng.choice(MARKS), rng.choice(LEFT_OUT), rng.choice(["x", "7", "1000001"]), rng.choice(found)]
    return rng.choice(made)


def broken(rng, text):
    """The tokens of the text with one to three of them changed, and gaps of any form between them."""
    found = [spelled for _, spelled, _ in tokens(text)]
    for _ in range(rng.choice([1, 1, 2, 3])):
        at, way = rng.randrange(len(found)), rng.choice(["drop", "double", "exchange", "replace", "replace", "cut", "great"])
        if way == "drop":
            del found[at]
        elif way == "double":
            found.insert(at, found[at])
        elif way == "exchange":
            found[at - 1], found[at] = found[at], found[at - 1]
        elif way == "replace":
            found[at] = other(rng, found)
        elif way == "cut":
            found = found[:max(1, at)]
        else:
            found = [str(rng.choice([1000000, 1000001, 10 ** 30])) if it.isdigit() and rng.random() < 0.1 else it for it in found]
    return "".join(token + rng.choice([" ", " ", " ", "\n", "\t", " -- a comment\n"]) for token in found)


def deep(rng):
    """A text whose brackets or operators come near their limits."""
    brackets, operators = rng.choice([0, 127, 128, 129]), rng.choice([0, 999, 1000, 1001])
    chain = " + ".join(["1"] * (operators + 1))
    return f"MODULE main INVAR {'( ' * brackets}{chain}{' )' * rng.choice([brackets, brackets, brackets - 1, 0])} = 1"


def compare(program, seed, file):
    """Whether a text of the seed has the fault that the table tells."""
    rng = random.Random(seed)
    text = deep(rng) if rng.random() < 0.02 else broken(rng, RandomModel(rng).text())
    with open(file, "w", encoding="utf-8") as it:
        it.write(text)
    found = subprocess.run([program, "init", file], capture_output=True, text=True)
    fault = first_fault(text)
    line = found.stderr.strip().splitlines()[-1] if found.stderr.strip() else ""
    agrees = found.returncode == 3 and line.endswith(told(file, text, fault)) if fault else not re.search(r"model: (Syntax|LeftOut|TooDeep) ", line)
    if not agrees:
        print(f"seed {seed}: wanted {fault and told(file, text, fault)}, found {found.returncode} {line}\n{text}\n")
    return agrees


def main():
    program, texts, first = sys.argv[1], int((sys.argv[2:] or [200])[0]), int((sys.argv[3:] or [1])[0])
    with tempfile.TemporaryDirectory() as place:
        found = [compare(program, seed, f"{place}/model") for seed in range(first, first + texts)]
    print(f"{sum(found)} passed, {len(found) - sum(found)} failed")
    return 0 if all(found) else 1


if __name__ == "__main__":
    sys.exit(main())
