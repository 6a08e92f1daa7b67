"""The reports that the program should print of a model."""

from meaning import lowered, occurrences, replaced

PREFIX = {"not": "!", "EX": "EX ", "EF": "EF ", "EG": "EG ", "AX": "AX ", "AF": "AF ", "AG": "AG "}
LEVELS = {"->": 1, "<->": 2, "|": 3, "xor": 3, "&": 4, "=": 6, "!=": 6, "<": 6, "<=": 6, ">": 6, ">=": 6}
LEVELS |= {"in": 7, "union": 8, "mod": 9, "+": 10, "-": 10, "*": 11, "/": 11}
TIGHTEST = 12


def value_text(value):
    return str(value).upper() if isinstance(value, bool) else str(value)


def level(e):
    if e[0] == "atom":
        return level(e[1])
    return 5 if e[0] in PREFIX else LEVELS.get(e[0], TIGHTEST)


class Texts:
    """Texts of expressions and formulas, with the names that variables and DEFINEs have where they stand."""

    def __init__(self, variable, define, literal=lambda value, *_: value_text(value)):
        self.variable, self.define, self.literal = variable, define, literal

    def at(self, e, asked):
        return f"({self.of(e)})" if level(e) < asked else self.of(e)

    def of(self, e):
        operator = e[0]
        if operator == "atom":
            return self.of(e[1])
        if operator == "literal":
            return self.literal(*e[1:])
        if operator == "variable":
            return self.variable(e[1])
        if operator == "define":
            return self.define(e[1])
        if operator in PREFIX:
            return PREFIX[operator] + self.at(e[1], 5)
        if operator == "minus":
            number = e[1][0] == "literal" and not isinstance(e[1][1], bool) and isinstance(e[1][1], int)
            grouped = level(e[1]) < TIGHTEST or number or e[1][0] in ("minus", "range")
            return f"-({self.of(e[1])})" if grouped else f"-{self.of(e[1])}"
        if operator == "next":
            return f"next({self.of(e[1])})"
        if operator == "range":
            return f"{e[1]}..{e[2]}"
        if operator == "set":
            return "{" + ", ".join(map(self.of, e[1])) + "}"
        if operator == "case":
            return "case " + " ".join(f"{self.of(guard)} : {self.of(body)};" for guard, body in e[1]) + " esac"
        if operator in ("AU", "EU"):
            return f"{operator[0]}[{self.of(e[1])} U {self.of(e[2])}]"
        if operator == "->":
            return f"{self.at(e[1], 2)} -> {self.at(e[2], 1)}"
        return f"{self.at(e[1], LEVELS[operator])} {operator} {self.at(e[2], LEVELS[operator] + 1)}"


def cubes(sizes, states):
    """The cubes of a set of states: for the first variable classes of values with equal rest sets, and so on."""
    if not states or not sizes:
        return [[]] if states else []
    classes = {}
    for value in range(sizes[0]):
        rest = frozenset(s[1:] for s in states if s[0] == value)
        if rest:
            classes.setdefault(rest, []).append(value)
    return [[values, *cube] for rest, values in classes.items() for cube in cubes(sizes[1:], rest)]


class Report:
    """The lines of the reports on one model, and whether all that they judge passes."""

    def __init__(self, meaning):
        self.meaning, self.model = meaning, meaning.model
        name = lambda entries: lambda place: entries[place][0]
        self.texts = Texts(name(self.model.variables), name(self.model.defines))

    def cube_text(self, cube):
        found = []
        for (name, values), places in zip(self.model.variables, cube):
            texts = [value_text(values[place]) for place in places]
            if len(texts) < len(values):
                found.append(f"{name}={texts[0]}" if len(texts) == 1 else f"{name}={{{','.join(texts)}}}")
        return ",".join(found) or "all"

    def set_lines(self, title, states, indent, most):
        found = cubes([len(values) for _, values in self.model.variables], frozenset(states))
        lines = [self.cube_text(cube) for cube in found[:most]] or ["none"]
        lines += ["more"] if len(found) > most else []
        return [" " * indent + title, *(" " * (indent + 2) + line for line in lines)]

    def init(self, most):
        return self.set_lines("initial", self.meaning.initial, 0, most), True

    def reach(self, most):
        return self.set_lines("reachable", self.meaning.reachable, 0, most), True

    def on_specifications(self, shown=None):
        """The head, and for each specification its verdict, and what else the command shows of one that passes."""
        has_start = any(s in self.meaning.starts for s in self.meaning.initial)
        lines = [] if has_start else ["no fair initial state"]
        lines += [] if self.model.specifications else ["no specifications"]
        verdicts = []
        for number, e in enumerate(self.model.specifications, 1):
            formula = lowered(e)
            passes = self.meaning.passes(formula)
            verdicts.append(passes)
            lines.append(f"spec {number} {'passes' if passes else 'fails'}: {self.texts.of(formula)}")
            if shown:
                lines += shown(formula) if passes else ["  fails, not measured"]
        return lines, all(verdicts)

    def check(self):
        return self.on_specifications()

    def vacuity(self):
        return self.on_specifications(self.occurrence_lines)

    def cover(self, signals, most):
        return self.on_specifications(lambda formula: self.signal_lines(formula, signals, most))

    def occurrence_lines(self, formula):
        lines = []
        for number, (part, positive) in enumerate(occurrences(formula), 1):
            extreme = ("atom", ("literal", not positive))
            vacuous = self.meaning.passes(replaced(formula, number, extreme))
            lines.append(f"  occurrence {number} {'vacuous' if vacuous else 'matters'}: {self.texts.of(part)}")
        return lines

    def signal_lines(self, formula, signals, most):
        lines = []
        for name, signal in signals:
            covered = self.meaning.covered(formula, signal)
            lines.append(f"  signal {name}")
            lines += self.set_lines("covered", covered, 4, most)
            lines += self.set_lines("uncovered", self.meaning.reachable - covered, 4, most)
        return lines
