"""Random models, with their texts: one module, or `main` with an instance of a second one that has parameters."""

from meaning import Model
from reports import Texts, value_text

SYMBOLS = ["idle", "work", "rest", "go", "b0", "s_1", "x-y"]
TRUE, FALSE = ("literal", True), ("literal", False)


def kind_of(values):
    if isinstance(values[0], bool):
        return "Boolean"
    return "number" if all(isinstance(it, int) for it in values) else "symbol"


def type_text(values):
    if kind_of(values) == "Boolean":
        return "boolean"
    if kind_of(values) == "number" and values == list(range(values[0], values[-1] + 1)):
        return f"{values[0]}..{values[-1]}"
    return "{" + ", ".join(map(str, values)) + "}"


class RandomModel:
    """A model that a seed gives. What stands in the instance `a` has a flat name that begins with `a.`; the first DEFINE
    may be an argument of the instance, which has a name there alone."""

    def __init__(self, random):
        self.random, self.model = random, Model()
        self.homes = {}  # where each entry of the model stands: "main" or "cell"
        self.has_cell = random.random() < 0.5
        self.here, self.kinds, self.define_kinds, self.argument = "main", [], [], None
        self.make_variables()
        self.make_defines()
        self.make_assignments()
        self.make_conditions()

    # ---- choices

    def chance(self, probability):
        return self.random.random() < probability

    def one_of(self, *makers):
        return self.random.choice(makers)()

    def several(self, make, most):
        return [make() for _ in range(self.random.randint(1, most))]

    def move(self):
        self.here = "cell" if self.has_cell and self.chance(0.5) else "main"
        return self.here

    # ---- entries

    def make_variables(self):
        size, count = 1, self.random.randint(1, 4)
        first_inside = self.random.randint(0, count) if self.has_cell else count
        for place in range(count):
            values = self.one_of(lambda: [False, True], lambda: [False, True], self.numbers, self.symbols)
            values = [False, True] if size * len(values) > 96 else values
            size *= len(values)
            inside = place >= first_inside
            name = f"v{place}" if self.chance(0.8) else f"q_{place}$"
            self.model.variables.append(("a." * inside + name, values))
            self.kinds.append(kind_of(values))
            self.homes["variable", place] = "cell" if inside else "main"

    def numbers(self):
        low = self.random.randint(-2, 2)
        return list(range(low, low + self.random.randint(1, 4)))

    def symbols(self):
        found = self.random.sample(SYMBOLS, self.random.randint(1, 3))
        found = [*found[:2], self.random.randint(-1, 3)] if self.chance(0.25) else found
        self.random.shuffle(found)
        return found

    def make_defines(self):
        if self.has_cell and self.chance(0.6):
            self.add_define("a.x", ("not", self.outside(lambda: self.truth(1))), "Boolean", "argument")
            self.argument = self.model.defines[0][1]
        for place in range(self.random.randint(0, 3)):
            kind = "Boolean" if self.chance(0.75) else "number"
            home = self.move()
            body = self.truth(2) if kind == "Boolean" else self.number(1)
            self.add_define("a." * (home == "cell") + f"d{place}", body, kind, home)

    def outside(self, make):
        """What is made where only the variables of main are seen."""
        kinds = self.kinds
        self.here = "main"
        self.kinds = [kind if self.homes["variable", place] == "main" else "" for place, kind in enumerate(kinds)]
        found, self.kinds = make(), kinds
        return found

    def add_define(self, name, body, kind, home):
        self.homes["define", len(self.model.defines)] = home
        self.model.defines.append((name, body))
        self.define_kinds.append(kind)

    def make_assignments(self):
        for place in range(len(self.kinds)):
            if self.chance(0.08):
                self.assign("now", place, 2, False)
                continue
            if self.chance(0.6):
                self.assign("first", place, 1, False)
            if self.chance(0.75):
                self.assign("next", place, 2, self.chance(0.3))

    def assign(self, form, place, depth, after):
        inside = self.homes["variable", place] == "cell" and self.chance(0.7)
        self.here = "cell" if inside else "main"
        self.homes[form, place] = self.here
        getattr(self.model, form).append((place, self.right_side(place, depth, after)))

    def make_conditions(self):
        counts = {"inits": [0, 0, 0, 1], "invars": [0, 0, 0, 0, 1], "trans": [0, 0, 0, 1], "fairness": [0, 0, 1, 1, 2]}
        counts["specifications"] = [1, 2, 2, 3]
        for name, many in counts.items():
            found = [(self.move(), self.condition(name)) for _ in range(self.random.choice(many))]
            found.sort(key=lambda it: it[0] == "cell")
            self.homes[name] = [home for home, _ in found]
            getattr(self.model, name).extend(e for _, e in found)

    def condition(self, name):
        if name == "specifications":
            return self.formula(self.random.randint(1, 3))
        return self.truth(1 if name == "fairness" else 2, name == "trans")

    # ---- expressions of a depth; `after` allows next

    def reading(self, kind, after):
        usable = lambda place: self.here == "cell" or self.homes["define", place] != "argument"
        found = [("variable", place) for place, it in enumerate(self.kinds) if it == kind]
        found += [("define", place) for place, it in enumerate(self.define_kinds) if it == kind and usable(place)]
        if not found:
            return None
        e = self.random.choice(found)
        return ("next", e) if after and self.chance(0.4) else e

    def number(self, depth, after=False):
        if depth <= 0 or self.chance(0.35):
            read = self.reading("number", after) if self.chance(0.75) else None
            return read or ("literal", self.random.randint(-2, 3))
        deeper = lambda: self.number(depth - 1, after)
        divisor = lambda: ("literal", self.random.choice([-3, -2, 1, 2, 3]))
        return self.one_of(
            lambda: ("minus", deeper()),
            lambda: self.case(depth, after, deeper),
            lambda: (self.random.choice(["+", "-", "*"]), deeper(), deeper()),
            lambda: (self.random.choice(["+", "-", "*"]), deeper(), deeper()),
            lambda: (self.random.choice(["/", "mod"]), deeper(), divisor()),
        )

    def symbol(self, after=False):
        texts = [it for _, values in self.model.variables for it in values if isinstance(it, str)]
        read = self.reading("symbol", after) if self.chance(0.6) else None
        return read or ("literal", self.random.choice(texts or [0, 1, 2]))

    def truth(self, depth, after=False):
        if depth <= 0 or self.chance(0.3):
            read = self.reading("Boolean", after) if self.chance(0.85) else None
            return read or self.random.choice([TRUE, FALSE, ("=", self.number(0, after), self.number(0, after))])
        deeper = lambda: self.truth(depth - 1, after)
        number = lambda: self.number(depth - 1, after)
        compare = ["=", "!=", "<", "<=", ">", ">="]
        return self.one_of(
            lambda: ("not", deeper()),
            lambda: (self.random.choice(["&", "|", "->", "<->", "xor"]), deeper(), deeper()),
            lambda: (self.random.choice(["&", "|", "->", "<->", "xor"]), deeper(), deeper()),
            lambda: (self.random.choice(compare), number(), number()),
            lambda: (self.random.choice(["=", "!="]), self.symbol(after), self.symbol(after)),
            lambda: ("in", number(), self.number_choices(depth - 1, after)),
            lambda: ("in", self.symbol(after), self.symbol_choices(after)),
            lambda: (self.random.choice(["=", "!="]), deeper(), deeper()),
            lambda: self.case(depth, after, deeper),
        )

    def case(self, depth, after, body):
        guards = self.several(lambda: self.truth(depth - 1, after), 2)
        closing = [TRUE, ("literal", True, "1"), ("not", guards[0])]
        closing += [guards[0][1]] if guards[0][0] == "not" else []
        return ("case", [(guard, body()) for guard in [*guards, self.random.choice(closing)]])

    def number_choices(self, depth, after):
        low = self.random.randint(-2, 2)
        return self.one_of(
            lambda: ("range", low, low + self.random.randint(0, 3)),
            lambda: ("set", self.several(lambda: self.number(depth - 1, after), 3)),
            lambda: ("union", self.number(depth - 1, after), ("range", low, low + 1)),
            lambda: self.number(depth, after),
        )

    def symbol_choices(self, after):
        return self.one_of(
            lambda: ("set", self.several(lambda: self.symbol(after), 3)),
            lambda: ("union", self.symbol(after), self.symbol(after)),
            lambda: self.symbol(after),
        )

    def right_side(self, place, depth, after):
        make = lambda: self.plain_right_side(place, depth, after)
        return self.case(depth, after, make) if self.chance(0.35) else make()

    def plain_right_side(self, place, depth, after):
        values = self.model.variables[place][1]
        if self.kinds[place] == "Boolean":
            bits = ("set", [("literal", False, "0"), TRUE])
            return self.one_of(lambda: bits, lambda: self.truth(depth, after), lambda: self.truth(depth, after))
        if self.chance(0.7):
            return ("set", [("literal", it) for it in self.random.sample(values, self.random.randint(1, len(values)))])
        return self.number_choices(depth, after) if self.kinds[place] == "number" else self.symbol_choices(after)

    def formula(self, depth):
        if depth <= 0 or self.chance(0.15):
            return self.truth(1)
        deeper = lambda: self.formula(depth - 1)
        unary = ["AG", "AG", "AF", "AX", "EX", "EF", "EG", "not"]
        binary = ["&", "|", "->", "<->", "xor", "AU", "EU"]
        if self.chance(0.6):
            return (self.random.choice(unary), deeper())
        return (self.random.choice(binary), deeper(), deeper())

    # ---- text

    def text(self):
        modules = [self.module("main"), self.module("cell")] if self.has_cell else [self.module("main")]
        if self.chance(0.4):
            modules.reverse()
        return "".join(modules)

    def name(self, home, kind, place):
        """The name of a variable or a DEFINE in a module."""
        entries = self.model.variables if kind == "variable" else self.model.defines
        flat = entries[place][0]
        if home == "main" or self.homes[kind, place] != "main":
            return flat.removeprefix("a.") if home == "cell" else flat
        return f"{kind[0]}_{place}"

    def passed(self):
        """The variables and the DEFINEs of main, each of which is a parameter of the second module."""
        return [it for it, home in self.homes.items() if it[0] in ("variable", "define") and home == "main"]

    def instance(self, texts):
        arguments = [self.name("main", *it) for it in self.passed()]
        arguments += [texts.of(self.argument)] if self.argument else []
        return "a : cell" + (f"({', '.join(arguments)})" if arguments else "")

    def module(self, home):
        texts = Texts(
            lambda place: self.name(home, "variable", place),
            lambda place: self.name(home, "define", place),
            lambda value, text=None: text or value_text(value),
        )
        formals = [self.name(home, *it) for it in self.passed()] + ["x"] * bool(self.argument)
        head = f"cell({', '.join(formals)})" if home == "cell" and formals else home
        model, mine = self.model, lambda kind, place: self.homes.get((kind, place)) == home
        variables = [(self.name(home, "variable", i), it[1]) for i, it in enumerate(model.variables) if mine("variable", i)]
        declared = [f"{name} : {type_text(values)}" for name, values in variables]
        declared += [self.instance(texts)] if home == "main" and self.has_cell else []
        defined = [(self.name(home, "define", i), it[1]) for i, it in enumerate(model.defines) if mine("define", i)]
        assigned = []
        for form, target in (("now", "{}"), ("first", "init({})"), ("next", "next({})")):
            found = [(self.name(home, "variable", x), e) for x, e in getattr(model, form) if mine(form, x)]
            assigned += [(target.format(name), e) for name, e in found]
        equations = lambda pairs: [f"{name} := {texts.of(e)}" for name, e in pairs]
        lines = [f"MODULE {head}"]
        for title, entries in (("VAR", declared), ("DEFINE", equations(defined)), ("ASSIGN", equations(assigned))):
            lines += [title, *(f"  {entry};" for entry in entries)] if entries else []
        words = {"inits": "INIT", "invars": "INVAR", "trans": "TRANS", "fairness": "FAIRNESS", "specifications": "SPEC"}
        for name, word in words.items():
            lines += [f"{word} {texts.of(e)}" for e, it in zip(getattr(model, name), self.homes[name]) if it == home]
        return "\n".join(lines) + "\n"

    def signals(self):
        """The Boolean variables and DEFINEs, with their flat names."""
        found = [(self.model.variables[i][0], ("variable", i)) for i, kind in enumerate(self.kinds) if kind == "Boolean"]
        found += [(self.model.defines[i][0], ("define", i)) for i, kind in enumerate(self.define_kinds) if kind == "Boolean"]
        return found
