"""What `compare_queries`, `worlds` and `without_error` share: seeded sessions of queries over small worlds."""

import random
import re

from sessions import FILES, FILING

OPS = ["<", "<=", "=", "!=", ">=", ">"]
TEXTS = ['""', '"a"', '"b"', '"a b"']
# what a class has beside x and y: numbers, texts and dynamic attributes
CLASSES = {
    "car": ("4 point (fuel dyn,plate text,load num)", ["load"], ["plate"], ["x", "y", "fuel"]),
    "post": ("3 point", [], [], ["x", "y"]),
    "tank": ("3 (level dyn,label text)", [], ["label"], ["level"]),
    "box": ("2 (x num,y text)", ["x"], ["y"], []),
    "ship": ("1000 point (plate dyn)", [], [], ["x", "y", "plate"]),
    "ferry": ("40 point", [], [], ["x", "y"]),
    "lorry": ("200 point (fuel dyn)", [], [], ["x", "y", "fuel"]),
}
# a class of this one alone has more objects than a `nearest` has to look at throughout
CROWD = ("ferry", 40)
# a class of the sessions `placed` alone has so many objects that an ask passes over those far from what it needs
FLEET = "lorry"
POINTS = ["car", "post", "ship", "ferry", "lorry"]
REGIONS = {
    "P": "(-5,-5) (5,-5) (5,5) (-5,5)",
    "Q": "(0,0) (0,10) (10,0)",
    "R": "(-3,0) (-1,-4) (2,-4) (4,0) (2,3) (-1,3)",
    "S": "(0,0) (2,0) (4,0) (4,1) (4,4) (0,4)",
    "T": "(-1000000000,-1000000000) (1000000000,-1000000000) (1000000000,0.001)",
}
# those of the sessions `placed` alone, among spread-out objects
PLACED = {
    "U": "(-200,-200) (-150,-200) (-150,-150) (-200,-150)",
    "V": "(100,100) (160,100) (160,160) (100,160)",
    "W": "(0,-300) (300,-300) (150,0)",
}
# what an import brings to the fleet: objects all over the plane, and some at one place
FLEETS = {
    "lorries": "name,x,x.rate,y,y.rate\n"
    + "".join(f"l{i},{i * 37 % 200 * 5 - 500},{i % 3 - 1},{i * 61 % 200 * 5 - 500},{i % 2}\n" for i in range(0, 200, 3)),
    "yard": "name,x,y,fuel.rate\n" + "".join(f"l{i},{120 + i % 5},{120 + i},1\n" for i in range(20)),
}
# those that a class has beside x and y, so that there are more than there may be indexes
RACK = [f"a{place}" for place in range(15)]
# attributes that an index may be made of, and some that none can be
INDEXED = ["car x", "car x", "car fuel", "car fuel", "tank level", "tank level", "post y", "ship plate"]
NEVER_INDEXED = ["car load", "car plate", "box x", "car nothing", "no x"]
WIDTHS = ["1", "1", "0.001", "2.5", "1000", "1000000000"]
# points on a circle of radius 5, and some in it
ROUND = ["(5,0)", "(3,4)", "(4,3)", "(0,5)", "(-3,4)", "(-4,3)", "(-5,0)", "(-3,-4)", "(0,-5)", "(3,-4)", "(4,-3)"]
ROUND += ["(0,0)", "(1,1)", "(-2,1)"]


class Node:
    """A formula: a text with places for its parts."""

    def __init__(self, form, *parts):
        self.form = form
        self.parts = list(parts)

    def text(self):
        return self.form.format(*(part.text() for part in self.parts))


class Line:
    """A command: its words before the formula, and the formula."""

    def __init__(self, words, formula=None):
        self.words = words
        self.formula = formula

    def text(self):
        return self.words + (self.formula.text() if self.formula else "")


class Maker:
    """One session, a function of its seed."""

    def __init__(self, seed, kind, live):
        self.draw = random.Random(seed)
        self.kind = kind
        # whether queries are registered too, and with files there are files
        self.live = live
        # sessions of wide numbers have coordinates and steps at their limits
        self.wide = self.draw.random() < 0.1
        self.slow = self.draw.random() < 0.3
        # in others all points are on a circle or in it, and most of them rest or move in parallel
        self.round = not self.wide and self.draw.random() < 0.15
        self.parallel = "(0,0)" if self.chance(70) else self.pair(self.slope)
        # whether a formula is made of what has a sure and a possible form: no NOT, no circle
        self.blurred = False
        self.queries = 0
        self.crowded = kind in ("nearest", "all") and self.chance(15)
        # how many objects the fleet has at first, where there is one
        self.fleet = self.one_of([40, 60, 100, 200]) if kind == "placed" else 0

    def chance(self, percent):
        return self.draw.randrange(100) < percent

    def one_of(self, items):
        return self.draw.choice(items)

    def number(self, size):
        if self.wide and self.chance(40):
            return self.one_of(["1000000000", "-1000000000", "999999999.999", "0.001", "-0.001", "0"])
        whole = self.draw.randint(-size, size)
        return self.one_of([f"{whole}", f"{whole}", f"{whole}.5", f"{whole}.001", f"{whole}.25"])

    def slope(self):
        if self.wide and self.chance(40):
            return self.one_of(["1000", "-1000", "999.999", "0.001", "-0.001", "0"])
        slopes = ["0", "0.5", "-0.5", "0.25", "0.001", "-0.3"] if self.slow else ["0", "1", "-1", "2", "-3", "0.5", "1.333"]
        return self.one_of(slopes)

    def pair(self, part):
        return f"({part()},{part()})"

    def coordinate(self):
        return self.number(9)

    def legs(self, part):
        firsts = "".join(f"[{part()},{self.draw.randint(1, 9)}] " for _ in range(self.one_of([0, 0, 0, 1, 1, 2, 7])))
        return firsts + part()

    def settings(self, name):
        _, numbers, texts, moving = CLASSES[name]
        words = ""
        if name == FLEET or self.fleet and name == "post":
            words += f" at {self.pair(lambda: self.number(500))}" if self.chance(90) else ""
            words += f" move {self.legs(lambda: self.pair(self.slope))}" if self.chance(60) else ""
        elif name in POINTS and self.round:
            words += f" at {self.one_of(ROUND + ['(0,0)'] * 14 if name == 'post' else ROUND)}"
            words += f" move {self.parallel}" if self.chance(90) else ""
        elif name in POINTS and self.chance(20):
            words += f" at {self.one_of(ROUND)}" if self.chance(70) else ""
        elif name in POINTS:
            words += f" at {self.pair(self.coordinate)}" if self.chance(60) else ""
            words += f" move {self.legs(lambda: self.pair(self.slope))}" if self.chance(70) else ""
        free = [one for one in moving if one not in ("x", "y") or " at " not in words and " move " not in words]
        for one in self.draw.sample(numbers + texts + free, min(len(numbers + texts + free), self.one_of([0, 1, 1, 2]))):
            if one in numbers:
                words += f" {one} = {self.number(5)}"
            elif one in texts:
                words += f" {one} = {self.one_of(TEXTS)}"
            else:
                value = f" = {self.number(9)}" if self.chance(60) else ""
                words += f" {one}{value}"
                words += f" rate {self.legs(self.slope)}" if not value or self.chance(60) else ""
        return words

    def object(self):
        """A class and the name of one of its objects; the first letter tells the class."""
        name = self.one_of(["car"] * 5 + ["post", "post", "tank", "tank", "box", "ship"])
        return name, f"{name[0]}{self.draw.randrange(3)}"

    def one_of_fleet(self):
        return FLEET, f"{FLEET[0]}{self.draw.randrange(self.fleet)}"

    def one_of_crowd(self):
        name, count = CROWD
        return name, f"{name[0]}{self.draw.randrange(count)}"

    # the variables of a query are pairs of name and class

    def attribute(self, variables, kind):
        """An attribute of a variable of the kind (1 number, 2 text, 3 dynamic), or nothing."""
        found = [f"{name}.{one}" for name, which in variables for one in CLASSES[which][kind]]
        return self.one_of(found) if found else None

    def factor(self, variables, bound):
        sort = self.draw.randrange(12)
        dynamic = self.attribute(variables, 3)
        if sort < 4 and dynamic:
            return dynamic
        if sort < 6 and dynamic:
            return dynamic + "." + self.one_of(["value", "updatetime", "function"])
        if sort == 6:
            return self.attribute(variables, 1) or "TIME"
        if sort == 7:
            return "TIME"
        if sort < 10 and bound:
            return self.one_of(bound)
        return str(self.draw.randint(0, 12)) + self.one_of(["", "", ".5", ".001"])

    def term(self, variables, bound):
        count = self.one_of([1, 1, 1, 1, 2, 2, 3])
        words = "-" if self.chance(8) else ""
        for i in range(count):
            factor = self.factor(variables, bound)
            times = self.chance(15) and not factor[0].isdigit()
            words += self.one_of([" + ", " - "]) if i else ""
            words += f"{self.draw.randint(0, 3)} * " + factor if times else factor
        return words

    def placed_atom(self, points):
        """An atom that names a place of the plane."""
        sort, name = self.draw.randrange(10), self.one_of(points)
        if sort < (5 if points[1:] else 7):
            word = self.one_of(["INSIDE", "INSIDE", "INSIDE", "INSIDE", "OUTSIDE"])
            return Node(f"{word}({name},{self.one_of([*PLACED, *PLACED, *REGIONS])})")
        if sort < 7:
            distance = self.one_of(["0", "0.5", "5", "20", "60", "100", "-1"])
            return Node(f"DIST({name},{self.one_of(points)}) {self.one_of(['<', '<=', '<=', *OPS])} {distance}")
        sides = [f"{name}.{self.one_of('xy')}", self.number(500).replace("-", self.one_of(["-", "-", ""]))]
        self.draw.shuffle(sides)
        return Node(f"{sides[0]} {self.one_of(OPS)} {sides[1]}")

    def atom(self, variables, bound):
        points = [name for name, which in variables if which in POINTS]
        if points and self.fleet and self.chance(85):
            return self.placed_atom(points)
        sort = self.draw.randrange(20)
        if points and self.blurred and self.chance(60):
            sort = self.draw.randrange(9)
        elif points and self.round and self.chance(50):
            names = ",".join(self.draw.sample(points, self.draw.randint(1, len(points))))
            return Node(f"WITHIN_SPHERE({self.one_of(['5', '5', '4.999', '2.5', '4'])},{names})")
        if points and sort < 5:
            word = self.one_of(["INSIDE", "INSIDE", "OUTSIDE"])
            return Node(f"{word}({self.one_of(points)},{self.one_of(list(REGIONS))})")
        if points and sort < 9:
            distance = self.one_of(["3", "5", "0", "1.5", "2.001", "7", "-1", "-0.001", "1000000000"])
            return Node(f"DIST({self.one_of(points)},{self.one_of(points)}) {self.one_of(OPS)} {distance}")
        if points and sort < 11 and not self.blurred:
            names = ",".join(self.one_of(points) for _ in range(self.one_of([1, 2, 2, 3, 3, 4])))
            return Node(f"WITHIN_SPHERE({self.one_of(['0', '1', '2', '2.5', '3.4', '5', '1000'])},{names})")
        text = self.attribute(variables, 2)
        if text and sort < 13:
            other = self.one_of(TEXTS + [text, self.attribute(variables, 2)])
            return Node(f"{text} {self.one_of(['=', '!='])} {other}")
        if sort == 13:
            return Node(self.one_of(["TRUE", "FALSE"]))
        return Node(f"{self.term(variables, bound)} {self.one_of(OPS)} {self.term(variables, bound)}")

    def bad_atom(self, variables):
        name = variables[0][0]
        return Node(self.one_of([
            f"INSIDE({name},NOWHERE)", f"INSIDE(nobody,P)", f"DIST({name},nobody) < 1", f"{name}.nothing = 1",
            "nobody.x = 1", "u = 1", f"{name} = 1", f"{name}.x = \"a\"", "TIME < \"a\"", '"a" <= "b"', '"a" + 1 = 1',
            '-"a" = "a"', '"a" = "a"', f"INSIDE({name},P)", f"DIST({name},{name}) = 0", f"{name}.plate.value = 1",
            f"{name}.load.function = 1", f"{name}.label = \"a\"", f"{name}.plate != 1", f"2 * {name}.plate = \"a\"",
            f"1000 * {name}.x < 1", f"999 * {name}.x < 1", f"999 * {name}.fuel + 999 * {name}.x < 1",
            "1000000 * TIME >= 1", "1000000 * TIME + 0.001 > 1", f"[u <- 1] u.x = 1", f"[u <- 1] INSIDE(u,P)",
            f"[u <- {name}.plate] u = \"a\"", f"[u <- {name}.x] u = \"a\"", f"[{name} <- 1] TRUE",
            f"[u <- 1] [u <- 2] TRUE", f"([u <- 1] TRUE AND u = 1)", "[u <- u] TRUE", f"[u <- 1000 * {name}.x] TRUE",
            f"[u <- 1000 * TIME] 1000 * u = 1", f"[u <- 1000 * TIME] 1001 * u = 1", "[u <- 1] [w <- 2] [z <- 3] TRUE",
            f"WITHIN_SPHERE(1000.001,{name})", f"WITHIN_SPHERE(1,{','.join([name] * 5)})", "1 + = 2",
        ]).replace("{", "{{").replace("}", "}}"))

    def formula(self, variables, size, bound, nested=0):
        if size <= 1:
            return self.atom(variables, bound)
        part = lambda count: self.formula(variables, count, bound, nested)
        reach = self.one_of([0, 1, 2, 3, 5, 10, 1000000000])
        sort = self.draw.randrange(20)
        if sort < 4:
            words = ["NEXTTIME", "EVENTUALLY", "ALWAYS"]
            word = self.one_of(words if self.blurred else words + ["NOT", "NOT"])
            return Node(word + " {0}", part(size - 1))
        if sort < 8:
            word = self.one_of(["EVENTUALLY_WITHIN", "EVENTUALLY_AFTER", "ALWAYS_FOR"])
            return Node(f"{word} {reach} " + "{0}", part(size - 1))
        if sort < 11 and nested < 2 and size < 12:
            # now and then a text is bound
            name, text = f"v{nested}", self.attribute(variables, 2)
            if text and self.chance(20):
                body = Node("({0} AND {1})", Node(f"{name} = {text}"), part(size - 1))
                return Node(f"[{name} <- {text}] " + "{0}", body)
            body = self.formula(variables, size - 1, bound + [name], nested + 1)
            return Node(f"[{name} <- {self.term(variables, bound)}] " + "{0}", body)
        left = self.draw.randint(1, size - 1)
        word = self.one_of(["AND", "AND", "OR", "OR", "UNTIL", f"UNTIL_WITHIN {reach}", f"UNTIL_AFTER {reach}"])
        form = "({0} " + word + " {1})" if self.chance(85) else "{0} " + word + " {1}"
        return Node(form, part(left), part(size - left))

    def query(self, words, most):
        """A query behind the words, with a span of at most that many ticks."""
        self.queries += 1
        count = self.one_of([2, 3, 3, 4] if self.round else [1, 1, 1, 2, 2, 2, 3, 3, 4])
        names = self.draw.sample(["o", "n", "m", "k"], count)
        variables = [(name, self.one_of(["car", "car", "car", "post", "tank", "box"])) for name in names]
        if self.chance(2):
            variables[self.draw.randrange(count)] = (variables[0][0], "ship")
        targets = self.draw.sample(names, self.draw.randint(1, count))
        size = self.one_of([1, 2, 3, 4, 5, 6, 8, 10, 12] if count < 4 else [1, 2, 3, 4])
        formula = self.formula(variables, size, [])
        span = min(most, self.one_of([0, 1, 2, 5, 10, 20, 20, 30, 30, 40]))
        if self.chance(1) and count < 3 and size < 5 and "<-" not in formula.text():
            span = min(most, self.draw.randint(100, 1000))
        froms = [f"{which} {name}" for name, which in variables]
        if self.chance(12):
            formula = self.bad(variables, targets, froms, formula)
            if self.chance(8):
                span = self.one_of([100000001, 1000000000])
            elif self.chance(5) and "<-" in formula.text():
                span = 10001
            elif self.chance(5) and re.search(r"SPHERE\([^,]*,\w+,\w+,", formula.text()):
                span = 100001
        head = f"{words} {span} RETRIEVE {','.join(targets)} FROM {','.join(froms)} WHERE "
        return Line(head, formula)

    def placed_query(self, words, most):
        """A query of objects of the fleet behind the words, sometimes with one of few others, with a span of at most that
        many ticks. Long windows have formulas of one atom, as the plain program judges tick by tick."""
        self.queries += 1
        variables = [("o", FLEET)] + [("n", self.one_of(["post", "car"]))] * self.chance(35)
        if self.fleet <= 60 and self.chance(5):
            variables = [("o", FLEET), ("n", FLEET)]
        self.draw.shuffle(variables)
        names = [name for name, _ in variables]
        targets = self.draw.sample(names, self.draw.randint(1, len(names)))
        size, span = self.one_of([1, 1, 1, 2, 2, 2, 3, 4, 5, 6]), self.one_of([0, 5, 20, 20, 40, 60])
        if size == 1 and len(variables) == 1:
            # past the ends of what is kept of where objects can be
            span = self.one_of([0, 5, 60, 100, 257, 300, 1_025, 1_100] + [4_097, 5_000] * (self.fleet <= 60))
            span = 65_537 if self.fleet <= 40 and self.chance(3) else span
        head = f"{words} {min(most, span)} RETRIEVE {','.join(targets)} FROM "
        return Line(head + ",".join(f"{which} {name}" for name, which in variables) + " WHERE ", self.formula(variables, size, []))

    def bad(self, variables, targets, froms, formula):
        sort = self.draw.randrange(8)
        if sort == 0:
            targets.append(self.one_of(targets + ["nobody", "o"]))
        elif sort == 1:
            froms[0] = self.one_of([f"nothing {variables[0][0]}", froms[-1], "tank " + variables[-1][0]])
        elif sort == 2:
            froms.extend([f"ship s{i}" for i in range(self.one_of([1, 2, 4]))])
        else:
            form = self.one_of(["{0}", "({0} AND {1})", "({1} OR {0})", "{1} UNTIL {0}", "NOT {0}"])
            return Node(form, self.bad_atom(variables), formula)
        return formula

    def setup(self):
        classes = [name for name in CLASSES if self.crowded or name != CROWD[0]]
        classes = [name for name in classes if self.fleet or name != FLEET]
        lines = [f"class {name} {CLASSES[name][0]}" for name in classes if self.chance(99)]
        lines += [f"region {name} {points}" for name, points in REGIONS.items() if self.chance(99)]
        lines += [f"region {name} {points}" for name, points in PLACED.items() if self.fleet]
        if self.chance(10):
            lines.append(f"tick {self.one_of([1000000, 999999000, 999999990])}")
        counts = {"car": 3, "post": 3, CROWD[0]: CROWD[1], FLEET: self.fleet}
        objects = [(name, f"{name[0]}{i}") for name in classes for i in range(counts.get(name, 2))]
        self.draw.shuffle(objects)
        for name, which in objects:
            if self.chance(85 if name in ("car", FLEET) else 60):
                lines.append(f"insert {name} {which}{self.settings(name)}")
                lines.extend([f"tick {self.draw.randint(1, 5)}"] if self.chance(2 if self.fleet else 20) else [])
        return [Line(line) for line in lines]

    def write(self):
        name, which = self.one_of_crowd() if self.crowded and self.chance(50) else self.object()
        if self.fleet and self.chance(80):
            name, which = self.one_of_fleet()
        sort = self.draw.randrange(10)
        if sort < 2:
            return Line(f"remove {which}")
        return Line(f"insert {name} {which}{self.settings(name)}" if sort < 4 else f"update {which}{self.settings(name)}")

    def blurred_query(self, word):
        self.blurred = self.chance(90)
        error = self.one_of(["0", "0.001", "0.5", "0.5", "1", "1", "2.25", "2.25", "1000", "1000.001"])
        line = self.query(f"{word} {error}", 30)
        self.blurred = False
        return line

    def nearest(self, span):
        self.queries += 1
        number = self.one_of([1, 1, 1, 2, 2, 3, 100, 101])
        if self.crowded and self.chance(70):
            span, number = self.one_of([0, 10, 40, 100, 200]), self.one_of([1, 1, 2, 3, 5, 10])
            return Line(f"nearest {span} {number} {self.one_of([self.object(), self.one_of_crowd()])[1]} {CROWD[0]}")
        to, among = (f"p{self.draw.randrange(3)}", "car") if self.round else (self.object()[1], self.object()[0])
        return Line(f"nearest {span} {number} {to} {among}")

    def on_index(self):
        """An `index` or a `range`, which ask for numbers that the values come to."""
        self.queries += 1
        of = self.one_of(NEVER_INDEXED) if self.chance(5) else self.one_of(INDEXED)
        if self.chance(30):
            return Line(f"index {of} {self.one_of(WIDTHS + ['0'])}")
        span = self.one_of([63_999, 64_000]) if self.chance(3) else self.one_of([0, 5, 20, 40, 100])
        least, greatest = self.number(9), self.number(9)
        if self.chance(80):
            least, greatest = sorted([least, greatest], key=float)
        return Line(f"range {span} {of} {least} {greatest}")

    def rack(self):
        """A class of many attributes, most or all of which have an index."""
        lines = [f"class rack 1 point ({','.join(f'{name} dyn' for name in RACK)})", "insert rack rack a0 rate 1"]
        lines += [f"index rack {name} 1" for name in self.draw.sample(["x", "y"] + RACK, self.draw.randint(13, 17))]
        return [Line(line) for line in lines + ["range 10 rack a0 3 5"]]

    def other(self):
        if self.kind in FILING and self.chance(30):
            name = self.one_of(["car", "car", "post", "tank", "nothing"])
            return Line(self.one_of([
                f'import {name} "{self.one_of(list(FILES) + ["none", "e0", "e0", "e1", "e1"])}"',
                f'import car "{self.one_of(list(FILES))}"',
                f'export {name} "e{self.draw.randrange(2)}"',
                'save "s1"',
            ]))
        if self.kind == "all" and self.chance(50):
            span = self.one_of([0, 5, 20, 40, 10001, 1000001])
            return self.one_of([
                lambda: self.blurred_query("must"),
                lambda: self.blurred_query("must"),
                lambda: self.blurred_query("may"),
                lambda: self.blurred_query("may"),
                lambda: self.nearest(span),
                lambda: self.nearest(20),
                lambda: self.nearest(20),
                lambda: self.nearest(20),
                self.on_index,
                self.on_index,
            ])()
        name = f"w{self.draw.randrange(4)}"
        return self.one_of([
            lambda: self.query(f"watch {name}", 40),
            lambda: self.query(f"keep {name}", 40),
            lambda: Line(f"show {name}"),
            lambda: Line(f"show {name}"),
            lambda: Line(f"drop {name}"),
            lambda: Line("list"),
        ])()

    def placed_line(self):
        """A line of a session with a fleet."""
        sort = self.draw.randrange(100)
        name = f"w{self.draw.randrange(4)}"
        if sort < 35:
            return self.placed_query("ask", 70_000)
        if sort < 50:
            error = self.one_of(["0", "0.5", "3", "3", "20", "60.001"])
            return self.placed_query(f"{self.one_of(['must', 'may'])} {error}", 1_100)
        if sort < 55:
            return self.placed_query(f"{self.one_of(['watch', 'keep'])} {name}", 20)
        if sort < 60:
            return Line(self.one_of([f"show {name}", f"drop {name}", "list"]))
        if sort < 63:
            return Line(f'import {FLEET} "{self.one_of(list(FLEETS))}"')
        if sort < 85:
            return self.write()
        return Line(f"tick {self.one_of([1, 3, 12, 12, 100, 250, 300, 1_000, 5_000, 70_000])}")

    def session(self):
        lines = self.setup()
        if self.fleet:
            return lines + [self.placed_line() for _ in range(self.draw.randint(40, 80))]
        if self.kind in ("ranges", "all"):
            lines += [Line(f"index {of} {self.one_of(WIDTHS)}") for of in sorted(set(INDEXED)) if self.chance(60)]
            lines += self.rack() if self.chance(10) else []
        for _ in range(self.draw.randint(20, 50)):
            sort = self.draw.randrange(100)
            if self.kind == "nearest" and self.chance(40):
                lines.append(self.nearest(self.one_of([0, 5, 20, 20, 20, 40, 1_000, 1_000_001])))
            elif self.kind == "blurred" and self.chance(40):
                lines.append(self.blurred_query(self.one_of(["must", "may"])))
            elif self.kind == "ranges" and self.chance(40):
                lines.append(self.on_index())
            elif self.kind == "ranges" and self.chance(3):
                # towards the last tick of an index, and past it
                lines.append(Line(f"tick {self.one_of([63_900, 63_990, 63_999, 64_000])}"))
            elif sort < (25 if self.live else 70):
                lines.append(self.query("ask", 1000))
            elif self.live and sort < 55:
                lines.append(self.other())
            elif sort < 92:
                lines.append(self.write())
            else:
                lines.append(Line(f"tick {self.draw.randint(1, 12)}"))
        return lines


def session_text(lines):
    return "".join(line.text() + "\n" for line in lines).encode()


def ticks_of(reply):
    """The ticks of each row of a reply, by the names of its objects."""
    rows = {}
    for line in reply[:-1]:
        names, _, runs = line.partition(" : ")
        ends = [run.partition("..") for run in runs.split()]
        rows[names.partition(" ")[2]] = {tick for first, _, last in ends for tick in range(int(first), int(last or first) + 1)}
    return rows
