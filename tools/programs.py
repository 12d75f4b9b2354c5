"""Random sources that are accepted: modules that call one another, classical functions, loops, branches and numbers."""

ONE = "X Y Z H S T Sdag Tdag".split()
ANGLES = ["M_PI", "M_PI / 4", "-0.5", "n * 0.25", "1.000000000001", "0"]


class Maker:
    """A source that grows. A scope is its single qubits, its arrays with their lengths and its cbits."""

    def __init__(self, chance):
        self.chance, self.parts, self.modules, self.words, self.fresh = chance, [], [], [], 0

    def name(self, letter):
        self.fresh += 1
        return f"{letter}{self.fresh}"

    def word(self, depth, names):
        """A word expression of the common width."""
        if depth == 0 or self.chance.random() < 0.2:
            return self.chance.choice(names)
        left, right = self.word(depth - 1, names), self.word(depth - 1, names)
        return self.chance.choice([
            f"({left} {self.chance.choice('&|^+-*')} {right})", f"~{left}", f"({left} << {self.chance.randrange(5)})",
            f"({left} < {right} ? {left} : {right})", f"({left} + {self.chance.randrange(2)})", f"({left} == {right} ? {right} : {left})"])

    def classical(self):
        name, width = self.name("f"), self.chance.randrange(1, 5)
        params = [self.name("a") for _ in range(self.chance.randrange(1, 3))]
        bound, value, result = self.name("t"), self.word(2, params), None
        result = self.word(1, [*params, bound])
        lines = f"classical {name}({', '.join(f'{it}[{width}]' for it in params)}) : {width} {{ {bound} = {value}; return {result}; }}"
        self.parts.append(lines)
        self.words.append((name, [width] * (len(params) + 1)))

    def wires(self, scope, count):
        """Distinct qubits, or none where there are too few."""
        singles, arrays, _ = scope
        all_wires = singles + [f"{name}[{i}]" for name, size in arrays for i in range(min(size, 6))]
        return self.chance.sample(all_wires, count) if len(all_wires) >= count else None

    def gate(self, scope):
        kind = self.chance.randrange(10)
        count = {0: 2, 1: 2, 2: 3, 3: 3}.get(kind, 1)
        wires = self.wires(scope, count)
        if not wires:
            return ";"
        if kind < 4:
            return f"{['CNOT', 'CNOT', 'Toffoli', 'Fredkin'][kind]}({', '.join(wires)});"
        if kind == 4:
            return f"{self.chance.choice(['Rx', 'Ry', 'Rz'])}({wires[0]}, {self.chance.choice(ANGLES)});"
        if kind == 5:
            return f"{self.chance.choice(['PrepX', 'PrepZ'])}({wires[0]}{self.chance.choice(['', ', 0', ', 1', ', n % 2'])});"
        if kind == 6:
            into = self.chance.choice([*[f"{it} = " for it in scope[2]], ""])
            return f"{into}{self.chance.choice(['MeasX', 'MeasZ'])}({wires[0]});"
        return f"{self.chance.choice(ONE)}({wires[0]});"

    def call(self, scope):
        """A call with distinct wires of a module or function before it, where the scope has them."""
        if not self.modules + self.words:
            return self.gate(scope)
        name, sorts = self.chance.choice(self.modules + self.words)
        arrays, wires, words = list(scope[1]), self.wires((scope[0], [], []), len(scope[0])) or [], []
        for sort in sorts:
            if sort == "n":
                words.append(self.chance.choice(["n", "0", "n - 1", "3"]))
                continue
            fits = [it for it in arrays if it[1] == sort] if sort != "q" else wires
            if not fits and sort == 1:
                fits = wires
            if not fits:
                return self.gate(scope)
            taken = fits.pop() if fits is wires else fits[0]
            if fits is not wires:
                arrays.remove(taken)
            words.append(taken if isinstance(taken, str) else taken[0])
        return f"{name}({', '.join(words)});"

    def loop(self, scope, depth):
        name, (array, size) = self.name("i"), self.chance.choice(scope[1] or [(None, 3)])
        more = (scope[0] + [f"{array}[{name}]"], [it for it in scope[1] if it[0] != array], scope[2]) if array else scope
        count = size if array else self.chance.choice([0, 1, 2, 5, 40])
        return f"for (int {name} = 0; {name} < {count}; {name}++) {{ {self.body(more, depth - 1)} }}"

    def statement(self, scope, depth):
        kind = self.chance.randrange(12) if depth else 11
        if kind == 0:
            return self.loop(scope, depth)
        if kind == 1:
            test = self.chance.choice(["n > 1", "n % 2 == 0", "!n", "n < 3 && n != 1"])
            return f"if ({test}) {{ {self.body(scope, depth - 1)} }} else {self.statement(scope, 0)}"
        if kind == 2:
            return f"n = {self.chance.choice(['n + 1', '2 * n % 7', 'n / 2', 'n << 1 >> 2', 'n > 0 ? n - 1 : 5'])};"
        if kind == 3:
            return f"{{ qbit {(t := self.name('t'))}; {self.body((scope[0] + [t], scope[1], scope[2]), depth - 1)} }}"
        return self.call(scope) if kind < 7 else self.gate(scope)

    def body(self, scope, depth):
        return " ".join(self.statement(scope, depth) for _ in range(self.chance.randrange(1, 6)))

    def module(self):
        name, singles, arrays, sorts, params = self.name("m"), [], [], [], []
        for _ in range(self.chance.randrange(1, 4)):
            wire, size = self.name("q"), self.chance.choice(["q", "q", 2, 3])
            (singles.append(wire) if size == "q" else arrays.append((wire, size)))
            params.append(f"qbit {wire}" if size == "q" else f"qbit {wire}[{self.chance.choice(['', size])}]")
            sorts.append(size)
        body = self.body((singles, arrays, []), 3)
        self.parts.append(f"module {name}({', '.join([*params, 'int n'])}) {{ {body} }}")
        self.modules.append((name, [*sorts, "n"]))

    def main(self):
        singles, arrays, bits = ["a", "b", "c"], [("v", 2), ("w", 3), ("x", 2), ("y", 3), ("z", 4), ("u", 4)], ["r", "s[1]"]
        head = "qbit a, b, c, v[2], w[3], x[2], y[3], z[4], u[4]; cbit r, s[2]; int n = 2;"
        self.parts.append(f"int main() {{ {head} {self.body((singles, arrays, bits), 4)} {self.body((singles, arrays, bits), 3)} }}")


def source(chance):
    """A random source."""
    maker = Maker(chance)
    for _ in range(chance.randrange(5)):
        maker.classical() if chance.random() < 0.3 else maker.module()
    maker.main()
    return "\n".join([*maker.parts, ""]).encode()
