"""Powers to fixed exponents in few squares and products, as code of Rattle and its proof."""

from dataclasses import dataclass


@dataclass
class Step:
    """A step of a chain: a power moved by some bits and multiplied by another."""

    name: str
    exponent: int
    base: str
    base_exponent: int
    count: int
    factor: str
    factor_exponent: int
    place: int = 0

    @property
    def code(self) -> str:
        """The step's expression in Rattle."""
        base = "self" if self.base == "power_1" else self.base
        factor = "self" if self.factor == "power_1" else f"&{self.factor}"
        return f"{base}{f'.square_times({self.count})' if self.count else ''}.mul({factor})"

    def proof(self, product: str) -> str:
        """That the step makes the power to its exponent, where the product's call is called so."""
        moved, exponent = self.base, self.base_exponent << self.count
        if self.count:
            moved = "c.square_times" + (f"-{self.place}" if self.place > 1 else "") + ".ensures"
            if self.base != "power_1":
                moved = f"(moved z _ _ {self.base_exponent} {self.count} {self.base} {moved})"
        if self.factor == "power_1":
            return f"once-more z _ _ {exponent} {moved} {product}.ensures"
        return f"powers-product z _ _ _ {exponent} {self.factor_exponent} {moved} {self.factor} {product}.ensures"


@dataclass
class PowerChain:
    """A power to a fixed exponent, in few products."""

    steps: list[Step]
    takes_square: bool


def power_chain(exponent: int, width: int, limit: int) -> PowerChain:
    """The chain of an odd exponent: by windows of so many bits, and by rows of ones of so many at the most."""
    bits = f"{exponent:b}"
    # Each digit of the exponent: its value, and the bits up to its end.
    digits, place = [], 0
    while place < len(bits):
        if bits[place] == "0":
            place += 1
            continue
        ones = len(bits[place:]) - len(bits[place:].lstrip("1"))
        if ones >= 8:
            length = min(limit, 1 << ones.bit_length() - 1)
        else:
            length = len(bits[place : place + width].rstrip("0"))
        place += length
        digits.append((int(bits[place - length : place], 2), place))
    longest = max(value.bit_length() for value, _ in digits)
    small = {value for value, _ in digits if value < 1 << width} | ({15} if longest >= 8 else set())
    steps: list[Step] = []
    exponents = {"power_1": 1, "square": 2}

    def take(name: str, base: str, count: int, factor: str) -> None:
        value = (exponents[base] << count) + exponents[factor]
        steps.append(Step(name, value, base, exponents[base], count, factor, exponents[factor]))
        exponents[name] = value

    takes_square = not small <= {1, 3, 7, 15}
    if takes_square:
        for value in range(3, max(small) + 1, 2):
            take(f"power_{value}", "square" if value == 3 else f"power_{value - 2}", 0, "power_1" if value == 3 else "square")
    else:
        take("power_3", "power_1", 1, "power_1")
        if 7 in small:
            take("power_7", "power_3", 1, "power_1")
        if 15 in small:
            take("power_15", "power_3", 2, "power_3")
    names = {value: f"power_{value}" for value in small}
    length, before = 8, "power_15"
    while length <= longest:
        take(f"ones_{length}", before, length // 2, before)
        before = f"ones_{length}"
        names[(1 << length) - 1] = before
        length *= 2
    value, end = digits[0]
    last = names[value]
    for value, place in digits[1:]:
        take(f"first_{place}", last, place - end, names[value])
        last, end = f"first_{place}", place
    for place, step in enumerate((step for step in steps if step.count), 1):
        step.place = place
    return PowerChain(steps, takes_square)


def shortest_chain(exponent: int) -> PowerChain:
    """The chain with the fewest squares and products."""
    found = [power_chain(exponent, width, 1 << limit) for width in range(2, 6) for limit in range(3, 9)]
    return min(found, key=lambda chain: sum(step.count + 1 for step in chain.steps) + chain.takes_square)
