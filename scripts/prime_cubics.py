"""The inverse of x^p - x modulo x^3 - 3 x + b, by which curve_laws shows that this has no root modulo p."""


def times(f: tuple, g: tuple, p: int, b: int) -> tuple:
    """A product of polynomials c0 + c1 x + c2 x^2, where x^3 is 3 x - b."""
    k = [sum(f[i] * g[n - i] for i in range(3) if 0 <= n - i < 3) for n in range(5)]
    return (k[0] - b * k[3]) % p, (k[1] + 3 * k[3] - b * k[4]) % p, (k[2] + 3 * k[4]) % p


def power(f: tuple, e: int, p: int, b: int) -> tuple:
    result = (1, 0, 0)
    for bit in bin(e)[2:]:
        result = times(result, result, p, b)
        if bit == "1":
            result = times(result, f, p, b)
    return result


def inverse_of_difference(p: int, b: int) -> tuple:
    """By Fermat's theorem in the field with p^3 elements, which the polynomials are where there is no root."""
    c0, c1, c2 = power((0, 1, 0), p, p, b)
    difference = c0, (c1 - 1) % p, c2
    inverse = power(difference, p**3 - 2, p, b)
    assert times(inverse, difference, p, b) == (1, 0, 0)
    return inverse
