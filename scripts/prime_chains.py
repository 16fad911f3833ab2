"""Chains of primes, by which prime_laws shows that a curve's p and n are primes: for each n of a chain an element whose order,
modulo any divisor of n but 1, is a product of smaller primes, and greater than the root of n."""
from math import isqrt, prod

# below this, trial division shows that a number is prime
TRIED = 2**20

# the primes of the chains: each divides n - 1 for a greater n of its chain, whose last is a curve's p or n
PRIMES = [
    # of P-256
    197,
    3677,
    78283,
    704251,
    66417393611,
    11290956913871,
    46076956964474543,
    774023187263532362759620327192479577272145303,
    835945042244614951780389953367877943453916927241,
    # of P-384
    38557,
    312289,
    363557,
    532247449,
    44925942675193,
    35581458644053887931343,
    23964610537191310276190549303,
    862725979338887169942859774909,
    20705423504133292078628634597817,
    413244619895455989650825325680172591660047,
    12397338596863679689524759770405177749801411,
    19173790298027098165721053155794528970226934547887232785722672956982046098136719667167519737147526097,
    # of P-521, where p - 1 is 2 (2^260 - 1) (2^260 + 1)
    7,
    11,
    151,
    223,
    347,
    397,
    1433,
    1663,
    2437,
    23609,
    49481,
    2995763,
    8620289,
    9211861,
    308761441,
    2400573761,
    2534364967,
    24098228377,
    65427463921,
    674750394557,
    108140989558681,
    145295143558111,
    361725589517273017,
    173308343918874810521923841,
    # of P-256's n
    3023,
    104471,
    155317,
    3969899,
    191039911,
    1002328039319,
    208150935158385979,
    2624747550333869278416773953,
    # of P-384's n
    233,
    311,
    421,
    881,
    9863677,
    272109983,
    228572385721,
    23314383343543,
    37344768852931,
    55942463741690639,
    426632512014427833817,
    1495199339761412565498084319,
    17942392077136950785977011829,
    1059392654943455286185473617842338478315215895509773412096307,
    3055465788140352002733946906144561090641249606160407884365391979704929268480326390471,
    # of P-521's n
    17467,
    777241,
    19353437,
    60018716061994831,
    4239602065187190872179,
    7427946019382605513260578233234962521,
    15994076126984618329123851002118749004583184815459808099,
    3636410625392624440351547907325502812950802686368714273274221490761556277859337865760708490235892541081304511,
    3615194794881930010216942559103847593050265703173292383701371712350878926821661243755933835426896058418509759880171943,
    # of Ed25519's p
    103,
    127,
    991,
    4153,
    430751,
    569003,
    8574133,
    2773320623,
    72106336199,
    1919519569386763,
    31757755568855353,
    75445702479781427272750846543864801,
    74058212732561358302231226437062788676166966415465897661863160754340907,
]


def factors(n: int) -> list:
    """Primes that divide n - 1, the greatest first, until the square of their product is greater than n."""
    chosen = []
    for prime in sorted(PRIMES, reverse=True):
        while prod(chosen) ** 2 <= n and (n - 1) % (prod(chosen) * prime) == 0:
            chosen.append(prime)
    for prime in sorted(chosen):
        if prod(chosen) ** 2 > n * prime**2:
            chosen.remove(prime)
    assert prod(chosen) ** 2 > n, f"more primes that divide {n} - 1 are wanted"
    return chosen


def certificate(n: int, primes: list):
    """An element of the order that is the product of primes, and for each an inverse, as `is-certificate` reads them."""
    order = prod(primes)
    element = next(
        x
        for x in (pow(base, (n - 1) // order, n) for base in range(2, n))
        if all(pow(x, order // prime, n) != 1 for prime in primes)
    )
    inverses, x = [], element
    for place, prime in enumerate(primes):
        inverses.append(pow(pow(x, prod(primes[place + 1 :]), n) - 1, -1, n))
        x = pow(x, prime, n)
    return element, list(zip(primes, inverses))


def number(n: int) -> str:
    return str(n) if n < 2**64 else hex(n)


def name(n: int) -> str:
    return f"prime-{n}" if n < 2**64 else f"prime-of-{n.bit_length()}-bits"


def links(n: int, known: list) -> list:
    """The lemmas that end with the one that n is prime, those in known left out."""
    if n in known:
        return []
    known.append(n)
    if n < TRIED:
        return [f"{name(n)} : IsPrime {n}\n{name(n)} = prime-by-trial {n} {isqrt(n) - 1} refl refl\n"]
    primes = factors(n)
    lemmas = [lemma for prime in sorted(set(primes)) for lemma in links(prime, known)]
    element, pairs = certificate(n, primes)
    listed = " ∷ ".join(f"({number(prime)}, {number(inverse)})" for prime, inverse in pairs)
    shown = "".join(f"({name(prime)}, " for prime in primes) + "tt" + ")" * len(primes)
    bits = prod(primes).bit_length()
    lemmas.append(
        f"{name(n)} : IsPrime {number(n)}\n{name(n)} =\n"
        f"    prime-by-order {number(n)} {bits} {number(element)}\n    ({listed} ∷ [])\n    {shown} refl refl\n"
    )
    return lemmas


def chain(prime: int) -> str:
    """The lemmas that show that a number is prime; the last says it."""
    *before, last = links(prime, [])
    return "\n".join([*before, "pub " + last])
