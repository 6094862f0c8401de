"""The primes that divide 2^m - 1: each divides the value at 2 of a cyclotomic polynomial, which has but a few factors."""

import math

# As bases of the test below these leave no composite number under 3.3 * 10^24; above it none is known that passes.
BASES = (2, 3, 5, 7, 11, 13, 17, 19, 23, 29, 31, 37, 41)

# Factors of which the search below takes long.
KNOWN = (107367629, 112901153, 193707721, 202029703, 420778751, 745988807, 2550183799, 62983048367, 269089806001, 7432339208719)


def is_prime(n):
    """Whether an odd number above 41 passes the test of Miller and Rabin, or a smaller number is prime."""
    if n < 2 or any(n % p == 0 for p in BASES):
        return n in BASES
    twos = (n - 1 & 1 - n).bit_length() - 1
    for base in BASES:
        power = pow(base, n - 1 >> twos, n)
        if power in (1, n - 1):
            continue
        if not any((power := power * power % n) == n - 1 for _ in range(twos - 1)):
            return False
    return True


def factor_of(n):
    """A factor of an odd composite number: one below 2,000, one that is known, or one by J. M. Pollard's rho."""
    for factor in (*range(3, 2000, 2), *KNOWN):
        if n % factor == 0 and factor < n:
            return factor
    for constant in range(1, n):
        slow = fast = 2
        factor = 1
        while factor == 1:
            slow = (slow * slow + constant) % n
            fast = (fast * fast + constant) % n
            fast = (fast * fast + constant) % n
            factor = math.gcd(slow - fast, n)
        if factor < n:
            return factor


def primes_of(n):
    """The primes that divide an odd number."""
    if n == 1:
        return set()
    if is_prime(n):
        return {n}
    factor = factor_of(n)
    return primes_of(factor) | primes_of(n // factor)


def primes_below(count):
    """The primes that divide 2^m - 1 for an m of 1 to `count`, the least first."""
    values, primes = {}, set()
    for m in range(1, count + 1):
        values[m] = (2**m - 1) // math.prod(values[d] for d in range(1, m) if m % d == 0)
        primes |= primes_of(values[m])
    return sorted(primes)
