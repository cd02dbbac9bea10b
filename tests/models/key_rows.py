#!/usr/bin/env python3
"""Index keys by the published algorithm, for the plain models, and for rows of tests: tests/sessions/keys.session and canvas_wire_tests.

A reference implementation of `generateKeyBetween` of rocicorp's fractional-indexing
(https://github.com/rocicorp/fractional-indexing), a function for each of the library's, with the profile of
canvas. The places where the profile differs from the library are marked PROFILE. It shares nothing with the
Rattle code or its definitions.

    key_rows.py between LOW HIGH    one key ('-' stands for an end that is left out)
    key_rows.py read TEXT           'key' or the fault
    key_rows.py fresh N             the integer part of rank N
    key_rows.py insertions          how many keys fit between a0 and a1, each beside the one before
    key_rows.py check [COUNT]       the script against itself: order, and ranks counted one by one
"""

import random
import sys

DIGITS = "0123456789ABCDEFGHIJKLMNOPQRSTUVWXYZabcdefghijklmnopqrstuvwxyz"
LEAST = "A" + "0" * 26  # the library's smallestInteger
LIMIT = 128


class NoRoom(Exception):
    """The key has more than 128 bytes."""


# -- the library's functions ----------------------------------------------------------------------

def midpoint(a, b):
    """A fraction between a and b; b is None where there is no upper one."""
    if b is not None:
        # the longest common prefix, with a padded by '0'
        n = 0
        while n < len(b) and (a[n] if n < len(a) else "0") == b[n]:
            n += 1
        if n > 0:
            return b[:n] + midpoint(a[n:], b[n:])
    # PROFILE: the padding is exactly this, whatever a release of the library does
    digit_a = DIGITS.index(a[0]) if a else 0
    digit_b = DIGITS.index(b[0]) if b is not None else len(DIGITS)
    if digit_b - digit_a > 1:
        return DIGITS[(digit_a + digit_b + 1) // 2]  # Math.round(0.5 * (digit_a + digit_b))
    if b is not None and len(b) > 1:
        return b[:1]
    return DIGITS[digit_a] + midpoint(a[1:], None)


def integer_length(head):
    if "a" <= head <= "z":
        return ord(head) - ord("a") + 2
    if "A" <= head <= "Z":
        return ord("Z") - ord(head) + 2
    raise ValueError("invalid order key head: " + head)


def integer_part(key):
    return key[: integer_length(key[0])]


def increment(x):
    """The integer part after x, or None."""
    head, digits = x[0], list(x[1:])
    carry = True
    i = len(digits) - 1
    while carry and i >= 0:
        d = DIGITS.index(digits[i]) + 1
        if d == len(DIGITS):
            digits[i] = "0"
        else:
            digits[i] = DIGITS[d]
            carry = False
        i -= 1
    if not carry:
        return head + "".join(digits)
    if head == "Z":
        return "a0"
    if head == "z":
        return None
    above = chr(ord(head) + 1)
    if above > "a":
        digits.append("0")
    else:
        digits.pop()
    return above + "".join(digits)


def decrement(x):
    """The integer part before x, or None."""
    head, digits = x[0], list(x[1:])
    borrow = True
    i = len(digits) - 1
    while borrow and i >= 0:
        d = DIGITS.index(digits[i]) - 1
        if d == -1:
            digits[i] = DIGITS[-1]
        else:
            digits[i] = DIGITS[d]
            borrow = False
        i -= 1
    if not borrow:
        return head + "".join(digits)
    if head == "a":
        return "Z" + DIGITS[-1]
    if head == "A":
        return None
    below = chr(ord(head) - 1)
    if below < "Z":
        digits.append(DIGITS[-1])
    else:
        digits.pop()
    return below + "".join(digits)


def between_in_library(a, b):
    """generateKeyBetween after its arguments are validated."""
    if a is None:
        if b is None:
            return "a0"
        ib = integer_part(b)
        fb = b[len(ib):]
        if ib == LEAST:
            return ib + midpoint("", fb)
        if ib < b:
            return ib
        return decrement(ib)  # never None: only LEAST has none before it
    if b is None:
        ia = integer_part(a)
        fa = a[len(ia):]
        i = increment(ia)
        return ia + midpoint(fa, None) if i is None else i
    ia = integer_part(a)
    fa = a[len(ia):]
    ib = integer_part(b)
    fb = b[len(ib):]
    if ia == ib:
        return ia + midpoint(fa, fb)
    i = increment(ia)  # never None: ib comes after ia
    return i if i < b else ia + midpoint(fa, None)


# -- the profile ----------------------------------------------------------------------------------

def fault(text):
    """Why a text is no key, or None; `validateOrderKey` with named faults in one order."""
    if len(text) > LIMIT:  # PROFILE
        return "KeyTooLong"
    if not text or not ("a" <= text[0] <= "z" or "A" <= text[0] <= "Z"):
        return "BadHead"
    if len(text) < integer_length(text[0]):
        return "TooShort"
    if any(c not in DIGITS for c in text[1:]):  # PROFILE: the library does not look at the digits
        return "BadDigit"
    if text == LEAST:
        return "LeastInteger"
    if len(text) > integer_length(text[0]) and text[-1] == "0":
        return "LastZero"
    return None


def between(a, b):
    assert a is None or fault(a) is None, a
    assert b is None or fault(b) is None, b
    assert a is None or b is None or a < b, (a, b)
    key = between_in_library(a, b)
    if key == LEAST:  # PROFILE: the library answers a text that it does not take for a key
        key = LEAST + "V"
    if len(key) > LIMIT:  # PROFILE
        raise NoRoom
    assert fault(key) is None, key
    assert (a is None or a < key) and (b is None or key < b), (a, key, b)
    return key


def fresh(n):
    """The integer part of rank n, by the sum that gives a part its rank."""
    digits = 1
    while n >= 62 ** digits:
        n -= 62 ** digits
        digits += 1
    text = ""
    for _ in range(digits):
        text = DIGITS[n % 62] + text
        n //= 62
    return chr(ord("a") + digits - 1) + text


def answer(low, high):
    try:
        return between(low, high)
    except NoRoom:
        return "NoRoom"


def insertions(step):
    """How many keys fit between a0 and a1 where the next is made below, above, or in turn, of the last."""
    low, high, made = "a0", "a1", 0
    while (key := answer(low, high)) != "NoRoom":
        made += 1
        if step == "above" or (step == "in turn" and made % 2 == 0):
            low = key
        else:
            high = key
    return made


# -- the script against itself ---------------------------------------------------------------------

def check(count):
    part = "a0"
    for n in range(300000):
        assert fresh(n) == part, n
        part = increment(part)
        assert decrement(part) == fresh(n), n
    source = random.Random(1)
    keys = ["a0"]
    refused = 0
    for _ in range(count):
        at = source.randrange(len(keys) + 1)
        low = keys[at - 1] if at > 0 else None
        high = keys[at] if at < len(keys) else None
        try:
            keys.insert(at, between(low, high))
        except NoRoom:
            refused += 1
    assert all(a < b for a, b in zip(keys, keys[1:]))
    print(f"{len(keys)} keys in order, {refused} refused, the longest has {max(map(len, keys))} bytes")


def main(words):
    match words:
        case ["between", low, high]:
            try:
                print(between(None if low == "-" else low, None if high == "-" else high))
            except NoRoom:
                print("NoRoom")
        case ["read", text]:
            print(fault(text) or "key")
        case ["fresh", n]:
            print(fresh(int(n)))
        case ["insertions"]:
            for step in ("below", "above", "in turn"):
                print(step, insertions(step))
        case ["check"]:
            check(20000)
        case ["check", count]:
            check(int(count))
        case _:
            sys.exit(__doc__)


if __name__ == "__main__":
    main(sys.argv[1:])
