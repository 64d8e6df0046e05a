"""AES (FIPS 197) in plain Python. scripts/definitions compares it with the definitions, and computes with it from then on."""
import functools


def product(a, b):
    """The product of two octets (FIPS 197 section 4.2)."""
    found = 0
    while b:
        found ^= a * (b & 1)
        a, b = a << 1 ^ (a >> 7) * 0x11b, b >> 1
    return found


def entry_of_s_box(octet):
    """FIPS 197 section 5.1.1, with the sum of bits computed as a sum of rotated octets."""
    inverse = next((it for it in range(256) if product(octet, it) == 1), 0)
    turned = inverse << 8 | inverse
    return (turned ^ turned >> 4 ^ turned >> 5 ^ turned >> 6 ^ turned >> 7) & 0xff ^ 0x63


S_BOX = [entry_of_s_box(it) for it in range(256)]
INVERSE_S_BOX = [S_BOX.index(it) for it in range(256)]
TIMES = {factor: [product(factor, it) for it in range(256)] for factor in (2, 3, 9, 11, 13, 14)}
# The place that each octet of a state comes from when rows are shifted, and when they are shifted back (sections 5.1.2 and 5.3.1).
SHIFTED = [(it + 4 * (it % 4)) % 16 for it in range(16)]
SHIFTED_BACK = [(it - 4 * (it % 4)) % 16 for it in range(16)]


@functools.lru_cache(10000)
def round_keys(key):
    """Section 5.2."""
    count = len(key) // 4
    words, constant = [key[it:it + 4] for it in range(0, len(key), 4)], 1
    while len(words) < 4 * (count + 7):
        word = words[-1]
        if len(words) % count == 0:
            word = [S_BOX[it] for it in word[1:] + word[:1]]
            word[0], constant = word[0] ^ constant, product(2, constant)
        elif count > 6 and len(words) % count == 4:
            word = [S_BOX[it] for it in word]
        words.append(tuple(a ^ b for a, b in zip(words[-count], word)))
    return [sum(words[it:it + 4], ()) for it in range(0, len(words), 4)]


def mixed(state, a, b, c, d):
    """The columns of a state, each multiplied by the matrix whose first row has these four tables."""
    found = []
    for it in range(0, 16, 4):
        w, x, y, z = state[it:it + 4]
        found += a[w] ^ b[x] ^ c[y] ^ d[z], d[w] ^ a[x] ^ b[y] ^ c[z], c[w] ^ d[x] ^ a[y] ^ b[z], b[w] ^ c[x] ^ d[y] ^ a[z]
    return found


def encrypted(key, block):
    """Section 5.1. Octets that a block lacks are 0, as in the definitions."""
    first, *others, last = round_keys(key)
    same, two, three = range(256), TIMES[2], TIMES[3]
    state = [a ^ b for a, b in zip((*block, *bytes(16)), first)]
    for keys in others:
        state = [a ^ b for a, b in zip(mixed([S_BOX[state[it]] for it in SHIFTED], two, three, same, same), keys)]
    return tuple(S_BOX[state[it]] ^ b for it, b in zip(SHIFTED, last))


def decrypted(key, block):
    """Section 5.3. Octets that a block lacks are 0."""
    first, *others, last = round_keys(key)
    state = [a ^ b for a, b in zip((*block, *bytes(16)), last)]
    for keys in reversed(others):
        state = [INVERSE_S_BOX[state[it]] ^ b for it, b in zip(SHIFTED_BACK, keys)]
        state = mixed(state, TIMES[14], TIMES[11], TIMES[13], TIMES[9])
    return tuple(INVERSE_S_BOX[state[it]] ^ b for it, b in zip(SHIFTED_BACK, first))
