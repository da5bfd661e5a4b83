"""Texts that lie on one path as keys of a series: the hashes of the keys end with the same bits.

A map finds a key by SipHash-1-3 over words (crates/insertion_map), bit by bit from the lowest, and its keys are fixed, so
whoever tries enough texts finds some whose hashes share their lowest bits. Each bit more takes twice as many trials."""
import itertools
import string

WORD = (1 << 64) - 1
START = (0x736F6D6570736575, 0x646F72616E646F6D, 0x6C7967656E657261, 0x7465646279746573)
PATH_BITS = 8
LETTERS = string.ascii_letters.encode()
TEXT = 2


def turned(word, count):
    return (word << count | word >> 64 - count) & WORD


def round_of(a, b, c, d):
    a, c = a + b & WORD, c + d & WORD
    b, d = turned(b, 13) ^ a, turned(d, 16) ^ c
    c, a = c + b & WORD, turned(a, 32) + d & WORD
    return a, turned(b, 17) ^ c, turned(c, 32), turned(d, 21) ^ a


def behind(state, word):
    a, b, c, d = state
    a, b, c, d = round_of(a, b, c, d ^ word)
    return a ^ word, b, c, d


def words_of(part):
    """The words of one write: eight bytes in each, and in a last one those that are left, behind their count."""
    left = part[len(part) - len(part) % 8 :]
    words = [int.from_bytes(part[at : at + 8], "little") for at in range(0, len(part) - len(left), 8)]
    return words + [len(left) << 8 * len(left) | int.from_bytes(left, "big")] * bool(left)


def written(*parts):
    return [word for part in parts for word in words_of(part)]


def count_of(number):
    return number.to_bytes(8, "little")


def text_of(text):
    return text, b"\xff"


def after(state, words):
    for word in words:
        state = behind(state, word)
    return state


def finished(state):
    a, b, c, d = state
    state = a, b, c ^ 0xFF, d
    for _ in range(3):
        state = round_of(*state)
    a, b, c, d = state
    return a ^ b ^ c ^ d


def texts(count, schema, location, metric):
    """So many texts for the first field of a target with this schema, whose second field is its location, and a metric
    without fields."""
    front = after(START, written(*text_of(schema.encode()), count_of(2), count_of(TEXT)))
    end = written(b"\xff", count_of(TEXT), *text_of(location.encode()), *text_of(metric.encode()), count_of(0))
    made = []
    for letters in itertools.product(LETTERS, repeat=8):
        if len(made) == count:
            break
        text = bytes(letters)
        if not finished(after(after(front, words_of(text)), end)) % (1 << PATH_BITS):
            made.append(text.decode())
    return made
