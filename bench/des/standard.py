"""The Data Encryption Standard, as FIPS 46-3 states it: its tables, and encryption of integers. Bits are numbered from 1, the leftmost,
which of an integer is the most significant."""
from __future__ import annotations

from collections.abc import Iterable, Sequence

INITIAL = (58, 50, 42, 34, 26, 18, 10, 2, 60, 52, 44, 36, 28, 20, 12, 4, 62, 54, 46, 38, 30, 22, 14, 6, 64, 56, 48, 40, 32, 24, 16, 8,
           57, 49, 41, 33, 25, 17, 9, 1, 59, 51, 43, 35, 27, 19, 11, 3, 61, 53, 45, 37, 29, 21, 13, 5, 63, 55, 47, 39, 31, 23, 15, 7)  # IP
FINAL = tuple(INITIAL.index(bit) + 1 for bit in range(1, 65))  # the inverse of IP
EXPANSION = (32, 1, 2, 3, 4, 5, 4, 5, 6, 7, 8, 9, 8, 9, 10, 11, 12, 13, 12, 13, 14, 15, 16, 17,
             16, 17, 18, 19, 20, 21, 20, 21, 22, 23, 24, 25, 24, 25, 26, 27, 28, 29, 28, 29, 30, 31, 32, 1)  # E
PERMUTATION = (16, 7, 20, 21, 29, 12, 28, 17, 1, 15, 23, 26, 5, 18, 31, 10,
               2, 8, 24, 14, 32, 27, 3, 9, 19, 13, 30, 6, 22, 11, 4, 25)  # P
FIRST_CHOICE = (57, 49, 41, 33, 25, 17, 9, 1, 58, 50, 42, 34, 26, 18, 10, 2, 59, 51, 43, 35, 27, 19, 11, 3, 60, 52, 44, 36,
                63, 55, 47, 39, 31, 23, 15, 7, 62, 54, 46, 38, 30, 22, 14, 6, 61, 53, 45, 37, 29, 21, 13, 5, 28, 20, 12, 4)  # PC-1
SECOND_CHOICE = (14, 17, 11, 24, 1, 5, 3, 28, 15, 6, 21, 10, 23, 19, 12, 4, 26, 8, 16, 7, 27, 20, 13, 2,
                 41, 52, 31, 37, 47, 55, 30, 40, 51, 45, 33, 48, 44, 49, 39, 56, 34, 53, 46, 42, 50, 36, 29, 32)  # PC-2
SHIFTS = (1, 1, 2, 2, 2, 2, 2, 2, 1, 2, 2, 2, 2, 2, 2, 1)  # left shifts of both halves of the key, one number for each round
BOXES = tuple(tuple(tuple(int(entry, 16) for entry in row) for row in box.split()) for box in (
    "e4d12fb83a6c5907 0f74e2d1a6cb9538 41e8d62bfc973a50 fc8249175b3ea06d",
    "f18e6b34972dc05a 3d47f28ec01a69b5 0e7ba4d158c6932f d8a13f42b67c05e9",
    "a09e63f51dc7b428 d709346a285ecbf1 d6498f30b12c5ae7 1ad069874fe3b52c",
    "7de3069a1285bc4f d8b56f03472c1ae9 a690cb7df13e5284 3f06a1d8945bc72e",
    "2c417ab6853fd0e9 eb2c47d150fa3986 421bad78f9c5630e b8c71e2d6f09a453",
    "c1af92680d34e75b af427c9561de0b38 9ef528c3704a1db6 432c95fabe17608d",
    "4b2ef08d3c975a61 d0b7491ae35c2f86 14bdc37eaf680592 6bd814a7950fe23c",
    "d2846fb1a93e50c7 1fd8a374c56b0e92 7b419ce206adf358 21e74a8dfc90356b"))  # S1 to S8, of each its four rows of sixteen entries


def permuted(value: int, width: int, table: Sequence[int]) -> int:
    """The bits of `value`, which is `width` bits wide, that the table names, in its order."""
    result = 0
    for bit in table:
        result = result << 1 | value >> width - bit & 1
    return result


def round_keys(key: int) -> list[int]:
    """The sixteen keys of 48 bits, K1 first, of a key of 64 bits, of which every eighth counts for nothing."""
    chosen = permuted(key, 64, FIRST_CHOICE)
    halves = [chosen >> 28, chosen & 0xFFFFFFF]
    keys = []
    for shift in SHIFTS:
        halves = [(half << shift | half >> 28 - shift) & 0xFFFFFFF for half in halves]
        keys.append(permuted(halves[0] << 28 | halves[1], 56, SECOND_CHOICE))
    return keys


def function(half: int, key: int) -> int:
    """The function f of a right half and a round's key."""
    mixed = permuted(half, 32, EXPANSION) ^ key
    result = 0
    for place, box in enumerate(BOXES):
        six = mixed >> 42 - 6 * place & 63
        result = result << 4 | box[six >> 4 & 2 | six & 1][six >> 1 & 15]
    return permuted(result, 32, PERMUTATION)


def crypted(block: int, keys: Iterable[int]) -> int:
    """A block of 64 bits after sixteen rounds: encrypted by `round_keys`, decrypted by the same in the opposite order."""
    mixed = permuted(block, 64, INITIAL)
    left, right = mixed >> 32, mixed & 0xFFFFFFFF
    for key in keys:
        left, right = right, left ^ function(right, key)
    return permuted(right << 32 | left, 64, FINAL)


def encrypted(key: int, plaintext: int) -> int:
    """The ciphertext of a plaintext of 64 bits under a key of 64 bits."""
    return crypted(plaintext, round_keys(key))


def decrypted(key: int, ciphertext: int) -> int:
    """The plaintext of a ciphertext of 64 bits under a key of 64 bits."""
    return crypted(ciphertext, round_keys(key)[::-1])


def is_right() -> bool:
    """Whether a known ciphertext is given, and the one of R. Rivest's test (Testing Implementations of DES, 1985), sixteen encryptions and
    decryptions one after another, each with the last result as key and block, which show an error at any one place of the tables."""
    block = 0x9474B8E8C73BCA7D
    for turn in range(16):
        block = decrypted(block, block) if turn % 2 else encrypted(block, block)
    return block == 0x1B1A2DDB4C642438 and encrypted(0x133457799BBCDFF1, 0x0123456789ABCDEF) == 0x85E813540F0AB405
