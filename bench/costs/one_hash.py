"""Names of one hash: those that std's hashed maps, whose seed is fixed, put in one place."""
import struct

SEED, OTHER = 0x243F6A8885A308D3, 0x9E3779B97F4A7C15


def folded(left, right):
    product = left * right
    return product % 2**64 ^ product >> 64


def front():
    """24 bytes: with any 8 behind them they are names of one hash. The state of the hash after the first 16 bytes is
    taken to 0 by the next 8, and 0 times what follows is 0."""
    number = 0
    while True:
        head = b"%016x" % number
        left, right = struct.unpack("<QQ", head)
        middle = struct.pack("<Q", folded(left ^ (SEED + 32), right ^ OTHER))
        if all(32 < byte < 127 for byte in middle):
            return (head + middle).decode()
        number += 1


def names(count):
    start = front()
    return [f"{start}{number:08x}" for number in range(count)]
