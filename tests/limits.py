"""Tells of a listing on standard input what a row of a session wants where it has the command !last N.

That is how many lines it has, its digest, and its last N lines. The digest is the sum of all bytes times their
places, which count from 1, modulo 2 ^ 32.
Usage: python3 tests/limits.py N <LISTING
"""

import sys


def main():
    listing = sys.stdin.buffer.read()
    lines = listing.splitlines(keepends=True)
    digest = sum(place * byte for place, byte in enumerate(listing, 1)) % 2**32
    last = int(sys.argv[1])
    sys.stdout.write(f"LINES {len(lines)} DIGEST {digest}\n")
    sys.stdout.flush()
    sys.stdout.buffer.write(b"".join(lines[len(lines) - last :]))


main()
