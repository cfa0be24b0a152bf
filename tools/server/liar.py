#!/usr/bin/env python3
"""liar.py CORES SIZE ..: a server that answers each request with `refused out-of-memory`, and each other line with `bad`.

It has the right cores and ticks, so only a checker that counts refusals finds it wrong."""
import sys
import time

import check


def main():
    cores, begin = int(sys.argv[1]), time.monotonic()
    for number, line in enumerate(iter(sys.stdin.buffer.readline, b""), 1):
        text = line.decode("latin-1")
        found = check.request_of(text[:-1]) if text.endswith("\n") else None
        words = "bad"
        if found is not None:
            tick = int((time.monotonic() - begin) * 1000)
            words = f"{check.core_of(found[1], cores)} {tick} {tick} refused out-of-memory"
        print(number, words, flush=True)


if __name__ == "__main__":
    main()
