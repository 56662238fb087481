#!/usr/bin/env python3
"""Packs the lines of its input into a store: pack.py [--replace] STORE. It replaces a file only if that is asked."""

import sys

from zevkhadun import Refused, Writer


def main() -> int:
    replace = sys.argv[1] == "--replace"
    try:
        with Writer(sys.argv[1 + replace], replace=replace) as writer:
            writer.extend(line.removesuffix(b"\n") for line in sys.stdin.buffer)
    except (OSError, Refused) as error:
        print(f"pack: {error}", file=sys.stderr)
        return 1
    return 0


if __name__ == "__main__":
    sys.exit(main())
