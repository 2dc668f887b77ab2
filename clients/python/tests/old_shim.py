#!/usr/bin/env python3
"""A program that knows no `serve --caller`, as those of before; it says so as they do."""
import sys

if "--caller" in sys.argv:
    print("error: unexpected argument '--caller' found", file=sys.stderr)
    sys.exit(2)
