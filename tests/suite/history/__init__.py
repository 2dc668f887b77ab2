"""Histories of several callers over one board: which orders of their calls are legal (tests/run check-history)."""
