"""Checks of the repository's files, which need no built program and no prover."""
