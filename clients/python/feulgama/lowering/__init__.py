"""Translates modules that toolchains make into modules of the profile."""
from feulgama.lowering.errors import LoweringError
from feulgama.lowering.lower import Lowered, Options, lower

__all__ = ["Lowered", "LoweringError", "Options", "lower"]
