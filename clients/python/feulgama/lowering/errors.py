"""Why a module is not lowered."""
from __future__ import annotations

from feulgama.errors import FeulgamaError


class LoweringError(FeulgamaError):
    """The module cannot be lowered, or is none. The message has the place and the reason."""


class Refusal(Exception):
    """A reason, before its place is known."""
