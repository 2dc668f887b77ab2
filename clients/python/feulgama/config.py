"""The config of a task: what `create` reads of an OCI config."""
from __future__ import annotations

import hashlib
import json
from collections.abc import Mapping, Sequence
from dataclasses import dataclass, field


def digest_of(data: bytes) -> str:
    """The digest under which `put` stores these bytes."""
    if isinstance(data, str):
        raise TypeError("a module is bytes; put_text takes the text of one")
    return "sha256:" + hashlib.sha256(data).hexdigest()


@dataclass(frozen=True, slots=True)
class Config:
    """A task that runs the module under `module`, a digest. `args` has one text at least, the program's name;
    `env` has its variables; `memory_limit` is in bytes, None for no limit."""
    module: str
    args: Sequence[str] = ("module",)
    env: Mapping[str, str] = field(default_factory=dict)
    memory_limit: int | None = None

    def __post_init__(self) -> None:
        if isinstance(self.args, str):
            raise TypeError("the arguments of a task are a list of words, and not one text")

    def text(self) -> str:
        """The config as the text of a JSON object."""
        config: dict[str, object] = {
            "ociVersion": "1.0.2",
            "process": {"args": list(self.args), "env": [f"{name}={value}" for name, value in self.env.items()],
                        "cwd": "/"},
            "annotations": {"dev.shim.module": self.module},
        }
        if self.memory_limit is not None:
            config["linux"] = {"resources": {"memory": {"limit": self.memory_limit}}}
        return json.dumps(config)
