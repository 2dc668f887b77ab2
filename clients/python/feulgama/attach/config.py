"""The config of a container's task, for tasks of the debugger's own."""
from __future__ import annotations

import json
from collections.abc import Mapping
from dataclasses import dataclass
from typing import Any

from feulgama.config import Config

ANNOTATION = "dev.shim.module"


@dataclass(frozen=True, slots=True)
class ContainerConfig(Config):
    """The config of a container. Its text is that of the container, but for the digest of the module, which has no custom
    sections here."""
    whole: str = "{}"

    def text(self) -> str:
        config = json.loads(self.whole)
        config["annotations"][ANNOTATION] = self.module
        return json.dumps(config)


def config_of(text: str, digest: str) -> ContainerConfig:
    """The config of a text that a shim has accepted, with another module."""
    config: Mapping[str, Any] = json.loads(text)
    process = config["process"]
    variables = dict(entry.split("=", 1) for entry in process.get("env", ()))
    limit = config.get("linux", {}).get("resources", {}).get("memory", {}).get("limit")
    return ContainerConfig(digest, tuple(process["args"]), variables, limit if limit != -1 else None, text)
