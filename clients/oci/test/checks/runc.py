"""runc without any host: bundles by hand."""
from __future__ import annotations

import io
import json
import os
import subprocess
import tarfile
from pathlib import Path
from typing import Any

from .host import Host, Wish
from .machine import Ended, command, must, until


class Runc(Host):
    """feulgama-oci as a person would call it."""

    name = "runc"
    tools = ("runc",)

    def words(self, *words: str) -> list[str | Path]:
        """The words of a command of feulgama-oci."""
        return [self.setting.runtime, f"--root={self.folder}/state", *words]

    @property
    def environment(self) -> dict[str, str]:
        """Where feulgama-oci finds wasm-shim."""
        return {**self.setting.environment, "FEULGAMA_SHIM": str(self.setting.program)}

    def bundle(self, wish: Wish, name: str) -> Path:
        """Makes a bundle of an image."""
        bundle = self.folder / name
        (bundle / "rootfs").mkdir(parents=True)
        with tarfile.open(fileobj=io.BytesIO(wish.picture.layer)) as archive:
            archive.extractall(bundle / "rootfs")
        must(["runc", "spec", "--bundle", bundle])
        config: dict[str, Any] = json.loads((bundle / "config.json").read_text())
        words = [wish.picture.words[0], *wish.words] if wish.words else list(wish.picture.words)
        config["process"].update(terminal=False, args=words)
        config["process"]["env"] += [*wish.picture.environment, *wish.entries]
        config["linux"]["cgroupsPath"] = f"/{self.cgroup}/{name}"
        if wish.annotation:
            name_of, _, value = wish.annotation.partition("=")
            config["annotations"] = {name_of: value}
        if wish.memory:
            config["linux"]["resources"]["memory"] = {"limit": wish.memory}
        (bundle / "config.json").write_text(json.dumps(config))
        return bundle

    def run(self, wish: Wish) -> Ended:
        name = self.fresh()
        return command(self.words("run", f"--bundle={self.bundle(wish, name)}", name), self.environment)

    def begin(self, wish: Wish) -> str:
        name = self.fresh()
        bundle = self.bundle(wish, name)
        create = self.words("create", f"--bundle={bundle}", f"--pid-file={self.folder}/{name}.pid", name)
        with (self.folder / f"{name}.log").open("wb") as log:
            subprocess.run(create, stdin=subprocess.DEVNULL, stdout=log, stderr=log, env=self.environment, check=True,
                           timeout=60)
        must(self.words("start", name), self.environment)
        return name

    def logs(self, container: str) -> str:
        return (self.folder / f"{container}.log").read_text()

    def pause(self, container: str) -> None:
        must(self.words("pause", container), self.environment)

    def resume(self, container: str) -> None:
        must(self.words("resume", container), self.environment)

    def state(self, container: str) -> dict[str, Any]:
        """What runc says of a container."""
        state: dict[str, Any] = json.loads(must(self.words("state", container), self.environment))
        return state

    def status(self, container: str) -> str:
        return str(self.state(container)["status"])

    def pid(self, container: str) -> int:
        return int((self.folder / f"{container}.pid").read_text())

    def ended(self, container: str) -> int:
        """Waits for a container's end, and answers its exit status. runc has left, so its process is a child of this one."""
        until("the container has stopped", lambda: self.status(container) == "stopped")
        return os.waitstatus_to_exitcode(os.waitpid(self.pid(container), 0)[1])

    def end(self, container: str) -> int:
        must(self.words("kill", container, "TERM"), self.environment)
        return self.ended(container)

    def remove(self, container: str) -> None:
        must(self.words("delete", container), self.environment)
