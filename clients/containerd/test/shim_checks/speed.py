"""How long one container takes, from start to end, by three runtimes in one run."""
from __future__ import annotations

import statistics
import time
from collections.abc import Iterator
from pathlib import Path

from checks.machine import must

from .base import WithDaemon
from .daemon import RUNTIME

ROUNDS = 30
# What a container that is paused takes at most, with its shim.
IDLE_MIB = 40
RUNC = "io.containerd.runc.v2"


def family(pid: int) -> Iterator[int]:
    """A process, its children and theirs."""
    yield pid
    for thread in Path(f"/proc/{pid}/task").iterdir():
        for child in (thread / "children").read_text().split():
            yield from family(int(child))


def own_mib(pid: int) -> float:
    """The resident memory of a process, in MiB, with its part of what it shares."""
    lines = Path(f"/proc/{pid}/smaps_rollup").read_text().splitlines()
    return next(int(line.split()[1]) for line in lines if line.startswith("Pss:")) / 1024


class Speed(WithDaemon):
    """`ctr run --rm` of hello, and what an idle container takes."""

    images = ("hello", "static", "counts")

    def test_one_container(self) -> None:
        """hello by the shim takes at most 0.75 of a static native program by runc, and less than by feulgama-oci"""
        runtime = self.setting.folder / "feulgama-oci"
        ways = {
            "shim": ("hello", [f"--runtime={RUNTIME}"]),
            "feulgama-oci": ("hello", [f"--runtime={RUNC}", f"--runc-binary={runtime}"]),
            "runc": ("static", [f"--runtime={RUNC}"]),
        }
        times: dict[str, list[float]] = {way: [] for way in ways}
        for number in range(ROUNDS):
            for way, (image, options) in ways.items():
                name = f"{way}-{number}"
                words = self.daemon.words("run", "--rm", *options, f"--cgroup=/{self.daemon.cgroup}/{name}",
                                          self.setting.images.all[image].reference, name)
                began = time.monotonic()
                written = must(words, self.daemon.environment)
                times[way].append(time.monotonic() - began)
                self.assertEqual(written, "hello, feulgama\n")
        for way, seconds in times.items():
            print(f"        {way}: mean of {ROUNDS} {1000 * statistics.mean(seconds):.0f} ms, "
                  f"median {1000 * statistics.median(seconds):.0f} ms")
        means = {way: statistics.mean(seconds) for way, seconds in times.items()}
        print(f"        shim / runc: {means['shim'] / means['runc']:.2f}")
        self.assertLess(means["shim"], means["feulgama-oci"])
        self.assertLessEqual(means["shim"], 0.75 * means["runc"])

    def test_idle_container(self) -> None:
        """a paused container takes at most 40 MiB, with its shim"""
        name = self.counting()
        self.daemon.must("tasks", "pause", name)
        (shim,) = self.daemon.shims()
        parts = [own_mib(pid) for pid in family(shim)]
        print(f"        shim {parts[0]:.1f} MiB, wasm-shim {sum(parts[1:]):.1f} MiB")
        self.daemon.must("tasks", "resume", name)
        self.end(name)
        self.assertEqual(len(parts), 2)
        self.assertLessEqual(sum(parts), IDLE_MIB)
