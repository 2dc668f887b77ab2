"""The files of examples/kubernetes: whether they are objects of Kubernetes' API, and agree with each other and the pages.

There is no server here, so a table of this file says which fields an object may have: those of the API's reference that the
files use. kubectl reads them too, if it is there. What a kubelet would ask of containerd for them is asked by
clients/containerd/test.
"""
from __future__ import annotations

import importlib
import json
import os
import re
import subprocess
import tomllib
from collections.abc import Iterator
from pathlib import Path
from typing import Any

import pytest

from suite.places import EXAMPLES, TOP, need
from suite.summary import NotRun

FOLDER = EXAMPLES / "kubernetes"
FILES = ("runtimeclass.yaml", "pod.yaml", "job.yaml")
# The reference of version 1.28: https://kubernetes.io/docs/reference/generated/kubernetes-api/v1.28/
METADATA = {"name": str, "annotations": {str: str}}
CONTAINER = {"name": str, "image": str, "command": [str], "args": [str], "resources": {"limits": {str: str}}}
POD = {"runtimeClassName": str, "enableServiceLinks": bool, "restartPolicy": str, "containers": [CONTAINER]}
KINDS = {
    ("node.k8s.io/v1", "RuntimeClass"): {"metadata": METADATA, "handler": str},
    ("v1", "Pod"): {"metadata": METADATA, "spec": POD},
    ("batch/v1", "Job"): {"metadata": METADATA, "spec": {
        "completions": int, "parallelism": int, "completionMode": str, "backoffLimit": int, "ttlSecondsAfterFinished": int,
        "template": {"spec": POD}}},
}
NAME = re.compile(r"[a-z0-9]([-a-z0-9]*[a-z0-9])?")
QUANTITY = {"memory": re.compile(r"[1-9]\d*(Ki|Mi|Gi)"), "cpu": re.compile(r"[1-9]\d*m?")}
# What came to kubectl with 1.21. That of Debian 12 is 1.20.
LATER = {"completionMode"}
FIRST_MINOR = 21


def loaded(name: str) -> dict[str, Any]:
    """The object of a file."""
    try:
        yaml = importlib.import_module("yaml")
    except ImportError as error:
        raise NotRun("packages are missing: apt-get install -y --no-install-recommends python3-yaml") from error
    found = yaml.safe_load((FOLDER / name).read_text())
    assert isinstance(found, dict)
    return found


def faults(value: object, shape: object, place: str = "") -> Iterator[str]:
    """What is wrong with a value, beside a shape: a type, a list of one shape, or an object with a shape for each key."""
    if isinstance(shape, type):
        if type(value) is not shape:
            yield f"{place} is {value!r}, and no {shape.__name__}"
    elif isinstance(shape, list):
        items = value if isinstance(value, list) else []
        if not items:
            yield f"{place} is no list with something in it"
        for at, item in enumerate(items):
            yield from faults(item, shape[0], f"{place}[{at}]")
    elif isinstance(shape, dict):
        if not isinstance(value, dict):
            yield f"{place} is no object"
            return
        for key, item in value.items():
            if str in shape:
                yield from faults(item, shape[str], f"{place}.{key}")
            elif key not in shape:
                yield f"{place}.{key} is not in the API"
            else:
                yield from faults(item, shape[key], f"{place}.{key}")


def faults_of(found: dict[str, Any]) -> list[str]:
    """What is wrong with an object."""
    shape = KINDS.get((found.get("apiVersion", ""), found.get("kind", "")))
    if shape is None:
        return ["no kind of the table"]
    return list(faults({key: value for key, value in found.items() if key not in ("apiVersion", "kind")}, shape))


def pods() -> list[dict[str, Any]]:
    """What the files say of pods."""
    return [loaded("pod.yaml")["spec"], loaded("job.yaml")["spec"]["template"]["spec"]]


@pytest.mark.parametrize("name", FILES)
def test_objects(name: str) -> None:
    found = loaded(name)
    assert faults_of(found) == []
    assert NAME.fullmatch(found["metadata"]["name"])


@pytest.mark.parametrize(("place", "key", "value", "fault"), (
    (("spec",), "completion", 1, ".spec.completion is not in the API"),
    (("spec",), "completions", "1000", ".spec.completions is '1000', and no int"),
    (("spec", "template", "spec"), "containers", [], ".containers is no list with something in it"),
    (("spec", "template"), "spec", 1, ".spec.template.spec is no object"),
    ((), "kind", "Jobs", "no kind of the table"),
))
def test_a_fault_is_found(place: tuple[str, ...], key: str, value: object, fault: str) -> None:
    found = loaded("job.yaml")
    inner = found
    for part in place:
        inner = inner[part]
    inner[key] = value
    assert [one for one in faults_of(found) if one.endswith(fault)]


def test_they_agree() -> None:
    runtimes = tomllib.loads((FOLDER / "containerd.toml").read_text())["plugins"]["io.containerd.grpc.v1.cri"]["containerd"]
    handler = loaded("runtimeclass.yaml")["handler"]
    assert runtimes["runtimes"][handler]["runtime_type"] == "io.containerd.feulgama.v1"
    assert loaded("job.yaml")["spec"]["completions"] == 1000
    for pod in pods():
        assert pod["runtimeClassName"] == loaded("runtimeclass.yaml")["metadata"]["name"]
        assert pod["enableServiceLinks"] is False and pod["restartPolicy"] in ("Never", "OnFailure")
        for container in pod["containers"]:
            limits = container["resources"]["limits"]
            assert all(QUANTITY[name].fullmatch(limit) for name, limit in limits.items())


@pytest.mark.parametrize("name", FILES)
def test_each_says_that_no_kubelet_ran_it(name: str) -> None:
    first = (FOLDER / name).read_text().splitlines()[0]
    assert first.startswith("# ") and "Not run by a kubelet: docs/CONTAINERS.md says what was tried." in first
    assert f"examples/kubernetes/{name}" in (TOP / "docs/CONTAINERS.md").read_text()


def kept(found: object, told: object, place: str = "") -> Iterator[str]:
    """What kubectl has not told again of an object."""
    if isinstance(found, dict) and isinstance(told, dict):
        for key, value in found.items():
            yield from kept(value, told.get(key), f"{place}.{key}")
    elif isinstance(found, list) and isinstance(told, list) and len(found) == len(told):
        for at, (value, other) in enumerate(zip(found, told)):
            yield from kept(value, other, f"{place}[{at}]")
    elif found != told:
        yield f"{place} is {told!r}, and {found!r} in the file"


def kubectl(home: Path, *words: str) -> str:
    """What kubectl writes, which has no config of a cluster here."""
    environment = {**os.environ, "HOME": str(home)}
    ran = subprocess.run(["kubectl", *words], capture_output=True, check=False, text=True, env=environment)
    assert ran.returncode == 0, ran.stderr
    return ran.stdout


@pytest.mark.parametrize("name", ("pod.yaml", "job.yaml"))
def test_kubectl_reads_them(name: str, tmp_path: Path) -> None:
    """Without a server kubectl knows the types of what has containers, and drops what is not in them."""
    need({"kubectl": "kubernetes-client"})
    told = json.loads(kubectl(tmp_path, "set", "env", "--local", f"--filename={FOLDER / name}", "--output=json", "X=y"))
    minor = json.loads(kubectl(tmp_path, "version", "--client", "--output=json"))["clientVersion"]["minor"]
    later = LATER if int(re.sub(r"\D", "", minor)) < FIRST_MINOR else set()
    lost = [one for one in kept(loaded(name), told) if one.split()[0].split(".")[-1] not in later]
    assert lost == []
