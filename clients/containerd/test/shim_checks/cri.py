"""A kubelet's calls, by a client of CRI."""
from __future__ import annotations

import base64
import importlib
import re
import time
from typing import Any, ClassVar

from checks.images import TOP
from checks.machine import command, until

from .base import MEBIBYTE, WithDaemon
from .looks import FRAME

NODE = 2  # the network of the host, for which no plugin has to be there
EXITED = 2


def limits(container: dict[str, Any]) -> dict[str, int]:
    """The limits of a container of Kubernetes, as a kubelet gives them to a runtime."""
    given = container["resources"]["limits"]
    found = {"memory_limit_in_bytes": int(given["memory"].removesuffix("Mi")) * MEBIBYTE}
    if "cpu" in given:
        found |= {"cpu_period": 100_000, "cpu_quota": int(given["cpu"].removesuffix("m")) * 100}
    return found


class Cri(WithDaemon):
    """Sandboxes, containers, logs, statistics, looks."""

    cri = True
    images = ("hello", "counts", "exit7", "bad", "environment", "echo", "double")
    pods: ClassVar[int] = 0

    def pod(self, **more: object) -> tuple[str, dict[str, Any]]:
        """Runs a sandbox, and answers its id and its config."""
        type(self).pods += 1
        logs = self.daemon.at / f"logs{self.pods}"
        logs.mkdir()
        config: dict[str, Any] = {
            "metadata": {"name": f"pod{self.pods}", "uid": f"uid{self.pods}", "namespace": "default"},
            "log_directory": str(logs),
            "linux": {"cgroup_parent": f"/{self.daemon.cgroup}", "security_context": {"namespace_options": {"network": NODE}}},
            **more,
        }
        answer = self.daemon.call("RunPodSandbox", config=config, runtime_handler="feulgama")
        return str(answer["pod_sandbox_id"]), config

    def container(self, pod: tuple[str, dict[str, Any]], image: str, **more: object) -> str:
        """Creates a container."""
        config: dict[str, object] = {
            "metadata": {"name": image}, "image": {"image": self.setting.images.all[image].reference},
            "log_path": f"{image}.log", **more,
        }
        answer = self.daemon.call("CreateContainer", pod_sandbox_id=pod[0], sandbox_config=pod[1], config=config)
        return str(answer["container_id"])

    def status(self, container: str) -> dict[str, Any]:
        """The status of a container."""
        status: dict[str, Any] = self.daemon.call("ContainerStatus", container_id=container)["status"]
        return status

    def ended(self, container: str) -> dict[str, Any]:
        """The status of a container, once it has ended."""
        until("it has exited", lambda: self.status(container).get("state") == EXITED)
        return self.status(container)

    def log(self, pod: tuple[str, dict[str, Any]], image: str) -> list[str]:
        """The lines of a log, each checked to be in the format of a kubelet, without their times."""
        with open(f"{pod[1]['log_directory']}/{image}.log") as file:
            lines = file.read().splitlines()
        for line in lines:
            self.assertRegex(line, r"\A\d{4}-\d\d-\d\dT[0-9:.]+(Z|[+-]\d\d:\d\d) (stdout|stderr) [FP] ")
        return [line.split(" ", 1)[1] for line in lines]

    def remove(self, pod: tuple[str, dict[str, Any]]) -> None:
        """Stops and removes a pod with its containers, and checks that nothing of it is left."""
        self.daemon.call("StopPodSandbox", pod_sandbox_id=pod[0])
        self.daemon.call("RemovePodSandbox", pod_sandbox_id=pod[0])
        until("the shim has ended", lambda: self.daemon.shims() == [])

    def test_job(self) -> None:
        """a pod runs hello and exit7 to their ends, with logs, in one shim"""
        pod = self.pod()
        hello, seven = self.container(pod, "hello"), self.container(pod, "exit7")
        for container in (hello, seven):
            self.daemon.call("StartContainer", container_id=container)
        first, second = self.ended(hello), self.ended(seven)
        self.assertEqual((first.get("exit_code", 0), first["reason"]), (0, "Completed"))
        self.assertEqual((second["exit_code"], second["reason"]), (7, "Error"))
        self.assertEqual(self.log(pod, "hello"), ["stdout F hello, feulgama"])
        self.assertEqual(len(self.daemon.shims()), 1)
        self.daemon.call("RemoveContainer", container_id=hello)
        self.remove(pod)

    def test_service(self) -> None:
        """a container with limits runs, is measured, looked at, and stopped with 143"""
        pod = self.pod()
        resources = {"memory_limit_in_bytes": 64 * MEBIBYTE, "cpu_period": 100000, "cpu_quota": 100000}
        container = self.container(pod, "counts", linux={"resources": resources})
        self.daemon.call("StartContainer", container_id=container)
        until("it has written", lambda: self.log(pod, "counts") == ["stdout F begun"])
        stats = self.daemon.call("ContainerStats", container_id=container)["stats"]
        self.assertGreater(stats["memory"]["value"]["value"], 100_000)
        self.assertGreater(stats["cpu"]["value"]["value"], 0)
        looked = self.daemon.call("ExecSync", container_id=container, cmd=["inspect"], timeout=10)
        self.assertRegex(base64.b64decode(looked["stdout"]).decode(), rf"\Arunning, after \d+ instructions\n{FRAME}\Z")
        began = time.monotonic()
        self.daemon.call("StopContainer", container_id=container, timeout=30)
        self.assertLess(time.monotonic() - began, 5.0)
        self.assertEqual(self.ended(container)["exit_code"], 143)
        self.daemon.call("RemoveContainer", container_id=container)
        self.remove(pod)

    def refused(self, container: str) -> str:
        """Why a container cannot be started."""
        ended = command(self.daemon.call_words("StartContainer", container_id=container), self.daemon.environment)
        self.assertEqual(ended.status, 1)
        status = self.ended(container)
        self.assertEqual((status["exit_code"], status["reason"]), (128, "StartError"))
        self.assertIn(status["message"], ended.err)
        return ended.err

    def test_refused_module(self) -> None:
        """a refused module is StartError, with number and reason"""
        pod = self.pod()
        why = self.refused(self.container(pod, "bad"))
        self.assertIn("refused 7 BadModule: create: byte 0x43 at offset 35", why)
        self.remove(pod)

    def test_service_links(self) -> None:
        """over 64 entries of the environment are StartError, and the reason names enableServiceLinks"""
        pod = self.pod()
        entries = [{"key": f"N{number}", "value": "x"} for number in range(65)]
        why = self.refused(self.container(pod, "environment", envs=entries))
        self.assertRegex(why, re.escape("refused 10 BadConfig") + ".*" + re.escape("enableServiceLinks: false"))
        self.remove(pod)

    # the files of examples/kubernetes, as a kubelet would ask for them

    def example(self, name: str) -> dict[str, Any]:
        """The object of a file."""
        try:
            yaml = importlib.import_module("yaml")
        except ImportError:
            self.skipTest("packages are missing: python3-yaml")
        found: dict[str, Any] = yaml.safe_load((TOP / "examples/kubernetes" / name).read_text())
        return found

    def test_example_pod(self) -> None:
        """pod.yaml: its annotation comes through, and a module with doubles runs"""
        about = self.example("pod.yaml")
        pod = self.pod(annotations=about["metadata"]["annotations"])
        container = self.container(pod, "double", linux={"resources": limits(about["spec"]["containers"][0])})
        self.daemon.call("StartContainer", container_id=container)
        self.assertEqual(self.ended(container)["exit_code"], 4)
        self.remove(pod)

    def test_example_job(self) -> None:
        """job.yaml: some of its pods, each with its number as argument"""
        template = self.example("job.yaml")["spec"]["template"]["spec"]["containers"][0]
        for index in (0, 1, 7, 42, 500, 998, 999):
            pod = self.pod()
            words = [word.replace("$(JOB_COMPLETION_INDEX)", str(index)) for word in template["command"]]
            container = self.container(pod, "echo", command=words, linux={"resources": limits(template)},
                                       envs=[{"key": "JOB_COMPLETION_INDEX", "value": str(index)}])
            self.daemon.call("StartContainer", container_id=container)
            self.assertEqual(self.ended(container).get("exit_code", 0), 0)
            self.assertEqual(self.log(pod, "echo"), ["stdout F /echo.wasm", f"stdout F {index}"])
            self.remove(pod)

    def test_pod_that_is_stopped(self) -> None:
        """a pod that is stopped takes its running containers along"""
        pod = self.pod()
        container = self.container(pod, "counts")
        self.daemon.call("StartContainer", container_id=container)
        self.remove(pod)

    def test_restart(self) -> None:
        """containerd ends and starts again: the log of a running container goes on, and its exit is whole"""
        pod = self.pod()
        container = self.container(pod, "counts")
        self.daemon.call("StartContainer", container_id=container)
        until("it has written", lambda: self.log(pod, "counts") == ["stdout F begun"])
        self.daemon.end()
        self.daemon.start()
        until("CRI answers", lambda: command(self.daemon.call_words("Version"), self.daemon.environment).status == 0)
        self.daemon.call("StopContainer", container_id=container, timeout=30)
        self.assertEqual(self.ended(container)["exit_code"], 143)
        self.assertEqual(self.log(pod, "counts"), ["stdout F begun"])
        self.remove(pod)
