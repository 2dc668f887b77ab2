"""A picture of a terminal: an SVG of what was typed and written."""
from __future__ import annotations

from xml.sax.saxutils import escape

COLUMNS = 112
SPACE = "\N{NO-BREAK SPACE}"  # which no viewer leaves out
WIDTH, HEIGHT, MARGIN = 8.43, 19, 14  # of a letter in pixels, of a line, around all
COLOURS = {"typed": "#8ae234", "written": "#eeeeec", "title": "#888a85"}
HEAD = """<svg xmlns="http://www.w3.org/2000/svg" width="{width:.0f}" height="{height}" role="img" aria-label="{title}">
<!-- Made by clients/containerd/test/pictures. -->
<rect width="100%" height="100%" rx="6" fill="#1f2426"/>
<g font-family="DejaVu Sans Mono, Menlo, Consolas, monospace" font-size="14">
"""

# What is typed for each picture: commands, and lines to the debugger.
CALLS = (
    ("cri-call RunPodSandbox pod.json", ""),
    ("cri-call CreateContainer container.json", ""),
    ("cri-call StartContainer id.json; sleep 1", ""),
    ("cat logs/primes.log", ""),
    ("cri-call ExecSync inspect.json | jq -r .stdout | base64 -d | head -4", ""),
    ("cri-call StopContainer stop.json", ""),
    ("cri-call ContainerStatus id.json", ""),
)
ATTACH = (
    ("ctr run -d --runtime io.containerd.feulgama.v1 localhost/primes:1 primes", ""),
    ("sleep 1; feulgama attach primes", "backtrace\nbreak primes.c:26 if primes.found % 10 == 0\ncontinue\nprint primes\n"
     "info variables\nstep\nprint primes\nreverse-stepi 16\nprint primes\nquit\n"),
    ("ctr tasks list", ""),
)
PICTURES = {"pod": ("A kubelet's calls for a pod", CALLS), "attach": ("The debugger on a container", ATTACH)}


def lines_of(parts: list[tuple[str, str]]) -> list[tuple[str, str]]:
    """The kind and the text of each line of some commands and what they wrote. A long line goes on in the next one."""
    found: list[tuple[str, str]] = []
    for command, written in parts:
        found += [("typed", line) for line in f"$ {command}".splitlines()]
        found += [("typed" if line.startswith("(feulgama) ") else "written", line) for line in written.splitlines()]
    return [(kind, line[at:at + COLUMNS]) for kind, line in found for at in range(0, max(len(line), 1), COLUMNS)]


def picture(title: str, parts: list[tuple[str, str]]) -> str:
    """The SVG of some commands, each with what it wrote."""
    shown = lines_of(parts)
    text = HEAD.format(width=COLUMNS * WIDTH + 2 * MARGIN, height=len(shown) * HEIGHT + 2 * MARGIN, title=escape(title))
    for number, (kind, line) in enumerate(shown):
        where = f'x="{MARGIN}" y="{MARGIN + number * HEIGHT + 14}"'
        text += f'<text {where} fill="{COLOURS[kind]}">{escape(line).replace(" ", SPACE)}</text>\n'
    return f"{text}</g>\n</svg>\n"
