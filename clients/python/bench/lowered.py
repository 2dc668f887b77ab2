"""Sizes and times of programs of C with floats, lowered. In clients/python:

    /usr/bin/python3 -m bench.lowered [PROGRAM]

PROGRAM is looked for as the library does, if it is not told. clang 14 builds each program. A row has the bytes of the
module and of the lowered one; the turns and the milliseconds of the shim, from the start to the end; and the milliseconds
of node for the call of `_start` alone, of the module as it is and lowered. A time is the least of three. The last program
has no floats but those of printf, which is not called with one.
"""
from __future__ import annotations

import subprocess
import sys
import tempfile
import time
from pathlib import Path

import feulgama
from feulgama.lowering import lower

FLAGS = ("--target=wasm32-wasi", "--sysroot=/usr", "-O2", "-Wl,--strip-all", "-lm")
MEMORY = 4 * 2**20
PROGRAMS = {
    "mandelbrot set (double)": """
        #include <stdio.h>
        int main(void) {
          int inside = 0;
          for (int y = 0; y < 60; y++) for (int x = 0; x < 80; x++) {
            double a = 0, b = 0, c = x / 40.0 - 1.5, d = y / 30.0 - 1;
            int i = 0;
            for (; i < 100 && a * a + b * b < 4; i++) { double e = a * a - b * b + c; b = 2 * a * b + d; a = e; }
            inside += i == 100;
          }
          printf("%d\\n", inside);
        }""",
    "two planets (double, roots)": """
        #include <math.h>
        #include <stdio.h>
        int main(void) {
          double x = 1, y = 0, u = 0, v = 1.1;
          for (int i = 0; i < 40000; i++) {
            double r = sqrt(x * x + y * y), k = -0.001 / (r * r * r);
            u += k * x; v += k * y; x += 0.001 * u; y += 0.001 * v;
          }
          printf("%.9f %.9f\\n", x, y);
        }""",
    "product of matrices (float)": """
        #include <stdio.h>
        static float a[70][70], b[70][70], c[70][70];
        int main(void) {
          for (int i = 0; i < 70; i++) for (int j = 0; j < 70; j++) a[i][j] = i + j * 0.5f, b[i][j] = i - j * 0.25f;
          for (int i = 0; i < 70; i++) for (int j = 0; j < 70; j++) for (int k = 0; k < 70; k++) c[i][j] += a[i][k] * b[k][j];
          printf("%g\\n", c[33][44]);
        }""",
    "sin, exp, log, pow": """
        #include <math.h>
        #include <stdio.h>
        int main(void) {
          double sum = 0;
          for (int i = 1; i < 4000; i++) sum += sin(i) * exp(-i / 1e3) + log(i) - pow(i, 0.3);
          printf("%.9f\\n", sum);
        }""",
    "600 floats by printf": """
        #include <stdio.h>
        int main(void) { for (int i = 0; i < 600; i++) printf("%g %.3f\\n", i * 0.37, i / 7.0); }""",
    "sieve (no float is used)": """
        #include <stdio.h>
        static char is_not[400000];
        int main(void) {
          int count = 0;
          for (int i = 2; i < 400000; i++) {
            if (is_not[i]) continue;
            count++;
            for (int j = 2 * i; j < 400000; j += i) is_not[j] = 1;
          }
          printf("%d\\n", count);
        }""",
}
NODE = """
const fs = require("fs"), { WASI } = require("wasi");
const module = new WebAssembly.Module(fs.readFileSync(process.argv[1]));
let least = Infinity;
for (let i = 0; i < 3; i++) {
  const wasi = new WASI({ version: "preview1", args: ["m"], stdout: fs.openSync("/dev/null", "w"), returnOnExit: true });
  const instance = new WebAssembly.Instance(module, { wasi_snapshot_preview1: wasi.wasiImport });
  const begin = process.hrtime.bigint();
  wasi.start(instance);
  least = Math.min(least, Number(process.hrtime.bigint() - begin) / 1e6);
}
console.log(least);
"""


def built(folder: Path, text: str) -> bytes:
    """The module of a program."""
    source, out = folder / "program.c", folder / "program.wasm"
    source.write_text(text)
    subprocess.run(["clang-14", *FLAGS, "-o", out, source], check=True)
    return out.read_bytes()


def in_node(folder: Path, data: bytes) -> float:
    """Milliseconds of `_start`."""
    file = folder / "run.wasm"
    file.write_bytes(data)
    run = subprocess.run(["node", "--no-warnings", "-e", NODE, file], check=True, capture_output=True, text=True)
    return float(run.stdout)


def on_the_shim(shim: feulgama.Shim, data: bytes) -> tuple[int, float]:
    """Turns, and milliseconds."""
    least, turns, digest = float("inf"), 0, shim.ensure(data)
    for _ in range(3):
        task = shim.create(feulgama.Config(digest, ("module",), {}, MEMORY)).id
        begin = time.perf_counter()
        shim.start(task)
        turns = shim.wait(task).turns
        least = min(least, time.perf_counter() - begin)
        shim.delete(task)
    return turns, least * 1000


def main() -> None:
    """Prints a row for each program."""
    print("| Program | Bytes | Lowered | Turns | Shim, ms | node, ms | node, lowered, ms |\n|---|---|---|---|---|---|---|")
    with tempfile.TemporaryDirectory() as name, feulgama.Shim(sys.argv[1] if len(sys.argv) > 1 else None) as shim:
        folder = Path(name)
        for words, text in PROGRAMS.items():
            data = built(folder, text)
            lowered = lower(data).data
            turns, spent = on_the_shim(shim, lowered)
            print(f"| {words} | {len(data):,} | {len(lowered):,} | {turns:,} | {spent:.0f} | {in_node(folder, data):.1f} | "
                  f"{in_node(folder, lowered):.1f} |", flush=True)


if __name__ == "__main__":
    main()
