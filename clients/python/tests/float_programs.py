"""Small programs of C, C++, Rust and Lua with floats, and what they write, as their languages say it; and node's WASI."""
from __future__ import annotations

import json
import math
import subprocess
import tempfile
from collections.abc import Mapping, Sequence
from pathlib import Path

from tests.small_programs import Program

NODE = """
const fs = require("fs"), { WASI } = require("wasi");
const [file, env, ...args] = process.argv.slice(1);
const wasi = new WASI({ version: "preview1", args, env: JSON.parse(env), returnOnExit: true });
WebAssembly.instantiate(fs.readFileSync(file), { wasi_snapshot_preview1: wasi.wasiImport })
  .then(made => process.exit(wasi.start(made.instance)));
"""


def in_node(data: bytes, args: Sequence[str], env: Mapping[str, str]) -> tuple[str, str, int]:
    """What a module writes to standard output and error in node's WASI, which opens no folder for it, and its status."""
    with tempfile.NamedTemporaryFile(suffix=".wasm") as file:
        Path(file.name).write_bytes(data)
        words = ["node", "--no-warnings", "-e", NODE, file.name, json.dumps(dict(env)), *args]
        run = subprocess.run(words, stdin=subprocess.DEVNULL, capture_output=True, text=True, check=False, timeout=120)
    return run.stdout, run.stderr, run.returncode


PROGRAMS = (
    Program("formats", """
        int main(int n, char **words) {
          double x = 0.1 * n, big = 1e300 * n * n, small = 5e-324;
          printf("%g %.17g %e %.3f %10.2f|%a\\n", x, x, x, x, x, 1.5 * n);
          printf("%g %g %g %.0f %g\\n", big * big, -big * big, small, 2.5, (double)(float)x);
          return x * 100;
        }""", "0.3 %.17g 3.000000e-01 0.300       0.30|0x1.2p+2\n" % (0.1 * 3) + "inf -inf 4.94066e-324 2 0.3\n", 30),
    Program("numbers", """
        int main(void) {
          double a = strtod("  -12.5e-1x", 0), b = atof("1e10"), c;
          float d;
          int read = sscanf("6.02e23 0.1", "%lf %f", &c, &d);
          printf("%.17g %.17g %.17g %.9g %d\\n", a, b, c, d, read);
          return (int)(b / 1e9);
        }""",
            "-1.25 10000000000 6.02e+23 0.100000001 2\n", 10),
    Program("mathematics", """
        #include <math.h>
        int main(void) {
          double sum = 0;
          for (int i = 1; i <= 20; i++) sum += sin(i) * exp(-i / 10.0) + pow(i, 1.5) / log(i + 1) - atan2(i, 3) + fmod(i, 0.7);
          printf("%.9f %.9f %.9f %.9f\\n", sum, sqrt(2), cbrt(27), floor(-2.5) + ceil(2.1) + rint(3.5) + trunc(-1.9));
          return isnan(sqrt(-1 + sum * 0)) ? 4 : 5;
        }""", "%.9f %.9f %.9f %.9f\n" % (
                sum(math.sin(i) * math.exp(-i / 10.0) + i**1.5 / math.log(i + 1) - math.atan2(i, 3) + math.fmod(i, 0.7)
                    for i in range(1, 21)), math.sqrt(2), 3, math.floor(-2.5) + math.ceil(2.1) + 4 - 1), 4),
    Program("single", """
        static float step(float x, float y) { return x * y + (x < y ? x : y) / 3; }
        static float (*volatile all[])(float, float) = {step};
        static int add(int a, int b) { return a + b; }
        static int (*volatile others[])(int, int) = {add};
        int main(int n, char **words) {
          float a[3][3], trace = 0;
          for (int i = 0; i < 3; i++) for (int j = 0; j < 3; j++) a[i][j] = all[n - 3](i + 0.5f, j + 0.25f);
          for (int i = 0; i < 3; i++) trace += a[i][i];
          unsigned char byte = trace;
          long long wide = trace * 1e10f;
          printf("%d %d %d\\n", byte, (int)(trace * 16), wide > 0);
          return others[n - 3](byte, n);
        }""", "8 142 1\n", 11),
)

RUST = """
use std::collections::HashMap;
fn main() {
    let mut means: HashMap<&str, Vec<f64>> = HashMap::new();
    for (name, value) in [("a", 1.5), ("b", 0.1), ("a", 2.25), ("b", 0.2)] { means.entry(name).or_default().push(value); }
    let mut means: Vec<_> = means.into_iter().map(|(name, all)| (name, all.iter().sum::<f64>() / all.len() as f64)).collect();
    means.sort_by(|a, b| a.1.partial_cmp(&b.1).unwrap());
    println!("{:?}", means);
    println!("{} {:.4} {:e} {}", 0.1 + 0.2, 2f64.sqrt(), 1234.5f64, f32::MAX);
    println!("{} {} {} {}", 1e10 as i32, f64::NAN as u8, -1.5f32 as u32, (0.5f64).sin() > 0.47);
    println!("{:?}", "2.5e-3".parse::<f64>());
}
"""
RUST_SAYS = ('[("b", %s), ("a", 1.875)]\n' % ((0.1 + 0.2) / 2)
             + f"{0.1 + 0.2!r} 1.4142 1.2345e3 340282350000000000000000000000000000000\n2147483647 0 0 true\nOk(0.0025)\n")

CPP = """
#include <iomanip>
#include <iostream>
#include <map>
#include <string>
int main() {
  std::map<std::string, double> sums;
  for (auto &[word, value] : {std::pair<std::string, double>{"b", 0.1}, {"a", 2.5}, {"b", 0.2}}) sums[word] += value;
  for (auto &[word, sum] : sums) std::cout << word << ' ' << std::setprecision(17) << sum << '\\n';
  std::cout << std::fixed << std::setprecision(3) << std::stod("1e3") / 7 << std::endl;
  return sums.size();
}
"""
CPP_SAYS = "a 2.5\nb %.17g\n%.3f\n" % (0.1 + 0.2, 1000 / 7)

# A main program for Lua, which runs the script below. Debian's wasi-libc has no setjmp: an error in a script ends the program.
LUA_MAIN = """
#include <stdio.h>
#include "lua.h"
#include "lauxlib.h"
#include "lualib.h"
static const char script[] = SCRIPT;
int main(void) {
  lua_State *lua = luaL_newstate();
  luaL_requiref(lua, "_G", luaopen_base, 1);
  luaL_requiref(lua, "string", luaopen_string, 1);
  luaL_requiref(lua, "table", luaopen_table, 1);
  luaL_requiref(lua, "math", luaopen_math, 1);
  luaL_loadstring(lua, script);
  lua_callk(lua, 0, 1, 0, NULL);
  return lua_tointeger(lua, -1);
}
"""
# Headers that Lua's source includes: one that wasi-libc has not, and one that Debian's build of Lua writes.
LUA_HEADERS = {"setjmp.h": "typedef int jmp_buf[1];\n",
               "lua5.4-deb-multiarch.h": '#define DEB_HOST_MULTIARCH "wasm32-wasi"\n'}
LUA_FLAGS = ("-DLUAI_THROW(L,c)=__builtin_trap()", "-DLUAI_TRY(L,c,a)=a", "-Dluai_jmpbuf=int", "-D_WASI_EMULATED_SIGNAL",
             "-D_WASI_EMULATED_PROCESS_CLOCKS", "-lwasi-emulated-process-clocks", "-Wno-everything")
LUA = """
local function counter(step) local at = 0 return function() at = at + step return at end end
local one, half = counter(1), counter(0.5)
for _ = 1, 3 do one() half() end
print(one(), half(), 7 // 2, 7 / 2, 2^0.5, 10 % 3.5)
local sum = 0.0
for i = 1, 200 do sum = sum + 1 / i end
print(string.format("%.12f", sum), math.floor(-2.5), math.tointeger(3.0), 1e15, 0.1 + 0.2 == 0.3)
local words = {}
for word in ("c a b"):gmatch("%a") do words[#words + 1] = word end
table.sort(words, function(x, y) return x < y end)
print(table.concat(words, ","), tostring(1e100), tonumber("0x1p-2"))
return 3
"""
LUA_SAYS = ("4\t2.0\t3\t3.5\t%.14g\t3.0\n" % 2**0.5 + "%.12f\t-3\t3\t1e+15\tfalse\n" % sum(1 / i for i in range(1, 201))
            + "a,b,c\t1e+100\t0.25\n")
