"""Programs of C and Rust that are built for tests, and random ones of C with variables of many types."""
from __future__ import annotations

import random
import shutil
import subprocess
from pathlib import Path

CLANG = ["clang-14", "--target=wasm32", "-mcpu=mvp", "-ffreestanding", "-fdebug-compilation-dir=.", "-c"]
# Without an option -O, with which clang would run wasm-opt if it is there: that leaves descriptions which fit no more.
LINK = ["clang-14", "--target=wasm32", "-nostdlib", "-Wl,--no-entry", "-Wl,-z,stack-size=16384"]
RUSTC = ["/usr/bin/rustc", "--target", "wasm32-unknown-unknown", "-g", "-C", "target-cpu=mvp", "-C", "panic=abort",
         "-C", "link-arg=-zstack-size=16384", "--crate-type", "cdylib"]
NEEDED = ("clang-14", "wasm-ld-14", "llvm-dwarfdump-14")
MISSING = [name for name in NEEDED if shutil.which(name) is None]
HAS_RUST = Path(RUSTC[0]).is_file() and any(Path("/usr/lib/rustlib").glob("wasm32-unknown-unknown/lib/libcore-*"))
TYPES = ("int", "unsigned char", "short", "long long", "unsigned int", "signed char")

RUST = """#![no_std]
#[panic_handler] fn panic(_: &core::panic::PanicInfo) -> ! { loop {} }
struct Pair { first: i32, second: u16 }
enum Shape { Square(u32), Rect { w: u32, h: u32 }, Nothing }
static mut COUNT: u32 = 7;
#[inline(never)]
fn area(shape: &Shape, factor: u64) -> u64 {
    let found = match shape { Shape::Square(side) => side * side, Shape::Rect { w, h } => w * h, Shape::Nothing => 0 };
    let wide = found as u64 * factor;
    unsafe { COUNT += 1; }
    wide
}
#[inline(never)]
fn total(numbers: &[i32], name: &str) -> Pair {
    let mut first = 0;
    let mut second = name.len() as u16;
    for number in numbers { first += number; second ^= *number as u16; }
    Pair { first, second }
}
#[no_mangle] pub extern "C" fn _start() {
    let numbers = [3, -4, 5, 60];
    let pair = total(&numbers, "some name");
    let mut sum = pair.first as u64 + pair.second as u64;
    for shape in [Shape::Square(3), Shape::Rect { w: 4, h: 5 }, Shape::Nothing].iter() { sum += area(shape, sum); }
    unsafe { COUNT += sum as u32; }
}
"""


def built_c(folder: Path, name: str, text: str, *options: str) -> Path:
    """The module that clang makes of a text."""
    source, module = folder / f"{name}.c", folder / f"{name}{''.join(options)}.wasm"
    source.write_text(text)
    made = module.with_suffix(".o").name
    for words in ([*CLANG, *options, "-o", made, source.name], [*LINK, "-o", module.name, made]):
        subprocess.run(words, cwd=folder, check=True, capture_output=True)
    return module


def built_rust(folder: Path, name: str, text: str, level: int) -> Path:
    """The module that rustc makes of a text."""
    source, module = folder / f"{name}.rs", folder / f"{name}{level}.wasm"
    source.write_text(text)
    subprocess.run([*RUSTC, "-C", f"opt-level={level}", "-o", module.name, source.name], cwd=folder, check=True,
                   capture_output=True)
    return module


class Maker:
    """Writes a random program: functions that call those before them, with loops, and variables in inner scopes."""

    def __init__(self, seed: int) -> None:
        self.random = random.Random(seed)
        self.variables: list[str] = []

    def program(self) -> str:
        """Its text."""
        lines = ["struct pair { int first; short second; unsigned char third[3]; };", "static int total;",
                 "static struct pair kept = { 1, 2, { 3, 4, 5 } };"]
        for number in range(4):
            lines += self.function(number)
        calls = " ".join(f"total += f{number}({number + 3}, {7 * number}, {number} - 5LL);" for number in range(4))
        main = "__attribute__((export_name(\"_start\"))) void start(void)"
        return "\n".join([*lines, f"{main} {{ for (int round = 0; round < 3; round++) {{ {calls} }} }}", ""])

    def function(self, number: int) -> list[str]:
        """A function, which is not inlined, or may be."""
        self.variables = ["one", "other", "(int) wide"]
        attribute = self.random.choice(["__attribute__((noinline)) ", ""])
        lines = [f"{attribute}static int f{number}(int one, unsigned char other, long long wide) {{"]
        lines += self.declared(number, "    ")
        lines += ["    struct pair pair = { one, other, { 1, one, other } };", "    int *at = &pair.first;",
                  f"    for (int i{number} = 0; i{number} < (one & 7) + 1; i{number}++) {{"]
        self.variables += ["*at", "pair.second", f"i{number}"]
        lines += self.declared(number + 10, "        ")
        if number:
            lines.append(f"        *at += f{self.random.randrange(number)}(i{number}, {self.word()}, wide);")
        lines += [f"        pair.third[i{number} % 3] ^= {self.word()};", f"        kept.first += {self.word()};", "    }",
                  f"    return *at + pair.third[1] + {self.word()};", "}"]
        return lines

    def declared(self, number: int, space: str) -> list[str]:
        """Some variables, each used at once."""
        lines = []
        for count in range(self.random.randint(1, 3)):
            name = f"v{number}_{count}"
            kind, op = self.random.choice(TYPES), self.random.choice("+-*^|&")
            lines.append(f"{space}{kind} {name} = {self.word()} {op} {self.word()};")
            self.variables.append(name)
            lines.append(f"{space}if ({name} & 1) {name} += {self.word()};")
        return lines

    def word(self) -> str:
        """A number, or a variable that is there."""
        return self.random.choice([*self.variables[:3], str(self.random.randrange(200))])
