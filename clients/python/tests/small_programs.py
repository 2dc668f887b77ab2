"""Small programs of C, C++ and Rust with what they write and their status, as the standards of the languages say it."""
from __future__ import annotations

from dataclasses import dataclass

ALL = """
#include <assert.h>
#include <errno.h>
#include <stdio.h>
#include <stdlib.h>
#include <string.h>
#include <time.h>
#include <unistd.h>
"""


@dataclass(frozen=True, slots=True)
class Program:
    """A program. `text` is what follows the headers; its arguments are its name, `one` and `two`, and KEY is `value`."""
    name: str
    text: str
    stdout: str
    status: int = 0
    stderr: str = ""


PROGRAMS = (
    Program("write", 'int main(void) { return write(1, "written\\n", 8) != 8; }', "written\n"),
    Program("arguments", "int main(int n, char **words) { while (*words) puts(*words++); return n; }",
            "module\none\ntwo\n", 3),
    Program("environment", 'int main(void) { puts(getenv("KEY")); return getenv("NONE") != 0; }', "value\n"),
    Program("malloc", """
        int main(void) {
          char *all[50];
          for (int i = 0; i < 50; i++) memset(all[i] = malloc(100 * i + 1), i, 100 * i + 1);
          int sum = 0;
          for (int i = 0; i < 50; i++) sum += all[i][100 * i], free(all[i]);
          return sum == 49 * 25 ? 7 : 1;
        }""", "", 7),
    Program("qsort", """
        static int order(const void *a, const void *b) { return *(const int *)a - *(const int *)b; }
        int main(void) {
          int items[] = {5, 3, 9, 1, 7};
          qsort(items, 5, sizeof *items, order);
          for (int i = 0; i < 5; i++) putchar('0' + items[i]);
          return putchar('\\n') != '\\n';
        }""", "13579\n"),
    Program("strtol", 'int main(void) { return strtol("0x2a", 0, 0) + strtoul("11", 0, 2); }', "", 45),
    Program("atexit", """
        static void last(void) { puts("last"); }
        int main(void) { atexit(last); puts("first"); exit(4); }""", "first\nlast\n", 4),
    Program("strtok", """
        int main(void) {
          char text[] = "a,bc,,d";
          for (char *part = strtok(text, ","); part; part = strtok(0, ",")) puts(part);
          return 0;
        }""", "a\nbc\nd\n"),
    Program("snprintf", """
        int main(void) {
          char text[40];
          int size = snprintf(text, sizeof text, "%d %s %08x %-5d| %lld", -42, "abc", 0xbeef, 6, 123456789012345LL);
          puts(text);
          return size;
        }""", "-42 abc 0000beef 6    | 123456789012345\n", 39),
    Program("printf", 'int main(int n, char **words) { return printf("%d words, the last is %s\\n", n, words[n - 1]); }',
            "3 words, the last is two\n", 25),
    Program("fputs", 'int main(void) { fputs("to one\\n", stdout); fputs("to two\\n", stderr); return 0; }',
            "to one\n", 0, "to two\n"),
    Program("fopen", 'int main(void) { return fopen("none", "r") == 0 && errno ? 9 : 1; }', "", 9),
    Program("getchar", 'int main(void) { char c; return getchar() == EOF && read(0, &c, 1) == 0 ? 6 : 1; }', "", 6),
    Program("time", """
        int main(void) {
          time_t first = time(0);
          struct timespec one, other;
          clock_gettime(CLOCK_MONOTONIC, &one);
          char text[40];
          strftime(text, sizeof text, "%F %T", gmtime(&first));
          puts(text);
          sleep(3);
          clock_gettime(CLOCK_MONOTONIC, &other);
          printf("%d to %d\\n", (int)one.tv_sec, (int)other.tv_sec);
          return time(0) - first;
        }""", "2000-01-01 00:00:00\n0 to 3\n", 3),
    Program("structures", """
        struct large { char bytes[900]; int number; };
        static struct large __attribute__((noinline)) next(struct large from) { from.number++; return from; }
        int main(int n, char **words) {
          struct large one;
          memset(&one, n, sizeof one);
          struct large two = next(one);
          memmove(two.bytes + n, two.bytes, 800);
          return two.bytes[802] + (two.number == 0x03030304);
        }""", "", 4),
    Program("pointers", """
        static int add(int a) { return a + 1; }
        static int twice(int a) { return a * 2; }
        static int (*volatile all[])(int) = {add, twice};
        int main(int n, char **words) { return all[n & 1](20) + all[n - 3](1); }""", "", 42),
)

RUST = """
use std::collections::HashMap;
use std::io::Read;
use std::time::{Duration, Instant};
fn main() {
    let mut counts = HashMap::new();
    for word in "a b c a b a".split(' ') { *counts.entry(word).or_insert(0) += 1; }
    let mut counts: Vec<_> = counts.into_iter().collect();
    counts.sort();
    println!("{:?}", counts);
    println!("{}", std::fs::File::open("none").is_err());
    let mut input = String::new();
    println!("{}", std::io::stdin().read_to_string(&mut input).unwrap());
    let before = Instant::now();
    std::thread::sleep(Duration::from_secs(5));
    println!("{}", before.elapsed().as_secs());
    std::process::exit(5);
}
"""
RUST_SAYS = '[("a", 3), ("b", 2), ("c", 1)]\ntrue\n0\n5\n'

CPP = """
#include <algorithm>
#include <cstdio>
#include <map>
#include <string>
#include <vector>
int main() {
  std::map<std::string, int> counts;
  for (std::string word : {"b", "a", "b"}) counts[word]++;
  std::vector<int> numbers{3, 1, 2};
  std::sort(numbers.begin(), numbers.end());
  for (auto &[word, count] : counts) std::printf("%s %d\\n", word.c_str(), count);
  for (int number : numbers) std::printf("%d,", number);
  return numbers.back();
}
"""
CPP_SAYS = "a 1\nb 2\n1,2,3,"
