// Runs the entry of the module that is named, for bench/sequences.py: prints the number that it exits with, and its counters.
class Exit {
    constructor(number) { this.number = number; }
}
const imports = { wasi_snapshot_preview1: { proc_exit(number) { throw new Exit(number >>> 0); } } };
const module = new WebAssembly.Module(read(arguments[0], "binary"));
const exported = new WebAssembly.Instance(module, imports).exports;
try {
    exported._start();
} catch (end) {
    if (!(end instanceof Exit)) throw end;
    print(end.number);
}
const found = [];
for (let number = 0; "n" + number in exported; number++) found.push(exported["n" + number].value);
print(found.join(" "));
