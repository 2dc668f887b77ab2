// Runs the entry of the module that is named, for bench/programs.py: prints the number that it exits with, if it does.
class Exit {
    constructor(number) { this.number = number; }
}
const imports = { wasi_snapshot_preview1: { proc_exit(number) { throw new Exit(number >>> 0); } } };
const module = new WebAssembly.Module(read(arguments[0], "binary"));
try {
    new WebAssembly.Instance(module, imports).exports._start();
} catch (end) {
    if (!(end instanceof Exit)) throw end;
    print(end.number);
}
