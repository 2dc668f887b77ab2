package app

const usage = `Usage: feulgama-oci [OPTION..] COMMAND [ARG..]

An OCI runtime for podman, docker and containerd. It runs a container whose program is a WebAssembly module by
wasm-shim, in a container that runc makes, and each other container by runc alone.

Commands and options are those of runc (runc --help). Of these are its own:
  create, run    look at the program of the bundle first: the file that process.args[0] names in the root of the
                 container. If it begins with the bytes of a WebAssembly module, config.json is rewritten (the
                 original is kept as config.json.before-feulgama), and feulgama-root is made in the bundle
  start          waits until the first process of a module's container takes signals
  supervise      the first process inside a module's container; not for use by hand
  --help, -h     this help
  --version, -v  the version of feulgama-oci, and then that of runc

Environment:
  FEULGAMA_SHIM  the path of wasm-shim. Without it: beside feulgama-oci, then in PATH, then /usr/bin/wasm-shim
  FEULGAMA_RUNC  the path of runc. Without it: in PATH, then in the usual folders of programs
  FEULGAMA_COMMAND  the path of the command feulgama, looked for as wasm-shim is. It lowers the module of a container
                 whose config has the annotation dev.shim.lower: "true"

Exit status: that of runc; 1 if a container is refused, with the reason on standard error and in the file of --log;
2 without a command. A container has the status of "wasm-shim run".
`
