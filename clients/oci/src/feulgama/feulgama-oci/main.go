// Feulgama-oci is an OCI runtime that runs containers of WebAssembly modules by wasm-shim, and all others by runc.
package main

import (
	"os"

	"feulgama/oci/app"
)

func main() {
	os.Exit(app.Main(os.Args[1:]))
}
