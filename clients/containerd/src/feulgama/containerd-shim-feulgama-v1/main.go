// Containerd-shim-feulgama-v1 runs WebAssembly modules as containerd's containers.
package main

import (
	"context"
	"fmt"
	"os"

	"github.com/containerd/containerd/runtime/v2/shim"

	"feulgama/containerd/manager"
	_ "feulgama/containerd/task/plugin"
	"feulgama/oci/version"
)

func main() {
	if len(os.Args) == 2 && (os.Args[1] == "-v" || os.Args[1] == "--version") {
		fmt.Println("containerd-shim-feulgama-v1 version " + version.Number)
		return
	}
	shim.RunManager(context.Background(), manager.Manager("io.containerd.feulgama.v1"), func(c *shim.Config) {
		c.NoReaper, c.NoSubreaper = true, true // each process is waited for by who has started it
	})
}
