"""The debugger on a container of the containerd shim (docs/CONTAINERS.md, "Debug a container")."""
