"""Checks of containerd-shim-feulgama-v1, run by clients/containerd/test/run."""
