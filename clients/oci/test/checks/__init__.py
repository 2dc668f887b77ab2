"""The tests of feulgama-oci: its source, and containers under runc, podman, docker and containerd."""
