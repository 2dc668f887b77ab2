"""Images of somebody who means harm: the shim is root, and an image is not trusted."""
from __future__ import annotations

from .base import WithDaemon


class HostileImages(WithDaemon):
    """Each is refused soon, with a reason, and nothing of it is left."""

    images = ("link-out", "link-absolute", "link-in", "fifo", "device", "folder", "huge", "loader")

    def refused(self, image: str, word: str) -> None:
        """Checks that an image is refused for a reason."""
        ended = self.daemon.run(image, name=image)
        self.wrote(ended, 1, "")
        self.assertIn(word, ended.err)
        self.assertLess(ended.seconds, 10.0)
        self.nothing_left(image)

    def test_link_out(self) -> None:
        """a link out of the image leads nowhere"""
        self.refused("link-out", '"/m.wasm", is no WebAssembly module, or is not in the image')

    def test_link_absolute(self) -> None:
        """a link to a file of the machine leads nowhere"""
        self.refused("link-absolute", '"/m.wasm", is no WebAssembly module, or is not in the image')

    def test_link_inside(self) -> None:
        """a link inside the image is followed"""
        self.wrote(self.daemon.run("link-in"), 7, "")

    def test_fifo(self) -> None:
        """a FIFO in the place of the module is refused, and holds nothing up"""
        self.refused("fifo", "/m.wasm is a FIFO")

    def test_device(self) -> None:
        """a device in the place of the module is refused"""
        self.refused("device", "/m.wasm is a device")

    def test_folder(self) -> None:
        """a directory in the place of the module is refused"""
        self.refused("folder", "/m.wasm is a directory")

    def test_huge_module(self) -> None:
        """a module of more bytes than a module may have is refused"""
        self.refused("huge", "more than 262144 bytes")

    def test_loader(self) -> None:
        """no library of an image is loaded"""
        self.wrote(self.daemon.run("loader"), 0, "hello, feulgama\n")
