"""Modules of WebAssembly, as far as a debugger has to know them."""
