"""A debugger over tasks of a shim: where a task is, how it is moved, and what is shown of it."""
