"""The Debug Adapter Protocol over the debugger, for editors."""
