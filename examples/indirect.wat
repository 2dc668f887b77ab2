;; Calls the second function of a table, which squares 7, and exits with 49.
(module
  (type $code (func (param i32)))
  (type $entry (func))
  (type $unary (func (param i32) (result i32)))
  (import "wasi_snapshot_preview1" "proc_exit" (func $exit (type $code)))
  (table 2 funcref)
  (elem (offset i32.const 0) $double $square)
  (func $double (type $unary)
    local.get 0
    i32.const 2
    i32.mul)
  (func $square (type $unary)
    local.get 0
    local.get 0
    i32.mul)
  (func $start (type $entry)
    i32.const 7
    i32.const 1
    call_indirect (type $unary)
    call $exit)
  (export "_start" (func $start)))
