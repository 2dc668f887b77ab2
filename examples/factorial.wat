;; Stores 3! at address 8, by calls of a function that calls itself, and exits with it, which is 6.
(module
  (type $code (func (param i32)))
  (type $entry (func))
  (type $function (func (param i32) (result i64)))
  (import "wasi_snapshot_preview1" "proc_exit" (func $exit (type $code)))
  (memory 1)
  (func $factorial (type $function) (param $number i32) (result i64)
    local.get $number
    i32.eqz
    if (result i64)
      i64.const 1
    else
      local.get $number
      i64.extend_i32_u
      local.get $number
      i32.const 1
      i32.sub
      call $factorial
      i64.mul
    end)
  (func $start (type $entry) (local $found i64)
    i32.const 3
    call $factorial
    local.set $found
    i32.const 8
    local.get $found
    i64.store
    local.get $found
    i32.wrap_i64
    call $exit)
  (export "_start" (func $start)))
