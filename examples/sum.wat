;; Adds the numbers from 1 to 10 in a loop, and exits with their sum, which is 55.
(module
  (type $code (func (param i32)))
  (type $entry (func))
  (import "wasi_snapshot_preview1" "proc_exit" (func $exit (type $code)))
  (func $start (type $entry) (local $number i32) (local $sum i32)
    i32.const 10
    local.set $number
    loop $next
      local.get $sum
      local.get $number
      i32.add
      local.set $sum
      local.get $number
      i32.const 1
      i32.sub
      local.tee $number
      br_if $next
    end
    local.get $sum
    call $exit)
  (export "_start" (func $start)))
