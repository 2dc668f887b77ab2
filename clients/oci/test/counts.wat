;; Writes a line, and then counts for ever.
(module
  (type $write (func (param i32 i32 i32 i32) (result i32)))
  (type $entry (func))
  (import "wasi_snapshot_preview1" "fd_write" (func $fd_write (type $write)))
  (memory 1)
  ;; one buffer: its pointer and its length, and then its bytes
  (data (offset i32.const 0) "\08\00\00\00\06\00\00\00begun\n")
  (func $start (type $entry) (local $count i64)
    i32.const 1 i32.const 0 i32.const 1 i32.const 24 call $fd_write drop
    loop
      local.get $count i64.const 1 i64.add local.set $count
      br 0
    end)
  (export "_start" (func $start))
  (export "memory" (memory 0)))
