;; Writes a line to standard output by fd_write of WASI, and returns.
(module
  (type $write (func (param i32 i32 i32 i32) (result i32)))
  (type $entry (func))
  (import "wasi_snapshot_preview1" "fd_write" (func $fd_write (type $write)))
  (memory 1)
  ;; one buffer: its pointer and its length, and then its 16 bytes
  (data (offset i32.const 0) "\08\00\00\00\10\00\00\00")
  (data (offset i32.const 8) "hello, feulgama\n")
  (func $start (type $entry)
    i32.const 1  ;; standard output
    i32.const 0  ;; where the buffers are told
    i32.const 1  ;; how many there are
    i32.const 24 ;; where the number of bytes written goes
    call $fd_write
    drop)
  (export "_start" (func $start))
  (export "memory" (memory 0)))
