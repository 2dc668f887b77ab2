;; Writes its arguments, a line each.
(module
  (type $get (func (param i32 i32) (result i32)))
  (type $write (func (param i32 i32 i32 i32) (result i32)))
  (type $v (func))
  (import "wasi_snapshot_preview1" "args_sizes_get" (func $args_sizes_get (type $get)))
  (import "wasi_snapshot_preview1" "args_get" (func $args_get (type $get)))
  (import "wasi_snapshot_preview1" "fd_write" (func $fd_write (type $write)))
  (memory 1)
  (func $start (type $v) (local $at i32)
    ;; how many there are at 0, and how many bytes they take at 4
    i32.const 0 i32.const 4 call $args_sizes_get drop
    ;; a pointer to each from 1024 on, and their bytes from 2048 on
    i32.const 1024 i32.const 2048 call $args_get drop
    ;; the NUL after each becomes a line feed
    block
      loop
        local.get $at i32.const 4 i32.load i32.ge_u br_if 1
        local.get $at i32.load8_u offset=2048 i32.eqz
        if local.get $at i32.const 10 i32.store8 offset=2048 end
        local.get $at i32.const 1 i32.add local.set $at
        br 0
      end
    end
    ;; the one buffer: its address at 8, and its length at 12
    i32.const 8 i32.const 2048 i32.store
    i32.const 12 i32.const 4 i32.load i32.store
    i32.const 1 i32.const 8 i32.const 1 i32.const 16 call $fd_write drop)
  (export "_start" (func $start))
  (export "memory" (memory 0)))
