;; Traps: 1 divided by 0.
(module
  (type $entry (func))
  (func $start (type $entry)
    i32.const 1
    i32.const 0
    i32.div_u
    drop)
  (export "_start" (func $start)))
