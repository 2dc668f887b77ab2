;; Traps: the least i32 divided by -1 is no i32.
(module
  (type $entry (func))
  (func $start (type $entry)
    i32.const -2147483648
    i32.const -1
    i32.div_s
    drop)
  (export "_start" (func $start)))
