;; Traps: the last of the 4 bytes is after the end of the one page.
(module
  (type $entry (func))
  (memory 1)
  (func $start (type $entry)
    i32.const 65533
    i32.load
    drop)
  (export "_start" (func $start)))
