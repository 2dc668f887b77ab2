;; Traps: the table has one element, and this is the second.
(module
  (type $entry (func))
  (table 1 funcref)
  (func $start (type $entry)
    i32.const 1
    call_indirect (type $entry))
  (export "_start" (func $start)))
