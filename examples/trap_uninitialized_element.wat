;; Traps: no function was put at this element of the table.
(module
  (type $entry (func))
  (table 1 funcref)
  (func $start (type $entry)
    i32.const 0
    call_indirect (type $entry))
  (export "_start" (func $start)))
