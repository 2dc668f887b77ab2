;; Traps: the function of the table takes a parameter, and the call gives none.
(module
  (type $entry (func))
  (type $unary (func (param i32)))
  (table 1 funcref)
  (elem (offset i32.const 0) $other)
  (func $other (type $unary))
  (func $start (type $entry)
    i32.const 0
    call_indirect (type $entry))
  (export "_start" (func $start)))
