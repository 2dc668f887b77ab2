;; Traps: a function that calls itself, with no end.
(module
  (type $entry (func))
  (func $start (type $entry)
    call $start)
  (export "_start" (func $start)))
