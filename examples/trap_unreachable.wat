;; Traps: an unreachable instruction.
(module
  (type $entry (func))
  (func $start (type $entry)
    unreachable)
  (export "_start" (func $start)))
