;; Tail calls, several values, typed function references.
(module
  (type $f (func (param i32) (result i32)))
  (type $many (func (param i32 i64) (result i64 i32)))
  (table 1 funcref)
  (elem (i32.const 0) $down)
  (func $down (type $f) (return_call $down (local.get 0)))
  (func $through (type $f) (return_call_indirect (type $f) (local.get 0) (i32.const 0)))
  (func $swap (type $many)
    (local.get 0) (local.get 1)
    (block (type $many) (call $swap))
    (loop (param i64 i32) (result i32 i64) (call $swap_back))
    (call $swap))
  (func $swap_back (param i64 i32) (result i32 i64) (local.get 1) (local.get 0)))
