;; A call through a typed function reference.
(module
  (type $f (func (param i32) (result i32)))
  (func $by (param $r (ref $f)) (result i32) (call_ref (i32.const 1) (local.get $r)))
  (func $id (type $f) (local.get 0))
  (elem declare func $id)
  (func (export "run") (result i32) (call $by (ref.func $id))))
