;; Tags and the operators of the first exception proposal. With names wabt 1.0.32 writes its tags as subsection 10.
(module
  (type $one (func (param i32)))
  (type $two (func (param i64 f32)))
  (import "env" "tag" (tag $imported (type $one)))
  (tag $mine (export "tag") (type $two))
  (tag $empty)
  (func $raise (throw $imported (i32.const 7)))
  (func $handle (result i32)
    (try $l (result i32)
      (do (call $raise) (i32.const 0))
      (catch $imported)
      (catch $mine drop drop i32.const 1)
      (catch_all (rethrow $l))))
  (func $pass
    (try $out
      (do (try (do (call $raise)) (delegate $out)))
      (catch $empty))))
