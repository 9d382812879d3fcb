;; Constant expressions of several operators.
(module
  (import "env" "base" (global $base i32))
  (import "env" "long" (global $long i64))
  (memory 1)
  (table 10 funcref)
  (global $next i32 (i32.add (global.get $base) (i32.mul (i32.const 3) (i32.sub (i32.const 7) (global.get $base)))))
  (global $wide i64 (i64.add (global.get $long) (i64.mul (i64.const 3) (i64.sub (i64.const 7) (global.get $long)))))
  (elem (offset (i32.add (global.get $base) (i32.const 1))) func $f)
  (data (offset (i32.add (global.get $base) (i32.const 8))) "shifted")
  (func $f))
