;; Several memories, one of 64 bits.
(module
  (import "env" "memory" (memory $first 1))
  (memory $second 2 3)
  (memory $wide i64 1 0x100000)
  (data (memory $second) (offset (i32.const 300)) "second")
  (data (memory $wide) (offset (i64.const 5)) "wide")
  (data (memory $first) (offset (i32.const 1)) "first")
  (data $passive "passive")
  (export "second" (memory $second))
  (func $copy
    (memory.copy $first $second (i32.const 1) (i32.const 2) (i32.const 3))
    (memory.init $second $passive (i32.const 1) (i32.const 2) (i32.const 3))
    (memory.fill $second (i32.const 1) (i32.const 2) (i32.const 3))
    (i32.store8 $second offset=9 (i32.const 4) (i32.load $first align=2 (i32.const 5)))
    (i64.store $wide offset=0xffffffff (i64.const 4) (i64.load $wide offset=128 (i64.const 5)))
    (drop (memory.grow $second (memory.size $second)))
    (drop (memory.grow $wide (memory.size $wide)))
    (drop (v128.load8_lane $second offset=1 3 (i32.const 1) (v128.const i32x4 0 0 0 0)))))
