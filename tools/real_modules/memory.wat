;; Loads and stores, with offsets of every length and alignments below the natural one.
(module
  (memory 1 65536)
  (func $access
    unreachable
    i32.load
    unreachable
    i32.load offset=16384 align=1
    unreachable
    i64.load
    unreachable
    i64.load offset=4294967295 align=1
    unreachable
    f32.load
    unreachable
    f32.load offset=0 align=1
    unreachable
    f64.load
    unreachable
    f64.load offset=1 align=1
    unreachable
    i32.load8_s
    unreachable
    i32.load8_s offset=127 align=1
    unreachable
    i32.load8_u
    unreachable
    i32.load8_u offset=128 align=1
    unreachable
    i32.load16_s
    unreachable
    i32.load16_s offset=16384 align=1
    unreachable
    i32.load16_u
    unreachable
    i32.load16_u offset=4294967295 align=1
    unreachable
    i64.load8_s
    unreachable
    i64.load8_s offset=0 align=1
    unreachable
    i64.load8_u
    unreachable
    i64.load8_u offset=1 align=1
    unreachable
    i64.load16_s
    unreachable
    i64.load16_s offset=127 align=1
    unreachable
    i64.load16_u
    unreachable
    i64.load16_u offset=128 align=1
    unreachable
    i64.load32_s
    unreachable
    i64.load32_s offset=16384 align=1
    unreachable
    i64.load32_u
    unreachable
    i64.load32_u offset=4294967295 align=1
    unreachable
    i32.store
    unreachable
    i32.store offset=0 align=1
    unreachable
    i64.store
    unreachable
    i64.store offset=1 align=1
    unreachable
    f32.store
    unreachable
    f32.store offset=127 align=1
    unreachable
    f64.store
    unreachable
    f64.store offset=128 align=1
    unreachable
    i32.store8
    unreachable
    i32.store8 offset=16384 align=1
    unreachable
    i32.store16
    unreachable
    i32.store16 offset=4294967295 align=1
    unreachable
    i64.store8
    unreachable
    i64.store8 offset=0 align=1
    unreachable
    i64.store16
    unreachable
    i64.store16 offset=1 align=1
    unreachable
    i64.store32
    unreachable
    i64.store32 offset=127 align=1
    unreachable)
  (func $pages
    unreachable
    memory.size
    unreachable
    memory.grow
    unreachable))
