;; Each atomic operator, over a shared memory.
(module
  (memory 1 2 shared)
  (func $access
    unreachable
    memory.atomic.notify
    unreachable
    memory.atomic.notify offset=0 align=4
    unreachable
    memory.atomic.wait32
    unreachable
    memory.atomic.wait32 offset=1 align=4
    unreachable
    memory.atomic.wait64
    unreachable
    memory.atomic.wait64 offset=127 align=8
    unreachable
    i32.atomic.load
    unreachable
    i32.atomic.load offset=16384 align=4
    unreachable
    i64.atomic.load
    unreachable
    i64.atomic.load offset=4294967295 align=8
    unreachable
    i32.atomic.load8_u
    unreachable
    i32.atomic.load8_u offset=0 align=1
    unreachable
    i32.atomic.load16_u
    unreachable
    i32.atomic.load16_u offset=1 align=2
    unreachable
    i64.atomic.load8_u
    unreachable
    i64.atomic.load8_u offset=127 align=1
    unreachable
    i64.atomic.load16_u
    unreachable
    i64.atomic.load16_u offset=128 align=2
    unreachable
    i64.atomic.load32_u
    unreachable
    i64.atomic.load32_u offset=16384 align=4
    unreachable
    i32.atomic.store
    unreachable
    i32.atomic.store offset=4294967295 align=4
    unreachable
    i64.atomic.store
    unreachable
    i64.atomic.store offset=0 align=8
    unreachable
    i32.atomic.store8
    unreachable
    i32.atomic.store8 offset=1 align=1
    unreachable
    i32.atomic.store16
    unreachable
    i32.atomic.store16 offset=127 align=2
    unreachable
    i64.atomic.store8
    unreachable
    i64.atomic.store8 offset=128 align=1
    unreachable
    i64.atomic.store16
    unreachable
    i64.atomic.store16 offset=16384 align=2
    unreachable
    i64.atomic.store32
    unreachable
    i64.atomic.store32 offset=4294967295 align=4
    unreachable
    i32.atomic.rmw.add
    unreachable
    i32.atomic.rmw.add offset=0 align=4
    unreachable
    i64.atomic.rmw.add
    unreachable
    i64.atomic.rmw.add offset=1 align=8
    unreachable
    i32.atomic.rmw8.add_u
    unreachable
    i32.atomic.rmw8.add_u offset=127 align=1
    unreachable
    i32.atomic.rmw16.add_u
    unreachable
    i32.atomic.rmw16.add_u offset=128 align=2
    unreachable
    i64.atomic.rmw8.add_u
    unreachable
    i64.atomic.rmw8.add_u offset=16384 align=1
    unreachable
    i64.atomic.rmw16.add_u
    unreachable
    i64.atomic.rmw16.add_u offset=4294967295 align=2
    unreachable
    i64.atomic.rmw32.add_u
    unreachable
    i64.atomic.rmw32.add_u offset=0 align=4
    unreachable
    i32.atomic.rmw.sub
    unreachable
    i32.atomic.rmw.sub offset=1 align=4
    unreachable
    i64.atomic.rmw.sub
    unreachable
    i64.atomic.rmw.sub offset=127 align=8
    unreachable
    i32.atomic.rmw8.sub_u
    unreachable
    i32.atomic.rmw8.sub_u offset=128 align=1
    unreachable
    i32.atomic.rmw16.sub_u
    unreachable
    i32.atomic.rmw16.sub_u offset=16384 align=2
    unreachable
    i64.atomic.rmw8.sub_u
    unreachable
    i64.atomic.rmw8.sub_u offset=4294967295 align=1
    unreachable
    i64.atomic.rmw16.sub_u
    unreachable
    i64.atomic.rmw16.sub_u offset=0 align=2
    unreachable
    i64.atomic.rmw32.sub_u
    unreachable
    i64.atomic.rmw32.sub_u offset=1 align=4
    unreachable
    i32.atomic.rmw.and
    unreachable
    i32.atomic.rmw.and offset=127 align=4
    unreachable
    i64.atomic.rmw.and
    unreachable
    i64.atomic.rmw.and offset=128 align=8
    unreachable
    i32.atomic.rmw8.and_u
    unreachable
    i32.atomic.rmw8.and_u offset=16384 align=1
    unreachable
    i32.atomic.rmw16.and_u
    unreachable
    i32.atomic.rmw16.and_u offset=4294967295 align=2
    unreachable
    i64.atomic.rmw8.and_u
    unreachable
    i64.atomic.rmw8.and_u offset=0 align=1
    unreachable
    i64.atomic.rmw16.and_u
    unreachable
    i64.atomic.rmw16.and_u offset=1 align=2
    unreachable
    i64.atomic.rmw32.and_u
    unreachable
    i64.atomic.rmw32.and_u offset=127 align=4
    unreachable
    i32.atomic.rmw.or
    unreachable
    i32.atomic.rmw.or offset=128 align=4
    unreachable
    i64.atomic.rmw.or
    unreachable
    i64.atomic.rmw.or offset=16384 align=8
    unreachable
    i32.atomic.rmw8.or_u
    unreachable
    i32.atomic.rmw8.or_u offset=4294967295 align=1
    unreachable
    i32.atomic.rmw16.or_u
    unreachable
    i32.atomic.rmw16.or_u offset=0 align=2
    unreachable
    i64.atomic.rmw8.or_u
    unreachable
    i64.atomic.rmw8.or_u offset=1 align=1
    unreachable
    i64.atomic.rmw16.or_u
    unreachable
    i64.atomic.rmw16.or_u offset=127 align=2
    unreachable
    i64.atomic.rmw32.or_u
    unreachable
    i64.atomic.rmw32.or_u offset=128 align=4
    unreachable
    i32.atomic.rmw.xor
    unreachable
    i32.atomic.rmw.xor offset=16384 align=4
    unreachable
    i64.atomic.rmw.xor
    unreachable
    i64.atomic.rmw.xor offset=4294967295 align=8
    unreachable
    i32.atomic.rmw8.xor_u
    unreachable
    i32.atomic.rmw8.xor_u offset=0 align=1
    unreachable
    i32.atomic.rmw16.xor_u
    unreachable
    i32.atomic.rmw16.xor_u offset=1 align=2
    unreachable
    i64.atomic.rmw8.xor_u
    unreachable
    i64.atomic.rmw8.xor_u offset=127 align=1
    unreachable
    i64.atomic.rmw16.xor_u
    unreachable
    i64.atomic.rmw16.xor_u offset=128 align=2
    unreachable
    i64.atomic.rmw32.xor_u
    unreachable
    i64.atomic.rmw32.xor_u offset=16384 align=4
    unreachable
    i32.atomic.rmw.xchg
    unreachable
    i32.atomic.rmw.xchg offset=4294967295 align=4
    unreachable
    i64.atomic.rmw.xchg
    unreachable
    i64.atomic.rmw.xchg offset=0 align=8
    unreachable
    i32.atomic.rmw8.xchg_u
    unreachable
    i32.atomic.rmw8.xchg_u offset=1 align=1
    unreachable
    i32.atomic.rmw16.xchg_u
    unreachable
    i32.atomic.rmw16.xchg_u offset=127 align=2
    unreachable
    i64.atomic.rmw8.xchg_u
    unreachable
    i64.atomic.rmw8.xchg_u offset=128 align=1
    unreachable
    i64.atomic.rmw16.xchg_u
    unreachable
    i64.atomic.rmw16.xchg_u offset=16384 align=2
    unreachable
    i64.atomic.rmw32.xchg_u
    unreachable
    i64.atomic.rmw32.xchg_u offset=4294967295 align=4
    unreachable
    i32.atomic.rmw.cmpxchg
    unreachable
    i32.atomic.rmw.cmpxchg offset=0 align=4
    unreachable
    i64.atomic.rmw.cmpxchg
    unreachable
    i64.atomic.rmw.cmpxchg offset=1 align=8
    unreachable
    i32.atomic.rmw8.cmpxchg_u
    unreachable
    i32.atomic.rmw8.cmpxchg_u offset=127 align=1
    unreachable
    i32.atomic.rmw16.cmpxchg_u
    unreachable
    i32.atomic.rmw16.cmpxchg_u offset=128 align=2
    unreachable
    i64.atomic.rmw8.cmpxchg_u
    unreachable
    i64.atomic.rmw8.cmpxchg_u offset=16384 align=1
    unreachable
    i64.atomic.rmw16.cmpxchg_u
    unreachable
    i64.atomic.rmw16.cmpxchg_u offset=4294967295 align=2
    unreachable
    i64.atomic.rmw32.cmpxchg_u
    unreachable
    i64.atomic.rmw32.cmpxchg_u offset=0 align=4
    unreachable)
  (func $fence
    unreachable
    atomic.fence
    unreachable))
