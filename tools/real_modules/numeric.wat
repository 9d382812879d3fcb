;; Each numeric operator of wabt 1.0.32, behind `unreachable`, and constants of every length.
(module
  (func $const_i32
    unreachable
    i32.const 0
    unreachable
    i32.const 1
    unreachable
    i32.const -1
    unreachable
    i32.const 63
    unreachable
    i32.const 64
    unreachable
    i32.const -64
    unreachable
    i32.const -65
    unreachable
    i32.const 8191
    unreachable
    i32.const 8192
    unreachable
    i32.const -8192
    unreachable
    i32.const -8193
    unreachable
    i32.const 2147483647
    unreachable
    i32.const -2147483648
    unreachable
    i32.const 0xdeadbeef
    unreachable)
  (func $const_i64
    unreachable
    i64.const 0
    unreachable
    i64.const 1
    unreachable
    i64.const -1
    unreachable
    i64.const 63
    unreachable
    i64.const 64
    unreachable
    i64.const -64
    unreachable
    i64.const -65
    unreachable
    i64.const 2147483648
    unreachable
    i64.const -2147483649
    unreachable
    i64.const 4611686018427387904
    unreachable
    i64.const 9223372036854775807
    unreachable
    i64.const -9223372036854775808
    unreachable)
  (func $const_f32
    unreachable
    f32.const 0
    unreachable
    f32.const -0
    unreachable
    f32.const 1.5
    unreachable
    f32.const inf
    unreachable
    f32.const -inf
    unreachable
    f32.const nan
    unreachable
    f32.const nan:0x200000
    unreachable
    f32.const -nan:0x7fffff
    unreachable
    f32.const 0x1p-149
    unreachable)
  (func $const_f64
    unreachable
    f64.const 0
    unreachable
    f64.const -0
    unreachable
    f64.const 1.5
    unreachable
    f64.const inf
    unreachable
    f64.const -inf
    unreachable
    f64.const nan
    unreachable
    f64.const nan:0x4000000000000
    unreachable
    f64.const -nan:0xfffffffffffff
    unreachable
    f64.const 0x1p-1074
    unreachable)
  (func $f32
    unreachable
    f32.eq
    unreachable
    f32.ne
    unreachable
    f32.lt
    unreachable
    f32.gt
    unreachable
    f32.le
    unreachable
    f32.ge
    unreachable
    f32.abs
    unreachable
    f32.neg
    unreachable
    f32.ceil
    unreachable
    f32.floor
    unreachable
    f32.trunc
    unreachable
    f32.nearest
    unreachable
    f32.sqrt
    unreachable
    f32.add
    unreachable
    f32.sub
    unreachable
    f32.mul
    unreachable
    f32.div
    unreachable
    f32.min
    unreachable
    f32.max
    unreachable
    f32.copysign
    unreachable
    f32.convert_i32_s
    unreachable
    f32.convert_i32_u
    unreachable
    f32.convert_i64_s
    unreachable
    f32.convert_i64_u
    unreachable
    f32.demote_f64
    unreachable
    f32.reinterpret_i32
    unreachable)
  (func $f64
    unreachable
    f64.eq
    unreachable
    f64.ne
    unreachable
    f64.lt
    unreachable
    f64.gt
    unreachable
    f64.le
    unreachable
    f64.ge
    unreachable
    f64.abs
    unreachable
    f64.neg
    unreachable
    f64.ceil
    unreachable
    f64.floor
    unreachable
    f64.trunc
    unreachable
    f64.nearest
    unreachable
    f64.sqrt
    unreachable
    f64.add
    unreachable
    f64.sub
    unreachable
    f64.mul
    unreachable
    f64.div
    unreachable
    f64.min
    unreachable
    f64.max
    unreachable
    f64.copysign
    unreachable
    f64.convert_i32_s
    unreachable
    f64.convert_i32_u
    unreachable
    f64.convert_i64_s
    unreachable
    f64.convert_i64_u
    unreachable
    f64.promote_f32
    unreachable
    f64.reinterpret_i64
    unreachable)
  (func $i32
    unreachable
    i32.eqz
    unreachable
    i32.eq
    unreachable
    i32.ne
    unreachable
    i32.lt_s
    unreachable
    i32.lt_u
    unreachable
    i32.gt_s
    unreachable
    i32.gt_u
    unreachable
    i32.le_s
    unreachable
    i32.le_u
    unreachable
    i32.ge_s
    unreachable
    i32.ge_u
    unreachable
    i32.clz
    unreachable
    i32.ctz
    unreachable
    i32.popcnt
    unreachable
    i32.add
    unreachable
    i32.sub
    unreachable
    i32.mul
    unreachable
    i32.div_s
    unreachable
    i32.div_u
    unreachable
    i32.rem_s
    unreachable
    i32.rem_u
    unreachable
    i32.and
    unreachable
    i32.or
    unreachable
    i32.xor
    unreachable
    i32.shl
    unreachable
    i32.shr_s
    unreachable
    i32.shr_u
    unreachable
    i32.rotl
    unreachable
    i32.rotr
    unreachable
    i32.wrap_i64
    unreachable
    i32.trunc_f32_s
    unreachable
    i32.trunc_f32_u
    unreachable
    i32.trunc_f64_s
    unreachable
    i32.trunc_f64_u
    unreachable
    i32.reinterpret_f32
    unreachable
    i32.extend8_s
    unreachable
    i32.extend16_s
    unreachable
    i32.trunc_sat_f32_s
    unreachable
    i32.trunc_sat_f32_u
    unreachable
    i32.trunc_sat_f64_s
    unreachable
    i32.trunc_sat_f64_u
    unreachable)
  (func $i64
    unreachable
    i64.eqz
    unreachable
    i64.eq
    unreachable
    i64.ne
    unreachable
    i64.lt_s
    unreachable
    i64.lt_u
    unreachable
    i64.gt_s
    unreachable
    i64.gt_u
    unreachable
    i64.le_s
    unreachable
    i64.le_u
    unreachable
    i64.ge_s
    unreachable
    i64.ge_u
    unreachable
    i64.clz
    unreachable
    i64.ctz
    unreachable
    i64.popcnt
    unreachable
    i64.add
    unreachable
    i64.sub
    unreachable
    i64.mul
    unreachable
    i64.div_s
    unreachable
    i64.div_u
    unreachable
    i64.rem_s
    unreachable
    i64.rem_u
    unreachable
    i64.and
    unreachable
    i64.or
    unreachable
    i64.xor
    unreachable
    i64.shl
    unreachable
    i64.shr_s
    unreachable
    i64.shr_u
    unreachable
    i64.rotl
    unreachable
    i64.rotr
    unreachable
    i64.extend_i32_s
    unreachable
    i64.extend_i32_u
    unreachable
    i64.trunc_f32_s
    unreachable
    i64.trunc_f32_u
    unreachable
    i64.trunc_f64_s
    unreachable
    i64.trunc_f64_u
    unreachable
    i64.reinterpret_f64
    unreachable
    i64.extend8_s
    unreachable
    i64.extend16_s
    unreachable
    i64.extend32_s
    unreachable
    i64.trunc_sat_f32_s
    unreachable
    i64.trunc_sat_f32_u
    unreachable
    i64.trunc_sat_f64_s
    unreachable
    i64.trunc_sat_f64_u
    unreachable))
