;; Each vector operator of wabt 1.0.32.
(module
  (memory 1)
  (func $f32x4
    unreachable
    f32x4.splat
    unreachable
    f32x4.extract_lane 0
    unreachable
    f32x4.extract_lane 1
    unreachable
    f32x4.replace_lane 0
    unreachable
    f32x4.replace_lane 1
    unreachable
    f32x4.eq
    unreachable
    f32x4.ne
    unreachable
    f32x4.lt
    unreachable
    f32x4.gt
    unreachable
    f32x4.le
    unreachable
    f32x4.ge
    unreachable
    f32x4.demote_f64x2_zero
    unreachable
    f32x4.ceil
    unreachable
    f32x4.floor
    unreachable
    f32x4.trunc
    unreachable
    f32x4.nearest
    unreachable
    f32x4.abs
    unreachable
    f32x4.neg
    unreachable
    f32x4.sqrt
    unreachable
    f32x4.add
    unreachable
    f32x4.sub
    unreachable
    f32x4.mul
    unreachable
    f32x4.div
    unreachable
    f32x4.min
    unreachable
    f32x4.max
    unreachable
    f32x4.pmin
    unreachable
    f32x4.pmax
    unreachable
    f32x4.convert_i32x4_s
    unreachable
    f32x4.convert_i32x4_u
    unreachable)
  (func $f64x2
    unreachable
    f64x2.splat
    unreachable
    f64x2.extract_lane 0
    unreachable
    f64x2.extract_lane 1
    unreachable
    f64x2.replace_lane 0
    unreachable
    f64x2.replace_lane 1
    unreachable
    f64x2.eq
    unreachable
    f64x2.ne
    unreachable
    f64x2.lt
    unreachable
    f64x2.gt
    unreachable
    f64x2.le
    unreachable
    f64x2.ge
    unreachable
    f64x2.promote_low_f32x4
    unreachable
    f64x2.ceil
    unreachable
    f64x2.floor
    unreachable
    f64x2.trunc
    unreachable
    f64x2.nearest
    unreachable
    f64x2.abs
    unreachable
    f64x2.neg
    unreachable
    f64x2.sqrt
    unreachable
    f64x2.add
    unreachable
    f64x2.sub
    unreachable
    f64x2.mul
    unreachable
    f64x2.div
    unreachable
    f64x2.min
    unreachable
    f64x2.max
    unreachable
    f64x2.pmin
    unreachable
    f64x2.pmax
    unreachable
    f64x2.convert_low_i32x4_s
    unreachable
    f64x2.convert_low_i32x4_u
    unreachable)
  (func $i16x8
    unreachable
    i16x8.splat
    unreachable
    i16x8.extract_lane_s 0
    unreachable
    i16x8.extract_lane_s 1
    unreachable
    i16x8.extract_lane_u 0
    unreachable
    i16x8.extract_lane_u 1
    unreachable
    i16x8.replace_lane 0
    unreachable
    i16x8.replace_lane 1
    unreachable
    i16x8.eq
    unreachable
    i16x8.ne
    unreachable
    i16x8.lt_s
    unreachable
    i16x8.lt_u
    unreachable
    i16x8.gt_s
    unreachable
    i16x8.gt_u
    unreachable
    i16x8.le_s
    unreachable
    i16x8.le_u
    unreachable
    i16x8.ge_s
    unreachable
    i16x8.ge_u
    unreachable
    i16x8.extadd_pairwise_i8x16_s
    unreachable
    i16x8.extadd_pairwise_i8x16_u
    unreachable
    i16x8.abs
    unreachable
    i16x8.neg
    unreachable
    i16x8.q15mulr_sat_s
    unreachable
    i16x8.all_true
    unreachable
    i16x8.bitmask
    unreachable
    i16x8.narrow_i32x4_s
    unreachable
    i16x8.narrow_i32x4_u
    unreachable
    i16x8.extend_low_i8x16_s
    unreachable
    i16x8.extend_high_i8x16_s
    unreachable
    i16x8.extend_low_i8x16_u
    unreachable
    i16x8.extend_high_i8x16_u
    unreachable
    i16x8.shl
    unreachable
    i16x8.shr_s
    unreachable
    i16x8.shr_u
    unreachable
    i16x8.add
    unreachable
    i16x8.add_sat_s
    unreachable
    i16x8.add_sat_u
    unreachable
    i16x8.sub
    unreachable
    i16x8.sub_sat_s
    unreachable
    i16x8.sub_sat_u
    unreachable
    i16x8.mul
    unreachable
    i16x8.min_s
    unreachable
    i16x8.min_u
    unreachable
    i16x8.max_s
    unreachable
    i16x8.max_u
    unreachable
    i16x8.avgr_u
    unreachable
    i16x8.extmul_low_i8x16_s
    unreachable
    i16x8.extmul_high_i8x16_s
    unreachable
    i16x8.extmul_low_i8x16_u
    unreachable
    i16x8.extmul_high_i8x16_u
    unreachable)
  (func $i32x4
    unreachable
    i32x4.splat
    unreachable
    i32x4.extract_lane 0
    unreachable
    i32x4.extract_lane 1
    unreachable
    i32x4.replace_lane 0
    unreachable
    i32x4.replace_lane 1
    unreachable
    i32x4.eq
    unreachable
    i32x4.ne
    unreachable
    i32x4.lt_s
    unreachable
    i32x4.lt_u
    unreachable
    i32x4.gt_s
    unreachable
    i32x4.gt_u
    unreachable
    i32x4.le_s
    unreachable
    i32x4.le_u
    unreachable
    i32x4.ge_s
    unreachable
    i32x4.ge_u
    unreachable
    i32x4.extadd_pairwise_i16x8_s
    unreachable
    i32x4.extadd_pairwise_i16x8_u
    unreachable
    i32x4.abs
    unreachable
    i32x4.neg
    unreachable
    i32x4.all_true
    unreachable
    i32x4.bitmask
    unreachable
    i32x4.extend_low_i16x8_s
    unreachable
    i32x4.extend_high_i16x8_s
    unreachable
    i32x4.extend_low_i16x8_u
    unreachable
    i32x4.extend_high_i16x8_u
    unreachable
    i32x4.shl
    unreachable
    i32x4.shr_s
    unreachable
    i32x4.shr_u
    unreachable
    i32x4.add
    unreachable
    i32x4.sub
    unreachable
    i32x4.mul
    unreachable
    i32x4.min_s
    unreachable
    i32x4.min_u
    unreachable
    i32x4.max_s
    unreachable
    i32x4.max_u
    unreachable
    i32x4.dot_i16x8_s
    unreachable
    i32x4.extmul_low_i16x8_s
    unreachable
    i32x4.extmul_high_i16x8_s
    unreachable
    i32x4.extmul_low_i16x8_u
    unreachable
    i32x4.extmul_high_i16x8_u
    unreachable
    i32x4.trunc_sat_f32x4_s
    unreachable
    i32x4.trunc_sat_f32x4_u
    unreachable
    i32x4.trunc_sat_f64x2_s_zero
    unreachable
    i32x4.trunc_sat_f64x2_u_zero
    unreachable)
  (func $i64x2
    unreachable
    i64x2.splat
    unreachable
    i64x2.extract_lane 0
    unreachable
    i64x2.extract_lane 1
    unreachable
    i64x2.replace_lane 0
    unreachable
    i64x2.replace_lane 1
    unreachable
    i64x2.abs
    unreachable
    i64x2.neg
    unreachable
    i64x2.all_true
    unreachable
    i64x2.bitmask
    unreachable
    i64x2.extend_low_i32x4_s
    unreachable
    i64x2.extend_high_i32x4_s
    unreachable
    i64x2.extend_low_i32x4_u
    unreachable
    i64x2.extend_high_i32x4_u
    unreachable
    i64x2.shl
    unreachable
    i64x2.shr_s
    unreachable
    i64x2.shr_u
    unreachable
    i64x2.add
    unreachable
    i64x2.sub
    unreachable
    i64x2.mul
    unreachable
    i64x2.eq
    unreachable
    i64x2.ne
    unreachable
    i64x2.lt_s
    unreachable
    i64x2.gt_s
    unreachable
    i64x2.le_s
    unreachable
    i64x2.ge_s
    unreachable
    i64x2.extmul_low_i32x4_s
    unreachable
    i64x2.extmul_high_i32x4_s
    unreachable
    i64x2.extmul_low_i32x4_u
    unreachable
    i64x2.extmul_high_i32x4_u
    unreachable)
  (func $i8x16
    unreachable
    i8x16.shuffle 0 1 2 3 4 5 6 7 31 30 29 28 27 26 25 24
    unreachable
    i8x16.swizzle
    unreachable
    i8x16.splat
    unreachable
    i8x16.extract_lane_s 0
    unreachable
    i8x16.extract_lane_s 1
    unreachable
    i8x16.extract_lane_u 0
    unreachable
    i8x16.extract_lane_u 1
    unreachable
    i8x16.replace_lane 0
    unreachable
    i8x16.replace_lane 1
    unreachable
    i8x16.eq
    unreachable
    i8x16.ne
    unreachable
    i8x16.lt_s
    unreachable
    i8x16.lt_u
    unreachable
    i8x16.gt_s
    unreachable
    i8x16.gt_u
    unreachable
    i8x16.le_s
    unreachable
    i8x16.le_u
    unreachable
    i8x16.ge_s
    unreachable
    i8x16.ge_u
    unreachable
    i8x16.abs
    unreachable
    i8x16.neg
    unreachable
    i8x16.popcnt
    unreachable
    i8x16.all_true
    unreachable
    i8x16.bitmask
    unreachable
    i8x16.narrow_i16x8_s
    unreachable
    i8x16.narrow_i16x8_u
    unreachable
    i8x16.shl
    unreachable
    i8x16.shr_s
    unreachable
    i8x16.shr_u
    unreachable
    i8x16.add
    unreachable
    i8x16.add_sat_s
    unreachable
    i8x16.add_sat_u
    unreachable
    i8x16.sub
    unreachable
    i8x16.sub_sat_s
    unreachable
    i8x16.sub_sat_u
    unreachable
    i8x16.min_s
    unreachable
    i8x16.min_u
    unreachable
    i8x16.max_s
    unreachable
    i8x16.max_u
    unreachable
    i8x16.avgr_u
    unreachable)
  (func $v128
    unreachable
    v128.load
    unreachable
    v128.load offset=0 align=1
    unreachable
    v128.load8x8_s
    unreachable
    v128.load8x8_s offset=1 align=1
    unreachable
    v128.load8x8_u
    unreachable
    v128.load8x8_u offset=127 align=1
    unreachable
    v128.load16x4_s
    unreachable
    v128.load16x4_s offset=128 align=1
    unreachable
    v128.load16x4_u
    unreachable
    v128.load16x4_u offset=16384 align=1
    unreachable
    v128.load32x2_s
    unreachable
    v128.load32x2_s offset=4294967295 align=1
    unreachable
    v128.load32x2_u
    unreachable
    v128.load32x2_u offset=0 align=1
    unreachable
    v128.load8_splat
    unreachable
    v128.load8_splat offset=1 align=1
    unreachable
    v128.load16_splat
    unreachable
    v128.load16_splat offset=127 align=1
    unreachable
    v128.load32_splat
    unreachable
    v128.load32_splat offset=128 align=1
    unreachable
    v128.load64_splat
    unreachable
    v128.load64_splat offset=16384 align=1
    unreachable
    v128.store
    unreachable
    v128.store offset=4294967295 align=1
    unreachable
    v128.const i32x4 0x00010203 0x04050607 0x08090a0b 0xffffffff
    unreachable
    v128.const f64x2 nan 1.5
    unreachable
    v128.const i8x16 0 1 2 3 4 5 6 7 8 9 10 11 12 13 14 255
    unreachable
    v128.not
    unreachable
    v128.and
    unreachable
    v128.andnot
    unreachable
    v128.or
    unreachable
    v128.xor
    unreachable
    v128.bitselect
    unreachable
    v128.any_true
    unreachable
    v128.load8_lane 0
    unreachable
    v128.load8_lane offset=300 align=1 1
    unreachable
    v128.load16_lane 0
    unreachable
    v128.load16_lane offset=300 align=1 1
    unreachable
    v128.load32_lane 0
    unreachable
    v128.load32_lane offset=300 align=1 1
    unreachable
    v128.load64_lane 0
    unreachable
    v128.load64_lane offset=300 align=1 1
    unreachable
    v128.store8_lane 0
    unreachable
    v128.store8_lane offset=300 align=1 1
    unreachable
    v128.store16_lane 0
    unreachable
    v128.store16_lane offset=300 align=1 1
    unreachable
    v128.store32_lane 0
    unreachable
    v128.store32_lane offset=300 align=1 1
    unreachable
    v128.store64_lane 0
    unreachable
    v128.store64_lane offset=300 align=1 1
    unreachable
    v128.load32_zero
    unreachable
    v128.load32_zero offset=127 align=1
    unreachable
    v128.load64_zero
    unreachable
    v128.load64_zero offset=128 align=1
    unreachable))
