;; Metadata of operators, which wabt writes as a custom section that tells places in bodies.
(module
  (func $hinted (param i32) (result i32)
    (@metadata.code.branch_hint "\01")
    (if (result i32) (local.get 0)
      (then (i32.const 1))
      (else
        (@metadata.code.branch_hint "\00")
        (if (result i32) (i32.eqz (local.get 0)) (then (i32.const 2)) (else (i32.const 3))))))
  (func $other (param i32)
    (block $b
      (@metadata.code.branch_hint "\01")
      (br_if $b (local.get 0)))))
