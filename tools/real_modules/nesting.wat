;; Empty texts and many blocks, one in another.
(module
  (func $nop)
  (func $deep (param i32) (result i32)
    (loop (result i32) (block (result i32) (loop (result i32) (block (result i32) (loop (result i32) (block (result i32) (loop (result i32) (block (result i32) (loop (result i32) (block (result i32) (loop (result i32) (block (result i32) (loop (result i32) (block (result i32) (loop (result i32) (block (result i32) (loop (result i32) (block (result i32) (loop (result i32) (block (result i32) (loop (result i32) (block (result i32) (loop (result i32) (block (result i32) (loop (result i32) (block (result i32) (loop (result i32) (block (result i32) (loop (result i32) (block (result i32) (loop (result i32) (block (result i32) (loop (result i32) (block (result i32) (loop (result i32) (block (result i32) (loop (result i32) (block (result i32) (loop (result i32) (block (result i32) (local.get 0)))))))))))))))))))))))))))))))))))))))))))
