;; Calls itself 20,000 deep, which takes more values and frames than are reserved, and prints a line.
(module
  (import "wasi_snapshot_preview1" "fd_write" (func $fd_write (param i32 i32 i32 i32) (result i32)))
  (memory (export "memory") 1)
  (func $down (param $left i32) (result i32)
    (if (result i32) (i32.eqz (local.get $left))
      (then (i32.const 0))
      (else (i32.add (call $down (i32.sub (local.get $left) (i32.const 1))) (i32.const 1)))))
  (func (export "_start")
    (drop (call $down (i32.const 20000)))
    (drop (call $fd_write (i32.const 1) (i32.const 0) (i32.const 1) (i32.const 8))))
  (data (i32.const 0) "\10\00\00\00\05\00\00\00")
  (data (i32.const 16) "deep\0a"))
