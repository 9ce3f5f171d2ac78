;; Asks for two pages more, and prints what it is told as a byte: 1, or 255 where it gets none.
(module
  (import "wasi_snapshot_preview1" "fd_write" (func $fd_write (param i32 i32 i32 i32) (result i32)))
  (memory (export "memory") 1 3)
  (func (export "_start")
    (i32.store8 (i32.const 16) (memory.grow (i32.const 2)))
    (drop (call $fd_write (i32.const 1) (i32.const 0) (i32.const 1) (i32.const 8))))
  (data (i32.const 0) "\10\00\00\00\01\00\00\00"))
