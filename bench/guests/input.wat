;; Reads three bytes of standard input three times, and prints what it read and how many bytes each time.
(module
  (import "wasi_snapshot_preview1" "fd_read" (func $fd_read (param i32 i32 i32 i32) (result i32)))
  (import "wasi_snapshot_preview1" "fd_write" (func $fd_write (param i32 i32 i32 i32) (result i32)))
  (memory (export "memory") 1)
  (func $copy
    (drop (call $fd_read (i32.const 0) (i32.const 16) (i32.const 1) (i32.const 36)))
    (drop (call $fd_write (i32.const 1) (i32.const 24) (i32.const 1) (i32.const 8)))
    (i32.store (i32.const 32) (i32.const 0)))
  (func (export "_start")
    (call $copy)
    (call $copy)
    (call $copy))
  ;; three bytes at 32; those and the count after them
  (data (i32.const 16) "\20\00\00\00\03\00\00\00\20\00\00\00\05\00\00\00"))
