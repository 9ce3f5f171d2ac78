;; Writes "hi" and a line feed to standard output, and exits with status 0.
(module
  (type (func (param i32 i32 i32 i32) (result i32)))
  (type (func (param i32)))
  (type (func))
  (import "wasi_snapshot_preview1" "fd_write" (func $fd_write (type 0)))
  (import "wasi_snapshot_preview1" "proc_exit" (func $proc_exit (type 1)))
  (memory 1)
  (export "memory" (memory 0))
  (export "_start" (func $start))
  (func $start (type 2)
    i32.const 1    ;; standard output
    i32.const 0    ;; one iovec, at address 0
    i32.const 1
    i32.const 16   ;; where the count of the bytes is to stand
    call $fd_write
    drop
    i32.const 0
    call $proc_exit)
  ;; the iovec: 3 bytes at address 8
  (data (i32.const 0) "\08\00\00\00\03\00\00\00hi\0a"))
