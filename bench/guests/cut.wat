;; Writes `abc` to a new file, sets its size to 1 and then to 3, and prints what it reads from its beginning.
(module
  (import "wasi_snapshot_preview1" "path_open"
    (func $path_open (param i32 i32 i32 i32 i32 i64 i64 i32 i32) (result i32)))
  (import "wasi_snapshot_preview1" "fd_write" (func $fd_write (param i32 i32 i32 i32) (result i32)))
  (import "wasi_snapshot_preview1" "fd_pread" (func $fd_pread (param i32 i32 i32 i64 i32) (result i32)))
  (import "wasi_snapshot_preview1" "fd_filestat_set_size" (func $set_size (param i32 i64) (result i32)))
  (memory (export "memory") 1)
  (func (export "_start")
    (drop (call $path_open (i32.const 3) (i32.const 0) (i32.const 0) (i32.const 1) (i32.const 1)
      (i64.const -1) (i64.const -1) (i32.const 0) (i32.const 4)))
    (drop (call $fd_write (i32.const 4) (i32.const 16) (i32.const 1) (i32.const 8)))
    (drop (call $set_size (i32.const 4) (i64.const 1)))
    (drop (call $set_size (i32.const 4) (i64.const 3)))
    (drop (call $fd_pread (i32.const 4) (i32.const 16) (i32.const 1) (i64.const 0) (i32.const 8)))
    (drop (call $fd_write (i32.const 1) (i32.const 16) (i32.const 1) (i32.const 8))))
  (data (i32.const 0) "a")
  ;; three bytes at 32
  (data (i32.const 16) "\20\00\00\00\03\00\00\00")
  (data (i32.const 32) "abc"))
