;; Writes 20,000 bytes to a new file in two calls, and prints the two counts and the file's size.
(module
  (import "wasi_snapshot_preview1" "path_open"
    (func $path_open (param i32 i32 i32 i32 i32 i64 i64 i32 i32) (result i32)))
  (import "wasi_snapshot_preview1" "fd_write" (func $fd_write (param i32 i32 i32 i32) (result i32)))
  (import "wasi_snapshot_preview1" "fd_filestat_get" (func $filestat (param i32 i32) (result i32)))
  (memory (export "memory") 1)
  (func (export "_start")
    (drop (call $path_open (i32.const 3) (i32.const 0) (i32.const 0) (i32.const 1) (i32.const 1)
      (i64.const -1) (i64.const -1) (i32.const 0) (i32.const 4)))
    (drop (call $fd_write (i32.const 4) (i32.const 16) (i32.const 1) (i32.const 40)))
    (i32.store (i32.const 20) (i32.const 3616))
    (drop (call $fd_write (i32.const 4) (i32.const 16) (i32.const 1) (i32.const 44)))
    (drop (call $filestat (i32.const 4) (i32.const 100)))
    (drop (call $fd_write (i32.const 1) (i32.const 24) (i32.const 2) (i32.const 8))))
  (data (i32.const 0) "a")
  ;; 20,000 bytes at 1,000; the two counts; the size
  (data (i32.const 16) "\e8\03\00\00\20\4e\00\00\28\00\00\00\08\00\00\00\84\00\00\00\08\00\00\00"))
