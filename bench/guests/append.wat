;; Appends `abc` to a file, which it makes where it isn't there, and prints the file. It syncs nothing.
(module
  (import "wasi_snapshot_preview1" "path_open"
    (func $path_open (param i32 i32 i32 i32 i32 i64 i64 i32 i32) (result i32)))
  (import "wasi_snapshot_preview1" "fd_write" (func $fd_write (param i32 i32 i32 i32) (result i32)))
  (import "wasi_snapshot_preview1" "fd_pread" (func $fd_pread (param i32 i32 i32 i64 i32) (result i32)))
  (memory (export "memory") 1)
  (func (export "_start")
    (drop (call $path_open (i32.const 3) (i32.const 0) (i32.const 0) (i32.const 1) (i32.const 1)
      (i64.const -1) (i64.const -1) (i32.const 1) (i32.const 4)))
    (drop (call $fd_write (i32.const 4) (i32.const 16) (i32.const 1) (i32.const 8)))
    (drop (call $fd_pread (i32.const 4) (i32.const 24) (i32.const 1) (i64.const 0) (i32.const 28)))
    (drop (call $fd_write (i32.const 1) (i32.const 24) (i32.const 1) (i32.const 8))))
  (data (i32.const 0) "a")
  ;; `abc`; room for 100 bytes, whose length the count replaces
  (data (i32.const 16) "\20\00\00\00\03\00\00\00\64\00\00\00\64\00\00\00abc"))
