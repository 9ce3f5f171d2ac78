;; Adds `hi` and a line feed to the file a, syncs it, and prints what the file holds then.
(module
  (import "wasi_snapshot_preview1" "path_open"
    (func $path_open (param i32 i32 i32 i32 i32 i64 i64 i32 i32) (result i32)))
  (import "wasi_snapshot_preview1" "fd_write" (func $fd_write (param i32 i32 i32 i32) (result i32)))
  (import "wasi_snapshot_preview1" "fd_sync" (func $fd_sync (param i32) (result i32)))
  (import "wasi_snapshot_preview1" "fd_pread" (func $fd_pread (param i32 i32 i32 i64 i32) (result i32)))
  (memory (export "memory") 1)
  (func (export "_start")
    (drop (call $path_open (i32.const 3) (i32.const 0) (i32.const 0) (i32.const 1) (i32.const 0)
      (i64.const -1) (i64.const -1) (i32.const 1) (i32.const 4)))
    (drop (call $fd_write (i32.const 4) (i32.const 16) (i32.const 1) (i32.const 8)))
    (drop (call $fd_sync (i32.const 4)))
    (drop (call $fd_pread (i32.const 4) (i32.const 24) (i32.const 1) (i64.const 0) (i32.const 28)))
    (drop (call $fd_write (i32.const 1) (i32.const 24) (i32.const 1) (i32.const 8))))
  (data (i32.const 0) "a")
  ;; three bytes at 32; room for 100 bytes, whose length the count replaces
  (data (i32.const 16) "\20\00\00\00\03\00\00\00\64\00\00\00\64\00\00\00hi\0a"))
