;; Makes the files a and b, and prints the first 30 bytes of the directory's listing and how many there are.
(module
  (import "wasi_snapshot_preview1" "path_open"
    (func $path_open (param i32 i32 i32 i32 i32 i64 i64 i32 i32) (result i32)))
  (import "wasi_snapshot_preview1" "fd_write" (func $fd_write (param i32 i32 i32 i32) (result i32)))
  (import "wasi_snapshot_preview1" "fd_readdir" (func $readdir (param i32 i32 i32 i64 i32) (result i32)))
  (memory (export "memory") 1)
  (func $create (param $path i32)
    (drop (call $path_open (i32.const 3) (i32.const 0) (local.get $path) (i32.const 1) (i32.const 1)
      (i64.const -1) (i64.const -1) (i32.const 0) (i32.const 4))))
  (func (export "_start")
    (call $create (i32.const 0))
    (call $create (i32.const 1))
    (drop (call $readdir (i32.const 3) (i32.const 100) (i32.const 30) (i64.const 0) (i32.const 130)))
    (drop (call $fd_write (i32.const 1) (i32.const 16) (i32.const 1) (i32.const 8))))
  (data (i32.const 0) "ab")
  (data (i32.const 16) "\64\00\00\00\22\00\00\00"))
