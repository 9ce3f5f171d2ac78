;; Says of each of its three streams, in one line, what fd_fdstat_get and fd_filestat_get tell as its type; then copies its standard
;; input to its standard output, what each read gives by one write. Its two buffers have 16 and 4,096 bytes, and one before them has none.
(module
  (import "wasi_snapshot_preview1" "fd_read" (func $fd_read (param i32 i32 i32 i32) (result i32)))
  (import "wasi_snapshot_preview1" "fd_write" (func $fd_write (param i32 i32 i32 i32) (result i32)))
  (import "wasi_snapshot_preview1" "fd_fdstat_get" (func $fd_fdstat_get (param i32 i32) (result i32)))
  (import "wasi_snapshot_preview1" "fd_filestat_get" (func $fd_filestat_get (param i32 i32) (result i32)))
  (import "wasi_snapshot_preview1" "proc_exit" (func $proc_exit (param i32)))
  (memory (export "memory") 1)
  (func $types (param $fd i32) (param $at i32)
    (drop (call $fd_fdstat_get (local.get $fd) (i32.const 256)))
    (drop (call $fd_filestat_get (local.get $fd) (i32.const 320)))
    (i32.store8 (local.get $at) (i32.add (i32.const 48) (i32.load8_u (i32.const 256))))
    (i32.store8 (i32.add (local.get $at) (i32.const 1)) (i32.add (i32.const 48) (i32.load8_u (i32.const 336)))))
  (func (export "_start")
    (call $types (i32.const 0) (i32.const 512))
    (call $types (i32.const 1) (i32.const 514))
    (call $types (i32.const 2) (i32.const 516))
    (drop (call $fd_write (i32.const 1) (i32.const 40) (i32.const 1) (i32.const 60)))
    (loop $next
      (if (i32.ne (call $fd_read (i32.const 0) (i32.const 16) (i32.const 3) (i32.const 60)) (i32.const 0))
        (then (call $proc_exit (i32.const 1))))
      (i32.store (i32.const 52) (i32.load (i32.const 60)))
      (if (i32.load (i32.const 60))
        (then
          (drop (call $fd_write (i32.const 1) (i32.const 48) (i32.const 1) (i32.const 60)))
          (br $next)))))
  ;; three buffers to read into: none at 1,008, 16 bytes at 1,008 and 4,096 behind them; six types and a line end; what was read
  (data (i32.const 16) "\f0\03\00\00\00\00\00\00\f0\03\00\00\10\00\00\00\00\04\00\00\00\10\00\00\00\02\00\00\07\00\00\00\f0\03\00\00\00\00\00\00")
  (data (i32.const 518) "\0a"))
