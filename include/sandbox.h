/*
 * sandbox.h: WebAssembly guests with exact fuel over crash-safe volumes, for hosts in C and what calls C.
 *
 * Link with libsandbox.a or libsandbox.so (`pkg-config --cflags --libs sandbox`) and the C library. The
 * library has no state of its own, opens no file, starts no thread, takes no lock, installs no handler, and never calls abort or
 * exit. Of the C library it calls malloc, realloc, free, memcpy, memmove and memset alone.
 *
 * OWNERSHIP
 *   Each function on a session takes the ADDRESS of the caller's own `sandbox_session *`, and each on a loaded module that of
 *   a `sandbox_module *`. NULL there means: none. Only sandbox_open, sandbox_open_loaded, sandbox_load, sandbox_prepare,
 *   sandbox_module_share and sandbox_close_loaded make one non-null; the function that discards it makes it NULL again. Never
 *   copy such a pointer to a second variable that is passed, too: the library can't see that (sandbox_module_share makes a
 *   second one).
 *   Bytes that are marked `borrowed` are the caller's, must not change during the call, and are not kept.
 *   Bytes that are marked `kept` are the caller's too, and must neither change nor be freed while the session or the module
 *   exists; those of a prepared module while it, any that shares it, or a session of them exists.
 *   `room` is the caller's memory that the call may write, and that nothing else reads or writes meanwhile. No two
 *   arguments of a call overlap.
 *   No function hands out memory that the caller has to free.
 *
 * POINTERS
 *   None is NULL, also where a length is 0 (pass "" or any address then), but for `*session` and `*module`.
 *   The inline functions at the end answer SANDBOX_MISUSE where the address of the variable is NULL.
 *
 * ERRORS
 *   Each function that can fail answers a number: 0 for success, 1 to 40 a fault (sandbox_text has its text), 100
 *   SANDBOX_MISUSE. After another answer than 0 a session or a module is as it was, but for sandbox_finish and
 *   SANDBOX_DEVICE_FAILED; and what a call writes is as it was, but for `why` where a module is refused.
 *
 * MEMORY
 *   A session asks malloc for at most, in bytes,
 *         65,536 * pages + 8 * values + 2 * output    what its limits allow (sandbox_limits)
 *       + 192 * the bytes of its module               the module's tables
 *       + 520 * the volume's sectors                  202 of a fresh one
 *       + 400 * the volume's sectors                  once more, of a huge one alone (SANDBOX_VOLUME_HUGE): its names
 *       + 1,040 * the writes and syncs so far         of a recorded volume alone (SANDBOX_VOLUME_RECORDED)
 *       + 8 MiB                                       open calls, the names of the volume, and all else
 *   whatever its guest does; sandbox_most_held is this sum, sandbox_most_held_huge that of a huge volume. What the guest doesn't
 *   come to isn't taken, and what it took is given back by sandbox_finish (its memory and its stack) and sandbox_close (all). While
 *   a buffer grows, realloc may hold what it had a second time. A loaded module in no session holds its part of the sum. Those that share one prepared module, and their
 *   sessions, hold that part once in all, until the last of them is gone; sandbox_prepare also takes the memory that its guest
 *   begins with, and gives it back. What is marked `kept` is the caller's own.
 *
 * FLOATS
 *   A module may have floats where sandbox_load_with or sandbox_prepare_with loads it so; else a float is fault 10. Its sessions compute
 *   as IEEE 754 says, with the same bits everywhere, whatever floating-point mode the host has: sandbox_run, sandbox_open,
 *   sandbox_open_loaded and sandbox_resume set that of their thread (MXCSR) to the one in which Linux starts a process, to nearest,
 *   with subnormal numbers and without exceptions, and the host's own again, with its flags, when they come back. So a host may be
 *   linked with -ffast-math, call fesetround, or raise exceptions. Its malloc, realloc and free are called in that mode, and leave it
 *   as it is.
 *
 * THREADS
 *   Sessions and modules share nothing that a caller could see (of one prepared module, what was made once: it is read alone,
 *   and its owners are counted by one atomic number), so each thread can have its own at the same time. One may move to another thread
 *   between two calls, which the host puts in order (by a lock, or a thread's start or end): never two calls at once on
 *   one. Not from a signal handler, and not in the forked child of a process with threads. SANDBOX_STACK bytes of stack are
 *   enough.
 *
 * VERSIONS
 *   SANDBOX_VERSION_NUMBER is 1,000,000 * major + 1,000 * minor + patch, and sandbox_version() what the archive has. From
 *   1.0.0 on a host that was compiled with an earlier header goes on with a later archive:
 *   - A struct keeps its size and its fields. A limit to come takes the place of one of `later`, and 0 there means what it meant
 *     before. What is added else is a struct and a function of its own.
 *   - A number keeps its meaning. Answers to come are faults from 41 to 99, or mistakes of the caller from 101 to 199: so any
 *     answer but 0 is a refusal. Of kinds of sandbox_told to come, those with the bit SANDBOX_GOES_ON are pauses and the others
 *     ends, and none is told to a host that hasn't asked for it by a limit or a function to come. Calls to come have numbers
 *     from 30 on.
 */
#ifndef SANDBOX_H
#define SANDBOX_H
#include <stddef.h>
#include <stdint.h>
#ifdef __cplusplus
extern "C" {
#endif

#define SANDBOX_VERSION_NUMBER 9018 /* 0.9.18 */
#define SANDBOX_STACK 65536 /* of a thread; 24 KB were measured, whatever the guest recurses */

typedef struct sandbox_session sandbox_session; /* opaque */
typedef struct sandbox_module sandbox_module;   /* opaque */

typedef struct { /* borrowed or kept bytes; at isn't NULL */
    const uint8_t *at;
    size_t length;
} sandbox_bytes;

typedef struct { /* a directory that the guest finds open */
    sandbox_bytes guest_name;
    sandbox_bytes path; /* in the volume, as "/" */
} sandbox_preopen;

typedef struct { /* the most that a guest may have; 0 is the default of each */
    uint32_t pages;    /* of memory, 65,536 bytes each. Default 1,024 (64 MiB), at most 65,536; more is 15 */
    uint32_t values;   /* on its stack, 8 bytes each: operands and locals of all functions at work. Default 1,048,576 (8 MiB);
                        * fewer than 4,097 count as 4,097. Where a step would leave more, the run ends with SANDBOX_NO_MEMORY */
    uint64_t output;   /* bytes that it writes to descriptor 1, and as many to 2. Default 16,777,216 (16 MiB). A write past them
                        * takes what there is room for, and it and all later ones there are answered 29; sandbox_full tells */
    uint64_t later[6]; /* limits to come; 0 each, else 15 */
} sandbox_limits;

typedef struct { /* what a guest is given */
    const sandbox_bytes *args;        size_t args_count;     /* the program's name first */
    const sandbox_bytes *env;         size_t env_count;      /* each NAME=VALUE */
    const sandbox_preopen *preopens;  size_t preopens_count; /* descriptors 3 and on */
    uint64_t moment;                                         /* nanoseconds since 1970-01-01 00:00:00 UTC */
    sandbox_bytes random;                                    /* what random_get gives */
    sandbox_limits limits;                                   /* the most that it may have */
    sandbox_bytes input;                                     /* descriptor 0 */
} sandbox_supplies;

typedef struct { /* the guest's volume; borrowed */
    uint32_t kind;                 /* SANDBOX_VOLUME_* */
    const uint8_t (*sectors)[512]; /* _MEMORY, _RECORDED: copied in; sandbox_volume_out copies out */
    size_t sectors_count;          /* _MEMORY, _RECORDED: how many, at most 65,536 (_HUGE: 16,777,216), more is 36; else 0 */
} sandbox_volume;
enum {
    SANDBOX_VOLUME_FRESH = 0,    /* empty, 202 sectors and 16 slots */
    SANDBOX_VOLUME_MEMORY = 1,   /* that of these sectors. The host keeps a volume by sandbox_volume_out */
    SANDBOX_VOLUME_RECORDED = 2, /* the same, and the session keeps a record of its writes and syncs (sandbox_operation_at), for
                                  * a volume on a descriptor: DESCRIPTORS below. 520 bytes of memory for each, until it is closed */
    SANDBOX_VOLUME_HUGE = 4      /* | _MEMORY or | _RECORDED: of more sectors, as a volume of version 4 may have them */
};

typedef struct { /* what a session did to its volume; a caller may pass any numbers in it */
    uint32_t kind;      /* SANDBOX_WRITE, SANDBOX_SYNC; SANDBOX_NO_OPERATION past the last */
    uint32_t sector;    /* that was written; else as it was */
    uint8_t bytes[512]; /* that were written; else as they were */
} sandbox_operation;
enum { SANDBOX_NO_OPERATION = 0, SANDBOX_WRITE = 1, SANDBOX_SYNC = 2 }; /* sandbox_operation.kind */

typedef struct { /* why a call came back; a caller may pass any numbers in it */
    uint32_t kind; /* SANDBOX_EXITED .. */
    uint32_t code; /* the exit status; the trap; the call's errno; else 0 */
    uint32_t call; /* SANDBOX_CALLED: which call, SANDBOX_CALL_*; else 0 */
    uint64_t used; /* units of fuel used since the session began */
} sandbox_told;
enum { /* sandbox_told.kind */
    SANDBOX_EXITED = 0, SANDBOX_TRAPPED = 1, SANDBOX_OUT_OF_FUEL = 2, SANDBOX_NO_MEMORY = 3, /* the run has ended; _OUT_OF_FUEL
                                                                                              * of sandbox_run alone */
    SANDBOX_CALLED = 4, SANDBOX_SPENT = 5,                                      /* it goes on by another resume */
    SANDBOX_GOES_ON = 4                                                         /* kind & SANDBOX_GOES_ON: whether it goes on */
};
enum { /* sandbox_told.code of SANDBOX_TRAPPED */
    SANDBOX_TRAP_UNREACHABLE = 0, SANDBOX_TRAP_DIVIDE_BY_ZERO = 1, SANDBOX_TRAP_INTEGER_OVERFLOW = 2,
    SANDBOX_TRAP_MEMORY = 3, SANDBOX_TRAP_UNDEFINED_ELEMENT = 4, SANDBOX_TRAP_UNINITIALIZED_ELEMENT = 5,
    SANDBOX_TRAP_CALL_TYPE = 6, SANDBOX_TRAP_CALL_STACK = 7, SANDBOX_TRAP_INVALID_CONVERSION = 8
};
enum { /* sandbox_told.call */
    SANDBOX_CALL_ARGS_SIZES_GET = 0, SANDBOX_CALL_ARGS_GET, SANDBOX_CALL_ENVIRON_SIZES_GET, SANDBOX_CALL_ENVIRON_GET,
    SANDBOX_CALL_CLOCK_RES_GET, SANDBOX_CALL_CLOCK_TIME_GET, SANDBOX_CALL_RANDOM_GET, SANDBOX_CALL_PROC_EXIT,
    SANDBOX_CALL_FD_CLOSE, SANDBOX_CALL_FD_FDSTAT_GET, SANDBOX_CALL_FD_FILESTAT_GET, SANDBOX_CALL_FD_FILESTAT_SET_SIZE,
    SANDBOX_CALL_FD_PRESTAT_GET, SANDBOX_CALL_FD_PRESTAT_DIR_NAME, SANDBOX_CALL_FD_READ, SANDBOX_CALL_FD_PREAD,
    SANDBOX_CALL_FD_WRITE, SANDBOX_CALL_FD_PWRITE, SANDBOX_CALL_FD_SEEK, SANDBOX_CALL_FD_TELL, SANDBOX_CALL_FD_SYNC,
    SANDBOX_CALL_FD_DATASYNC, SANDBOX_CALL_FD_READDIR, SANDBOX_CALL_PATH_CREATE_DIRECTORY,
    SANDBOX_CALL_PATH_FILESTAT_GET, SANDBOX_CALL_PATH_OPEN, SANDBOX_CALL_PATH_REMOVE_DIRECTORY,
    SANDBOX_CALL_PATH_RENAME, SANDBOX_CALL_PATH_UNLINK_FILE, SANDBOX_CALL_NOSYS /* one that answers 52 */
};

typedef struct { /* a function at work; a caller may pass any numbers in it */
    uint32_t function; /* its index in the module, the imported ones counted first */
    uint32_t offset;   /* of its instruction in the module's bytes: the one that comes next, trapped or was refused memory; of a
                        * function that has called another one its call */
} sandbox_frame;

typedef struct { /* why a module is refused */
    uint32_t fault;  /* 1 to 12, or SANDBOX_OUT_OF_MEMORY */
    uint32_t offset; /* of the byte; 0 for SANDBOX_OUT_OF_MEMORY */
} sandbox_why;

enum {
    SANDBOX_OK = 0,
    /* 1 to 12: the module (sandbox_why has the offset). 13 an import that isn't there, 14 no _start, 15 a bad setting, 16 a
     * preopened path that is no directory, 20 a data segment, 21 an element segment, 22 the module begins with more pages than
     * its limit. 30 no volume, 31 its version, 32 a damaged one, 33 its device, 36 numbers out of their range. (34 and 35 are
     * answers of the program's commands alone.) */
    SANDBOX_DEVICE_FAILED = 33,
    SANDBOX_OUT_OF_MEMORY = 40,
    SANDBOX_MISUSE = 100, /* no session or module, or one already; finished or not where the call wants the other; no such kind */
    SANDBOX_NO_FRAME = 101 /* sandbox_frame_at: not so many functions are at work */
};

/* The archive's SANDBOX_VERSION_NUMBER. */
uint32_t sandbox_version(void);

/* Copies the ASCII text of a number into room, as much as there is room for, without a NUL; answers how long it is: 0 where
 * the number has none. */
size_t sandbox_text(uint32_t kind, uint32_t number, uint8_t *room, size_t length);
enum { /* sandbox_text's kind */
    SANDBOX_TEXT_FAULT = 0, /* an answer of these functions */
    SANDBOX_TEXT_TRAP = 1,
    SANDBOX_TEXT_ERRNO = 2
};

/* Decodes and validates, and keeps nothing. OK exactly where the bytes spell a valid module of no more than a module may have
 * (fault 11); else the module's fault, also in *why, or OUT_OF_MEMORY. */
uint32_t sandbox_check(const uint8_t *module, size_t module_length, sandbox_why *why);

/* Runs a module over a fresh volume to its end, or until the fuel is used: sandbox_open, sandbox_resume until it ends,
 * sandbox_close, in one call that keeps nothing. All bytes are borrowed. *out_length is how much the guest wrote to
 * descriptor 1, at most supplies->limits.output; the first of it are in `out`, as many as there is room for. *ended is set where the answer is OK: EXITED,
 * TRAPPED, OUT_OF_FUEL or NO_MEMORY. */
uint32_t sandbox_run(const uint8_t *module, size_t module_length, const sandbox_supplies *supplies, uint64_t fuel,
                     uint8_t *out, size_t out_room, size_t *out_length, sandbox_told *ended, sandbox_why *why);

/* Makes a session, which has used nothing. `module`, and all bytes and arrays that `supplies` leads to, are kept; the structs
 * themselves are borrowed. Refused, in this order: MISUSE where there is a session already, or the volume has no known kind; the
 * module's fault; 15 where `later` isn't 0; the volume's fault; the settings' fault; OUT_OF_MEMORY at any of them. After a refusal *session is NULL as it was, and nothing is kept. */
uint32_t sandbox_open(sandbox_session **session, const uint8_t *module, size_t module_length,
                      const sandbox_supplies *supplies, const sandbox_volume *volume, sandbox_why *why);

/* Decodes and validates a module once, for many sessions one after another. The bytes are kept. */
uint32_t sandbox_load(sandbox_module **module, const uint8_t *bytes, size_t length, sandbox_why *why);

/* The same; where `floats` isn't 0, the module may have types, constants and instructions of floating point (FLOATS, at the head),
 * which are fault 10 else. */
uint32_t sandbox_load_with(sandbox_module **module, const uint8_t *bytes, size_t length, uint32_t floats, sandbox_why *why);

/* sandbox_load, and makes all once that sessions of the module look up, so that each opens in the time of its memory, however
 * large the module is. Its sessions have the pages of these limits, which are borrowed; else sandbox_open_loaded is 15. It is
 * instantiated once to that end. Refused, in this order: MISUSE; the module's fault, in *why; 15 where `later` isn't 0, or for more
 * than 65,536 pages; 13, 14, 20, 21, 22; OUT_OF_MEMORY at any of them. */
uint32_t sandbox_prepare(sandbox_module **module, const uint8_t *bytes, size_t length, const sandbox_limits *limits, sandbox_why *why);

/* The same of a module that sandbox_load_with loads. */
uint32_t sandbox_prepare_with(sandbox_module **module, const uint8_t *bytes, size_t length, const sandbox_limits *limits, uint32_t floats,
                              sandbox_why *why);

/* Makes *other the same prepared module: nothing is decoded or made again. Each of both goes into a session and is unloaded for
 * itself, in any order, and may go to a thread of its own; so any number of sessions at once are of one module:
 *
 *     sandbox_prepare(&module, bytes, length, &supplies.limits, &why);
 *     sandbox_module_share(&other, &module);                           for each session
 *     sandbox_open_loaded(&session, &other, &supplies, &volume);
 *
 * MISUSE where *other isn't NULL, or *module is none that sandbox_prepare made or that shares one; OUT_OF_MEMORY. */
uint32_t sandbox_module_share(sandbox_module **other, sandbox_module **module);

/* sandbox_open with a loaded module, which goes into the session: *module is NULL then. So a module is in one session at a
 * time; to have several at once, prepare and share it, or load it as often. After a refusal *module is as it was. */
uint32_t sandbox_open_loaded(sandbox_session **session, sandbox_module **module, const sandbox_supplies *supplies,
                             const sandbox_volume *volume);

/* Goes on for at most this many units: until one host call is answered, the units are used up, or the run ends; tells
 * which. Units past 2^64 - 1 in all aren't given. A session that has ended tells the same again. MISUSE where there is none,
 * or it is finished. */
uint32_t sandbox_resume(sandbox_session **session, uint64_t units, sandbox_told *told);

/* Copies what the guest has written so far to descriptor 1 or 2, from the byte `from` on, as far as there is room; answers how
 * many bytes it has written in all, 0 where there is no session or another descriptor. Any time between open and close, also
 * while it runs. */
size_t sandbox_output(sandbox_session **session, uint32_t descriptor, size_t from, uint8_t *room, size_t length);

/* 1 where a write of the guest to descriptor 1 or 2 was refused since it has written as many bytes there as its limits allow, and
 * from then on; else 0, as where there is no session or another descriptor. A write that is refused for another reason (memory for
 * it was refused) is answered 29, too, and not told here. Any time between open and close, also while it runs. */
uint32_t sandbox_full(sandbox_session **session, uint32_t descriptor);

/* Tells the function at work that has so many inside it, 0 the innermost, and where it stands. Any time between open and finish:
 * after SPENT and CALLED those of the run then; after TRAPPED and NO_MEMORY those that were at work; none before the first resume
 * and after EXITED. SANDBOX_NO_FRAME past the last, MISUSE where there is no session or it is finished; *frame is as it was then.
 * A host that resumes by so many units a time, and adds them to the stack that it found before, has a profile
 * (examples/hosts/c/folded.c); by one unit a time an exact one. The first question of a session makes a table of the module's
 * functions, and the first about each function one of its instructions, so that later ones cost the same wherever it stands: 32
 * bytes for each of at most 65,536 functions and 8 for each of at most 524,288 instructions, until the session is closed. What
 * finds no memory, or is past that, is looked up again each time. A session that isn't asked makes none. */
uint32_t sandbox_frame_at(sandbox_session **session, size_t number, sandbox_frame *frame);

/* Copies what a function of a module is called, as far as there is room; answers how long it is: its name in the section `name`,
 * else that of its first export, else `function[3]` with its index. An empty name is none; else it has any bytes, also line ends and
 * no UTF-8. The bytes are borrowed, and needn't be a module's. */
size_t sandbox_function_name(const uint8_t *module, size_t module_length, uint32_t function, uint8_t *room, size_t length);

/* Commits the guest's calls to its volume, and ends the session's run. Its output and volume can be read until it is closed.
 * DEVICE_FAILED where the volume couldn't be committed: the session is finished then, too. A second call is MISUSE. */
uint32_t sandbox_finish(sandbox_session **session);

/* Copies the volume's sectors out, as far as there is room; answers how many it has. After sandbox_finish, else 0. Where
 * that answered 0, they are the volume of a next session, with the guest's files as they were at the end. */
size_t sandbox_volume_out(sandbox_session **session, uint8_t (*room)[512], size_t count);

/* Tells the write or the sync with this number, from 0 at the opening on, in the order in which the session did them to its
 * volume; SANDBOX_NO_OPERATION past the last so far. Of a session over SANDBOX_VOLUME_RECORDED, any time between open and
 * close, also while it runs, else MISUSE: sandbox_resume and sandbox_finish add to them, and what was told stays.
 * OUT_OF_MEMORY where memory for the record was refused: then none is told from then on.
 * Who does them in order on a disk that has the sectors that were handed in has the volume's sectors in the end. Where he has
 * done all that there are after a resume that answered a sync with 0, a next session finds the volume as it was then. And
 * wherever he stops, a next session finds it as it was at a moment of this one. */
uint32_t sandbox_operation_at(sandbox_session **session, size_t number, sandbox_operation *operation);

/* Discards all, also what isn't committed, and makes *session NULL. MISUSE where there is none. */
uint32_t sandbox_close(sandbox_session **session);

/* Discards a finished session, and its module becomes a loaded one in *module, a prepared one where it was: MISUSE where there is
 * one already, or the session isn't finished. Nothing else is refused. */
uint32_t sandbox_close_loaded(sandbox_session **session, sandbox_module **module);

/* Discards a loaded module, and makes *module NULL: what was prepared stays for those that share it. MISUSE where there is none. */
uint32_t sandbox_unload(sandbox_module **module);

/* Makes sectors an empty volume, in place: 137 to 65,536 sectors, 1 to 8,192 slots, and fewer slots than sectors - 122, else
 * 36, and nothing is written. */
uint32_t sandbox_format(uint8_t (*sectors)[512], size_t sectors_count, uint32_t slots);

/* The same of version 4: 137 to 16,777,216 sectors, 1 to 1,048,576 slots. sandbox_open takes it by SANDBOX_VOLUME_HUGE. */
uint32_t sandbox_format_huge(uint8_t (*sectors)[512], size_t sectors_count, uint32_t slots);

/* How many bytes a session asks malloc for at most (MEMORY, at the head): one with these limits, of a module of so many bytes, over
 * a volume of so many sectors (202 of a fresh one). `operations`: of a recorded volume how many writes and syncs there are so far,
 * else 0. A sum past 2^64 - 1 is 2^64 - 1. */
static inline uint64_t sandbox_most_held(const sandbox_limits *limits, size_t module_length, size_t sectors_count, size_t operations) {
    const uint64_t counts[6] = {limits->pages ? limits->pages : 1024,
                                limits->values ? (limits->values < 4097 ? 4097 : limits->values) : 1048576,
                                limits->output ? limits->output : 16777216, module_length, sectors_count, operations};
    static const uint64_t bytes[6] = {65536, 8, 2, 192, 520, 1040};
    uint64_t sum = 8388608;
    for (int n = 0; n < 6; n++) {
        if (counts[n] > (UINT64_MAX - sum) / bytes[n])
            return UINT64_MAX;
        sum += counts[n] * bytes[n];
    }
    return sum;
}

/* The same over a huge volume (SANDBOX_VOLUME_HUGE) of so many sectors. */
static inline uint64_t sandbox_most_held_huge(const sandbox_limits *limits, size_t module_length, size_t sectors_count, size_t operations) {
    const uint64_t sum = sandbox_most_held(limits, module_length, sectors_count, operations);
    return sectors_count > (UINT64_MAX - sum) / 400 ? UINT64_MAX : sum + 400 * (uint64_t)sectors_count;
}

/* For callers that may have a NULL variable. */
static inline uint32_t sandbox_resume_checked(sandbox_session **s, uint64_t units, sandbox_told *told) {
    return s && told ? sandbox_resume(s, units, told) : (uint32_t)SANDBOX_MISUSE;
}
static inline uint32_t sandbox_finish_checked(sandbox_session **s) { return s ? sandbox_finish(s) : (uint32_t)SANDBOX_MISUSE; }
static inline uint32_t sandbox_close_checked(sandbox_session **s) { return s ? sandbox_close(s) : (uint32_t)SANDBOX_MISUSE; }

#ifdef SANDBOX_DESCRIPTORS
/*
 * DESCRIPTORS, for hosts on POSIX (_POSIX_C_SOURCE 200809L, as gcc has it by itself but with -std=c99 and the like) that define
 * SANDBOX_DESCRIPTORS before they include this header. The library itself has no system call. What stands here is C, which is
 * tried and not proved.
 *
 * Where a host was started with descriptor 0, 1 or 2 closed, the system gives that number to the next file that is opened. What the
 * host or its libraries print would then go into that file. So pass what `open` answers through sandbox_apart; a volume under such
 * a number is MISUSE here.
 *
 * A volume on a descriptor: the host opens it to read and write, locks it by flock(fd, LOCK_EX | LOCK_NB), which is the lock of the
 * program, too (those of fcntl are others, and keep neither out), and then
 *
 *     int fd = sandbox_apart(open(path, O_RDWR | O_CLOEXEC));
 *     sandbox_volume_from(fd, &volume);                 reads its sectors
 *     sandbox_open(&session, .., &volume, &why);        copies them
 *     sandbox_volume_free(&volume);
 *     size_t done = 0;                                  how many of its operations are on the descriptor
 *     do {
 *         sandbox_resume(&session, units, &told);
 *         sandbox_settle(&session, fd, &done);          does those that are new, with fdatasync at each of the session's syncs
 *     } while (told.kind == SANDBOX_CALLED);
 *     sandbox_finish(&session);
 *     sandbox_settle(&session, fd, &done);              and those of the end
 *     sandbox_close(&session);
 *
 * Once sandbox_settle has answered 0, each operation that the session has done so far is on the disk. So
 *   - what the guest had done when a sync of it was answered (told.call SANDBOX_CALL_FD_SYNC or _FD_DATASYNC, told.code 0) lasts
 *     from the sandbox_settle after that resume on, before the guest goes on: it never runs past a sync that doesn't last;
 *   - what it did and didn't sync lasts from the sandbox_settle after sandbox_finish on;
 *   - where a host calls sandbox_settle only there, a sync of the guest lasts from there on, too, and not earlier.
 * Where the host or the machine stops, at any moment, the descriptor has the volume as it was at a moment of the session, and
 * at none before the last sync that was settled: with a first part of the guest's calls, and never a damaged one. Where
 * sandbox_settle fails, close the session and don't call it again; the descriptor has such a moment then, too.
 *
 * Each but sandbox_apart answers 0, SANDBOX_DEVICE_FAILED with errno set, SANDBOX_OUT_OF_MEMORY, or SANDBOX_MISUSE.
 */
#include <errno.h>
#include <fcntl.h>
#include <stdlib.h>
#include <sys/types.h>
#include <unistd.h>

/* The same open file under a number above 2, closed on exec; the number that it had is closed then, also where that fails. -1 with
 * errno set where it fails, and for -1. Before the file is locked by fcntl, whose locks go with any close. */
static inline int sandbox_apart(int fd) {
    int apart = fd < 0 || fd > 2 ? fd : fcntl(fd, F_DUPFD_CLOEXEC, 3), why = errno;
    if (apart != fd) {
        close(fd);
        errno = why;
    }
    return apart;
}

/* Whether it is the number of a standard stream. */
static inline int sandbox_is_standard(int fd) { return fd >= 0 && fd <= 2; }

/* Reads all sectors of a file or a block device, `most` at most, for a session over a volume of this kind. MISUSE for descriptors
 * 0, 1, 2. (What sandbox_volume_from and sandbox_huge_volume_from call.) */
static inline uint32_t sandbox_sectors_from(int fd, sandbox_volume *volume, uint32_t kind, off_t most) {
    if (sandbox_is_standard(fd))
        return SANDBOX_MISUSE;
    off_t size = lseek(fd, 0, SEEK_END);
    size_t count = size < 0 ? 0 : (size_t)(size / 512 > most ? most : size / 512), so_far = 0;
    uint8_t *sectors = size < 0 ? NULL : (uint8_t *)malloc(count * 512 + 1);
    if (size < 0 || !sectors)
        return size < 0 ? SANDBOX_DEVICE_FAILED : SANDBOX_OUT_OF_MEMORY;
    while (so_far < count * 512) {
        ssize_t more = pread(fd, sectors + so_far, count * 512 - so_far, (off_t)so_far);
        if (more > 0)
            so_far += (size_t)more;
        else if (more == 0 || errno != EINTR) {
            int why = more == 0 ? EIO : errno;
            free(sectors);
            errno = why;
            return SANDBOX_DEVICE_FAILED;
        }
    }
    volume->kind = kind;
    volume->sectors = (const uint8_t(*)[512])sectors;
    volume->sectors_count = count;
    return SANDBOX_OK;
}

/* Reads all sectors of a file or a block device, 65,536 at most, for a session that is recorded. MISUSE for descriptors 0, 1, 2. */
static inline uint32_t sandbox_volume_from(int fd, sandbox_volume *volume) {
    return sandbox_sectors_from(fd, volume, SANDBOX_VOLUME_RECORDED, 65536);
}

/* The same of a volume of version 4: 16,777,216 at most. */
static inline uint32_t sandbox_huge_volume_from(int fd, sandbox_volume *volume) {
    return sandbox_sectors_from(fd, volume, SANDBOX_VOLUME_RECORDED | SANDBOX_VOLUME_HUGE, 16777216);
}

/* Once the session is opened, or refused. */
static inline void sandbox_volume_free(sandbox_volume *volume) {
    free((void *)volume->sectors);
    volume->sectors = NULL;
}

/* Does the operations that a session has done so far, from number *done on, and raises it by each that is done. After each
 * resume, and after sandbox_finish; where there are none new, without a call of the system. MISUSE for descriptors 0, 1, 2, and
 * where the session has no record: nothing is done then. */
static inline uint32_t sandbox_settle(sandbox_session **session, int fd, size_t *done) {
    sandbox_operation operation;
    uint32_t last = SANDBOX_SYNC;
    if (sandbox_is_standard(fd))
        return SANDBOX_MISUSE;
    for (;; ++*done) {
        uint32_t answer = sandbox_operation_at(session, *done, &operation);
        if (answer != SANDBOX_OK)
            return answer;
        if (operation.kind == SANDBOX_WRITE) {
            size_t written = 0;
            while (written < 512) {
                ssize_t more = pwrite(fd, operation.bytes + written, 512 - written, (off_t)operation.sector * 512 + (off_t)written);
                if (more > 0)
                    written += (size_t)more;
                else if (more == 0 || errno != EINTR) {
                    errno = more == 0 ? EIO : errno;
                    return SANDBOX_DEVICE_FAILED;
                }
            }
        } else if ((operation.kind == SANDBOX_SYNC || last == SANDBOX_WRITE) && fdatasync(fd))
            return SANDBOX_DEVICE_FAILED;
        if (operation.kind == SANDBOX_NO_OPERATION)
            return SANDBOX_OK;
        last = operation.kind;
    }
}

/* All bytes of a descriptor up to its end, for sandbox_supplies.input; free((void *)input->at) once the session is closed.
 * DEVICE_FAILED with EFBIG where there are more than SANDBOX_INPUT_MOST, which a host may define before it includes this header. */
#ifndef SANDBOX_INPUT_MOST
#define SANDBOX_INPUT_MOST 67108864 /* 64 MiB */
#endif
static inline uint32_t sandbox_input_from(int fd, sandbox_bytes *input) {
    size_t room = 65536, length = 0;
    uint8_t *bytes = (uint8_t *)malloc(room);
    ssize_t more = 1;
    while (bytes && more) {
        more = read(fd, bytes + length, room - length);
        length += more > 0 ? (size_t)more : 0;
        if ((more < 0 && errno != EINTR) || length > SANDBOX_INPUT_MOST) {
            int why = more < 0 ? errno : EFBIG;
            free(bytes);
            errno = why;
            return SANDBOX_DEVICE_FAILED;
        }
        if (length == room) {
            uint8_t *larger = room <= (size_t)-1 / 2 ? (uint8_t *)realloc(bytes, room *= 2) : NULL;
            if (!larger)
                free(bytes);
            bytes = larger;
        }
    }
    if (!bytes)
        return SANDBOX_OUT_OF_MEMORY;
    input->at = bytes;
    input->length = length;
    return SANDBOX_OK;
}

/* Writes what the guest has written to its descriptor 1 or 2 from byte *from on to a descriptor of the host, and raises *from by
 * each byte. After each resume, and after the last one. */
static inline uint32_t sandbox_output_to(sandbox_session **session, uint32_t descriptor, int fd, size_t *from) {
    uint8_t room[4096];
    for (;;) {
        size_t all = sandbox_output(session, descriptor, *from, room, sizeof room);
        size_t count = all <= *from ? 0 : all - *from < sizeof room ? all - *from : sizeof room, written = 0;
        if (count == 0)
            return SANDBOX_OK;
        while (written < count) {
            ssize_t more = write(fd, room + written, count - written);
            if (more == 0 || (more < 0 && errno != EINTR)) {
                errno = more == 0 ? EIO : errno;
                return SANDBOX_DEVICE_FAILED;
            }
            written += more > 0 ? (size_t)more : 0;
            *from += more > 0 ? (size_t)more : 0;
        }
    }
}
#endif

#ifdef __cplusplus
}
#endif
#endif
