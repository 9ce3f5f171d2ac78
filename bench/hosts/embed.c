/* The C interface tried: each misuse that it answers, limits, descriptors of all kinds, the numbers of calls, stops while a volume's
 * record is settled, syncs that are on a descriptor before their guest goes on, and what sessions cost. bench/embed builds and
 * calls it. */
#define _GNU_SOURCE
#define SANDBOX_DESCRIPTORS
#include <malloc.h>
#include <pthread.h>
#include <sandbox.h>
#include <stdio.h>
#include <stdlib.h>
#include <string.h>
#include <time.h>

static sandbox_bytes module;
static const sandbox_volume fresh = {.kind = SANDBOX_VOLUME_FRESH, .sectors = (const uint8_t(*)[512]) ""};
static unsigned wrong;

static void want(const char *what, int is) {
  if (!is) {
    wrong++;
    printf("wrong: %s\n", what);
  }
}

static sandbox_supplies supplies(void) {
  static const sandbox_bytes name = {(const uint8_t *)"hi.wasm", 7}, none = {(const uint8_t *)"", 0};
  static const sandbox_preopen root = {{(const uint8_t *)"/", 1}, {(const uint8_t *)"/", 1}};
  return (sandbox_supplies){&name, 1, &none, 0, &root, 1, 0, none, {0}, none};
}

static double now(void) {
  struct timespec t;
  clock_gettime(CLOCK_MONOTONIC, &t);
  return t.tv_sec + t.tv_nsec / 1e9;
}

static int same(const void *one, const void *other, size_t size) { return !memcmp(one, other, size); }

/* Modules that are prepared and shared, in the wrong order. */
static void misuse_of_prepared(void) {
  sandbox_supplies given = supplies();
  sandbox_session *session = NULL;
  sandbox_module *first = NULL, *other = NULL, *third = NULL, *fourth = NULL;
  sandbox_why why = {7, 7}, why_before = why;
  const sandbox_limits none = {0}, few = {.pages = 16}, later = {.later = {0, 0, 1}}, many = {.pages = 65537};
  want("share of none", sandbox_module_share(&other, &first) == SANDBOX_MISUSE && !other && !first);
  want("load", sandbox_load(&first, module.at, module.length, &why) == SANDBOX_OK);
  sandbox_module *before = first;
  want("share of one that isn't prepared", sandbox_module_share(&other, &first) == SANDBOX_MISUSE && !other && first == before);
  want("prepare over a loaded one", sandbox_prepare(&first, module.at, module.length, &none, &why) == SANDBOX_MISUSE && first == before && same(&why, &why_before, sizeof why));
  want("unload", sandbox_unload(&first) == SANDBOX_OK);
  want("prepare with a limit to come", sandbox_prepare(&first, module.at, module.length, &later, &why) == 15 && !first);
  want("prepare with too many pages", sandbox_prepare(&first, module.at, module.length, &many, &why) == 15 && !first && same(&why, &why_before, sizeof why));
  want("prepare a cut module", sandbox_prepare(&first, module.at, module.length - 1, &few, &why) == 1 && !first && why.fault == 1 && why.offset == module.length - 1);
  want("prepare", sandbox_prepare(&first, module.at, module.length, &few, &why) == SANDBOX_OK && first);
  want("share", sandbox_module_share(&other, &first) == SANDBOX_OK && other && first && other != first);
  before = other;
  want("share over one that is there", sandbox_module_share(&other, &first) == SANDBOX_MISUSE && other == before && first);
  want("load over a prepared one", sandbox_load(&other, module.at, module.length, &why) == SANDBOX_MISUSE && other == before);
  want("a session with other pages", sandbox_open_loaded(&session, &other, &given, &fresh) == 15 && !session && other);
  given.limits.pages = 16;
  want("open_loaded", sandbox_open_loaded(&session, &other, &given, &fresh) == SANDBOX_OK && session && !other);
  want("share of a session", sandbox_module_share(&other, (sandbox_module **)(void *)&session) == SANDBOX_MISUSE && !other && session);
  want("finish", sandbox_finish(&session) == SANDBOX_OK);
  want("share of a finished session", sandbox_module_share(&other, (sandbox_module **)(void *)&session) == SANDBOX_MISUSE && !other && session);
  want("close_loaded gives a prepared module back", sandbox_close_loaded(&session, &other) == SANDBOX_OK && sandbox_module_share(&third, &other) == SANDBOX_OK);
  want("unload the first", sandbox_unload(&first) == SANDBOX_OK && !first && sandbox_unload(&first) == SANDBOX_MISUSE);
  want("share of one that is gone", sandbox_module_share(&fourth, &first) == SANDBOX_MISUSE && !first && !fourth);
  want("the others stay", sandbox_open_loaded(&session, &third, &given, &fresh) == SANDBOX_OK && sandbox_unload(&other) == SANDBOX_OK);
  want("close", sandbox_close(&session) == SANDBOX_OK && sandbox_unload(&third) == SANDBOX_MISUSE);
}

/* Frames of what has none, and of a guest on its way. */
static void misuse_of_frames(void) {
  sandbox_supplies given = supplies();
  sandbox_session *session = NULL;
  sandbox_why why;
  sandbox_told told;
  sandbox_frame frame = {7, 7}, before = frame;
  uint8_t name[16];
  want("frame_at of none", sandbox_frame_at(&session, 0, &frame) == SANDBOX_MISUSE && same(&frame, &before, sizeof frame));
  want("open", sandbox_open(&session, module.at, module.length, &given, &fresh, &why) == SANDBOX_OK);
  want("frame_at before it runs", sandbox_frame_at(&session, 0, &frame) == SANDBOX_NO_FRAME && same(&frame, &before, sizeof frame));
  want("resume", sandbox_resume(&session, 2, &told) == SANDBOX_OK && told.kind == SANDBOX_SPENT);
  want("frame_at past the last", sandbox_frame_at(&session, 1, &frame) == SANDBOX_NO_FRAME && sandbox_frame_at(&session, SIZE_MAX, &frame) == SANDBOX_NO_FRAME && same(&frame, &before, sizeof frame));
  want("frame_at", sandbox_frame_at(&session, 0, &frame) == SANDBOX_OK && frame.function == 2 && frame.offset == 0x89);
  want("a name", sandbox_function_name(module.at, module.length, frame.function, name, sizeof name) == 6 && same(name, "_start", 6));
  want("a function without one", sandbox_function_name(module.at, module.length, UINT32_MAX, name, sizeof name) == 20 && same(name, "function[4294967", 16));
  want("a name of no module", sandbox_function_name(name, 0, 3, name, 11) == 11 && same(name, "function[3]", 11));
  want("resume to the end", sandbox_resume(&session, 1000, &told) == SANDBOX_OK && sandbox_resume(&session, 1000, &told) == SANDBOX_OK && told.kind == SANDBOX_EXITED);
  frame = before;
  want("frame_at after an exit", sandbox_frame_at(&session, 0, &frame) == SANDBOX_NO_FRAME);
  want("frame_at once it is finished", sandbox_finish(&session) == SANDBOX_OK && sandbox_frame_at(&session, 0, &frame) == SANDBOX_MISUSE && same(&frame, &before, sizeof frame));
  want("close", sandbox_close(&session) == SANDBOX_OK);
}

/* Everything that a caller can do in the wrong order: MISUSE, and nothing is changed. */
static void misuse(void) {
  sandbox_supplies given = supplies();
  sandbox_session *session = NULL;
  sandbox_module *loaded = NULL;
  sandbox_why why = {7, 7}, why_before = why;
  sandbox_told told, told_before;
  memset(&told, 7, sizeof told); /* the bytes between its fields too */
  told_before = told;
  uint8_t room[8] = "roomroo", room_before[8] = "roomroo", sector[1][512] = {{0}};
  /* no session, no module */
  want("resume of none", sandbox_resume(&session, 5, &told) == SANDBOX_MISUSE && same(&told, &told_before, sizeof told) && !session);
  want("finish of none", sandbox_finish(&session) == SANDBOX_MISUSE && !session);
  want("close of none", sandbox_close(&session) == SANDBOX_MISUSE && !session);
  want("close_loaded of none", sandbox_close_loaded(&session, &loaded) == SANDBOX_MISUSE && !session && !loaded);
  want("unload of none", sandbox_unload(&loaded) == SANDBOX_MISUSE && !loaded);
  want("open_loaded of none", sandbox_open_loaded(&session, &loaded, &given, &fresh) == SANDBOX_MISUSE && !session);
  want("full of none", sandbox_full(&session, 1) == 0 && sandbox_full(&session, 2) == 0 && !session);
  want("output of none", sandbox_output(&session, 1, 0, room, sizeof room) == 0 && same(room, room_before, sizeof room));
  want("volume_out of none", sandbox_volume_out(&session, sector, 1) == 0);
  /* a volume of no kind */
  sandbox_volume odd = fresh;
  static const uint32_t no_kinds[] = {3, SANDBOX_VOLUME_HUGE, SANDBOX_VOLUME_HUGE | 3, 8, 9, UINT32_MAX};
  for (size_t n = 0; n < sizeof no_kinds / sizeof *no_kinds; n++) {
    odd.kind = no_kinds[n];
    want("open over a volume of no kind", sandbox_open(&session, module.at, module.length, &given, &odd, &why) == SANDBOX_MISUSE && !session && same(&why, &why_before, sizeof why));
  }
  /* a session that is there */
  want("open", sandbox_open(&session, module.at, module.length, &given, &fresh, &why) == SANDBOX_OK && session);
  sandbox_session *before = session;
  want("open over an open one", sandbox_open(&session, module.at, module.length, &given, &fresh, &why) == SANDBOX_MISUSE && session == before);
  want("close_loaded before finish", sandbox_close_loaded(&session, &loaded) == SANDBOX_MISUSE && session && !loaded);
  want("volume_out before finish", sandbox_volume_out(&session, sector, 1) == 0);
  want("output of another descriptor", sandbox_output(&session, 3, 0, room, sizeof room) == 0 && same(room, room_before, sizeof room));
  want("full of any descriptor", !sandbox_full(&session, 0) && !sandbox_full(&session, 1) && !sandbox_full(&session, 2) && !sandbox_full(&session, 3) && !sandbox_full(&session, UINT32_MAX));
  want("a session as a module", sandbox_unload((sandbox_module **)(void *)&session) == SANDBOX_MISUSE && session);
  want("resume", sandbox_resume(&session, 1000, &told) == SANDBOX_OK && told.kind == SANDBOX_CALLED && told.call == SANDBOX_CALL_FD_WRITE && told.code == 0 && told.used == 5);
  want("output while it runs", sandbox_output(&session, 1, 1, room, 1) == 3 && room[0] == 'i');
  want("resume to the end", sandbox_resume(&session, 1000, &told) == SANDBOX_OK && told.kind == SANDBOX_EXITED && told.code == 0 && told.used == 8);
  want("an ended session tells the same", sandbox_resume(&session, 1000, &told) == SANDBOX_OK && told.kind == SANDBOX_EXITED && told.used == 8);
  want("finish", sandbox_finish(&session) == SANDBOX_OK);
  want("finish twice", sandbox_finish(&session) == SANDBOX_MISUSE && session);
  want("resume of a finished one", sandbox_resume(&session, 1, &told) == SANDBOX_MISUSE && session);
  want("output after finish", sandbox_output(&session, 1, 0, room, sizeof room) == 3 && same(room, "hi\n", 3));
  want("sectors after finish", sandbox_volume_out(&session, sector, 1) == 202 && same(sector, "WASMVOLU", 8));
  want("close_loaded", sandbox_close_loaded(&session, &loaded) == SANDBOX_OK && !session && loaded);
  want("load over a loaded one", sandbox_load(&loaded, module.at, module.length, &why) == SANDBOX_MISUSE && loaded);
  want("full of a module", sandbox_full((sandbox_session **)(void *)&loaded, 1) == 0 && loaded);
  want("a module as a session", sandbox_resume((sandbox_session **)(void *)&loaded, 1, &told) == SANDBOX_MISUSE && loaded);
  want("open_loaded", sandbox_open_loaded(&session, &loaded, &given, &fresh) == SANDBOX_OK && session && !loaded);
  want("close", sandbox_close(&session) == SANDBOX_OK && !session);
  want("close twice", sandbox_close(&session) == SANDBOX_MISUSE && !session);
  /* what is refused */
  want("a cut module", sandbox_check(module.at, module.length - 1, &why) == 1 && why.fault == 1 && why.offset == module.length - 1);
  want("a volume of zeros", (odd = (sandbox_volume){.kind = SANDBOX_VOLUME_MEMORY, .sectors = (const uint8_t(*)[512])sector, .sectors_count = 1},
       sandbox_open(&session, module.at, module.length, &given, &odd, &why) == 30 && !session));
  want("format of too little", sandbox_format(sector, 1, 1) == 36);
  /* the record of a volume */
  static uint8_t sectors[137][512];
  sandbox_operation operation, operation_before;
  memset(&operation, 7, sizeof operation);
  operation_before = operation;
  want("format", sandbox_format(sectors, 137, 4) == SANDBOX_OK);
  sandbox_volume volume = {.kind = SANDBOX_VOLUME_MEMORY, .sectors = (const uint8_t(*)[512])sectors, .sectors_count = 137};
  want("operation_at of none", sandbox_operation_at(&session, 0, &operation) == SANDBOX_MISUSE && same(&operation, &operation_before, sizeof operation));
  for (int recorded = 0; recorded < 2; recorded++) {
    volume.kind = recorded ? SANDBOX_VOLUME_RECORDED : SANDBOX_VOLUME_MEMORY;
    want("open over sectors", sandbox_open(&session, module.at, module.length, &given, &volume, &why) == SANDBOX_OK);
    for (int finished = 0; finished < 2; finished++) { /* while it runs, and then */
      memset(&operation, 7, sizeof operation);
      uint32_t answer = sandbox_operation_at(&session, 1000, &operation);
      if (recorded) {
        want("operation_at past the last", answer == SANDBOX_OK && operation.kind == SANDBOX_NO_OPERATION);
        operation.kind = operation_before.kind;
      } else
        want("operation_at without a record", answer == SANDBOX_MISUSE);
      want("operation_at writes no more", same(&operation, &operation_before, sizeof operation));
      want("finish over sectors", sandbox_finish(&session) == (finished ? SANDBOX_MISUSE : SANDBOX_OK));
    }
    want("close_loaded over sectors", sandbox_close_loaded(&session, &loaded) == SANDBOX_OK);
    want("operation_at of a module", sandbox_operation_at((sandbox_session **)(void *)&loaded, 0, &operation) == SANDBOX_MISUSE && same(&operation, &operation_before, sizeof operation) && loaded);
    want("unload", sandbox_unload(&loaded) == SANDBOX_OK);
  }
  misuse_of_prepared();
  misuse_of_frames();
  printf("misuse: %u wrong\n", wrong);
}

/* A session of the module with these limits, run to its end: how its opening is answered, its kind and the errno of its first call. */
static uint32_t limited(const sandbox_limits *limits, sandbox_session **session, sandbox_told *told, uint32_t *errno_told) {
  sandbox_supplies given = supplies();
  sandbox_why why = {0};
  given.limits = *limits;
  uint32_t answer = sandbox_open(session, module.at, module.length, &given, &fresh, &why);
  if (answer)
    return answer;
  want("resume", sandbox_resume(session, 1000, told) == SANDBOX_OK);
  *errno_told = told->code;
  while (told->kind & SANDBOX_GOES_ON)
    want("resume", sandbox_resume(session, 1000, told) == SANDBOX_OK);
  return 0;
}

/* What a guest that writes three bytes leaves, by each bound; and limits that can't be. */
static void limits(void) {
  static const uint64_t bounds[] = {0, 1, 2, 3, 4, 16777216, UINT64_MAX};
  sandbox_session *session = NULL;
  sandbox_told told = {0};
  uint32_t code = 0;
  for (size_t n = 0; n < sizeof bounds / sizeof *bounds; n++) {
    const sandbox_limits some = {.output = bounds[n]};
    uint8_t room[8] = {0};
    size_t kept = bounds[n] && bounds[n] < 3 ? bounds[n] : 3;
    want("open within a bound", limited(&some, &session, &told, &code) == 0 && told.kind == SANDBOX_EXITED);
    want("a write past the bound is answered 29", code == (kept < 3 ? 29u : 0u));
    for (int finished = 0; finished < 2; finished++) {
      want("what there is room for is kept", sandbox_output(&session, 1, 0, room, sizeof room) == kept && same(room, "hi\n", kept));
      want("full", sandbox_full(&session, 1) == (kept < 3) && sandbox_full(&session, 2) == 0 && sandbox_full(&session, 0) == 0);
      sandbox_finish(&session);
    }
    want("close", sandbox_close(&session) == SANDBOX_OK && sandbox_full(&session, 1) == 0);
  }
  const sandbox_limits odd[] = {{.pages = 65537}, {.pages = UINT32_MAX}, {.later = {1}}, {.later = {0, 0, 0, 0, 0, UINT64_MAX}}};
  for (size_t n = 0; n < sizeof odd / sizeof *odd; n++)
    want("a limit that can't be is 15", limited(&odd[n], &session, &told, &code) == 15 && !session);
  /* the sum, by hand: 64 MiB + 8 MiB + 2 * 16 MiB + 8 MiB and what is passed; 65,536 + 8 * 4,097 + 2 + 8 MiB */
  const sandbox_limits none = {0}, least = {.pages = 1, .values = 1, .output = 1}, most = {.output = UINT64_MAX};
  want("the sum of the defaults", sandbox_most_held(&none, 0, 0, 0) == 117440512 && sandbox_most_held(&none, 10, 100, 1000) == 117440512 + 1920 + 52000 + 1040000);
  want("the sum of the least", sandbox_most_held(&least, 0, 0, 0) == 65536 + 32776 + 2 + 8388608);
  want("a sum past 2^64", sandbox_most_held(&most, 0, 0, 0) == UINT64_MAX && sandbox_most_held(&none, SIZE_MAX, 0, 0) == UINT64_MAX && sandbox_most_held(&none, 0, 0, SIZE_MAX) == UINT64_MAX);
  printf("limits: %u wrong\n", wrong);
}

/* The calls by name, with the numbers of 0.9.3. A number never moves: a call to come goes behind the last. */
static const struct {
  const char *name;
  uint32_t number, first;
} calls[] = {
    {"args_sizes_get", SANDBOX_CALL_ARGS_SIZES_GET, 0}, {"args_get", SANDBOX_CALL_ARGS_GET, 1}, {"environ_sizes_get", SANDBOX_CALL_ENVIRON_SIZES_GET, 2},
    {"environ_get", SANDBOX_CALL_ENVIRON_GET, 3}, {"clock_res_get", SANDBOX_CALL_CLOCK_RES_GET, 4}, {"clock_time_get", SANDBOX_CALL_CLOCK_TIME_GET, 5},
    {"random_get", SANDBOX_CALL_RANDOM_GET, 6}, {"fd_close", SANDBOX_CALL_FD_CLOSE, 8}, {"fd_fdstat_get", SANDBOX_CALL_FD_FDSTAT_GET, 9},
    {"fd_filestat_get", SANDBOX_CALL_FD_FILESTAT_GET, 10}, {"fd_filestat_set_size", SANDBOX_CALL_FD_FILESTAT_SET_SIZE, 11},
    {"fd_prestat_get", SANDBOX_CALL_FD_PRESTAT_GET, 12}, {"fd_prestat_dir_name", SANDBOX_CALL_FD_PRESTAT_DIR_NAME, 13}, {"fd_read", SANDBOX_CALL_FD_READ, 14},
    {"fd_pread", SANDBOX_CALL_FD_PREAD, 15}, {"fd_write", SANDBOX_CALL_FD_WRITE, 16}, {"fd_pwrite", SANDBOX_CALL_FD_PWRITE, 17}, {"fd_seek", SANDBOX_CALL_FD_SEEK, 18},
    {"fd_tell", SANDBOX_CALL_FD_TELL, 19}, {"fd_sync", SANDBOX_CALL_FD_SYNC, 20}, {"fd_datasync", SANDBOX_CALL_FD_DATASYNC, 21}, {"fd_readdir", SANDBOX_CALL_FD_READDIR, 22},
    {"path_create_directory", SANDBOX_CALL_PATH_CREATE_DIRECTORY, 23}, {"path_filestat_get", SANDBOX_CALL_PATH_FILESTAT_GET, 24}, {"path_open", SANDBOX_CALL_PATH_OPEN, 25},
    {"path_remove_directory", SANDBOX_CALL_PATH_REMOVE_DIRECTORY, 26}, {"path_rename", SANDBOX_CALL_PATH_RENAME, 27}, {"path_unlink_file", SANDBOX_CALL_PATH_UNLINK_FILE, 28},
    {"sched_yield, which has no row", SANDBOX_CALL_NOSYS, 29}};

/* A guest makes each call once, in this order, and proc_exit at last: each is told by its number in the header. */
static void numbers(void) {
  sandbox_supplies given = supplies();
  sandbox_session *session = NULL;
  sandbox_why why = {0};
  sandbox_told told = {0};
  want("open", sandbox_open(&session, module.at, module.length, &given, &fresh, &why) == SANDBOX_OK);
  for (size_t n = 0; n < sizeof calls / sizeof *calls; n++) {
    want("resume", sandbox_resume(&session, 1000, &told) == SANDBOX_OK && told.kind == SANDBOX_CALLED);
    if (told.call != calls[n].number || told.call != calls[n].first) {
      wrong++;
      printf("wrong: %s is told as %u, and is %u in the header and %u in that of 0.9.3\n", calls[n].name, told.call, calls[n].number, calls[n].first);
    }
  }
  want("the end", SANDBOX_CALL_PROC_EXIT == 7 && sandbox_resume(&session, 1000, &told) == SANDBOX_OK && told.kind == SANDBOX_EXITED && told.call == 0);
  want("close", sandbox_close(&session) == SANDBOX_OK);
  printf("%zu calls by their numbers: %u wrong\n", sizeof calls / sizeof *calls, wrong);
}

/* Files of all kinds by their descriptors; `closed` is one that was. */
typedef struct {
  FILE *file;
  int disk, folder, zeros, full, writes, closed, ends[2];
} files;

/* Descriptors that are no volume, and that nothing can be settled on. */
static void wrong_volumes(const files *has) {
  sandbox_supplies given = supplies();
  sandbox_session *session = NULL;
  sandbox_volume volume = {.kind = 7}, before = volume;
  sandbox_why why = {0};
  size_t done = 0;
  const struct {
    int fd, why;
  } odd[] = {{-1, EBADF}, {INT32_MIN, EBADF}, {INT32_MAX, EBADF}, {has->closed, EBADF}, {has->ends[0], ESPIPE}, {has->writes, EBADF}, {has->folder, EISDIR}};
  for (size_t n = 0; n < sizeof odd / sizeof *odd; n++) {
    errno = 0;
    want("no volume from such a descriptor", sandbox_volume_from(odd[n].fd, &volume) == SANDBOX_DEVICE_FAILED && errno == odd[n].why && same(&volume, &before, sizeof volume));
  }
  for (int n = 0; n <= 2; n++)
    want("a volume from a standard stream is misuse", sandbox_volume_from(n, &volume) == SANDBOX_MISUSE && same(&volume, &before, sizeof volume));
  want("a device without sectors is no volume", sandbox_volume_from(has->zeros, &volume) == SANDBOX_OK && volume.sectors_count == 0 &&
       sandbox_open(&session, module.at, module.length, &given, &volume, &why) == 30 && !session);
  sandbox_volume_free(&volume);
  want("volume_from", sandbox_volume_from(has->disk, &volume) == SANDBOX_OK && volume.sectors_count == 1000);
  want("open", sandbox_open(&session, module.at, module.length, &given, &volume, &why) == SANDBOX_OK);
  sandbox_volume_free(&volume);
  for (int n = -1; n <= 2; n++) {
    errno = 0;
    want("nothing is settled on such a descriptor", sandbox_settle(&session, n, &done) == (n < 0 ? SANDBOX_DEVICE_FAILED : SANDBOX_MISUSE) && done == 0 && errno == (n < 0 ? EBADF : 0));
  }
  want("settle", sandbox_settle(&session, has->disk, &done) == SANDBOX_OK && done > 0);
  want("close", sandbox_close(&session) == SANDBOX_OK);
}

/* A volume of version 4 of more sectors than an older one has: it is taken where that is asked for, and else refused. */
static void many_sectors(void) {
  enum { MANY = 65537 };
  static uint8_t sectors[MANY][512];
  sandbox_supplies given = supplies();
  sandbox_session *session = NULL;
  sandbox_volume volume = {.kind = SANDBOX_VOLUME_MEMORY, .sectors = (const uint8_t(*)[512])sectors, .sectors_count = MANY};
  sandbox_why why = {0};
  sandbox_told told = {0};
  size_t done = 0;
  FILE *file = tmpfile();
  want("format of too many", sandbox_format(sectors, MANY, 16) == 36 && !sectors[0][0]);
  want("format_huge", sandbox_format_huge(sectors, MANY, 8193) == SANDBOX_OK && sectors[0][8] == 4);
  want("format_huge of too little", sandbox_format_huge(sectors, 136, 4) == 36 && sectors[0][8] == 4);
  for (uint32_t kind = SANDBOX_VOLUME_MEMORY; kind <= SANDBOX_VOLUME_RECORDED; kind++) {
    volume.kind = kind;
    want("many sectors unasked", sandbox_open(&session, module.at, module.length, &given, &volume, &why) == 36 && !session);
    volume.kind = kind | SANDBOX_VOLUME_HUGE;
    want("many sectors", sandbox_open(&session, module.at, module.length, &given, &volume, &why) == SANDBOX_OK && sandbox_finish(&session) == SANDBOX_OK &&
         sandbox_volume_out(&session, sectors, 0) == MANY && sandbox_close(&session) == SANDBOX_OK);
  }
  want("a file of many sectors", file && fwrite(sectors, 512, MANY, file) == MANY && !fflush(file));
  want("volume_from takes the first", sandbox_volume_from(fileno(file), &volume) == SANDBOX_OK && volume.sectors_count == 65536 && volume.kind == SANDBOX_VOLUME_RECORDED);
  want("a volume of which sectors are wanting", sandbox_open(&session, module.at, module.length, &given, &volume, &why) > SANDBOX_OK && !session);
  sandbox_volume_free(&volume);
  want("huge_volume_from", sandbox_huge_volume_from(fileno(file), &volume) == SANDBOX_OK && volume.sectors_count == MANY && volume.kind == (SANDBOX_VOLUME_RECORDED | SANDBOX_VOLUME_HUGE));
  want("open", sandbox_open(&session, module.at, module.length, &given, &volume, &why) == SANDBOX_OK && sandbox_resume(&session, 1000, &told) == SANDBOX_OK);
  sandbox_volume_free(&volume);
  want("settle", sandbox_settle(&session, fileno(file), &done) == SANDBOX_OK && sandbox_close(&session) == SANDBOX_OK);
  want("what is held at most", sandbox_most_held_huge(&given.limits, 10, MANY, 0) == sandbox_most_held(&given.limits, 10, MANY, 0) + 400 * (uint64_t)MANY);
  want("what is held at most has an end", sandbox_most_held_huge(&given.limits, 10, SIZE_MAX, 0) == UINT64_MAX);
  fclose(file);
}

/* Output to, and input from, descriptors that can't take or give it. */
static void wrong_streams(const files *has) {
  sandbox_supplies given = supplies();
  sandbox_session *session = NULL;
  sandbox_bytes input = {0};
  sandbox_why why = {0};
  sandbox_told told = {0};
  size_t from = 0;
  want("open", sandbox_open(&session, module.at, module.length, &given, &fresh, &why) == SANDBOX_OK && sandbox_resume(&session, 1000, &told) == SANDBOX_OK);
  want("output to a full device", sandbox_output_to(&session, 1, has->full, &from) == SANDBOX_DEVICE_FAILED && errno == ENOSPC && from == 0);
  want("output to a closed descriptor", sandbox_output_to(&session, 1, has->closed, &from) == SANDBOX_DEVICE_FAILED && errno == EBADF && from == 0);
  want("output to a pipe", sandbox_output_to(&session, 1, has->ends[1], &from) == SANDBOX_OK && from == 3);
  want("output past the end", (from = 9, sandbox_output_to(&session, 1, has->ends[1], &from) == SANDBOX_OK && from == 9));
  want("close", sandbox_close(&session) == SANDBOX_OK);
  lseek(has->folder, 0, SEEK_SET);
  want("no input from a folder", sandbox_input_from(has->folder, &input) == SANDBOX_DEVICE_FAILED && errno == EISDIR && !input.at);
  want("no input from a closed descriptor", sandbox_input_from(has->closed, &input) == SANDBOX_DEVICE_FAILED && errno == EBADF && !input.at);
  want("no input without end", sandbox_input_from(has->zeros, &input) == SANDBOX_DEVICE_FAILED && errno == EFBIG && !input.at);
  close(has->ends[1]);
  want("input from a pipe", sandbox_input_from(has->ends[0], &input) == SANDBOX_OK && input.length == 3 && same(input.at, "hi\n", 3));
  free((void *)input.at);
}

/* A standard stream is closed, and its number goes to the next file. (Not 1, where this is told.) */
static void apart(const files *has) {
  want("apart of none", sandbox_apart(-1) == -1 && sandbox_apart(has->disk) == has->disk);
  for (int n = 0; n <= 2; n += 2) {
    int stream = dup(n);
    close(n);
    int first = open("/", O_RDONLY), other = sandbox_apart(first);
    want("apart", first == n && other > 2 && fcntl(other, F_GETFD) == FD_CLOEXEC && fcntl(n, F_GETFD) == -1);
    close(other);
    dup2(stream, n);
    close(stream);
  }
}

/* Descriptors that a host hands in by mistake, and those that it has where its own standard streams are closed. */
static void descriptors(const char *path) {
  static uint8_t disk[1000][512];
  files has = {.file = tmpfile(), .folder = open("/", O_RDONLY), .zeros = open("/dev/zero", O_RDONLY), .full = open("/dev/full", O_WRONLY), .writes = open(path, O_WRONLY)};
  has.disk = has.file ? fileno(has.file) : -1;
  has.closed = dup(has.disk);
  want("files to try", has.disk > 2 && has.folder > 2 && has.zeros > 2 && has.full > 2 && has.writes > 2 && has.closed > 2 && !pipe(has.ends) && !close(has.closed));
  want("format", sandbox_format(disk, 1000, 16) == SANDBOX_OK && pwrite(has.disk, disk, sizeof disk, 0) == sizeof disk);
  wrong_volumes(&has);
  many_sectors();
  wrong_streams(&has);
  apart(&has);
  fclose(has.file);
  close(has.ends[0]), close(has.folder), close(has.zeros), close(has.full), close(has.writes);
  printf("descriptors: %u wrong\n", wrong);
}

enum { STOP_SECTORS = 1000, STOPS = 20000 };

/* A session of the guest with these words over sectors, finished. */
static void session_over(sandbox_session **session, uint32_t kind, const uint8_t (*sectors)[512], const char *const *texts, size_t count) {
  sandbox_supplies given = supplies();
  sandbox_bytes words[8];
  for (size_t n = 0; n < count; n++)
    words[n] = (sandbox_bytes){(const uint8_t *)texts[n], strlen(texts[n])};
  given.args = words, given.args_count = count;
  const sandbox_volume volume = {.kind = kind, .sectors = sectors, .sectors_count = STOP_SECTORS};
  sandbox_told told = {0};
  sandbox_why why;
  want("open", sandbox_open(session, module.at, module.length, &given, &volume, &why) == SANDBOX_OK);
  do
    want("resume", sandbox_resume(session, 10000000 - told.used, &told) == SANDBOX_OK);
  while (told.kind == SANDBOX_CALLED);
  want("the guest exits", told.kind == SANDBOX_EXITED);
  want("finish", sandbox_finish(session) == SANDBOX_OK);
}

/* Whether the guest finds this value of the key in the sectors. */
static int finds(const uint8_t (*sectors)[512], const char *key, const char *value) {
  const char *const words[] = {"keys", "store", "get", key};
  sandbox_session *session = NULL;
  uint8_t said[64];
  session_over(&session, SANDBOX_VOLUME_MEMORY, sectors, words, 4);
  size_t length = sandbox_output(&session, 1, 0, said, sizeof said);
  sandbox_close(&session);
  return length == strlen(value) + 1 && !memcmp(said, value, length - 1);
}

/* Stops while a session is settled: after each of its operations, and with any of the writes since the last sync left out, as a
 * disk may. The volume is never damaged, has what was settled before, and in the end what the session put. */
static void stops(void) {
  static uint8_t disk[STOP_SECTORS][512], synced[STOP_SECTORS][512], left[STOP_SECTORS][512], out[STOP_SECTORS][512];
  static sandbox_operation operations[STOPS];
  unsigned tried = 0, seed = 1;
  want("format", sandbox_format(disk, STOP_SECTORS, 16) == SANDBOX_OK);
  for (int put = 0; put < 8; put++) {
    char key[8], value[8], key_before[8], value_before[8];
    snprintf(key, sizeof key, "k%d", put), snprintf(value, sizeof value, "v%d", put);
    snprintf(key_before, sizeof key_before, "k%d", put - 1), snprintf(value_before, sizeof value_before, "v%d", put - 1);
    const char *const words[] = {"keys", "store", "put", key, value};
    sandbox_session *session = NULL;
    session_over(&session, SANDBOX_VOLUME_RECORDED, (const uint8_t(*)[512])disk, words, 5);
    size_t count = 0, first = 0; /* since the last sync */
    while (count < STOPS && sandbox_operation_at(&session, count, &operations[count]) == SANDBOX_OK && operations[count].kind != SANDBOX_NO_OPERATION)
      count++;
    want("some operations, and the last a sync", count > 1 && count < STOPS && operations[count - 1].kind == SANDBOX_SYNC);
    want("sectors", sandbox_volume_out(&session, out, STOP_SECTORS) == STOP_SECTORS);
    sandbox_close(&session);
    memcpy(synced, disk, sizeof disk);
    for (size_t k = 0; k <= count; k++) { /* the first k were done */
      for (int some = 0; some < 4; some++) {
        memcpy(left, synced, sizeof left);
        for (size_t i = first; i < k; i++)
          if (operations[i].kind == SANDBOX_WRITE && (some == 0 || (seed = seed * 1103515245 + 12345) >> 30 & 1))
            memcpy(left[operations[i].sector], operations[i].bytes, 512);
        want("a stop leaves a volume with what was settled", put == 0 ? 1 : finds((const uint8_t(*)[512])left, key_before, value_before));
        tried++;
      }
      if (k < count && operations[k].kind == SANDBOX_WRITE)
        memcpy(disk[operations[k].sector], operations[k].bytes, 512);
      else if (k < count)
        memcpy(synced, disk, sizeof disk), first = k + 1;
    }
    want("all operations give the sectors", same(disk, out, sizeof disk));
    want("what was put is found", finds((const uint8_t(*)[512])disk, key, value));
  }
  printf("%u stops while sessions are settled: %u wrong\n", tried, wrong);
}

static int same_operation(const sandbox_operation *one, const sandbox_operation *other) {
  return one->kind == other->kind && (one->kind != SANDBOX_WRITE || (one->sector == other->sector && same(one->bytes, other->bytes, 512)));
}

/* A guest that syncs each of its records, over a volume on a descriptor. After the resume that told of a sync, before the guest
 * goes on, a next session finds the record in what the descriptor has. What was told while it ran is what is told in the end, and
 * all of it gives the volume. */
static void synced(void) {
  enum { RECORDS = 6 };
  static uint8_t disk[STOP_SECTORS][512], out[STOP_SECTORS][512];
  static sandbox_operation early[STOPS];
  const sandbox_bytes words[] = {{(const uint8_t *)"keys", 4}, {(const uint8_t *)"store", 5}, {(const uint8_t *)"fill", 4}, {(const uint8_t *)"6", 1}};
  sandbox_supplies given = supplies();
  given.args = words, given.args_count = 4;
  FILE *file = tmpfile();
  int fd = file ? fileno(file) : -1;
  want("format", sandbox_format(disk, STOP_SECTORS, 16) == SANDBOX_OK && pwrite(fd, disk, sizeof disk, 0) == sizeof disk);
  sandbox_session *session = NULL;
  sandbox_volume volume;
  sandbox_operation operation;
  sandbox_told told = {0};
  sandbox_why why;
  size_t done = 0, first = 0, syncs = 0, count = 0;
  want("volume_from", sandbox_volume_from(fd, &volume) == SANDBOX_OK && volume.sectors_count == STOP_SECTORS);
  want("open", sandbox_open(&session, module.at, module.length, &given, &volume, &why) == SANDBOX_OK);
  sandbox_volume_free(&volume);
  do {
    want("resume", sandbox_resume(&session, 10000000 - told.used, &told) == SANDBOX_OK);
    while (count < STOPS && sandbox_operation_at(&session, count, &early[count]) == SANDBOX_OK && early[count].kind != SANDBOX_NO_OPERATION)
      count++;
    want("settle while it runs", sandbox_settle(&session, fd, &done) == SANDBOX_OK && done == count);
    if (told.kind == SANDBOX_CALLED && told.call == SANDBOX_CALL_FD_SYNC && told.code == 0) {
      char key[8];
      snprintf(key, sizeof key, "k%zu", syncs++);
      want("a sync has operations", done > first);
      want("a sync is on the descriptor before its guest goes on", pread(fd, disk, sizeof disk, 0) == sizeof disk && finds((const uint8_t(*)[512])disk, key, key));
      first = done;
    }
  } while (told.kind == SANDBOX_CALLED);
  want("the guest exits", told.kind == SANDBOX_EXITED && told.code == 0 && syncs == RECORDS);
  want("finish", sandbox_finish(&session) == SANDBOX_OK);
  for (size_t n = 0; n < count; n++)
    want("what was told while it ran is told again", sandbox_operation_at(&session, n, &operation) == SANDBOX_OK && same_operation(&operation, &early[n]));
  want("settle", sandbox_settle(&session, fd, &done) == SANDBOX_OK);
  want("sectors", sandbox_volume_out(&session, out, STOP_SECTORS) == STOP_SECTORS);
  want("all operations give the sectors", pread(fd, disk, sizeof disk, 0) == sizeof disk && same(disk, out, sizeof disk));
  want("close", sandbox_close(&session) == SANDBOX_OK);
  fclose(file);
  printf("%zu syncs, %zu operations while the guest ran and %zu at its end: %u wrong\n", syncs, count, done - count, wrong);
}

static int one(sandbox_supplies *given) {
  uint8_t out[16];
  size_t length = 0;
  sandbox_told told;
  sandbox_why why;
  return sandbox_run(module.at, module.length, given, 1000, out, sizeof out, &length, &told, &why) == SANDBOX_OK &&
         told.kind == SANDBOX_EXITED && length == 3;
}

static void *thread(void *count) {
  sandbox_supplies given = supplies();
  for (long i = 0; i < (long)count; i++)
    if (!one(&given))
      return (void *)1;
  return NULL;
}

/* Sessions of a prepared module, many at once, in a thread that has a handle of its own. Half of them hand theirs back. */
static void *sharing(void *handle) {
  enum { AT_ONCE = 16, ROUNDS = 8 };
  sandbox_module **own = handle;
  sandbox_session *sessions[AT_ONCE] = {NULL};
  sandbox_supplies given = supplies();
  sandbox_told told;
  unsigned bad = 0;
  for (int round = 0; round < ROUNDS; round++) {
    for (int n = 0; n < AT_ONCE; n++) {
      sandbox_module *one = NULL;
      bad += sandbox_module_share(&one, own) != SANDBOX_OK || sandbox_open_loaded(&sessions[n], &one, &given, &fresh) != SANDBOX_OK || one;
    }
    for (int turn = 0; turn < 4; turn++) /* in turns, three units at a time */
      for (int n = 0; n < AT_ONCE; n++)
        bad += sandbox_resume(&sessions[n], 3, &told) != SANDBOX_OK || (turn == 3 && (told.kind != SANDBOX_EXITED || told.used != 8));
    for (int n = 0; n < AT_ONCE; n++) {
      uint8_t said[4];
      sandbox_module *one = NULL;
      bad += sandbox_output(&sessions[n], 1, 0, said, sizeof said) != 3 || !same(said, "hi\n", 3) || sandbox_finish(&sessions[n]) != SANDBOX_OK;
      bad += n % 2 ? sandbox_close(&sessions[n]) : sandbox_close_loaded(&sessions[n], &one) + sandbox_unload(&one);
    }
  }
  bad += sandbox_unload(own) != SANDBOX_OK;
  return bad ? handle : NULL;
}

/* One prepared module in some threads; the handle that it was prepared in is gone before they begin. */
static void shared(void) {
  enum { THREADS = 4 };
  sandbox_module *first = NULL, *own[THREADS] = {NULL};
  pthread_t threads[THREADS];
  const sandbox_limits none = {0};
  sandbox_why why;
  void *bad;
  want("prepare", sandbox_prepare(&first, module.at, module.length, &none, &why) == SANDBOX_OK);
  for (int n = 0; n < THREADS; n++)
    want("share", sandbox_module_share(&own[n], &first) == SANDBOX_OK);
  want("unload", sandbox_unload(&first) == SANDBOX_OK);
  for (int n = 0; n < THREADS; n++)
    pthread_create(&threads[n], NULL, sharing, &own[n]);
  for (int n = 0; n < THREADS; n++) {
    pthread_join(threads[n], &bad);
    want("a thread", !bad && !own[n]);
  }
  printf("%d threads share a module: %u wrong\n", THREADS, wrong);
}

/* The least time that a session of a prepared module takes to open and close. */
static double opening(sandbox_bytes of) {
  const sandbox_limits one_page = {.pages = 1};
  sandbox_supplies given = supplies();
  given.limits.pages = 1;
  sandbox_module *prepared = NULL, *own = NULL;
  sandbox_session *session = NULL;
  sandbox_why why;
  double best = 1e9;
  want("prepare", sandbox_prepare(&prepared, of.at, of.length, &one_page, &why) == SANDBOX_OK);
  for (int n = 0; n < 2000; n++) {
    double begun = now();
    want("open", sandbox_module_share(&own, &prepared) == SANDBOX_OK && sandbox_open_loaded(&session, &own, &given, &fresh) == SANDBOX_OK);
    double took = now() - begun;
    best = took < best ? took : best;
    want("close", sandbox_close(&session) == SANDBOX_OK);
  }
  want("unload", sandbox_unload(&prepared) == SANDBOX_OK);
  return best;
}

/* What a large module costs that is loaded, and prepared, and then opened, beside the opening of a small one. */
static void opens(sandbox_bytes small) {
  const sandbox_limits one_page = {.pages = 1};
  sandbox_module *loaded = NULL;
  sandbox_session *session = NULL;
  sandbox_why why;
  sandbox_supplies given = supplies();
  given.limits.pages = 1;
  double load = 1e9, open = 1e9, prepare = 1e9;
  for (int n = 0; n < 5; n++) {
    double begun = now();
    want("load", sandbox_load(&loaded, module.at, module.length, &why) == SANDBOX_OK);
    double then = now();
    want("open", sandbox_open_loaded(&session, &loaded, &given, &fresh) == SANDBOX_OK);
    double opened = now();
    want("close", sandbox_close(&session) == SANDBOX_OK);
    double last = now();
    want("prepare", sandbox_prepare(&loaded, module.at, module.length, &one_page, &why) == SANDBOX_OK);
    double prepared = now() - last;
    want("unload", sandbox_unload(&loaded) == SANDBOX_OK);
    load = then - begun < load ? then - begun : load, open = opened - then < open ? opened - then : open, prepare = prepared < prepare ? prepared : prepare;
  }
  double large = opening(module), little = opening(small);
  want("a prepared module opens in a hundredth of its load", large * 100 <= load);
  want("and in three times what a small one takes", large <= 3 * little);
  printf("a module of %zu bytes: load %.1f ms, its session %.1f ms, prepare %.1f ms, a session of it then %.1f us; of one of %zu bytes %.1f us: %u wrong\n", module.length, load * 1e3, open * 1e3,
         prepare * 1e3, large * 1e6, small.length, little * 1e6, wrong);
}

static size_t in_use(void) {
  struct mallinfo2 info = mallinfo2();
  return info.uordblks + info.hblkhd;
}

static long resident(void) {
  long pages = 0, skip;
  FILE *file = fopen("/proc/self/statm", "r");
  if (!file || fscanf(file, "%ld %ld", &skip, &pages) != 2)
    pages = 0;
  if (file)
    fclose(file);
  return pages * 4096;
}

static void costs(long runs) {
  enum { MANY = 1000 };
  sandbox_supplies given = supplies();
  sandbox_told told;
  sandbox_why why;
  for (int i = 0; i < 1000; i++) /* the allocator keeps some chunks at hand */
    one(&given);
  size_t before = in_use();
  double begun = now(), best = 1e9;
  for (int round = 0; round < 5; round++) {
    begun = now();
    for (long i = 0; i < runs; i++)
      want("a run", one(&given));
    double took = (now() - begun) / runs;
    if (took < best)
      best = took;
  }
  printf("a session of the module in one call: %.1f us, best of 5 times %ld; %zd bytes left\n", best * 1e6, runs, (ssize_t)(in_use() - before));
  /* loaded once */
  sandbox_module *loaded = NULL;
  sandbox_session *session = NULL;
  want("load", sandbox_load(&loaded, module.at, module.length, &why) == SANDBOX_OK);
  begun = now();
  for (long i = 0; i < runs; i++) {
    sandbox_open_loaded(&session, &loaded, &given, &fresh);
    do
      sandbox_resume(&session, 1000, &told);
    while (told.kind == SANDBOX_CALLED);
    sandbox_finish(&session);
    sandbox_close_loaded(&session, &loaded);
  }
  printf("the same of a loaded module, by resumes: %.1f us\n", (now() - begun) / runs * 1e6);
  sandbox_unload(&loaded);
  /* many at once */
  static sandbox_session *many[MANY];
  before = in_use();
  long pages = resident();
  begun = now();
  for (int i = 0; i < MANY; i++)
    want("open", sandbox_open(&many[i], module.at, module.length, &given, &fresh, &why) == SANDBOX_OK);
  double opened = now();
  printf("%d sessions at once: %.1f us each to open, %zu bytes asked for each, %ld resident\n", MANY, (opened - begun) / MANY * 1e6, (in_use() - before) / MANY, (resident() - pages) / MANY);
  for (int i = 0; i < MANY; i++)
    want("close", sandbox_close(&many[i]) == SANDBOX_OK);
  for (int count = 1; count <= 4; count *= 2) {
    pthread_t threads[4];
    void *bad;
    begun = now();
    for (int i = 0; i < count; i++)
      pthread_create(&threads[i], NULL, thread, (void *)runs);
    for (int i = 0; i < count; i++) {
      pthread_join(threads[i], &bad);
      want("a thread", !bad);
    }
    printf("%d threads: %.0f sessions a second\n", count, count * runs / (now() - begun));
  }
}

static size_t read_into(uint8_t *bytes, size_t room, const char *path) {
  FILE *file = fopen(path, "rb");
  size_t length = file ? fread(bytes, 1, room, file) : 0;
  if (file)
    fclose(file);
  return length;
}

int main(int argc, char **argv) {
  static uint8_t bytes[1 << 20], more[1 << 16];
  module = (sandbox_bytes){bytes, argc > 2 ? read_into(bytes, sizeof bytes, argv[1]) : 0};
  if (!module.length)
    return 2;
  if (!strcmp(argv[2], "misuse"))
    misuse();
  else if (!strcmp(argv[2], "limits"))
    limits();
  else if (!strcmp(argv[2], "shared"))
    shared();
  else if (!strcmp(argv[2], "opens"))
    opens((sandbox_bytes){more, read_into(more, sizeof more, argv[3])});
  else if (!strcmp(argv[2], "numbers"))
    numbers();
  else if (!strcmp(argv[2], "descriptors"))
    descriptors(argv[3]);
  else if (!strcmp(argv[2], "stops"))
    stops();
  else if (!strcmp(argv[2], "synced"))
    synced();
  else
    costs(atol(argv[2]));
  return wrong != 0;
}
