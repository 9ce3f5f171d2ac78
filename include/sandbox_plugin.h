/*
 * sandbox_plugin.h: instances of a WebAssembly module whose exported functions a host calls, and whose imports it answers. An extension
 * of sandbox.h, whose rules on ownership, pointers, errors, memory, floats and threads hold here, too. Nothing of sandbox.h changes.
 *
 * A CALL
 *     sandbox_invoke(&instance, name, sizeof name - 1, arguments, 2);      what is to run; nothing runs yet
 *     for (;;) {
 *         sandbox_go(&instance, units, &told);
 *         if (told.kind == SANDBOX_ASKED) {                                 the import with the index told.call, one of the host's
 *             size_t count = sandbox_values(&instance, values, 16);         its arguments
 *             ..                                                            reads and writes memory, calls what it likes of its own
 *             sandbox_answer(&instance, values, 1);                         its result, or none
 *         } else if (told.kind != SANDBOX_CALLED)
 *             break;
 *     }
 *     if (told.kind == SANDBOX_RETURNED)
 *         count = sandbox_values(&instance, values, 16);                    its result, or none
 * The library calls no function of the host, so nothing is entered twice: while the host answers, the instance stands still. A value is
 * a number of 64 bits: one of i32 or f32 its 32 bits, one of f64 its 64.
 *
 * INSTANCES
 *   An instance is a `sandbox_session *` like any other for what both have: sandbox_output, sandbox_full, sandbox_frame_at,
 *   sandbox_volume_out, sandbox_operation_at and sandbox_close (and sandbox_settle, sandbox_output_to). Its own functions stand below;
 *   sandbox_resume, sandbox_finish and sandbox_close_loaded are SANDBOX_MISUSE for it.
 *   sandbox_frame_at tells what is at work in it: after ASKED the innermost function stands at its call of the host's, and after
 *   TRAPPED and NO_MEMORY, until sandbox_invoke or sandbox_abandon, all stand where they stood then.
 *   First its start function and its exported `_initialize` of type [] -> [] run: sandbox_go until SANDBOX_RETURNED (at once
 *   where there is neither). Then it is ready.
 *
 * WHAT IS ALLOWED WHEN
 *     after                                    sandbox_go   sandbox_invoke   sandbox_answer   sandbox_memory_write   sandbox_abandon
 *     sandbox_instance_open, sandbox_invoke,
 *       sandbox_answer, CALLED, SPENT, STARVED yes          AT_WORK          NOT_ASKED        AT_WORK                yes
 *     ASKED                                    ASKED_FIRST  ASKED_FIRST      yes              yes                    yes
 *     RETURNED, sandbox_abandon                IDLE         yes              NOT_ASKED        yes                    yes
 *     TRAPPED, NO_MEMORY                       IDLE         yes              NOT_ASKED        STOPPED                yes
 *     EXITED (`proc_exit`), and where the
 *       opening did anything but return        OVER         OVER             OVER             OVER                   OVER
 *   Memory is read at any time. A call that isn't allowed answers such a number, and nothing has changed: first what stands in the
 *   table, then NO_FUNCTION, MISTYPED or PAST_END (a name that isn't UTF-8 is NO_FUNCTION before the table). After a trap memory,
 *   globals and table are as the call left them; whether the guest's own data still make sense then only its author knows: to be
 *   sure, close the instance and open another one. sandbox_abandon lets go what is at work, as a trap would; during the opening the
 *   instance is over.
 *
 * INPUT THAT GOES ON
 *   Instances of a plugin that sandbox_plugin_load_fed has loaded read what is handed over while they run: supplies.input is what is
 *   there at the opening, and is copied; sandbox_feed hands over more, and sandbox_feed_end says that no more come. A guest that asks
 *   for more bytes than are there stops before that read, and sandbox_go tells SANDBOX_STARVED: told.code is how many bytes it asks for
 *   (2^32 - 1 where that is more). Feed it, or end its input, and call sandbox_go again; called at once, with a unit at least, it tells
 *   the same again and uses none. After STARVED all stands as after SPENT. However the input is cut, the run is the run with all of it in
 *   supplies.input: the same steps, units, answers and bytes. Only that run is never told STARVED.
 *   A read is never shortened to what is there: a guest that reads in blocks waits for a whole block or for the end, as at a file. What is
 *   handed over is kept until the guest has read all that is there, in at most twice as many bytes.
 *
 * FUEL
 *   sandbox_go takes at most `units`, and told.used is what the instance has used since it was opened, to the instruction. An answer
 *   takes the unit of the guest's `call`, which is left where ASKED is told. Returning takes none. A host that bounds a call hands that
 *   bound out over its calls of sandbox_go.
 */
#ifndef SANDBOX_PLUGIN_H
#define SANDBOX_PLUGIN_H
#include "sandbox.h"
#ifdef __cplusplus
extern "C" {
#endif

typedef struct sandbox_plugin sandbox_plugin; /* an owner of a module that is ready for instances; opaque */

enum { /* sandbox_told.kind, of an instance alone */
    SANDBOX_RETURNED = 6, /* what was invoked has returned, or the opening has */
    SANDBOX_ASKED = 7,    /* a function of the host is called: told.call is the index of the import among all imports */
    SANDBOX_STARVED = 8   /* the guest asks for told.code bytes of its input, fewer are there, and more may come */
};
enum { /* answers: mistakes of the caller, after which nothing has changed */
    SANDBOX_IDLE = 102,        /* nothing runs: invoke a function first */
    SANDBOX_AT_WORK = 103,     /* a function is at work */
    SANDBOX_ASKED_FIRST = 104, /* a function of the host was called: answer it first */
    SANDBOX_NOT_ASKED = 105,   /* no function of the host was called */
    SANDBOX_STOPPED = 106,     /* what was invoked has trapped, or was refused memory: abandon it first */
    SANDBOX_OVER = 107,        /* nothing is entered any more: a function called proc_exit, or the opening didn't return */
    SANDBOX_NO_FUNCTION = 108, /* the module exports no function of its own by this name, or one of more than 16 parameters */
    SANDBOX_MISTYPED = 109,    /* another number of values, or one that isn't of its type (one of 32 bits is below 2^32) */
    SANDBOX_PAST_END = 110,    /* past the end of memory */
    SANDBOX_ENDED = 111        /* sandbox_feed: it was said that no more bytes come, or all were there at the opening */
};

/* ---- modules */

/* Decodes and validates a module, and makes all once that its instances look up. `bytes` are kept until it and each that shares it
 * are unloaded, and their instances closed. An import of `wasi_snapshot_preview1` has to be one that sandbox.h's modules may have;
 * any other function may be imported, of at most 16 parameters: it is the host's. A start function or `_initialize` that is an
 * import of the host's, and an imported memory, table or global, are 13, too. No `_start` is asked for. limits->pages: the pages of
 * its instances. `floats`: as of sandbox_load_with. Refused, in this order: MISUSE where there is a module already; the module's
 * fault; 15 for the limits; 13, 20, 21, 22 or OUT_OF_MEMORY as of a session. */
uint32_t sandbox_plugin_load(sandbox_plugin **plugin, const uint8_t *bytes, size_t length, const sandbox_limits *limits, uint32_t floats,
                             sandbox_why *why);

/* The same, for instances whose input goes on. An import of a module without a name is 13 here. */
uint32_t sandbox_plugin_load_fed(sandbox_plugin **plugin, const uint8_t *bytes, size_t length, const sandbox_limits *limits,
                                 uint32_t floats, sandbox_why *why);

/* Makes *other, NULL before, a further owner of the same module, for another thread. MISUSE or OUT_OF_MEMORY. */
uint32_t sandbox_plugin_share(sandbox_plugin **other, sandbox_plugin **plugin);

/* Lets the module go, and makes *plugin NULL: what was made once stays for its other owners and for its instances. */
uint32_t sandbox_plugin_unload(sandbox_plugin **plugin);

/* Copies a name of the module as far as there is room, and answers how long it is: by its index among them, of an import that of its
 * module (SANDBOX_IMPORT_MODULE) and its own, and of an export its own. SIZE_MAX past the last. */
size_t sandbox_plugin_name(sandbox_plugin **plugin, uint32_t part, size_t index, uint8_t *room, size_t length);
enum { SANDBOX_IMPORT_MODULE = 0, SANDBOX_IMPORT_NAME = 1, SANDBOX_EXPORT_NAME = 2 }; /* sandbox_plugin_name's part */

/* ---- instances */

/* Makes an instance in *instance, NULL before, as sandbox_open_loaded makes a session; the module stays as it is. Refused, in this
 * order: MISUSE; 15 where `later` isn't 0 or the pages are others than the module's; the volume's fault; the settings' fault, 16, or
 * OUT_OF_MEMORY at any of them. */
uint32_t sandbox_instance_open(sandbox_session **instance, sandbox_plugin **plugin, const sandbox_supplies *supplies,
                               const sandbox_volume *volume);

/* Is about to enter the function that is exported by this name. Nothing runs yet. The bytes are borrowed. */
uint32_t sandbox_invoke(sandbox_session **instance, const uint8_t *name, size_t name_length, const uint64_t *arguments, size_t count);

/* Lets the guest go on for at most `units`, until a call of WASI was answered, a function of the host is called, or what runs returns
 * or ends. The kinds of sandbox_resume, and RETURNED and ASKED. */
uint32_t sandbox_go(sandbox_session **instance, uint64_t units, sandbox_told *told);

/* Copies what there is to hand over, as far as there is room, and answers how many there are: after ASKED the arguments, the first one
 * first, at most 16; after RETURNED the result, if there is one. */
size_t sandbox_values(sandbox_session **instance, uint64_t *room, size_t length);

/* Answers the function of the host that was called, with its result (count 1) or none (0). */
uint32_t sandbox_answer(sandbox_session **instance, const uint64_t *results, size_t count);

uint32_t sandbox_abandon(sandbox_session **instance);

/* Hands over bytes of the input, which are copied, at any time before sandbox_instance_finish: ENDED, or OUT_OF_MEMORY, and none of them
 * is there then. MISUSE where there is no instance. Of a plugin that sandbox_plugin_load has loaded all input is there at the opening. */
uint32_t sandbox_feed(sandbox_session **instance, const uint8_t *bytes, size_t length);

/* Says that no more bytes of the input come; once more, or of such a plugin, it changes nothing. MISUSE where there is no instance. */
uint32_t sandbox_feed_end(sandbox_session **instance);

/* How many bytes memory has; 0 where there is no instance. */
size_t sandbox_memory_size(sandbox_session **instance);

/* Copies bytes out of memory, or into it: all, or PAST_END and none. */
uint32_t sandbox_memory_read(sandbox_session **instance, uint32_t address, uint8_t *room, size_t length);
uint32_t sandbox_memory_write(sandbox_session **instance, uint32_t address, const uint8_t *bytes, size_t length);

/* Commits the guest's calls of WASI to its volume, and ends the instance: what is at work is let go. As sandbox_finish. */
uint32_t sandbox_instance_finish(sandbox_session **instance);

#ifdef __cplusplus
}
#endif
#endif
