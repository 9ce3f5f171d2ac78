/*
 * asking: a host that calls an exported function of a module, and answers the function that the module imports.
 *
 *     asking MODULE NAME [NUMBER]..
 *
 * calls NAME with these numbers and prints its result. An import `env.log` with two parameters, the address and the length of a text,
 * is answered by printing the text; an import of any other name by the sum of its arguments. Each call has 100,000,000 units of fuel.
 */
#include <inttypes.h>
#include <sandbox_plugin.h>
#include <stdio.h>
#include <stdlib.h>
#include <string.h>

enum { UNITS = 100000000, MOST = 16, TEXT = 256 };

static int fail(uint32_t number) {
    uint8_t text[TEXT];
    const size_t length = sandbox_text(SANDBOX_TEXT_FAULT, number, text, sizeof text);
    fprintf(stderr, "asking: %" PRIu32 " %.*s\n", number, (int)(length < sizeof text ? length : sizeof text), (const char *)text);
    return 1;
}

/* All bytes of a file. */
static uint8_t *bytes_of(const char *path, size_t *length) {
    FILE *file = fopen(path, "rb");
    uint8_t *bytes = NULL;
    if (file && fseek(file, 0, SEEK_END) == 0) {
        *length = (size_t)ftell(file);
        rewind(file);
        bytes = malloc(*length + 1);
        if (bytes && fread(bytes, 1, *length, file) != *length) {
            free(bytes);
            bytes = NULL;
        }
    }
    if (file)
        fclose(file);
    return bytes;
}

/* Answers the function of the host that is called: prints the text that its two arguments name, or gives the sum of its arguments. */
static uint32_t serve(sandbox_session **instance) {
    uint64_t values[MOST], sum = 0;
    uint8_t text[TEXT];
    const size_t count = sandbox_values(instance, values, MOST);
    const int names_text = count == 2 && values[1] <= sizeof text &&
                           sandbox_memory_read(instance, (uint32_t)values[0], text, (size_t)values[1]) == SANDBOX_OK;
    if (names_text && sandbox_answer(instance, values, 0) == SANDBOX_OK) {
        printf("%.*s\n", (int)values[1], (const char *)text);
        return SANDBOX_OK;
    }
    for (size_t n = 0; n < count; n++)
        sum += values[n];
    sum = (uint32_t)sum;
    const uint32_t answer = sandbox_answer(instance, &sum, 1);
    return answer == SANDBOX_MISTYPED ? sandbox_answer(instance, &sum, 0) : answer;
}

/* Goes on until what runs has returned or ended. */
static uint32_t run(sandbox_session **instance, sandbox_told *told) {
    for (;;) {
        uint32_t answer = sandbox_go(instance, UNITS, told);
        if (answer == SANDBOX_OK && told->kind == SANDBOX_ASKED)
            answer = serve(instance);
        else if (told->kind != SANDBOX_CALLED)
            return answer;
        if (answer != SANDBOX_OK)
            return answer;
    }
}

/* Calls the function, and prints what it gives. */
static uint32_t call(sandbox_session **instance, const char *name, const uint64_t *arguments, size_t count) {
    sandbox_told told;
    uint64_t result;
    uint32_t answer = run(instance, &told); /* the opening */
    if (answer == SANDBOX_OK)
        answer = sandbox_invoke(instance, (const uint8_t *)name, strlen(name), arguments, count);
    if (answer == SANDBOX_OK)
        answer = run(instance, &told);
    if (answer != SANDBOX_OK)
        return answer;
    if (told.kind != SANDBOX_RETURNED)
        printf("ended with kind %" PRIu32 ", code %" PRIu32, told.kind, told.code);
    else if (sandbox_values(instance, &result, 1) == 1)
        printf("%" PRIu64, result);
    else
        printf("returned");
    printf(" after %" PRIu64 " units\n", told.used);
    return SANDBOX_OK;
}

int main(int count, char **words) {
    size_t length = 0;
    uint64_t arguments[MOST];
    uint8_t *bytes = count > 2 && count <= 3 + MOST ? bytes_of(words[1], &length) : NULL;
    const sandbox_bytes name = {(const uint8_t *)"asking", 6}, none = {(const uint8_t *)"", 0};
    const sandbox_supplies supplies = {.args = &name, .args_count = 1, .env = &none, .preopens = (const sandbox_preopen *)"", .random = none, .input = none};
    const sandbox_volume volume = {.kind = SANDBOX_VOLUME_FRESH, .sectors = (const uint8_t(*)[512])"", .sectors_count = 0};
    sandbox_plugin *plugin = NULL;
    sandbox_session *instance = NULL;
    sandbox_why why;
    if (!bytes) {
        fprintf(stderr, "usage: asking MODULE NAME [NUMBER].. (%d at most)\n", MOST);
        return 2;
    }
    for (int n = 3; n < count; n++)
        arguments[n - 3] = strtoull(words[n], NULL, 0);
    uint32_t answer = sandbox_plugin_load(&plugin, bytes, length, &supplies.limits, 1, &why);
    if (answer == SANDBOX_OK)
        answer = sandbox_instance_open(&instance, &plugin, &supplies, &volume);
    if (answer == SANDBOX_OK)
        answer = call(&instance, words[2], arguments, (size_t)count - 3);
    if (instance)
        sandbox_close(&instance);
    if (plugin)
        sandbox_plugin_unload(&plugin);
    free(bytes);
    return answer == SANDBOX_OK ? 0 : fail(answer);
}
