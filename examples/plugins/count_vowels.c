/*
 * What Extism's documents show as a first plugin, written anew over the functions that Extism's kernel has: `count_vowels` reads its
 * input, counts, and leaves a line of JSON in a block of the kernel's. The input and the blocks are the host's, so the guest reads and
 * writes them by calls, of eight bytes or of one. `bench/plugins` has a host that answers them.
 */
#include <inttypes.h>
#include <stdint.h>
#include <stdio.h>
#include <string.h>

#define KERNEL(name) __attribute__((import_module("extism:host/env"), import_name(name)))

KERNEL("input_length") uint64_t input_length(void);
KERNEL("input_load_u8") uint8_t input_load_u8(uint64_t at);
KERNEL("input_load_u64") uint64_t input_load_u64(uint64_t at);
KERNEL("alloc") uint64_t kernel_alloc(uint64_t length);
KERNEL("store_u8") void store_u8(uint64_t at, uint8_t byte);
KERNEL("store_u64") void store_u64(uint64_t at, uint64_t bytes);
KERNEL("output_set") void output_set(uint64_t at, uint64_t length);

static int is_vowel(unsigned byte) { return byte && memchr("aeiouAEIOU", (int)byte, 10) != NULL; }

static uint64_t vowels_in(uint64_t word, unsigned bytes) {
  uint64_t count = 0;
  for (; bytes-- > 0; word >>= 8)
    count += is_vowel(word & 255);
  return count;
}

static void put(const char *text, uint64_t length) {
  const uint64_t block = kernel_alloc(length);
  uint64_t at = 0, word;
  for (; at + 8 <= length; at += 8) {
    memcpy(&word, text + at, 8);
    store_u64(block + at, word);
  }
  for (; at < length; at++)
    store_u8(block + at, (uint8_t)text[at]);
  output_set(block, length);
}

__attribute__((export_name("count_vowels"))) int32_t count_vowels(void) {
  const uint64_t length = input_length();
  uint64_t count = 0, at = 0;
  for (; at + 8 <= length; at += 8)
    count += vowels_in(input_load_u64(at), 8);
  for (; at < length; at++)
    count += vowels_in(input_load_u8(at), 1);
  char text[64];
  put(text, (uint64_t)snprintf(text, sizeof text, "{\"count\":%" PRIu64 "}", count));
  return 0;
}
