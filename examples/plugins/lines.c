/*
 * A plugin that reads its input line by line, as long as there are lines: `next` reads one, says it in capitals on descriptor 1, and gives
 * how many bytes it had, or 2^32 - 1 at the end of the input. It asks for one byte at a time, so it waits for no more than its line.
 */
#include <stdint.h>
#include <unistd.h>

__attribute__((export_name("next"))) uint32_t next(void) {
  uint32_t length = 0;
  char byte;
  while (read(0, &byte, 1) == 1) {
    length++;
    if (byte >= 'a' && byte <= 'z')
      byte -= 'a' - 'A';
    write(1, &byte, 1);
    if (byte == '\n')
      return length;
  }
  return length ? length : UINT32_MAX;
}
