/* arc4random can't fail, and the guest has random bytes only where it was given some. So without them it ends in words. */
#include <stdint.h>
#include <stdlib.h>
#include <unistd.h>

void arc4random_buf(void *room, size_t length) {
  static const char why[] = "arc4random: there are no random bytes; run the guest with --seed N or --random FILE\n";
  for (size_t done = 0; done < length;) {
    size_t part = length - done < 256 ? length - done : 256;
    if (getentropy((char *)room + done, part)) {
      write(2, why, sizeof why - 1);
      abort();
    }
    done += part;
  }
}

uint32_t arc4random(void) {
  uint32_t number;
  arc4random_buf(&number, sizeof number);
  return number;
}

uint32_t arc4random_uniform(uint32_t bound) {
  uint32_t number, least = bound < 2 ? 0 : -bound % bound;
  if (bound < 2)
    return 0;
  do
    number = arc4random();
  while (number < least); /* so that each rest is as likely */
  return number % bound;
}
