// Bulk memory, 4,096 bytes at once.
#define LENGTH 4096
#include "copying.h"
