// Bulk memory, 16 bytes at once.
#define LENGTH 16
#include "copying.h"
