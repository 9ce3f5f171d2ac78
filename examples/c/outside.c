/* Tries to open a file outside its directories, and exits with the errno: 76, not capable. */
#include <errno.h>
#include <wasi/api.h>

int main(void) {
  __wasi_fd_t file;
  return __wasi_path_open(3, 0, "../x", 0, __WASI_RIGHTS_FD_READ, 0, 0, &file);
}
