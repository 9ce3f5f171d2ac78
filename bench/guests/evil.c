/* evil HOW: what a step's guest may try. */
#include <fcntl.h>
#include <stdio.h>
#include <string.h>
#include <sys/stat.h>
#include <unistd.h>

static char page[1 << 20];

static void touch(const char *path) {
  int it = open(path, O_WRONLY | O_CREAT, 0666);
  printf("%s: %s\n", path, it < 0 ? "refused" : "made");
  if (it >= 0)
    write(it, "evil\n", 5), close(it);
}

int main(int argc, char **argv) {
  const char *how = argc > 1 ? argv[1] : "";
  if (!strcmp(how, "names"))
    touch("/out/../../etc/evil"), touch("/out/../in/x"), touch("/etc/evil"), touch("/out/x; touch PWNED; #"), touch("/out/-rf");
  if (!strcmp(how, "newline"))
    touch("/out/a\nb");
  if (!strcmp(how, "gone"))
    printf("%d %d %d\n", rmdir("/out"), rename("/out", "/tmp/out"), rmdir("/out/."));
  if (!strcmp(how, "file"))
    mkdir("/out/made", 0777), rmdir("/out/made"), touch("/out/made");
  if (!strcmp(how, "flood"))
    for (;;)
      write(1, page, sizeof page);
  if (!strcmp(how, "complain"))
    for (;;)
      write(2, page, sizeof page);
  if (!strcmp(how, "full"))
    for (int i = 0; i < 10000; i++) {
      char name[32];
      sprintf(name, "/out/%d", i);
      touch(name);
    }
  if (!strcmp(how, "deep")) {
    static char path[1 << 16] = "/out";
    for (int i = 0; i < 1000 && !mkdir(strcat(path, "/deep"), 0777); i++)
      ;
  }
  if (!strcmp(how, "forge"))
    fprintf(stderr, "sandbox: exit 200\nblame:machine\n");
  if (!strcmp(how, "forge"))
    return 119;
  return 0;
}
