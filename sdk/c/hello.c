/* A program of ordinary C: formatted output, a file that is not there, an empty input, and the time. */
#include <errno.h>
#include <stdio.h>
#include <string.h>
#include <time.h>

int main(int argc, char **argv) {
  for (int at = 1; at < argc; at++) printf("%d: %s\n", at, argv[at]);
  FILE *file = fopen("settings.txt", "r");
  if (!file) fprintf(stderr, "settings.txt: %s\n", strerror(errno));
  if (getchar() == EOF) puts("no input");
  time_t now = time(NULL);
  char date[32];
  strftime(date, sizeof date, "%Y-%m-%d", gmtime(&now));
  puts(date);
  return argc - 1;
}
