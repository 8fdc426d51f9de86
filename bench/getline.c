/* Reads a file by lines, and tells how many there are and how many bytes they have without their newlines. */
#include <stdio.h>
#include <stdlib.h>

int main(int argc, char **argv) {
  FILE *file = argc > 1 ? fopen(argv[1], "r") : NULL;
  char *line = NULL;
  size_t room = 0;
  ssize_t length;
  unsigned long count = 0, bytes = 0;
  if (!file) return 1;
  while ((length = getline(&line, &room, file)) > 0) {
    count++;
    bytes += length - (line[length - 1] == '\n');
  }
  printf("%lu records, %lu bytes\n", count, bytes);
  free(line);
  fclose(file);
  return 0;
}
