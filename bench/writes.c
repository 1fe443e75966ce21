/* A compiler for measures of servers: it writes SIZE bytes, by default 1024, to the word after -o. They begin as a relocatable ELF file does, which a server
   may ask of a compiler named gcc. */
#include <fcntl.h>
#include <stdlib.h>
#include <string.h>
#include <unistd.h>

static char piece[1 << 16] = {0x7f, 'E', 'L', 'F', 2, 1, 1, [16] = 1};

int main(int count, char **words) {
  const char *size = getenv("SIZE");
  long left = size ? atol(size) : 1024;
  for (int i = 1; i + 1 < count; i++) {
    if (strcmp(words[i], "-o") != 0)
      continue;
    int file = open(words[i + 1], O_WRONLY | O_CREAT | O_TRUNC, 0666);
    while (file >= 0 && left > 0) {
      long took = write(file, piece, left < (long)sizeof piece ? left : (long)sizeof piece);
      if (took <= 0)
        return 1;
      left -= took;
    }
    return file < 0 || close(file) != 0;
  }
  return 1;
}
