/* A compiler that leaves `object of ` and its source: leaves -c SOURCE -o OBJECT. */
#include <stdio.h>

int main(int argc, char **argv) {
  static char text[1 << 20];
  if (argc < 4) return 1;
  FILE *in = fopen(argv[argc - 3], "rb"), *out = fopen(argv[argc - 1], "wb");
  if (!in || !out) return 1;
  size_t size = fread(text, 1, sizeof text, in);
  fputs("object of ", out);
  return fwrite(text, 1, size, out) != size || fclose(out);
}
