/* The C peer of `mkdemux check` on a comment: the whole input is read, and a loop over its bytes counts the lines, and the
 * words outside of comments, which go from `;` to the end of the line. Usage: text_peer < text */
#include "peer.h"

int main(void) {
  size_t size, lines = 0, words = 0;
  const unsigned char *input = read_whole(&size);
  int in_word = 0, in_comment = 0;
  for (size_t i = 0; i < size; i++) {
    unsigned char byte = input[i];
    if (byte == '\n') {
      lines++;
      in_word = in_comment = 0;
    } else if (byte == ';') {
      in_comment = 1;
    } else if (!in_comment) {
      int blank = byte == ' ' || byte == '\t' || byte == '\r';
      words += !blank && !in_word;
      in_word = !blank;
    }
  }
  printf("%zu lines, %zu words\n", lines, words);
  return 0;
}
