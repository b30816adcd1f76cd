// Counts the lines, the words and the bytes of the input.
#include <stdio.h>

int is_blank(int c) { return c == ' ' || c == '\t' || c == '\n' || c == '\r'; }

void print(int n) {
  if (n >= 10) print(n / 10);
  putchar('0' + n % 10);
}

int main(void) {
  int lines = 0, words = 0, bytes = 0, inside = 0;
  int c;
  while ((c = getchar()) != EOF) {
    bytes++;
    if (c == '\n') lines++;
    if (is_blank(c)) inside = 0;
    else if (!inside) {
      inside = 1;
      words++;
    }
  }
  print(lines);
  putchar(' ');
  print(words);
  putchar(' ');
  print(bytes);
  putchar('\n');
  return 0;
}
