// Reads a sum of products of numbers, such as `2*3 + 4 - 5`, and prints its value.
#include <stdio.h>

int is_digit(int c) { return c >= '0' && c <= '9'; }

int skip(void) {
  int c = getchar();
  while (c == ' ') c = getchar();
  return c;
}

void print(int n) {
  if (n < 0) {
    putchar('-');
    n = -n;
  }
  if (n >= 10) print(n / 10);
  putchar('0' + n % 10);
}

int main(void) {
  int sum = 0, sign = 1, product = 1;
  int c = skip();
  while (1) {
    int n = 0;
    if (!is_digit(c)) return 1;
    while (is_digit(c)) {
      n = n * 10 + (c - '0');
      c = getchar();
    }
    product *= n;
    if (c == ' ') c = skip();
    if (c == '*') {
      c = skip();
      continue;
    }
    sum += sign * product;
    product = 1;
    if (c == '+') sign = 1;
    else if (c == '-') sign = -1;
    else break;
    c = skip();
  }
  print(sum);
  putchar('\n');
  return 0;
}
