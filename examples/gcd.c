// The greatest common divisor of all numbers in the input; what is no digit parts them.
#include <stdio.h>

int is_digit(int c) { return c >= '0' && c <= '9'; }

int gcd(int a, int b) {
  while (b != 0) {
    int rest = a % b;
    a = b;
    b = rest;
  }
  return a;
}

void print(int n) {
  if (n >= 10) print(n / 10);
  putchar('0' + n % 10);
}

int main(void) {
  int result = 0;
  int c = getchar();
  while (c != EOF) {
    int n = 0;
    while (is_digit(c)) {
      n = n * 10 + (c - '0');
      c = getchar();
    }
    result = gcd(result, n);
    if (c != EOF) c = getchar();
  }
  print(result);
  putchar('\n');
  return 0;
}
