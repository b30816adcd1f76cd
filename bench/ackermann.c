// Ackermann's function of 3 and 8: 2,045, with some 2,800,000 calls.
#include <stdio.h>

int ackermann(int m, int n) {
  if (m == 0) return n + 1;
  if (n == 0) return ackermann(m - 1, 1);
  return ackermann(m - 1, ackermann(m, n - 1));
}

void print(int n) {
  if (n >= 10) print(n / 10);
  putchar('0' + n % 10);
}

int main(void) {
  print(ackermann(3, 8));
  putchar('\n');
  return 0;
}
