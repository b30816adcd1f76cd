// The primes below 200, one on each line.
#include <stdio.h>

int is_prime(int n) {
  int d;
  if (n < 2) return 0;
  for (d = 2; d * d <= n; d++)
    if (n % d == 0) return 0;
  return 1;
}

void print(int n) {
  if (n >= 10) print(n / 10);
  putchar('0' + n % 10);
}

int main(void) {
  int n;
  for (n = 0; n < 200; n++)
    if (is_prime(n)) {
      print(n);
      putchar('\n');
    }
  return 0;
}
