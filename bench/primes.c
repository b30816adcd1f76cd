// How many primes there are below 60,000, by trial division: 6,057.
#include <stdio.h>

int is_prime(unsigned n) {
  unsigned d;
  if (n < 2) return 0;
  for (d = 2; d * d <= n; d++)
    if (n % d == 0) return 0;
  return 1;
}

void print(unsigned n) {
  if (n >= 10) print(n / 10);
  putchar('0' + n % 10);
}

int main(void) {
  unsigned n, count = 0;
  for (n = 0; n < 60000; n++) count += is_prime(n);
  print(count);
  putchar('\n');
  return 0;
}
