// The number below 100,000 from which the Collatz sequence takes longest to 1, and its length: 77031 351.
#include <stdio.h>

unsigned length_from(unsigned n) {
  unsigned length = 1;
  while (n != 1) {
    n = n % 2 ? 3 * n + 1 : n / 2;
    length++;
  }
  return length;
}

void print(unsigned n) {
  if (n >= 10) print(n / 10);
  putchar('0' + n % 10);
}

int main(void) {
  unsigned best = 1, longest = 1, n;
  for (n = 1; n < 100000; n++) {
    unsigned length = length_from(n);
    if (length > longest) {
      best = n;
      longest = length;
    }
  }
  print(best);
  putchar(' ');
  print(longest);
  putchar('\n');
  return 0;
}
