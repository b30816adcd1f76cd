// The period of a linear feedback shift register of 16 bits with taps 16, 14, 13 and 11: 65,535.
#include <stdio.h>

void print(unsigned n) {
  if (n >= 10) print(n / 10);
  putchar('0' + n % 10);
}

int main(void) {
  unsigned start = 0xACE1, state = start, period = 0;
  do {
    unsigned bit = (state ^ state >> 2 ^ state >> 3 ^ state >> 5) & 1;
    state = state >> 1 | bit << 15;
    period++;
  } while (state != start);
  print(period);
  putchar('\n');
  return 0;
}
