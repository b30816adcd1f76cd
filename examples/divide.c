// Divides by the number of bytes of the input: an empty input ends the run with `baggy: report DivZero at line 7`.
#include <stdio.h>

int main(void) {
  int count = 0;
  while (getchar() != EOF) count++;
  return 100 / count;
}
