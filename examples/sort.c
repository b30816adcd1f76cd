// Sorts six characters of the input by a network of twelve comparisons, without an array.
#include <stdio.h>

int least(int a, int b) { return a < b ? a : b; }
int greatest(int a, int b) { return a < b ? b : a; }

int main(void) {
  int a = getchar(), b = getchar(), c = getchar();
  int d = getchar(), e = getchar(), f = getchar();
  int t;
  if (f == EOF) return 1;
  t = least(b, c); c = greatest(b, c); b = t;
  t = least(e, f); f = greatest(e, f); e = t;
  t = least(a, c); c = greatest(a, c); a = t;
  t = least(d, f); f = greatest(d, f); d = t;
  t = least(a, b); b = greatest(a, b); a = t;
  t = least(d, e); e = greatest(d, e); d = t;
  t = least(c, f); f = greatest(c, f); c = t;
  t = least(a, d); d = greatest(a, d); a = t;
  t = least(b, e); e = greatest(b, e); b = t;
  t = least(c, e); e = greatest(c, e); c = t;
  t = least(b, d); d = greatest(b, d); b = t;
  t = least(c, d); d = greatest(c, d); c = t;
  putchar(a); putchar(b); putchar(c); putchar(d); putchar(e); putchar(f);
  putchar('\n');
  return 0;
}
