// Calls itself without end: the run ends with `baggy: report Depth at line 2` and status 121.
int deeper(int n) { return deeper(n + 1) + 1; }

int main(void) { return deeper(0); }
