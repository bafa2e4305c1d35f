#include "io.h"
int a, b, c, n, t;
void move(void) {
    if (n == 0) return;
    n = n - 1;
    t = b; b = c; c = t;
    move();
    t = b; b = c; c = t;
    number(a); number(c); newline();
    t = a; a = b; b = t;
    move();
    t = a; a = b; b = t;
    n = n + 1;
}
int main(void) { a = 1; b = 2; c = 3; n = 8; move(); return 0; }
