#include "io.h"
int i, n, s;
int main(void) {
    n = 1;
    for (i = 1; i <= 500; ++i) { n = n * 7; n = n - n / 1009 * 1009; s = s + n; }
    number(s); newline(); return 0;
}
