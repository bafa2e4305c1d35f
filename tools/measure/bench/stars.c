#include "io.h"
int i, j;
int main(void) {
    for (i = 1; i <= 40; ++i) { j = 1; do { send('*'); ++j; } while (j <= i); newline(); }
    return 0;
}
