#include "../dialogue.h"
int n;
int main(void) {
    for (n = 1; n <= 300; ++n) {
        if (n / 15 * 15 == n) text("FIZZBUZZ");
        else if (n / 3 * 3 == n) text("FIZZ");
        else if (n / 5 * 5 == n) text("BUZZ");
        else number(n);
        newline();
    }
    return 0;
}
