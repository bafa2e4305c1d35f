/* Texts and INPUT, for programs that have them. KEYS is what is typed, and lies in memory. */
#include "io.h"
static const char keys[] = KEYS;
static unsigned char place;
void text(const char *p) { for (; *p; ++p) send(*p); }
int input(void) {
    char *p = buffer;
    text("? ");
    while ((*p = keys[place++]) != 13) ++p;
    *p = 0;
    newline();
    return atoi(buffer);
}
