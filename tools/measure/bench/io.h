/* What the programs print with. Counted, a byte that is sent is a store; with -DSHOW the bytes are written. */
#include <stdlib.h>
#include <unistd.h>
static char buffer[8];
#ifdef SHOW
static char byte;
static void send(char c) { byte = c == 13 ? 10 : c; write(1, &byte, 1); }
#else
static volatile unsigned char port;
static void send(char c) { port = c; }
#endif
static void number(int v) { char *p; itoa(v, buffer, 10); for (p = buffer; *p; ++p) send(*p); }
static void newline(void) { send(13); }
