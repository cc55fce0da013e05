/* What an ordinary C program needs of this header, where the machine has none: the functions are the kit's C library's. */
#ifndef SIGNAL_H
#define SIGNAL_H

#define SIGABRT 6
#define SIGALRM 14
#define SIGINT 2
#define SIGTERM 15
#define SIGTRAP 5
#define SIG_DFL ((void (*)(int))0)
#define SIG_IGN ((void (*)(int))1)

void (*signal(int number, void (*handler)(int)))(int);
int raise(int number);

#endif
