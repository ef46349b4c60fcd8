/* The system calls of a process as functions of C. A negative answer is a refusal, one of those below, and nothing was done then. */
#ifndef T32_H
#define T32_H

enum { TTY = 0, LONGEST = 256 };   /* the end that leads to the terminal; how many bytes a letter has at most */

enum {
    NOT_OPEN = -9,                 /* the end is not open; of read_any: no end is left to read from */
    NO_BIRTH = -11,                /* fork: the births are used up */
    OUTSIDE = -14,                 /* a byte is outside the memory */
    OUT_OF_RANGE = -22,            /* write: more than LONGEST bytes; kill: no signal from 1 to 31 */
    NO_END = -24                   /* fork: no end is left for the child */
};

/* Ends the process. The low 8 bits of the status are told. It is also what happens where main returns. */
void exit(int status) __attribute__((noreturn));

/* Sends a letter: its size, which may be 0, and then nothing is sent. Nothing says whether the other side lives. */
int write(int end, const void *bytes, unsigned size);

/* Waits for the next letter of an end: how many bytes of it were copied, and the rest of the letter is dropped. 0 where the other side
   has ended or shut its end, then and at each later call. TTY cannot be read. */
int read(int end, void *bytes, unsigned size);

/* The same of the letter that came first at any end, which is put into *end, unless the answer is negative. */
int read_any(void *bytes, unsigned size, int *end);

/* Makes a child with the same memory, which begins where this returns: the child's pid, and 0 in the child. In both *end leads to the
   other. The child has no other end but that and its terminal. */
int fork(int *end);

int getpid(void);

/* Has f(number) called for each signal that is taken, and goes on after it where it was. One signal at a time: the next is taken when f
   has returned. Without one, or with 0, a signal ends the process. A read that waits goes on to wait after f. */
int signal(void (*f)(int));

/* Sends a signal, 1 to 31: 0, whether or not that process is there. */
int kill(int pid, int signal);

/* Shuts an end for good; the other side reads 0. */
int close(int end);

#endif
