// Preloaded before a program: each second write of its standard output is interrupted, from the first on.

typedef unsigned long size;

long __write(int file, const void *bytes, size count);
int *__errno_location(void);

enum { STANDARD_OUTPUT = 1, INTERRUPTED = 4 };

static int was_interrupted;

long write(int file, const void *bytes, size count) {
    if (file != STANDARD_OUTPUT)
        return __write(file, bytes, count);
    was_interrupted = !was_interrupted;
    if (!was_interrupted)
        return __write(file, bytes, count);
    *__errno_location() = INTERRUPTED;
    return -1;
}
