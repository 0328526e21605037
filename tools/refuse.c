// Preloaded before a program: refuses one request for memory.
//
// Of a test program it is the one that a test names. A request for WATCHED + n bytes, n below LAST, is
// a message: refuse the nth request from here on, none where n is 0. A request for WATCHED + LAST bytes
// asks whether that happened since the last message, and is refused exactly then. The process ends with
// a line that counts the requests refused, and with status 1 where there was none.
//
// Where the variable REFUSED is set to n, the nth request from the program's start on is refused, and
// there are no messages. The process ends with the same line, and with the program's own status.
//
// Every other request goes to the C library.

typedef unsigned long size;

void *__libc_malloc(size bytes);
void *__libc_realloc(void *block, size bytes);
int dprintf(int file, const char *format, ...);
char *getenv(const char *name);
void _exit(int status);

enum { WATCHED = 0x5eed00, LAST = 0xfffff, STANDARD_ERROR = 2 };

static size left;
static int is_counted_from_start;
static int was_refused;
static unsigned refused;

__attribute__((constructor)) static void begin(void) {
    const char *digits = getenv("REFUSED");
    if (digits == 0)
        return;
    is_counted_from_start = 1;
    for (; '0' <= *digits && *digits <= '9'; digits++)
        left = left * 10 + (size)(*digits - '0');
}

static int is_message(size bytes) {
    return !is_counted_from_start && WATCHED <= bytes && bytes <= WATCHED + LAST;
}

static int is_refused(void) {
    if (left == 0 || --left != 0)
        return 0;
    was_refused = 1;
    refused++;
    return 1;
}

static void *answer(size bytes) {
    if (bytes == WATCHED + LAST)
        return was_refused ? 0 : __libc_malloc(bytes);
    left = bytes - WATCHED;
    was_refused = 0;
    return __libc_malloc(bytes);
}

void *malloc(size bytes) {
    if (is_message(bytes))
        return answer(bytes);
    return is_refused() ? 0 : __libc_malloc(bytes);
}

void *realloc(void *block, size bytes) {
    return is_refused() ? 0 : __libc_realloc(block, bytes);
}

__attribute__((destructor)) static void tell(void) {
    dprintf(STANDARD_ERROR, "requests refused: %u\n", refused);
    if (refused == 0 && !is_counted_from_start)
        _exit(1);
}
