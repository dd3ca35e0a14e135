/* Gives a program a standard input and a standard output that take few bytes at once, and fail after some calls.

   This file is loaded before the program starts (LD_PRELOAD), and stands before the system's read and write. The variable
   FAULTS_DEVICES has four numbers: how many bytes a read of standard input gives at most, how many reads work, and the same of
   writes to standard output. A call after those that work fails with EIO. */

typedef unsigned long u64;

extern char *getenv(const char *name);
extern u64 strtoul(const char *text, char **rest, int base);
extern int *__errno_location(void);

enum { READ = 0, WRITE = 1, EIO = 5 };

/* Of the calls of one device: how many bytes each takes at most, and how many still work. */
struct device {
    u64 most;
    u64 left;
};

/* Standard input (a read of file 0), and standard output (a write to file 1). */
static struct device devices[2];

static long call(long number, int file, const void *bytes, u64 count) {
    long answer;
    __asm__ volatile("syscall" : "=a"(answer) : "a"(number), "D"((long)file), "S"(bytes), "d"(count) : "rcx", "r11", "memory");
    if (answer < 0) {
        *__errno_location() = (int)-answer;
        return -1;
    }
    return answer;
}

/* The call, as the device lets it through. */
static long let_through(long number, int file, const void *bytes, u64 count) {
    struct device *device = &devices[number];
    if (file != number) {
        return call(number, file, bytes, count);
    }
    if (device->left == 0) {
        *__errno_location() = EIO;
        return -1;
    }
    device->left -= 1;
    return call(number, file, bytes, count < device->most ? count : device->most);
}

long read(int file, void *bytes, u64 count) {
    return let_through(READ, file, bytes, count);
}

long write(int file, const void *bytes, u64 count) {
    return let_through(WRITE, file, bytes, count);
}

__attribute__((constructor)) static void begin(void) {
    char *rest = getenv("FAULTS_DEVICES");
    for (int at = READ; at <= WRITE; at++) {
        devices[at].most = strtoul(rest, &rest, 0);
        devices[at].left = strtoul(rest, &rest, 0);
    }
}
