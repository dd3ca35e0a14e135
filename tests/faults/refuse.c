/* Counts a program's growths of memory, and refuses those that it is told to refuse.

   Every growth of a Rattle program is a call of rattle_alloc or rattle_realloc, of the kit's small library of C. This file is loaded
   before the program starts (LD_PRELOAD), and puts a jump to a function of its own at the head of either, by the places that the
   variable FAULTS_PLACES names: two numbers, from where the program lies. So it works on the proved program as well as on one that is
   built without proof, which checks each use of memory and has an allocator of its own.

   What is refused stands in a file (FAULTS_CONTROL) that the tests write while the program runs; struct control has its words. */

typedef unsigned long u64;
typedef unsigned char u8;

struct control {
    u64 count;   /* growths so far */
    u64 first;   /* the first one that is refused; 0 for none */
    u64 last;    /* the last one that is refused */
    u64 refused; /* how many were refused */
};

struct answer {
    u64 is_given;
    void *place;
};

extern void *malloc(u64 size);
extern void *realloc(void *place, u64 size);
extern char *getenv(const char *name);
extern u64 strtoul(const char *text, char **rest, int base);
extern int open(const char *path, int flags, ...);
extern int close(int file);
extern void *mmap(void *place, u64 size, int may, int flags, int file, long offset);
extern int mprotect(void *place, u64 size, int may);
extern void abort(void);
extern void *memcpy(void *to, const void *from, u64 size);

/* The first of the loaded files is the program: where it lies. Of the system's structure only its first word is read. */
struct loaded {
    u64 from;
};
extern int dl_iterate_phdr(int (*take)(struct loaded *, u64, void *), void *given);

enum { PAGE = 4096, READ = 1, WRITE = 2, EXECUTE = 4, SHARED = 1, READ_AND_WRITE = 2 };

static struct control *control;
static u64 nothing;

/* Whether this growth is refused; it is counted. */
static int is_refused(void) {
    u64 number = __atomic_add_fetch(&control->count, 1, __ATOMIC_SEQ_CST);
    u64 first = __atomic_load_n(&control->first, __ATOMIC_SEQ_CST);
    u64 last = __atomic_load_n(&control->last, __ATOMIC_SEQ_CST);
    if (first == 0 || number < first || last < number) {
        return 0;
    }
    __atomic_add_fetch(&control->refused, 1, __ATOMIC_SEQ_CST);
    return 1;
}

static struct answer answer(void *place) {
    struct answer given = {place != 0, place ? place : &nothing};
    return given;
}

static struct answer counted_alloc(u64 size, u64 align) {
    return answer(is_refused() ? 0 : malloc(size ? size : align));
}

static struct answer counted_realloc(void *place, u64 kept, u64 size, u64 align) {
    (void)kept;
    return answer(is_refused() ? 0 : realloc(place, size ? size : align));
}

/* Puts a jump to `target` at the head of a function. */
static void divert(u64 place, void *target) {
    u8 jump[12] = {0x48, 0xb8, 0, 0, 0, 0, 0, 0, 0, 0, 0xff, 0xe0}; /* mov rax, target; jmp rax */
    u64 page = place / PAGE * PAGE;
    memcpy(jump + 2, &target, sizeof target);
    if (mprotect((void *)page, 2 * PAGE, READ | WRITE | EXECUTE)) {
        abort();
    }
    memcpy((void *)place, jump, sizeof jump);
    if (mprotect((void *)page, 2 * PAGE, READ | EXECUTE)) {
        abort();
    }
}

static int take_first(struct loaded *loaded, u64 size, void *given) {
    (void)size;
    *(u64 *)given = loaded->from;
    return 1;
}

__attribute__((constructor)) static void begin(void) {
    const char *path = getenv("FAULTS_CONTROL"), *places = getenv("FAULTS_PLACES");
    u64 program = 0;
    char *rest = 0;
    int file = path && places ? open(path, READ_AND_WRITE) : -1;
    if (file < 0) {
        abort();
    }
    control = mmap(0, PAGE, READ | WRITE, SHARED, file, 0);
    close(file);
    dl_iterate_phdr(take_first, &program);
    divert(program + strtoul(places, &rest, 0), counted_alloc);
    divert(program + strtoul(rest, 0, 0), counted_realloc);
}
