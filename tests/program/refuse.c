/* Stands before the C library (LD_PRELOAD) and refuses some of what a program asks of it. It needs no header.

   REFUSE        what is refused: memory, thread (its start), open, copy (of a descriptor), stat, list, empty, read or write;
                 or what is only counted: yield (of the processor), starter (each thread that starts another),
                 own (each open by the first thread), or held (the most bytes of memory that are held at once)
   REFUSE_AT     the number of the first that is refused, counted from 1; 0, or nothing: none is
   REFUSE_ON     given: all after it are refused too
   REFUSE_ERROR  the number of the error; 0: the call moves no byte
   REFUSE_WAIT   how many thousandths of a second a refused call of a file takes
   REFUSE_PATH   of the calls of files only those count whose path ends so; standard input and output have the paths
                 /dev/stdin and /dev/stdout
   REFUSE_MOST   the most bytes that a read or a write moves, for all files
   REFUSE_TOLD   a file that gets, at the end, how many were met and how many of them were refused

   A program that takes over a minute is killed. */
typedef unsigned long word;
extern void *__libc_malloc(word), *__libc_calloc(word, word), *__libc_realloc(void *, word), *__libc_memalign(word, word);
extern void __libc_free(void *);
extern word malloc_usable_size(void *);
extern int *__errno_location(void);
extern unsigned alarm(unsigned);
extern long syscall(long, ...);
extern void *dlsym(void *, const char *);
extern char **environ;

enum { READ = 0, WRITE = 1, OPEN = 2, CLOSE = 3, YIELD = 24, SLEEP = 35, PROCESS = 39, CONTROL = 72, EMPTY = 77, THREAD = 186, LIST = 217, EXIT = 231, OPENAT = 257, STAT = 332 };
enum { NO_MEMORY = 12, TRY_AGAIN = 11, LONGEST = 60, FILES = 1024, STARTERS = 1024, COPY = 1030 };
/* For writing, made where it isn't there, emptied where it is. */
enum { ANEW = 01 | 0100 | 01000 };

static const char *what, *path, *told;
static word at, most, met, refused, pause;
static long error;
static int on, ready, weighs;
static word held;
/* Of each open file, whether its path ends as REFUSE_PATH does. */
static char meant[FILES];
/* The numbers of the threads that started another. */
static long starters[STARTERS];

static const char *value_of(const char *name) {
    for (char **entry = environ; entry && *entry; entry++) {
        const char *text = *entry, *rest = name;
        while (*rest && *text == *rest) text++, rest++;
        if (!*rest && *text == '=') return text + 1;
    }
    return 0;
}

static word number_of(const char *name) {
    word number = 0;
    for (const char *text = value_of(name); text && *text >= '0' && *text <= '9'; text++)
        number = number * 10 + (word)(*text - '0');
    return number;
}

static word length(const char *text) {
    word count = 0;
    while (text[count]) count++;
    return count;
}

static int is(const char *one, const char *other) {
    while (*one && *one == *other) one++, other++;
    return *one == *other;
}

static int is_meant(const char *text) {
    if (!path) return 1;
    word whole = length(text), end = length(path);
    return whole >= end && is(text + whole - end, path);
}

static int is_meant_file(long file) { return file < 0 || file >= FILES ? !path : meant[file]; }

/* Counts one of this sort, and tells whether it is refused. */
static int refuses(const char *sort) {
    if (!ready || !what || !is(what, sort)) return 0;
    word number = __atomic_add_fetch(&met, 1, __ATOMIC_SEQ_CST);
    if (!at || number < at || (number > at && !on)) return 0;
    __atomic_add_fetch(&refused, 1, __ATOMIC_SEQ_CST);
    return 1;
}

static int refuses_memory(void) {
    if (!refuses("memory")) return 0;
    *__errno_location() = NO_MEMORY;
    return 1;
}

/* What a refused call of a file answers. */
static long refusal(void) {
    long time[2] = {0, (long)pause * 1000000};
    if (pause) syscall(SLEEP, time, 0L);
    *__errno_location() = (int)error;
    return error ? -1 : 0;
}

/* Counts the bytes of a block as held, and gives it. */
static void *weighed(void *block) {
    if (!weighs || !block) return block;
    word now = __atomic_add_fetch(&held, malloc_usable_size(block), __ATOMIC_SEQ_CST);
    word peak = __atomic_load_n(&met, __ATOMIC_SEQ_CST);
    while (now > peak && !__atomic_compare_exchange_n(&met, &peak, now, 0, __ATOMIC_SEQ_CST, __ATOMIC_SEQ_CST)) {}
    return block;
}

static void let_go(void *block) {
    if (weighs && block) __atomic_sub_fetch(&held, malloc_usable_size(block), __ATOMIC_SEQ_CST);
}

void *malloc(word size) { return refuses_memory() ? 0 : weighed(__libc_malloc(size)); }
void *calloc(word count, word size) { return refuses_memory() ? 0 : weighed(__libc_calloc(count, size)); }
void *aligned_alloc(word to, word size) { return refuses_memory() ? 0 : weighed(__libc_memalign(to, size)); }
void *realloc(void *old, word size) {
    if (refuses_memory()) return 0;
    let_go(old);
    return weighed(__libc_realloc(old, size));
}
void free(void *block) {
    let_go(block);
    __libc_free(block);
}
int posix_memalign(void **made, word to, word size) {
    void *room = aligned_alloc(to, size);
    if (!room) return NO_MEMORY;
    *made = room;
    return 0;
}

static void count_starter(void) {
    long own = syscall(THREAD);
    for (int place = 0; what && is(what, "starter") && place < STARTERS; place++) {
        long none = 0;
        if (__atomic_load_n(&starters[place], __ATOMIC_SEQ_CST) == own) return;
        if (__atomic_compare_exchange_n(&starters[place], &none, own, 0, __ATOMIC_SEQ_CST, __ATOMIC_SEQ_CST)) {
            refuses("starter");
            return;
        }
    }
}

int pthread_create(word *thread, const void *how, void *(*body)(void *), void *given) {
    if (refuses("thread")) return TRY_AGAIN;
    count_starter();
    int (*real)(word *, const void *, void *(*)(void *), void *) = dlsym((void *)-1L, "pthread_create");
    return real(thread, how, body, given);
}

int sched_yield(void) {
    refuses("yield");
    return (int)syscall(YIELD);
}

static int opened(long call, long folder, const char *name, int flags, unsigned mode) {
    int counts = is_meant(name);
    if (counts && refuses("open")) return (int)refusal();
    if (counts && what && is(what, "own") && syscall(THREAD) == syscall(PROCESS)) refuses("own");
    long file = call == OPEN ? syscall(OPEN, name, flags, mode) : syscall(OPENAT, folder, name, flags, mode);
    if (file >= 0 && file < FILES) meant[file] = (char)counts;
    return (int)file;
}
int open(const char *name, int flags, unsigned mode) { return opened(OPEN, 0, name, flags, mode); }
int openat(int folder, const char *name, int flags, unsigned mode) { return opened(OPENAT, folder, name, flags, mode); }

/* A copy of a descriptor is of the same file. */
int fcntl(int file, int how, long given) {
    if (how == COPY && is_meant_file(file) && refuses("copy")) return (int)refusal();
    long made = syscall(CONTROL, file, how, given);
    if (how == COPY && made >= 0 && made < FILES) meant[made] = (char)is_meant_file(file);
    return (int)made;
}

/* Of an open file where there is no name. */
int statx(int file, const char *name, int flags, unsigned mask, void *found) {
    if ((*name ? is_meant(name) : is_meant_file(file)) && refuses("stat")) return (int)refusal();
    return (int)syscall(STAT, file, name, flags, mask, found);
}

long getdents64(int file, void *room, word size) {
    return is_meant_file(file) && refuses("list") ? refusal() : syscall(LIST, file, room, size);
}

int ftruncate(int file, long length) {
    return is_meant_file(file) && refuses("empty") ? (int)refusal() : (int)syscall(EMPTY, file, length);
}

static word moved(word size) { return most && size > most ? most : size; }
long read(int file, void *room, word size) {
    return is_meant_file(file) && refuses("read") ? refusal() : syscall(READ, file, room, moved(size));
}
long write(int file, const void *bytes, word size) {
    return is_meant_file(file) && refuses("write") ? refusal() : syscall(WRITE, file, bytes, moved(size));
}

__attribute__((constructor)) static void begin(void) {
    what = value_of("REFUSE");
    weighs = what && is(what, "held");
    at = number_of("REFUSE_AT");
    on = value_of("REFUSE_ON") != 0;
    error = (long)number_of("REFUSE_ERROR");
    pause = number_of("REFUSE_WAIT");
    path = value_of("REFUSE_PATH");
    most = number_of("REFUSE_MOST");
    told = value_of("REFUSE_TOLD");
    meant[0] = (char)is_meant("/dev/stdin");
    meant[1] = (char)is_meant("/dev/stdout");
    alarm(LONGEST);
    ready = 1;
}

static char *digits(char *end, word number) {
    do *--end = (char)('0' + number % 10); while (number /= 10);
    return end;
}

static void tell(void) {
    char line[64], *end = line + sizeof line, *text = end;
    if (!told) return;
    *--text = '\n';
    text = digits(text, refused);
    *--text = ' ';
    text = digits(text, met);
    long file = syscall(OPEN, told, ANEW, 0644);
    if (file < 0) return;
    syscall(WRITE, file, text, (word)(end - text));
    syscall(CLOSE, file);
}
__attribute__((destructor)) static void finish(void) { tell(); }

/* A program that ends by itself runs no destructor. */
__attribute__((noreturn)) void _exit(int status) {
    tell();
    for (;;) syscall(EXIT, (long)status);
}
