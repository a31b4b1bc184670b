/* A malloc before the C library's that fails one allocation, loaded by `LD_PRELOAD`: the one whose number is in REFUSE_MEMORY, counted
   from 1, or none where that is 0. Where REFUSE_MEMORY_LASTS is set, it fails each one behind that, too. Where it fails one it makes the file
   named by REFUSE_MEMORY_MET. Where REFUSE_MEMORY_MAIN is set, only the allocations of the first thread are counted, whose number does not
   depend on other threads.

   It reads no header: the kit's compiler, which has none of the C library's, builds it too. What it calls is declared as Linux has it. */
#define NULL ((void *)0)
#define ENOMEM 12
#define O_WRONLY 01
#define O_CREAT 0100
typedef __SIZE_TYPE__ size_t;

extern int *__errno_location(void);
extern char *getenv(const char *name);
extern long atol(const char *number);
extern int open(const char *path, int flags, ...);
extern int close(int file);
extern int gettid(void);
extern int getpid(void);
extern void *__libc_malloc(size_t size);
extern void *__libc_calloc(size_t count, size_t size);
extern void *__libc_realloc(void *place, size_t size);
extern void *__libc_memalign(size_t align, size_t size);

static long refused = -1;
static long count;
static int is_of_main;
static int lasts;

static int is_refused(void)
{
    if (refused == -1) {
        char *number = getenv("REFUSE_MEMORY");
        refused = number ? atol(number) : 0;
        is_of_main = getenv("REFUSE_MEMORY_MAIN") != NULL;
        lasts = getenv("REFUSE_MEMORY_LASTS") != NULL;
    }
    if (is_of_main && gettid() != getpid())
        return 0;
    long number = __atomic_add_fetch(&count, 1, __ATOMIC_SEQ_CST);
    if (refused == 0 || number < refused || (number > refused && !lasts))
        return 0;
    char *met = getenv("REFUSE_MEMORY_MET");
    int file = met ? open(met, O_WRONLY | O_CREAT, 0600) : -1;
    if (file >= 0)
        close(file);
    *__errno_location() = ENOMEM;
    return 1;
}

void *malloc(size_t size) { return is_refused() ? NULL : __libc_malloc(size); }
void *calloc(size_t number, size_t size) { return is_refused() ? NULL : __libc_calloc(number, size); }
void *realloc(void *place, size_t size) { return is_refused() ? NULL : __libc_realloc(place, size); }
void *memalign(size_t align, size_t size) { return is_refused() ? NULL : __libc_memalign(align, size); }
void *aligned_alloc(size_t align, size_t size) { return is_refused() ? NULL : __libc_memalign(align, size); }

int posix_memalign(void **place, size_t align, size_t size)
{
    void *found = is_refused() ? NULL : __libc_memalign(align, size);
    if (found)
        *place = found;
    return found ? 0 : ENOMEM;
}
