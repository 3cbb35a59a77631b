/* Preloaded into a process, refuses what it asks for. The environment says what:

   REFUSE_AT=N    its request for memory with the number N, counted from 1
   REFUSE_FROM=N  this request and each one after it
   READ_MOST=N    a read of standard input brings at most N bytes
   READ_FAILS=N   the read of standard input with the number N fails
   WRITE_MOST=N   a write to standard output takes at most N bytes
   WRITE_FAILS=N  the write to standard output with the number N fails
   WRITE_EMPTY=N  it takes nothing instead
   READ_INTERRUPTED=N, WRITE_INTERRUPTED=N            a signal interrupts the call with the number N
   READ_INTERRUPTED_FROM=N, WRITE_INTERRUPTED_FROM=N  this call and each one after it

   The file REFUSED is made where any of this was refused or failed. It holds a byte where standard input had been read by
   then. All this is without the C library's headers, so that a compiler alone can build it. */
typedef __SIZE_TYPE__ size_t;
char *getenv(const char *name);
long atol(const char *text);
int creat(const char *path, unsigned int mode);
int close(int file);
long syscall(long number, ...);
int *__errno_location(void);
void *__libc_malloc(size_t size);
void *__libc_calloc(size_t count, size_t size);
void *__libc_realloc(void *block, size_t size);
void *__libc_memalign(size_t alignment, size_t size);

/* The system's numbers, on x86-64 Linux. */
enum { SYSTEM_READ = 0, SYSTEM_WRITE = 1, INTERRUPTED = 4, INPUT_OUTPUT_ERROR = 5, NO_MEMORY = 12 };

static long reads, writes;

static long setting(const char *name) {
  const char *number = getenv(name);
  return number ? atol(number) : 0;
}

static int refuse(int error) {
  static int is_told;
  const char *path = getenv("REFUSED");
  if (path && !is_told) {
    int file = creat(path, 0600);
    if (reads) syscall(SYSTEM_WRITE, file, "", 1L);
    close(file);
    is_told = 1;
  }
  *__errno_location() = error;
  return 1;
}

static int is_refused(void) {
  static long requests;
  long from = setting("REFUSE_FROM");
  requests++;
  return (requests == setting("REFUSE_AT") || (from && requests >= from)) && refuse(NO_MEMORY);
}

void *malloc(size_t size) { return is_refused() ? 0 : __libc_malloc(size); }
void *calloc(size_t count, size_t size) { return is_refused() ? 0 : __libc_calloc(count, size); }
void *realloc(void *block, size_t size) { return is_refused() ? 0 : __libc_realloc(block, size); }
void *memalign(size_t alignment, size_t size) { return is_refused() ? 0 : __libc_memalign(alignment, size); }
void *aligned_alloc(size_t alignment, size_t size) { return memalign(alignment, size); }

int posix_memalign(void **block, size_t alignment, size_t size) {
  void *made = memalign(alignment, size);
  if (!made) return NO_MEMORY;
  *block = made;
  return 0;
}

/* Whether the call with this number is interrupted, by the two settings with these names. */
static int is_interrupted(long number, const char *once, const char *from) {
  long first = setting(from);
  if (number != setting(once) && (!first || number < first)) return 0;
  *__errno_location() = INTERRUPTED;
  return 1;
}

static size_t at_most(size_t count, long most) { return most > 0 && (size_t)most < count ? (size_t)most : count; }

long read(int file, void *bytes, size_t count) {
  if (file == 0) {
    reads++;
    if (is_interrupted(reads, "READ_INTERRUPTED", "READ_INTERRUPTED_FROM")) return -1;
    if (reads == setting("READ_FAILS") && refuse(INPUT_OUTPUT_ERROR)) return -1;
    count = at_most(count, setting("READ_MOST"));
  }
  return syscall(SYSTEM_READ, file, bytes, count);
}

long write(int file, const void *bytes, size_t count) {
  if (file == 1) {
    writes++;
    if (is_interrupted(writes, "WRITE_INTERRUPTED", "WRITE_INTERRUPTED_FROM")) return -1;
    if (writes == setting("WRITE_FAILS") && refuse(INPUT_OUTPUT_ERROR)) return -1;
    if (writes == setting("WRITE_EMPTY") && refuse(0)) return 0;
    count = at_most(count, setting("WRITE_MOST"));
  }
  return syscall(SYSTEM_WRITE, file, bytes, count);
}

long __read(int file, void *bytes, size_t count) { return read(file, bytes, count); }
long __write(int file, const void *bytes, size_t count) { return write(file, bytes, count); }
