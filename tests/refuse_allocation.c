// Preloaded into the program by tests/refusing.py, which shares a page with it: how many allocations were asked for, the
// number, from 1, of the one that is refused, the number from which on each is refused, and how many were refused.
typedef __SIZE_TYPE__ size_t;

extern void *__libc_malloc(size_t size);
extern void *__libc_realloc(void *block, size_t size);
extern char *getenv(const char *name);
extern int atoi(const char *text);
extern void *mmap(void *at, size_t size, int protection, int flags, int file, long offset);

struct page {
  int asked, alone, from, refused;
};

static struct page none, *page = &none;

__attribute__((constructor)) static void start(void) {
  const char *file = getenv("REFUSALS");
  // To be read and written, and shared.
  void *shared = file ? mmap(0, sizeof(struct page), 1 | 2, 1, atoi(file), 0) : (void *)-1;
  if (shared != (void *)-1)
    page = shared;
}

static int is_refused(void) {
  int at = __atomic_add_fetch(&page->asked, 1, __ATOMIC_SEQ_CST);
  int from = __atomic_load_n(&page->from, __ATOMIC_SEQ_CST);
  if (at != __atomic_load_n(&page->alone, __ATOMIC_SEQ_CST) && (from == 0 || at < from))
    return 0;
  __atomic_add_fetch(&page->refused, 1, __ATOMIC_SEQ_CST);
  return 1;
}

void *malloc(size_t size) { return is_refused() ? 0 : __libc_malloc(size); }

void *realloc(void *block, size_t size) { return is_refused() ? 0 : __libc_realloc(block, size); }
