/* Refuses one request for memory of the program beside which it is loaded (LD_PRELOAD): the one of a number.
 *
 * A request is a call of a function below, by any thread, from the beginning of `main` to its end. The start of a
 * thread is one, since the system takes memory for its stack. REQUESTS names a file of sixteen bytes: how many requests
 * were made, and how many refused, which is counted there however the program ends. REFUSED_REQUEST is the number of
 * the one that is refused; where it is 0 or absent none is.
 */
#define _GNU_SOURCE
#include <dlfcn.h>
#include <errno.h>
#include <fcntl.h>
#include <pthread.h>
#include <stdatomic.h>
#include <stdlib.h>
#include <sys/mman.h>
#include <unistd.h>

/* the functions of the GNU C library behind its own names for them */
void *__libc_malloc(size_t size);
void *__libc_calloc(size_t count, size_t size);
void *__libc_realloc(void *old, size_t size);
void *__libc_memalign(size_t alignment, size_t size);

typedef int main_function(int count, char **words, char **environment);
typedef int start_function(main_function *, int, char **, void (*)(void), void (*)(void), void (*)(void), void *);
typedef int create_function(pthread_t *, const pthread_attr_t *, void *(*)(void *), void *);

struct requests {
    atomic_ullong made, refused;
};
/* none outside of `main` */
static struct requests *_Atomic requests;
static unsigned long number;
static main_function *main_of_program;

static int is_refused(void) {
    struct requests *now = requests;
    if (!now || atomic_fetch_add(&now->made, 1) + 1 != number) return 0;
    atomic_fetch_add(&now->refused, 1);
    errno = ENOMEM;
    return 1;
}

static int counted_main(int count, char **words, char **environment) {
    const char *name = getenv("REQUESTS"), *wanted = getenv("REFUSED_REQUEST");
    int file = name ? open(name, O_RDWR | O_CLOEXEC) : -1;
    void *shared = mmap(0, sizeof(struct requests), PROT_READ | PROT_WRITE, MAP_SHARED, file, 0);
    if (shared == MAP_FAILED) abort();
    close(file);
    number = wanted ? strtoul(wanted, 0, 10) : 0;
    requests = shared;
    int status = main_of_program(count, words, environment);
    requests = 0;
    return status;
}

int __libc_start_main(main_function *main, int count, char **words, void (*init)(void), void (*fini)(void),
                      void (*unload)(void), void *stack_end) {
    start_function *start = (start_function *)dlsym(RTLD_NEXT, "__libc_start_main");
    main_of_program = main;
    return start(counted_main, count, words, init, fini, unload, stack_end);
}

void *malloc(size_t size) {
    return is_refused() ? 0 : __libc_malloc(size);
}

void *calloc(size_t count, size_t size) {
    return is_refused() ? 0 : __libc_calloc(count, size);
}

void *realloc(void *old, size_t size) {
    return is_refused() ? 0 : __libc_realloc(old, size);
}

void *aligned_alloc(size_t alignment, size_t size) {
    return is_refused() ? 0 : __libc_memalign(alignment, size);
}

int posix_memalign(void **given, size_t alignment, size_t size) {
    void *memory = is_refused() ? 0 : __libc_memalign(alignment, size);
    if (!memory) return ENOMEM;
    *given = memory;
    return 0;
}

int pthread_create(pthread_t *thread, const pthread_attr_t *attributes, void *(*begin)(void *), void *given) {
    create_function *create = (create_function *)dlsym(RTLD_NEXT, "pthread_create");
    return is_refused() ? EAGAIN : create(thread, attributes, begin, given);
}
