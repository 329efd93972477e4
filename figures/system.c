/* What crate measure asks of the system beside the C library, for a build of it on a machine that is no x86-64: figures/run says when. Its functions
   keep what the toolchain's crate os says of those with their names. */
#include <errno.h>
#include <string.h>

static int count;
static char **words;

__attribute__((constructor)) static void keep(int given, char **these) {
    count = given;
    words = these;
}

/* Argument i at the start of the area: its length, -1 where there is none, -2 where it does not fit. */
long rattle_arg(unsigned long i, char *area, unsigned long size) {
    if (i >= (unsigned long)count)
        return -1;
    unsigned long length = strlen(words[i]);
    memcpy(area, words[i], length < size ? length : size);
    return length <= size ? (long)length : -2;
}

int rattle_errno(void) { return errno; }

void rattle_set_errno(int error) { errno = error; }

/* A program asks the C library for x86-64 first whether the processor has what it was compiled for. */
const void *__x86_get_cpuid_feature_leaf(unsigned leaf) {
    static unsigned all[8];
    (void)leaf;
    memset(all, 255, sizeof all);
    return all;
}
