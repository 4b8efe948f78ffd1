/* msgpuck's check, for the benchmark: it goes over a document once and builds nothing. */
#include <msgpuck.h>

/* Gives 1 if the document was whole. */
int msgpuck_check(const char *document, size_t size) {
    const char *end = document + size;
    return mp_check(&document, end) == 0 && document == end;
}
