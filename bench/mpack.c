/* libmpack's tokenizer, for the benchmark: it builds nothing, and does not count what a list has. */
#include <mpack.h>

/* Tells every token of a document; gives 1 if the last was whole. */
int libmpack_tokens(const char *document, size_t size) {
    mpack_tokbuf_t state = MPACK_TOKBUF_INITIAL_VALUE;
    mpack_token_t token;
    while (size > 0)
        if (mpack_read(&state, &document, &size, &token) != MPACK_OK)
            return 0;
    return state.passthrough == 0;
}
