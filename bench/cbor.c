/* libcbor's decoding and encoding, for the benchmark. */
#include <cbor.h>

/* Decodes a document and frees it; gives 1 if it was whole. */
int libcbor_decode(const unsigned char *document, size_t size) {
    struct cbor_load_result result;
    cbor_item_t *item = cbor_load(document, size, &result);
    if (item == NULL)
        return 0;
    cbor_decref(&item);
    return 1;
}

/* What is encoded again and again, and the buffer for it: no document of the benchmark is longer. */
static cbor_item_t *kept;
static unsigned char buffer[1 << 18];

/* Decodes a document and keeps it; gives 1 if it was whole. */
int libcbor_keep(const unsigned char *document, size_t size) {
    struct cbor_load_result result;
    kept = cbor_load(document, size, &result);
    return kept != NULL;
}

/* Encodes what is kept; gives its length. */
size_t libcbor_encode(void) {
    return cbor_serialize(kept, buffer, sizeof buffer);
}

void libcbor_forget(void) {
    cbor_decref(&kept);
}
