/* msgpack-c's decoding and encoding, for the benchmark. */
#include <msgpack.h>

/* Decodes a document and frees it; gives 1 if it was whole. */
int msgpack_decode(const char *document, size_t size) {
    msgpack_unpacked decoded;
    msgpack_unpacked_init(&decoded);
    int whole = msgpack_unpack_next(&decoded, document, size, NULL) == MSGPACK_UNPACK_SUCCESS;
    msgpack_unpacked_destroy(&decoded);
    return whole;
}

/* What is encoded again and again, and the buffer for it. */
static msgpack_unpacked kept;
static msgpack_sbuffer buffer;

/* Decodes a document and keeps it; gives 1 if it was whole. */
int msgpack_keep(const char *document, size_t size) {
    msgpack_unpacked_init(&kept);
    msgpack_sbuffer_init(&buffer);
    return msgpack_unpack_next(&kept, document, size, NULL) == MSGPACK_UNPACK_SUCCESS;
}

/* Encodes what is kept; gives its length. */
size_t msgpack_encode(void) {
    msgpack_packer packer;
    msgpack_sbuffer_clear(&buffer);
    msgpack_packer_init(&packer, &buffer, msgpack_sbuffer_write);
    return msgpack_pack_object(&packer, kept.data) == 0 ? buffer.size : 0;
}

void msgpack_forget(void) {
    msgpack_unpacked_destroy(&kept);
    msgpack_sbuffer_destroy(&buffer);
}
