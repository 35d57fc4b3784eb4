// The speed of sealing and opening beside OpenSSL's and libsodium's, in one run.
//
// The three are measured in turn, so that a change in the machine's speed meets all of them. All work
// in place, on the same kind of buffer. Before anything is measured, all three have to agree.

#define _POSIX_C_SOURCE 200809L

#include <stdbool.h>
#include <stddef.h>
#include <stdint.h>
#include <stdio.h>
#include <stdlib.h>
#include <string.h>
#include <time.h>

#include <openssl/crypto.h>
#include <openssl/evp.h>
#include <sodium.h>

// The library under test. 1: sealed or opened in place; 0: refused, or does not open.
uint8_t basilwrench_seal(const uint8_t key[32], const uint8_t nonce[12], const uint8_t *marked,
                         size_t marked_len, uint8_t *text, size_t text_len, uint8_t tag[16]);
uint8_t basilwrench_open(const uint8_t key[32], const uint8_t nonce[12], const uint8_t *marked,
                         size_t marked_len, uint8_t *text, size_t text_len, const uint8_t tag[16]);

enum {
    KEY_LEN = 32,
    NONCE_LEN = 12,
    TAG_LEN = 16,
    MARKED_LEN = 12,
    ROUNDS = 15,
    ROUND_NS = 20 * 1000 * 1000,
    // The buffers of one batch: as many as fit in so many bytes, but at least 1.
    BATCH_BYTES = 16 * 1024,
    MOST_IN_BATCH = 64,
};

// What all calls share.
struct shared {
    uint8_t key[KEY_LEN];
    uint8_t nonce[NONCE_LEN];
    uint8_t marked[MARKED_LEN];
};

typedef bool seal_fn(const struct shared *s, uint8_t *text, size_t len, uint8_t tag[TAG_LEN]);
typedef bool open_fn(const struct shared *s, uint8_t *text, size_t len, const uint8_t tag[TAG_LEN]);

struct library {
    const char *name;
    seal_fn *seal;
    open_fn *open;
};

static bool ours_seal(const struct shared *s, uint8_t *text, size_t len, uint8_t tag[TAG_LEN])
{
    return basilwrench_seal(s->key, s->nonce, s->marked, MARKED_LEN, text, len, tag) == 1;
}

static bool ours_open(const struct shared *s, uint8_t *text, size_t len, const uint8_t tag[TAG_LEN])
{
    return basilwrench_open(s->key, s->nonce, s->marked, MARKED_LEN, text, len, tag) == 1;
}

// Made once and used for every call; each call sets its key and nonce.
static EVP_CIPHER_CTX *sealing;
static EVP_CIPHER_CTX *opening;

static bool openssl_start(void)
{
    sealing = EVP_CIPHER_CTX_new();
    opening = EVP_CIPHER_CTX_new();
    return sealing && opening
        && EVP_EncryptInit_ex(sealing, EVP_chacha20_poly1305(), NULL, NULL, NULL) == 1
        && EVP_DecryptInit_ex(opening, EVP_chacha20_poly1305(), NULL, NULL, NULL) == 1;
}

static bool openssl_seal(const struct shared *s, uint8_t *text, size_t len, uint8_t tag[TAG_LEN])
{
    int n;
    return EVP_EncryptInit_ex(sealing, NULL, NULL, s->key, s->nonce) == 1
        && EVP_EncryptUpdate(sealing, NULL, &n, s->marked, MARKED_LEN) == 1
        && EVP_EncryptUpdate(sealing, text, &n, text, (int)len) == 1
        && EVP_EncryptFinal_ex(sealing, text + len, &n) == 1
        && EVP_CIPHER_CTX_ctrl(sealing, EVP_CTRL_AEAD_GET_TAG, TAG_LEN, tag) == 1;
}

static bool openssl_open(const struct shared *s, uint8_t *text, size_t len,
                         const uint8_t tag[TAG_LEN])
{
    int n;
    return EVP_DecryptInit_ex(opening, NULL, NULL, s->key, s->nonce) == 1
        && EVP_CIPHER_CTX_ctrl(opening, EVP_CTRL_AEAD_SET_TAG, TAG_LEN, (void *)tag) == 1
        && EVP_DecryptUpdate(opening, NULL, &n, s->marked, MARKED_LEN) == 1
        && EVP_DecryptUpdate(opening, text, &n, text, (int)len) == 1
        && EVP_DecryptFinal_ex(opening, text + len, &n) == 1;
}

static bool sodium_seal(const struct shared *s, uint8_t *text, size_t len, uint8_t tag[TAG_LEN])
{
    return crypto_aead_chacha20poly1305_ietf_encrypt_detached(
               text, tag, NULL, text, len, s->marked, MARKED_LEN, NULL, s->nonce, s->key) == 0;
}

static bool sodium_open(const struct shared *s, uint8_t *text, size_t len,
                        const uint8_t tag[TAG_LEN])
{
    return crypto_aead_chacha20poly1305_ietf_decrypt_detached(
               text, NULL, text, len, tag, s->marked, MARKED_LEN, s->nonce, s->key) == 0;
}

static const struct library libraries[] = {
    {"ours", ours_seal, ours_open},
    {"OpenSSL", openssl_seal, openssl_open},
    {"libsodium", sodium_seal, sodium_open},
};
enum { LIBRARIES = sizeof libraries / sizeof libraries[0] };

static void fail(const char *library, const char *what, size_t len)
{
    fprintf(stderr, "bench: %s: %s (%zu bytes)\n", library, what, len);
    exit(1);
}

static uint8_t *room(size_t len)
{
    uint8_t *bytes = malloc(len + 1);
    if (!bytes)
        fail("malloc", "no room", len);
    return bytes;
}

// All three make the same sealed bytes and the same mark of a content of this length, open them
// again, and open them no more where one bit is off.
static void check_agreement(const struct shared *s, size_t len)
{
    uint8_t *content = room(len), *sealed = room(len), *text = room(len);
    uint8_t tag[TAG_LEN], other[TAG_LEN];

    randombytes_buf(content, len);
    memcpy(sealed, content, len);
    if (!openssl_seal(s, sealed, len, tag))
        fail("OpenSSL", "does not seal", len);
    for (size_t i = 0; i < LIBRARIES; i++) {
        const struct library *library = &libraries[i];
        memcpy(text, content, len);
        if (!library->seal(s, text, len, other))
            fail(library->name, "does not seal", len);
        if (memcmp(text, sealed, len) != 0 || memcmp(other, tag, TAG_LEN) != 0)
            fail(library->name, "seals to other bytes than OpenSSL", len);
        if (!library->open(s, text, len, tag) || memcmp(text, content, len) != 0)
            fail(library->name, "does not open what was sealed", len);
        memcpy(text, sealed, len);
        other[len % TAG_LEN] ^= 1;
        if (library->open(s, text, len, other))
            fail(library->name, "opens with a wrong mark", len);
        if (len > 0) {
            memcpy(text, sealed, len);
            text[len / 2] ^= 0x80;
            if (library->open(s, text, len, tag))
                fail(library->name, "opens changed bytes", len);
        }
    }
    free(content);
    free(sealed);
    free(text);
}

static int64_t now_ns(void)
{
    struct timespec t;
    clock_gettime(CLOCK_MONOTONIC, &t);
    return (int64_t)t.tv_sec * 1000000000 + t.tv_nsec;
}

// A batch of buffers that hold the same sealed bytes, and their mark.
struct batch {
    size_t len;
    size_t count;
    size_t stride;
    uint8_t *bytes;
    uint8_t *sealed;
    uint8_t tag[TAG_LEN];
};

static struct batch new_batch(const struct shared *s, size_t len)
{
    struct batch b = {.len = len, .count = BATCH_BYTES / len, .stride = (len + 63) / 64 * 64};
    if (b.count < 1)
        b.count = 1;
    if (b.count > MOST_IN_BATCH)
        b.count = MOST_IN_BATCH;
    b.bytes = aligned_alloc(64, b.count * b.stride);
    b.sealed = room(len);
    if (!b.bytes)
        fail("malloc", "no room", len);
    randombytes_buf(b.sealed, len);
    if (!openssl_seal(s, b.sealed, len, b.tag))
        fail("OpenSSL", "does not seal", len);
    return b;
}

// Puts the sealed bytes back; this is not measured.
static void refill(struct batch *b)
{
    for (size_t i = 0; i < b->count; i++)
        memcpy(b->bytes + i * b->stride, b->sealed, b->len);
}

// Nanoseconds of one pass over the batch.
static int64_t time_batch(const struct library *library, const struct shared *s, struct batch *b,
                          bool open)
{
    uint8_t tag[TAG_LEN];
    bool right = true;

    refill(b);
    int64_t start = now_ns();
    if (open) {
        for (size_t i = 0; i < b->count; i++)
            right &= library->open(s, b->bytes + i * b->stride, b->len, b->tag);
    } else {
        for (size_t i = 0; i < b->count; i++)
            right &= library->seal(s, b->bytes + i * b->stride, b->len, tag);
    }
    int64_t taken = now_ns() - start;
    if (!right)
        fail(library->name, "failed while it was measured", b->len);
    return taken;
}

// Nanoseconds per call over one round: passes over the batch until the round's time is used up.
static double time_round(const struct library *library, const struct shared *s, struct batch *b,
                         bool open)
{
    int64_t total = 0, calls = 0;
    time_batch(library, s, b, open);
    while (total < ROUND_NS) {
        total += time_batch(library, s, b, open);
        calls += (int64_t)b->count;
    }
    return (double)total / (double)calls;
}

// One line of the table: the best round of each, the three in turn.
static void measure(const struct shared *s, size_t len, bool open)
{
    double best[LIBRARIES];
    struct batch b = new_batch(s, len);

    for (int round = 0; round < ROUNDS; round++) {
        for (size_t i = 0; i < LIBRARIES; i++) {
            double ns = time_round(&libraries[i], s, &b, open);
            if (round == 0 || ns < best[i])
                best[i] = ns;
        }
    }
    printf("%-5s %8zu %13.1f %13.1f %13.1f %13.2f %15.2f\n", open ? "open" : "seal", len, best[0],
           best[1], best[2], best[1] / best[0], best[2] / best[0]);
    fflush(stdout);
    free(b.bytes);
    free(b.sealed);
}

int main(void)
{
    static const size_t sizes[] = {32, 4096, 1024 * 1024};
    enum { SIZES = sizeof sizes / sizeof sizes[0] };
    struct shared s;

    if (sodium_init() < 0 || !openssl_start()) {
        fprintf(stderr, "bench: a library does not start\n");
        return 1;
    }
    randombytes_buf(&s, sizeof s);
    for (size_t len = 0; len <= 600; len++)
        check_agreement(&s, len);
    for (size_t i = 0; i < SIZES; i++)
        check_agreement(&s, sizes[i]);

    printf("%s; libsodium %s\n", OpenSSL_version(OPENSSL_VERSION), sodium_version_string());
    printf("The three agree on every length to 600 and on those below.\n");
    printf("Nanoseconds per call, the best of %d rounds of about %d ms, with %d marked bytes;\n", ROUNDS,
           ROUND_NS / 1000000, MARKED_LEN);
    printf("then our speed as a share of theirs: 1.00 is as fast, 0.50 half as fast.\n\n");
    printf("%-5s %8s %13s %13s %13s %13s %15s\n", "", "bytes", "ours", "OpenSSL", "libsodium",
           "ours/OpenSSL", "ours/libsodium");
    for (int open = 0; open < 2; open++)
        for (size_t i = 0; i < SIZES; i++)
            measure(&s, sizes[i], open);
    return 0;
}
