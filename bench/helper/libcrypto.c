/* Signatures by libcrypto, as bench/helper/measure.py takes them beside the helpers: `libcrypto FILE HASH WHAT COUNT` reads a
   private key from a file (DER), and signs a message or verifies its signature so often. WHAT is `sign` or `verify`, by a key
   that is kept; `sign-anew` and `verify-anew` (Ed25519 alone) make the key from its bytes for each, with its public half, as a
   helper has to. HASH is libcrypto's name of one, or `-` where the algorithm has its own. Prints the processor time of one in
   nanoseconds. The functions are declared here, so that no package with headers is needed. */
#include <stddef.h>
#include <stdio.h>
#include <stdlib.h>
#include <string.h>
#include <time.h>

typedef struct evp_pkey_st EVP_PKEY;
typedef struct evp_md_st EVP_MD;
typedef struct evp_md_ctx_st EVP_MD_CTX;
EVP_PKEY *d2i_AutoPrivateKey(EVP_PKEY **, const unsigned char **, long);
EVP_PKEY *EVP_PKEY_new_raw_private_key(int, void *, const unsigned char *, size_t);
EVP_PKEY *EVP_PKEY_new_raw_public_key(int, void *, const unsigned char *, size_t);
int EVP_PKEY_get_raw_private_key(const EVP_PKEY *, unsigned char *, size_t *);
int EVP_PKEY_get_raw_public_key(const EVP_PKEY *, unsigned char *, size_t *);
void EVP_PKEY_free(EVP_PKEY *);
const EVP_MD *EVP_get_digestbyname(const char *);
EVP_MD_CTX *EVP_MD_CTX_new(void);
void EVP_MD_CTX_free(EVP_MD_CTX *);
int EVP_DigestSignInit(EVP_MD_CTX *, void *, const EVP_MD *, void *, EVP_PKEY *);
int EVP_DigestSign(EVP_MD_CTX *, unsigned char *, size_t *, const unsigned char *, size_t);
int EVP_DigestVerifyInit(EVP_MD_CTX *, void *, const EVP_MD *, void *, EVP_PKEY *);
int EVP_DigestVerify(EVP_MD_CTX *, const unsigned char *, size_t, const unsigned char *, size_t);

enum { ED25519 = 1087, MESSAGE = 200, HALF = 32 };

static EVP_PKEY *key;
static const EVP_MD *hash;
static unsigned char private[HALF], public[HALF], message[MESSAGE], signature[2048];
static size_t length;

static void need(int holds, const char *what)
{
    if (holds)
        return;
    fprintf(stderr, "libcrypto: no %s\n", what);
    exit(1);
}

static void sign_by(EVP_PKEY *by)
{
    EVP_MD_CTX *context = EVP_MD_CTX_new();
    length = sizeof signature;
    need(EVP_DigestSignInit(context, NULL, hash, NULL, by) == 1 &&
             EVP_DigestSign(context, signature, &length, message, sizeof message) == 1,
         "signature");
    EVP_MD_CTX_free(context);
}

static void verify_by(EVP_PKEY *by)
{
    EVP_MD_CTX *context = EVP_MD_CTX_new();
    need(EVP_DigestVerifyInit(context, NULL, hash, NULL, by) == 1 &&
             EVP_DigestVerify(context, signature, length, message, sizeof message) == 1,
         "right signature");
    EVP_MD_CTX_free(context);
}

static void make(void)
{
    sign_by(key);
}

static void test(void)
{
    verify_by(key);
}

static void make_anew(void)
{
    EVP_PKEY *made = EVP_PKEY_new_raw_private_key(ED25519, NULL, private, HALF);
    size_t half = HALF;
    need(made && EVP_PKEY_get_raw_public_key(made, public, &half) == 1, "key");
    sign_by(made);
    EVP_PKEY_free(made);
}

static void test_anew(void)
{
    EVP_PKEY *made = EVP_PKEY_new_raw_public_key(ED25519, NULL, public, HALF);
    need(made != NULL, "key");
    verify_by(made);
    EVP_PKEY_free(made);
}

static void read_key(const char *path)
{
    static unsigned char text[16384];
    const unsigned char *place = text;
    FILE *file = fopen(path, "rb");
    need(file != NULL, "file");
    size_t size = fread(text, 1, sizeof text, file), half = HALF;
    fclose(file);
    key = d2i_AutoPrivateKey(NULL, &place, (long)size);
    need(key != NULL, "key");
    if (EVP_PKEY_get_raw_private_key(key, private, &half) == 1)
        EVP_PKEY_get_raw_public_key(key, public, &half);
}

static double spent(void)
{
    struct timespec now;
    clock_gettime(CLOCK_PROCESS_CPUTIME_ID, &now);
    return now.tv_sec * 1e9 + now.tv_nsec;
}

int main(int argc, char **argv)
{
    static const struct {
        const char *word;
        void (*call)(void);
    } calls[] = {{"sign", make}, {"verify", test}, {"sign-anew", make_anew}, {"verify-anew", test_anew}};
    void (*call)(void) = NULL;
    if (argc != 5)
        return 2;
    read_key(argv[1]);
    hash = strcmp(argv[2], "-") ? EVP_get_digestbyname(argv[2]) : NULL;
    need(hash || !strcmp(argv[2], "-"), "hash");
    for (size_t i = 0; i < sizeof calls / sizeof *calls; i++)
        if (!strcmp(argv[3], calls[i].word))
            call = calls[i].call;
    if (!call)
        return 2;
    int count = atoi(argv[4]);
    make();
    double begin = spent();
    for (int i = 0; i < count; i++)
        call();
    printf("%.0f\n", count ? (spent() - begin) / count : 0.0);
    return 0;
}
