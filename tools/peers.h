/*
 * The two wraps by OpenSSL and by nettle, for the checks and the measurements in this folder. With NO_NETTLE defined, by OpenSSL
 * alone. Sealings write 40 (kind 1) or 48 (kind 2) bytes; each call sets up its key.
 */
#ifndef PEERS_H
#define PEERS_H

#include <openssl/evp.h>
#include <stdbool.h>
#include <stdint.h>
#include <string.h>

#ifndef NO_NETTLE
#include <nettle/aes.h>
#include <nettle/cmac.h>
#include <nettle/ctr.h>
#include <nettle/memops.h>
#include <nettle/nist-keywrap.h>
#include <nettle/siv-cmac.h>
#endif

static EVP_CIPHER *openssl_wrap, *openssl_siv;

/* Whether OpenSSL has both ciphers. */
static inline bool openssl_start(void)
{
    openssl_wrap = EVP_CIPHER_fetch(NULL, "AES-256-WRAP", NULL);
    openssl_siv = EVP_CIPHER_fetch(NULL, "AES-128-SIV", NULL);
    return openssl_wrap != NULL && openssl_siv != NULL;
}

static inline EVP_CIPHER_CTX *openssl_context(void)
{
    EVP_CIPHER_CTX *context = EVP_CIPHER_CTX_new();
    if (context != NULL)
        EVP_CIPHER_CTX_set_flags(context, EVP_CIPHER_CTX_FLAG_WRAP_ALLOW);
    return context;
}

static inline bool openssl_seal(EVP_CIPHER_CTX *context, uint8_t kind, const uint8_t *key, const uint8_t *name,
                                const uint8_t *content, uint8_t *sealed)
{
    int n = 0;
    if (kind == 1)
        return EVP_EncryptInit_ex2(context, openssl_wrap, key, NULL, NULL) == 1
            && EVP_EncryptUpdate(context, sealed, &n, content, 32) == 1 && n == 40;
    return EVP_EncryptInit_ex2(context, openssl_siv, key, NULL, NULL) == 1
        && EVP_EncryptUpdate(context, NULL, &n, name, 10) == 1
        && EVP_EncryptUpdate(context, sealed + 16, &n, content, 32) == 1 && n == 32
        && EVP_CIPHER_CTX_ctrl(context, EVP_CTRL_AEAD_GET_TAG, 16, sealed) == 1;
}

/* Whether the sealed bytes open; only then `content` is of use. */
static inline bool openssl_open(EVP_CIPHER_CTX *context, uint8_t kind, const uint8_t *key, const uint8_t *name,
                                const uint8_t *sealed, uint8_t *content)
{
    int n = 0;
    uint8_t place[64];
    bool opened;
    if (kind == 1)
        opened = EVP_DecryptInit_ex2(context, openssl_wrap, key, NULL, NULL) == 1
            && EVP_DecryptUpdate(context, place, &n, sealed, 40) == 1 && n == 32;
    else
        opened = EVP_DecryptInit_ex2(context, openssl_siv, key, NULL, NULL) == 1
            && EVP_CIPHER_CTX_ctrl(context, EVP_CTRL_AEAD_SET_TAG, 16, (void *)(uintptr_t)sealed) == 1
            && EVP_DecryptUpdate(context, NULL, &n, name, 10) == 1
            && EVP_DecryptUpdate(context, place, &n, sealed + 16, 32) == 1 && n == 32;
    if (opened)
        memcpy(content, place, 32);
    return opened;
}

#ifndef NO_NETTLE

static const uint8_t nettle_initial[8] = {0xa6, 0xa6, 0xa6, 0xa6, 0xa6, 0xa6, 0xa6, 0xa6};

/* In the field of CMAC, highest bit first. */
static inline void doubled(uint8_t block[16])
{
    unsigned carry = block[0] >> 7;
    for (int i = 0; i < 15; i++)
        block[i] = (uint8_t)(block[i] << 1 | block[i + 1] >> 7);
    block[15] = (uint8_t)(block[15] << 1 ^ (carry ? 0x87 : 0));
}

static inline void xored(uint8_t block[16], const uint8_t other[16])
{
    for (int i = 0; i < 16; i++)
        block[i] ^= other[i];
}

/* S2V of one string, the name, and the content. */
static inline void nettle_s2v(const uint8_t *key, const uint8_t *name, const uint8_t *content, uint8_t v[16])
{
    struct cmac_aes128_ctx mac;
    uint8_t sum[16] = {0}, part[16], text[32];
    cmac_aes128_set_key(&mac, key);
    cmac_aes128_update(&mac, 16, sum);
    cmac_aes128_digest(&mac, 16, sum);
    doubled(sum);
    cmac_aes128_update(&mac, 10, name);
    cmac_aes128_digest(&mac, 16, part);
    xored(sum, part);
    memcpy(text, content, 32);
    xored(text + 16, sum);
    cmac_aes128_update(&mac, 32, text);
    cmac_aes128_digest(&mac, 16, v);
}

static inline void nettle_counter(const uint8_t *key, const uint8_t v[16], const uint8_t *from, uint8_t *to)
{
    struct aes128_ctx cipher;
    uint8_t counter[16];
    memcpy(counter, v, 16);
    counter[8] &= 0x7f;
    counter[12] &= 0x7f;
    aes128_set_encrypt_key(&cipher, key);
    ctr_crypt(&cipher, (nettle_cipher_func *)aes128_encrypt, 16, counter, 32, to, from);
}

/*
 * By nettle. Its own AES-SIV takes a string of data and a nonce, so it has always two associated strings and makes other bytes than
 * kind 2, which has one. So kind 2 is put together from its AES-CMAC and its counter mode.
 */
static inline void nettle_seal(uint8_t kind, const uint8_t *key, const uint8_t *name, const uint8_t *content, uint8_t *sealed)
{
    if (kind == 1) {
        struct aes256_ctx cipher;
        aes256_set_encrypt_key(&cipher, key);
        nist_keywrap16(&cipher, (nettle_cipher_func *)aes256_encrypt, nettle_initial, 40, sealed, content);
    } else {
        nettle_s2v(key, name, content, sealed);
        nettle_counter(key + 16, sealed, content, sealed + 16);
    }
}

static inline bool nettle_open(uint8_t kind, const uint8_t *key, const uint8_t *name, const uint8_t *sealed, uint8_t *content)
{
    if (kind == 1) {
        struct aes256_ctx cipher;
        aes256_set_decrypt_key(&cipher, key);
        return nist_keyunwrap16(&cipher, (nettle_cipher_func *)aes256_decrypt, nettle_initial, 32, content, sealed) == 1;
    }
    uint8_t v[16];
    nettle_counter(key + 16, sealed, sealed + 16, content);
    nettle_s2v(key, name, content, v);
    return memeql_sec(v, sealed, 16) == 1;
}

/* Its own AES-SIV, with an empty string and then the name: for the time that it takes. */
static inline void nettle_seal_two_strings(const uint8_t *key, const uint8_t *name, const uint8_t *content, uint8_t *sealed)
{
    struct siv_cmac_aes128_ctx siv;
    siv_cmac_aes128_set_key(&siv, key);
    siv_cmac_aes128_encrypt_message(&siv, 10, name, 0, NULL, 48, sealed, content);
}

static inline bool nettle_open_two_strings(const uint8_t *key, const uint8_t *name, const uint8_t *sealed, uint8_t *content)
{
    struct siv_cmac_aes128_ctx siv;
    siv_cmac_aes128_set_key(&siv, key);
    return siv_cmac_aes128_decrypt_message(&siv, 10, name, 0, NULL, 32, content, sealed) == 1;
}

#endif

#endif
