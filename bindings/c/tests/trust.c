/*
 * What a file says of itself. The files are images of PE32 that have only headers, written byte by byte from the format; the digests are
 * those that Python's hashlib has of the bytes that a signature signs.
 */
#include "check.h"

static bytes v1;

static int is_finding(petool_fault it, uint16_t number, uint64_t offset)
{
    return it.number == number && it.place == PETOOL_PLACE_FILE && it.image == 0 && it.at == offset;
}

/* CheckSum is at 0x98, and directory 4 of 5 at 0xd8; the headers end at 0xe0. */
enum { HEAD = 0xe0, SIGNATURE = 144, DIGEST = 61, TABLE = 176, WHOLE = HEAD + TABLE };

/* A signature of a SHA-256 digest that is zeros, with a certificate of serial number 0x1234, by CA for Me. */
static const uint8_t SIGNED[SIGNATURE] = {
    0x30, 0x82, 0x00, 0x8c, 0x06, 0x09, 0x2a, 0x86, 0x48, 0x86, 0xf7, 0x0d, 0x01, 0x07, 0x02, 0xa0,
    0x7f, 0x30, 0x7d, 0x02, 0x01, 0x01, 0x31, 0x00, 0x30, 0x43, 0x06, 0x0a, 0x2b, 0x06, 0x01, 0x04,
    0x01, 0x82, 0x37, 0x02, 0x01, 0x04, 0xa0, 0x35, 0x30, 0x33, 0x30, 0x00, 0x30, 0x2f, 0x30, 0x0b,
    0x06, 0x09, 0x60, 0x86, 0x48, 0x01, 0x65, 0x03, 0x04, 0x02, 0x01, 0x04, 0x20, 0x00, 0x00, 0x00,
    0x00, 0x00, 0x00, 0x00, 0x00, 0x00, 0x00, 0x00, 0x00, 0x00, 0x00, 0x00, 0x00, 0x00, 0x00, 0x00,
    0x00, 0x00, 0x00, 0x00, 0x00, 0x00, 0x00, 0x00, 0x00, 0x00, 0x00, 0x00, 0x00, 0xa0, 0x31, 0x30,
    0x2f, 0x30, 0x2d, 0xa0, 0x03, 0x02, 0x01, 0x02, 0x02, 0x02, 0x12, 0x34, 0x30, 0x00, 0x30, 0x0d,
    0x31, 0x0b, 0x30, 0x09, 0x06, 0x03, 0x55, 0x04, 0x03, 0x0c, 0x02, 0x43, 0x41, 0x30, 0x00, 0x30,
    0x0d, 0x31, 0x0b, 0x30, 0x09, 0x06, 0x03, 0x55, 0x04, 0x03, 0x0c, 0x02, 0x4d, 0x65, 0x30, 0x00,
};

/* What is to be signed of the file below. */
static const uint8_t OWN[32] = {
    0xc4, 0xca, 0x01, 0x9e, 0xc5, 0xc2, 0xf4, 0x32, 0x27, 0xbf, 0x98, 0x78, 0x39, 0xd7, 0x89, 0x5f,
    0x66, 0x8e, 0x1b, 0xf0, 0x79, 0xeb, 0x4c, 0xbc, 0xfa, 0xb0, 0x9e, 0x9f, 0x47, 0x46, 0x75, 0x27,
};

/* The headers of an image; a table of an entry of type 1 with the bytes AB, of the signature, and of an empty entry of type 2. */
static bytes signed_file(const uint8_t *digest)
{
    bytes file = {(uint8_t *)calloc(WHOLE, 1), WHOLE};
    uint8_t *table = file.at + HEAD;
    if (file.at == NULL)
        exit(3);
    memcpy(file.at, "MZ", 2);
    file.at[0x3c] = 0x40;
    memcpy(file.at + 0x40, "PE\0\0\x4c\x01", 6);
    memcpy(file.at + 0x54, "\x88\0\x02\x21\x0b\x01", 6);
    memcpy(file.at + 0x77, "\x10\0\x10", 3);
    file.at[0x7d] = 2, file.at[0x91] = 0x10, file.at[0x94] = HEAD, file.at[0xb4] = 5;
    put_number(file.at + 0xd8, HEAD);
    put_number(file.at + 0xdc, TABLE);
    memcpy(table, "\x0a\0\0\0\0\x02\x01\0AB", 10);
    put_number(table + 16, 8 + SIGNATURE);
    memcpy(table + 20, "\0\x02\x02\0", 4);
    memcpy(table + 24, SIGNED, SIGNATURE);
    if (digest != NULL)
        memcpy(table + 24 + DIGEST, digest, 32);
    memcpy(table + TABLE - 8, "\x08\0\0\0\0\x02\x02\0", 8);
    return file;
}

static void check_check_sum(void)
{
    bytes file = signed_file(NULL);
    petool_check_sums sum = {7, 8};
    petool_overlay_range overlay = {7, 8, 9};
    petool_fault fault = UNTOLD;
    put_number(file.at + 0x98, 0x44434241);
    CHECK(petool_check_sum(file.at, file.len, &sum, &fault) == PETOOL_OK && is_untold(fault));
    CHECK(sum.written == 0x44434241 && sum.computed == 18040);
    CHECK(petool_check_sum(NULL, 1, &sum, &fault) == PETOOL_ARGUMENT && sum.computed == 18040);
    CHECK(petool_check_sum(file.at, 63, &sum, &fault) == PETOOL_FAULT && fault.number == 2 && sum.written == 0x44434241);

    fault = UNTOLD;
    CHECK(petool_overlay(file.at, file.len, &overlay, &fault) == PETOOL_OK && is_untold(fault));
    CHECK(overlay.offset == HEAD && overlay.size == TABLE && overlay.kind == PETOOL_OVERLAY_CERTIFICATES);
    CHECK(petool_overlay(file.at, HEAD, &overlay, &fault) == PETOOL_OK && overlay.offset == HEAD && overlay.size == 0);
    CHECK(overlay.kind == PETOOL_OVERLAY_NONE);
    CHECK(petool_overlay(file.at, HEAD - 1, &overlay, &fault) == PETOOL_FAULT && fault.number == 8 && overlay.offset == HEAD);
    CHECK(petool_overlay(NULL, 1, &overlay, &fault) == PETOOL_ARGUMENT && overlay.offset == HEAD);
    free(file.at);
}

static void check_certificates(void)
{
    bytes file = signed_file(NULL);
    petool_certificate rows[4];
    petool_fault fault = UNTOLD;
    size_t count = 99;
    petool_certificates_init(rows, 4);
    CHECK(rows[3].offset == 0 && rows[3].bytes.len == 0 && rows[3].length == 0 && rows[3].revision == 0 && rows[3].kind == 0);
    rows[3].length = 7;
    CHECK(petool_certificates(file.at, file.len, rows, 4, &count, &fault) == PETOOL_OK && count == 3 && is_untold(fault));
    CHECK(rows[0].offset == HEAD && rows[0].length == 10 && rows[0].revision == 0x200 && rows[0].kind == 1);
    CHECK(rows[0].bytes.at == file.at + HEAD + 8 && is_text(rows[0].bytes, "AB", 2));
    CHECK(rows[1].offset == HEAD + 16 && rows[1].length == 8 + SIGNATURE && rows[1].kind == 2);
    CHECK(rows[1].bytes.at == file.at + HEAD + 24 && rows[1].bytes.len == SIGNATURE);
    CHECK(rows[2].offset == HEAD + TABLE - 8 && rows[2].bytes.len == 0 && rows[3].length == 7);

    petool_certificates_init(rows, 4);
    CHECK(petool_certificates(file.at, file.len, rows, 1, &count, &fault) == PETOOL_SMALL && count == 3);
    CHECK(rows[0].length == 10 && rows[1].length == 0);
    CHECK(petool_certificates(file.at, file.len, NULL, 0, &count, &fault) == PETOOL_SMALL && count == 3);
    CHECK(petool_certificates(file.at, file.len, NULL, 1, &count, &fault) == PETOOL_ARGUMENT);
    CHECK(petool_certificates(v1.at, v1.len, rows, 4, &count, &fault) == PETOOL_OK && count == 0 && is_untold(fault));
    count = 99;
    CHECK(petool_certificates(file.at, 63, rows, 4, &count, &fault) == PETOOL_FAULT && fault.number == 2 && count == 99);
    CHECK(rows[0].length == 10 && rows[1].length == 0);
    free(file.at);
}

static void check_signatures(void)
{
    bytes file = signed_file(NULL), fitting = signed_file(OWN);
    petool_signature rows[3];
    petool_fault fault = UNTOLD;
    size_t count = 99;
    petool_signatures_init(rows, 3);
    CHECK(rows[2].offset == 0 && rows[2].bytes.len == 0 && rows[2].digest.len == 0 && rows[2].algorithm == 0 && rows[2].fits == 0);
    rows[2].fits = 7;
    CHECK(petool_authenticode(file.at, file.len, rows, 3, &count, &fault) == PETOOL_OK && count == 2 && is_untold(fault));
    CHECK(rows[0].offset == HEAD + 16 && rows[0].bytes.at == file.at + HEAD + 24 && rows[0].bytes.len == SIGNATURE);
    CHECK(rows[0].digest.at == rows[0].bytes.at + DIGEST && rows[0].digest.len == 32);
    CHECK(rows[0].algorithm == PETOOL_DIGEST_SHA256 && rows[0].fits == PETOOL_FIT_NO);
    CHECK(rows[1].offset == HEAD + TABLE - 8 && rows[1].bytes.len == 0 && rows[1].digest.len == 0);
    CHECK(rows[1].algorithm == PETOOL_DIGEST_NONE && rows[1].fits == PETOOL_FIT_UNKNOWN && rows[2].fits == 7);
    CHECK(petool_authenticode(fitting.at, fitting.len, rows, 3, &count, &fault) == PETOOL_OK && count == 2);
    CHECK(rows[0].fits == PETOOL_FIT_YES && is_text(rows[0].digest, (const char *)OWN, 32));
    /* of an algorithm that is not computed: SHA-224 */
    fitting.at[HEAD + 24 + DIGEST - 3] = 4;
    CHECK(petool_authenticode(fitting.at, fitting.len, rows, 3, &count, &fault) == PETOOL_OK);
    CHECK(rows[0].algorithm == PETOOL_DIGEST_OTHER && rows[0].fits == PETOOL_FIT_UNKNOWN && rows[0].digest.len == 32);

    petool_signatures_init(rows, 3);
    CHECK(petool_authenticode(file.at, file.len, rows, 1, &count, &fault) == PETOOL_SMALL && count == 2);
    CHECK(rows[0].algorithm == PETOOL_DIGEST_SHA256 && rows[1].offset == 0);
    CHECK(petool_authenticode(file.at, file.len, NULL, 0, &count, &fault) == PETOOL_SMALL && count == 2);
    CHECK(petool_authenticode(file.at, file.len, NULL, 1, &count, &fault) == PETOOL_ARGUMENT);
    CHECK(petool_authenticode(v1.at, v1.len, rows, 3, &count, &fault) == PETOOL_OK && count == 0 && is_untold(fault));
    count = 99;
    CHECK(petool_authenticode(file.at, 63, rows, 3, &count, &fault) == PETOOL_FAULT && count == 99 && rows[1].offset == 0);
    free(file.at), free(fitting.at);
}

static void check_digests(void)
{
    static const uint8_t SHA1[20] = {
    0xc2, 0x96, 0xbf, 0x13, 0x09, 0x99, 0x76, 0x18, 0x00, 0x71, 0x11, 0x5d, 0x1c, 0x28, 0xa3, 0x3b,
    0x93, 0x08, 0xff, 0x53,
    };
    bytes file = signed_file(NULL);
    petool_digest digest = {{0}, 0}, kept;
    petool_fault fault = UNTOLD;
    CHECK(petool_authenticode_digest(file.at, file.len, PETOOL_DIGEST_SHA256, &digest, &fault) == PETOOL_OK && is_untold(fault));
    CHECK(digest.len == 32 && memcmp(digest.bytes, OWN, 32) == 0 && digest.bytes[32] == 0 && digest.bytes[63] == 0);
    CHECK(petool_authenticode_digest(file.at, file.len, PETOOL_DIGEST_SHA384, &digest, &fault) == PETOOL_OK && digest.len == 48);
    CHECK(petool_authenticode_digest(file.at, file.len, PETOOL_DIGEST_SHA512, &digest, &fault) == PETOOL_OK && digest.len == 64);
    CHECK(petool_authenticode_digest(file.at, file.len, PETOOL_DIGEST_SHA1, &digest, &fault) == PETOOL_OK && digest.len == 20);
    CHECK(memcmp(digest.bytes, SHA1, 20) == 0 && digest.bytes[20] == 0 && digest.bytes[63] == 0);

    /* no such algorithm, a refused file, and a table that passes the file leave it unchanged */
    kept = digest;
    CHECK(petool_authenticode_digest(file.at, file.len, PETOOL_DIGEST_NONE, &digest, &fault) == PETOOL_ARGUMENT);
    CHECK(petool_authenticode_digest(file.at, 63, PETOOL_DIGEST_OTHER, &digest, &fault) == PETOOL_ARGUMENT && is_untold(fault));
    CHECK(petool_authenticode_digest(NULL, 1, PETOOL_DIGEST_SHA1, &digest, &fault) == PETOOL_ARGUMENT);
    CHECK(petool_authenticode_digest(file.at, 63, PETOOL_DIGEST_SHA256, &digest, &fault) == PETOOL_FAULT && fault.number == 2);
    CHECK(petool_authenticode_digest(file.at, WHOLE - 1, PETOOL_DIGEST_SHA256, &digest, &fault) == PETOOL_ABSENT);
    CHECK(memcmp(&digest, &kept, sizeof kept) == 0);
    free(file.at);
}

static void check_signers(void)
{
    petool_signer rows[2];
    size_t count = 99;
    petool_signers_init(rows, 2);
    CHECK(rows[1].serial.len == 0 && rows[1].issuer.len == 0 && rows[1].subject.len == 0);
    CHECK(rows[1].issuer_name.len == 0 && rows[1].subject_name.len == 0);
    rows[1].serial.len = 7;
    CHECK(petool_signers(SIGNED, SIGNATURE, rows, 2, &count) == PETOOL_OK && count == 1 && rows[1].serial.len == 7);
    CHECK(rows[0].serial.at == SIGNED + 106 && is_text(rows[0].serial, "\x12\x34", 2));
    CHECK(rows[0].issuer_name.at == SIGNED + 123 && is_text(rows[0].issuer_name, "CA", 2));
    CHECK(rows[0].subject_name.at == SIGNED + 140 && is_text(rows[0].subject_name, "Me", 2));
    CHECK(rows[0].issuer.at == SIGNED + 112 && rows[0].issuer.len == 13);
    CHECK(rows[0].subject.at + rows[0].subject.len == SIGNED + 142 && rows[0].subject.len == 13);
    petool_signers_init(rows, 2);
    CHECK(petool_signers(SIGNED, SIGNATURE, rows, 0, &count) == PETOOL_SMALL && count == 1 && rows[0].serial.len == 0);
    CHECK(petool_signers(SIGNED, SIGNATURE, NULL, 0, &count) == PETOOL_SMALL && count == 1);
    CHECK(petool_signers(SIGNED, SIGNATURE, NULL, 1, &count) == PETOOL_ARGUMENT);
    CHECK(petool_signers(NULL, 1, rows, 1, &count) == PETOOL_ARGUMENT);
    CHECK(petool_signers(NULL, 0, rows, 1, &count) == PETOOL_OK && count == 0);
    /* of one that is cut, none can be read */
    CHECK(petool_signers(SIGNED, SIGNATURE - 1, rows, 2, &count) == PETOOL_OK && count == 0);
}

/* An image with a Rich header of two pairs at 0x40, whose key is right, before its signature at 0x80. */
static const uint8_t RICH[248] = {
    0x4d, 0x5a, 0x00, 0x00, 0x00, 0x00, 0x00, 0x00, 0x00, 0x00, 0x00, 0x00, 0x00, 0x00, 0x00, 0x00,
    0x00, 0x00, 0x00, 0x00, 0x00, 0x00, 0x00, 0x00, 0x00, 0x00, 0x00, 0x00, 0x00, 0x00, 0x00, 0x00,
    0x00, 0x00, 0x00, 0x00, 0x00, 0x00, 0x00, 0x00, 0x00, 0x00, 0x00, 0x00, 0x00, 0x00, 0x00, 0x00,
    0x00, 0x00, 0x00, 0x00, 0x00, 0x00, 0x00, 0x00, 0x00, 0x00, 0x00, 0x00, 0x80, 0x00, 0x00, 0x00,
    0xd3, 0xda, 0xd7, 0xfd, 0x97, 0xbb, 0xb9, 0xae, 0x97, 0xbb, 0xb9, 0xae, 0x97, 0xbb, 0xb9, 0xae,
    0x83, 0xd0, 0xbc, 0xaf, 0x9a, 0xbb, 0xb9, 0xae, 0x8c, 0x26, 0x12, 0xae, 0x96, 0xbb, 0xb9, 0xae,
    0x52, 0x69, 0x63, 0x68, 0x97, 0xbb, 0xb9, 0xae, 0x00, 0x00, 0x00, 0x00, 0x00, 0x00, 0x00, 0x00,
    0x00, 0x00, 0x00, 0x00, 0x00, 0x00, 0x00, 0x00, 0x00, 0x00, 0x00, 0x00, 0x00, 0x00, 0x00, 0x00,
    0x50, 0x45, 0x00, 0x00, 0x4c, 0x01, 0x00, 0x00, 0x00, 0x00, 0x00, 0x00, 0x00, 0x00, 0x00, 0x00,
    0x00, 0x00, 0x00, 0x00, 0x60, 0x00, 0x02, 0x21, 0x0b, 0x01, 0x00, 0x00, 0x00, 0x00, 0x00, 0x00,
    0x00, 0x00, 0x00, 0x00, 0x00, 0x00, 0x00, 0x00, 0x00, 0x00, 0x00, 0x00, 0x00, 0x00, 0x00, 0x00,
    0x00, 0x00, 0x00, 0x00, 0x00, 0x00, 0x00, 0x10, 0x00, 0x10, 0x00, 0x00, 0x00, 0x02, 0x00, 0x00,
    0x00, 0x00, 0x00, 0x00, 0x00, 0x00, 0x00, 0x00, 0x00, 0x00, 0x00, 0x00, 0x00, 0x00, 0x00, 0x00,
    0x00, 0x10, 0x00, 0x00, 0xf8, 0x00, 0x00, 0x00, 0x00, 0x00, 0x00, 0x00, 0x00, 0x00, 0x00, 0x00,
    0x00, 0x00, 0x00, 0x00, 0x00, 0x00, 0x00, 0x00, 0x00, 0x00, 0x00, 0x00, 0x00, 0x00, 0x00, 0x00,
    0x00, 0x00, 0x00, 0x00, 0x00, 0x00, 0x00, 0x00,
};

static void check_rich(void)
{
    bytes other = {(uint8_t *)malloc(sizeof RICH), sizeof RICH};
    petool_rich_header rich = {7, 8, 9};
    petool_rich_pair rows[3];
    petool_fault found[2], fault = UNTOLD;
    size_t count = 99;
    if (other.at == NULL)
        exit(3);
    memset(rows, 0x5a, sizeof rows);
    memset(found, 0x5a, sizeof found);
    CHECK(petool_rich(RICH, sizeof RICH, &rich, &fault) == PETOOL_OK && is_untold(fault));
    CHECK(rich.offset == 0x40 && rich.key == 0xaeb9bb97 && rich.computed == 0xaeb9bb97);
    CHECK(petool_rich_pairs(RICH, sizeof RICH, rows, 3, &count, &fault) == PETOOL_OK && count == 2 && is_untold(fault));
    CHECK(rows[0].product == 0x105 && rows[0].build == 27412 && rows[0].count == 13);
    CHECK(rows[1].product == 0xab && rows[1].build == 40219 && rows[1].count == 1 && rows[2].count == 0x5a5a5a5a);
    CHECK(petool_trust_findings(RICH, sizeof RICH, found, 2, &count, &fault) == PETOOL_OK && count == 0);

    memset(rows, 0x5a, sizeof rows);
    CHECK(petool_rich_pairs(RICH, sizeof RICH, rows, 1, &count, &fault) == PETOOL_SMALL && count == 2);
    CHECK(rows[0].count == 13 && rows[1].count == 0x5a5a5a5a);
    CHECK(petool_rich_pairs(RICH, sizeof RICH, NULL, 0, &count, &fault) == PETOOL_SMALL && count == 2);
    CHECK(petool_rich_pairs(RICH, sizeof RICH, NULL, 1, &count, &fault) == PETOOL_ARGUMENT);
    CHECK(petool_rich_pairs(v1.at, v1.len, rows, 3, &count, &fault) == PETOOL_OK && count == 0);
    count = 99;
    CHECK(petool_rich_pairs(RICH, 63, rows, 3, &count, &fault) == PETOOL_FAULT && count == 99 && rows[1].count == 0x5a5a5a5a);

    /* no DanS, which is finding 241 at Rich; no Rich header; and a refused file */
    fault = UNTOLD;
    memcpy(other.at, RICH, sizeof RICH);
    other.at[0x40] ^= 1;
    CHECK(petool_rich(other.at, other.len, &rich, &fault) == PETOOL_ABSENT && is_untold(fault));
    CHECK(petool_trust_findings(other.at, other.len, found, 2, &count, &fault) == PETOOL_OK && count == 1);
    CHECK(is_finding(found[0], 241, 0x60) && found[1].number == 0x5a5a);
    CHECK(petool_findings(other.at, other.len, found + 1, 1, &count, &fault) == PETOOL_OK && count == 1 && is_finding(found[1], 241, 0x60));
    CHECK(petool_rich(v1.at, v1.len, &rich, &fault) == PETOOL_ABSENT && is_untold(fault));
    CHECK(petool_rich(NULL, 1, &rich, &fault) == PETOOL_ARGUMENT);
    CHECK(petool_rich(RICH, 63, &rich, &fault) == PETOOL_FAULT && fault.number == 2);
    CHECK(rich.offset == 0x40 && rich.key == 0xaeb9bb97 && rich.computed == 0xaeb9bb97);
    free(other.at);
}

static void check_findings(void)
{
    bytes file = signed_file(NULL);
    petool_fault rows[6], fault = UNTOLD;
    petool_text subject = PETOOL_NONE, rule = PETOOL_NONE;
    size_t count = 99;
    /* a table that begins before the end of the headers, at no multiple of 8, and passes the file, so that there is no digest; an entry
       in it is not whole */
    put_number(file.at + 0xd8, HEAD - 4);
    put_number(file.at + 0xdc, 0xffffffff);
    memset(rows, 0x5a, sizeof rows);
    CHECK(petool_trust_findings(file.at, file.len, rows, 6, &count, &fault) == PETOOL_OK && count == 5 && is_untold(fault));
    CHECK(is_finding(rows[0], 221, 0xd8) && is_finding(rows[1], 222, HEAD - 4) && is_finding(rows[2], 223, 0xd8));
    CHECK(is_finding(rows[3], 224, 0xd8) && is_finding(rows[4], 225, 0xd8) && rows[5].number == 0x5a5a);
    memset(rows, 0x5a, sizeof rows);
    CHECK(petool_findings(file.at, file.len, rows, 6, &count, &fault) == PETOOL_OK && count == 5 && is_finding(rows[4], 225, 0xd8));
    CHECK(petool_fault_words(225, &subject, &rule) == PETOOL_OK && subject.len > 0 && rule.len > 0);
    memset(rows, 0x5a, sizeof rows);
    CHECK(petool_trust_findings(file.at, file.len, rows, 2, &count, &fault) == PETOOL_SMALL && count == 5);
    CHECK(is_finding(rows[1], 222, HEAD - 4) && rows[2].number == 0x5a5a);
    CHECK(petool_trust_findings(file.at, file.len, NULL, 0, &count, &fault) == PETOOL_SMALL && count == 5);
    CHECK(petool_trust_findings(file.at, file.len, NULL, 1, &count, &fault) == PETOOL_ARGUMENT);
    CHECK(petool_trust_findings(v1.at, v1.len, NULL, 0, &count, &fault) == PETOOL_OK && count == 0 && is_untold(fault));
    count = 99;
    CHECK(petool_trust_findings(file.at, 63, rows, 6, &count, &fault) == PETOOL_FAULT && fault.number == 2 && count == 99);
    CHECK(rows[2].number == 0x5a5a);
    free(file.at);
}

/* A file that petool_check refuses behind its headers says the same of itself. */
static void check_refused(void)
{
    bytes file = {v1.at, 520};
    petool_check_sums sum = {7, 8};
    petool_digest digest = {{0}, 0};
    petool_overlay_range overlay = {7, 8, 9};
    petool_fault found[2], fault = UNTOLD;
    size_t count = 99;
    CHECK(petool_check(file.at, file.len, &fault) == PETOOL_FAULT && fault.number == 13);
    fault = UNTOLD;
    CHECK(petool_findings(file.at, file.len, found, 2, &count, &fault) == PETOOL_FAULT && fault.number == 13 && count == 99);
    fault = UNTOLD;
    CHECK(petool_check_sum(file.at, file.len, &sum, &fault) == PETOOL_OK);
    CHECK(petool_authenticode_digest(file.at, file.len, PETOOL_DIGEST_SHA1, &digest, &fault) == PETOOL_ABSENT && digest.len == 0);
    CHECK(petool_authenticode_digest(v1.at, v1.len, PETOOL_DIGEST_SHA1, &digest, &fault) == PETOOL_OK && digest.len == 20);
    CHECK(petool_overlay(file.at, file.len, &overlay, &fault) == PETOOL_OK && overlay.offset == 0x400 && overlay.size == 0);
    CHECK(petool_trust_findings(file.at, file.len, found, 2, &count, &fault) == PETOOL_OK && count == 0 && is_untold(fault));
}

/* The hashes are pefile's: of `f` of A.DLL, and of ordinal 7 of S.DLL. */
static void check_import_hash(const char *folder)
{
    static const struct {
        const char *name;
        uint8_t hash[17];
    } images[] = {
        {"vd.dll", "\xf0\xae\x30\x62\x66\x74\xb4\xe4\x8c\x10\x5b\x7e\xbf\x69\xbd\x29"},
        {"vs.dll", "\x84\x4d\xc1\xb9\x56\xc3\x0d\xfd\x7c\x72\x7c\x5e\xdb\xc4\xbe\x84"},
    };
    petool_digest hash = {{9}, 7};
    petool_fault fault = UNTOLD;
    size_t k;
    CHECK(petool_import_hash(v1.at, v1.len, &hash, &fault) == PETOOL_ABSENT && hash.len == 7 && hash.bytes[0] == 9);
    CHECK(petool_import_hash(NULL, 1, &hash, &fault) == PETOOL_ARGUMENT && hash.len == 7 && is_untold(fault));
    for (k = 0; k < sizeof images / sizeof *images; k++) {
        bytes file = file_in(folder, images[k].name);
        size_t place;
        memset(hash.bytes, 0xff, 64);
        CHECK(petool_import_hash(file.at, file.len, &hash, &fault) == PETOOL_OK && is_untold(fault));
        CHECK(hash.len == 16 && memcmp(hash.bytes, images[k].hash, 16) == 0);
        for (place = 16; place < 64; place++)
            CHECK(hash.bytes[place] == 0);
        CHECK(petool_import_hash(file.at, 63, &hash, &fault) == PETOOL_FAULT && fault.number == 2 && hash.len == 16);
        fault = UNTOLD;
        free(file.at);
    }
}

int main(int argc, char **argv)
{
    if (argc != 2)
        return 2;
    v1 = file_in(argv[1], "v1.dll");
    check_check_sum();
    check_certificates();
    check_signatures();
    check_digests();
    check_signers();
    check_rich();
    check_findings();
    check_refused();
    check_import_hash(argv[1]);
    free(v1.at);
    return told();
}
