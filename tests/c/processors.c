/* Which of the two builds the calls take that read and write bytes. Those for x86-64-v3 return WIDE
 * here, and do nothing else. usage: processors wide|baseline */
#include "data_encoding.h"
#include <stdio.h>
#include <string.h>

enum { WIDE = 99 };

#define STUB(name) de_status de_wide_##name(void) { return WIDE; }
STUB(numbered_encode)
STUB(numbered_decode)
STUB(custom_encode)
STUB(custom_decode)
STUB(numbered_decoder_read)
STUB(custom_decoder_read)
STUB(numbered_encoder_read)
STUB(custom_encoder_read)

static de_status wanted;

static int failed;

static void takes(const char *name, de_status status) {
    if (status != wanted) {
        printf("%s: %d, and not %d\n", name, (int)status, (int)wanted);
        failed = 1;
    }
}

/* The fewest bytes of which the calls take another build. */
enum { LEN = 64 };

static char text[1024];
static unsigned char data[1024];
static unsigned char zeros[LEN];
static char digits[LEN];
static size_t len;

static void by_number(void) {
    de_decoded decoded;
    de_decoder decoder;
    de_encoder encoder;
    takes("de_encode", de_encode(DE_HEXLOWER, zeros, LEN, text, sizeof text, &len));
    takes("de_decode", de_decode(DE_HEXLOWER, digits, LEN, data, sizeof data, &decoded));
    (void)de_decoder_new(&decoder);
    takes("de_decoder_read",
          de_decoder_read(DE_HEXLOWER, &decoder, digits, LEN, data, sizeof data, &len));
    (void)de_encoder_new(&encoder);
    takes("de_encoder_read",
          de_encoder_read(DE_HEXLOWER, &encoder, zeros, LEN, text, sizeof text, &len));
}

static void by_encoding(void) {
    de_decoded decoded;
    de_decoder decoder;
    de_encoder encoder;
    de_encoding encoding;
    de_specification specification = DE_SPECIFICATION;
    specification.symbols = "01";
    specification.symbols_len = 2;
    if (de_encoding_new(&encoding, &specification, NULL) != DE_OK) {
        puts("no encoding");
        failed = 1;
        return;
    }
    takes("de_encoding_encode",
          de_encoding_encode(&encoding, zeros, LEN, text, sizeof text, &len));
    takes("de_encoding_decode",
          de_encoding_decode(&encoding, digits, LEN, data, sizeof data, &decoded));
    (void)de_decoder_new(&decoder);
    takes("de_encoding_decoder_read",
          de_encoding_decoder_read(&encoding, &decoder, digits, LEN, data, sizeof data, &len));
    (void)de_encoder_new(&encoder);
    takes("de_encoding_encoder_read",
          de_encoding_encoder_read(&encoding, &encoder, zeros, LEN, text, sizeof text, &len));
}

int main(int count, char **words) {
    wanted = count == 2 && strcmp(words[1], "wide") == 0 ? WIDE : DE_OK;
    memset(digits, '0', LEN);
    by_number();
    by_encoding();
    return failed;
}
