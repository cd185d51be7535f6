/* Encodes and decodes data by an encoding of its own, for comparisons/turns.
 *
 * usage: turns SYMBOLS most|least none|encode|decode: how far it goes. */
#include "data_encoding.h"
#include <string.h>

enum { SIZE = 61440 };

static unsigned char data[SIZE], back[SIZE];
static char text[8 * SIZE];

int main(int argc, char **argv) {
    de_specification specification = DE_SPECIFICATION;
    de_encoding encoding;
    de_decoded decoded;
    size_t len;

    if (argc != 4) return 2;
    specification.symbols = argv[1];
    specification.symbols_len = strlen(argv[1]);
    specification.least_significant_first = strcmp(argv[2], "least") == 0;
    if (de_encoding_new(&encoding, &specification, NULL) != DE_OK) return 2;
    for (int i = 0; i < SIZE; i++) data[i] = (unsigned char)((unsigned)i * 2654435761u >> 13);
    if (strcmp(argv[3], "none") == 0) return 0;
    if (de_encoding_encode(&encoding, data, SIZE, text, sizeof text, &len) != DE_OK) return 1;
    if (strcmp(argv[3], "encode") == 0) return 0;
    if (de_encoding_decode(&encoding, text, len, back, SIZE, &decoded) != DE_OK) return 1;
    return memcmp(data, back, SIZE) != 0;
}
