/* Reads a PNG file of 8-bit gray whose deflate blocks are stored, writes its raw pixels to a second file, and
 * prints its width and height. It shares nothing with the program that wrote the file, and refuses with a
 * sentence whatever differs from the PNG specification: the signature, the order and the CRC of the chunks,
 * the zlib stream's header, blocks and Adler-32, and whatever a picture of this kind need not have. */
#include <stdint.h>
#include <stdio.h>
#include <stdlib.h>
#include <string.h>

enum { MOST = 1 << 26 };

static void refuse(const char *why) {
    fprintf(stderr, "read_png: %s\n", why);
    exit(1);
}

static void must(int holds, const char *why) {
    if (!holds) refuse(why);
}

/* Bytes that are taken from the front. */
struct bytes {
    const uint8_t *at;
    size_t left;
};

static const uint8_t *take(struct bytes *b, size_t count, const char *what) {
    must(count <= b->left, what);
    b->at += count;
    b->left -= count;
    return b->at - count;
}

static uint32_t big(const uint8_t *p) { return (uint32_t)p[0] << 24 | (uint32_t)p[1] << 16 | (uint32_t)p[2] << 8 | p[3]; }

/* CRC-32, bit by bit: the remainder of the division by the polynomial, lowest bit first. */
static uint32_t crc32(const uint8_t *p, size_t count) {
    uint32_t rest = 0xffffffff;
    for (size_t k = 0; k < 8 * count; k++) {
        uint32_t bit = (rest ^ p[k / 8] >> k % 8) & 1;
        rest = rest >> 1 ^ (bit ? 0xedb88320 : 0);
    }
    return ~rest;
}

/* Adler-32 by its definition: a is one plus the sum of the bytes, b is the sum of all values of a. */
static uint32_t adler32(const uint8_t *p, size_t count) {
    uint64_t a = 1, b = 0;
    for (size_t k = 0; k < count; k++) {
        a += p[k];
        b = (b + a) % 65521;
    }
    return (uint32_t)(b << 16 | a % 65521);
}

/* The next chunk's bytes; its type must be this one, and its CRC right. */
static struct bytes chunk(struct bytes *file, const char *type) {
    size_t length = big(take(file, 4, "the file ends before a chunk"));
    const uint8_t *start = take(file, 4, "the file ends in a chunk's type");
    must(memcmp(start, type, 4) == 0, "the chunks are not IHDR, IDAT, IEND");
    const uint8_t *body = take(file, length, "the file ends in a chunk");
    uint32_t crc = big(take(file, 4, "the file ends before a chunk's CRC"));
    must(crc == crc32(start, length + 4), "the CRC of a chunk is wrong");
    return (struct bytes){body, length};
}

/* Takes the stored blocks of a zlib stream apart into `to`, which has room for `most`; answers how many bytes they are. */
static size_t inflate_stored(struct bytes z, uint8_t *to, size_t most) {
    const uint8_t *head = take(&z, 2, "the zlib stream has no header");
    must((head[0] & 15) == 8 && head[0] >> 4 <= 7, "the zlib stream is not deflate with a window of at most 32 KiB");
    must((head[0] * 256 + head[1]) % 31 == 0, "the check of the zlib header is wrong");
    must((head[1] & 32) == 0, "the zlib stream asks for a dictionary");
    size_t count = 0;
    int last = 0;
    while (!last) {
        const uint8_t *block = take(&z, 5, "the zlib stream ends before its last block");
        last = block[0] & 1;
        must(block[0] >> 1 == 0, "a block is not stored");
        size_t length = block[1] | (size_t)block[2] << 8;
        must((block[1] ^ block[3]) == 255 && (block[2] ^ block[4]) == 255, "a block's length and its complement differ");
        must(length <= most - count, "the blocks have more bytes than the picture");
        const uint8_t *body = take(&z, length, "the zlib stream ends in a block");
        if (length > 0) memcpy(to + count, body, length);
        count += length;
    }
    must(big(take(&z, 4, "the zlib stream ends before its Adler-32")) == adler32(to, count), "the Adler-32 is wrong");
    must(z.left == 0, "something follows the zlib stream");
    return count;
}

static struct bytes whole(const char *name) {
    FILE *from = fopen(name, "rb");
    uint8_t *to = malloc(MOST);
    if (!from || !to) refuse("the file cannot be opened");
    size_t count = fread(to, 1, MOST, from);
    must(!ferror(from) && count < MOST, "the file cannot be read, or is too long");
    fclose(from);
    return (struct bytes){to, count};
}

int main(int argc, char **argv) {
    must(argc == 3, "usage: read_png FILE.png PIXELS");
    struct bytes file = whole(argv[1]);
    must(memcmp(take(&file, 8, "the file is no PNG"), "\x89PNG\r\n\x1a\n", 8) == 0, "the signature is wrong");
    struct bytes head = chunk(&file, "IHDR");
    must(head.left == 13, "IHDR has not 13 bytes");
    size_t width = big(head.at), height = big(head.at + 4);
    must(memcmp(head.at + 8, "\x08\0\0\0\0", 5) == 0, "the picture is not 8-bit gray, or is interlaced");
    must(width > 0 && height > 0 && width < 8192 && height < 8192, "the picture is empty or too large");

    size_t line = width + 1, count = line * height;
    uint8_t *lines = malloc(count);
    if (!lines) refuse("there is no room for the picture");
    must(inflate_stored(chunk(&file, "IDAT"), lines, count) == count, "the blocks have fewer bytes than the picture");
    must(chunk(&file, "IEND").left == 0 && file.left == 0, "something follows the end");

    FILE *to = fopen(argv[2], "wb");
    if (!to) refuse("the pixels cannot be written");
    for (size_t y = 0; y < height; y++) {
        must(lines[y * line] == 0, "a line is filtered");
        must(fwrite(lines + y * line + 1, 1, width, to) == width, "the pixels cannot be written");
    }
    must(fclose(to) == 0, "the pixels cannot be written");
    printf("%zu %zu\n", width, height);
    return 0;
}
