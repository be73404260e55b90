/*
 * Lays an image out as a loader does that trusts its file: loader IN OUT. The headers and the raw data of each section are copied into
 * SizeOfImage bytes of zeros, which are written to OUT. The exit status is 1 if IN is no image, or no copy fits. For laid_out.py.
 */
#include <stdint.h>
#include <stdio.h>
#include <stdlib.h>
#include <string.h>

static const uint8_t *file;
static size_t len;

static uint32_t number(size_t at, int width)
{
    uint32_t found = 0;
    if (at + (size_t)width > len)
        exit(1);
    for (int k = 0; k < width; k++)
        found |= (uint32_t)file[at + (size_t)k] << 8 * k;
    return found;
}

static const uint8_t *read_file(const char *path)
{
    FILE *in = fopen(path, "rb");
    uint8_t *bytes;
    if (in == NULL || fseek(in, 0, SEEK_END) != 0)
        exit(1);
    len = (size_t)ftell(in);
    rewind(in);
    bytes = malloc(len + 1);
    if (bytes == NULL || fread(bytes, 1, len, in) != len)
        exit(1);
    fclose(in);
    return bytes;
}

/* Copies bytes of the file into the image. */
static void copy(uint8_t *image, size_t size, size_t rva, size_t at, size_t count)
{
    if (rva + count > size || at + count > len)
        exit(1);
    memcpy(image + rva, file + at, count);
}

int main(int argc, char **argv)
{
    size_t header, sections, size;
    uint8_t *image;
    FILE *out;
    if (argc != 3)
        return 2;
    file = read_file(argv[1]);
    if (len < 64 || memcmp(file, "MZ", 2) != 0)
        return 1;
    header = number(60, 4);
    sections = header + 24 + number(header + 20, 2);
    size = number(header + 24 + 56, 4);
    image = calloc(size, 1);
    if (image == NULL)
        return 1;
    copy(image, size, 0, 0, number(header + 24 + 60, 4));
    for (size_t at = sections; at < sections + 40 * number(header + 6, 2); at += 40) {
        size_t extent = number(at + 8, 4), raw = number(at + 16, 4), pointer = number(at + 20, 4);
        if (pointer != 0)
            copy(image, size, number(at + 12, 4), pointer, extent != 0 && extent < raw ? extent : raw);
    }
    out = fopen(argv[2], "wb");
    return out == NULL || fwrite(image, 1, size, out) != size || fclose(out) != 0;
}
