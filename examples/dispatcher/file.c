#include "file.h"

#include <errno.h>
#include <stdio.h>
#include <stdlib.h>

static bool take_bytes(FILE *file, size_t most, uint8_t **bytes, size_t *length)
{
    *bytes = malloc(most);
    if (*bytes == NULL)
        return false;
    *length = fread(*bytes, 1, most, file);
    if (ferror(file))
        return false;
    uint8_t *exact = realloc(*bytes, *length > 0 ? *length : 1);
    if (exact == NULL)
        return false;
    *bytes = exact;
    return true;
}

bool file_read(const char *path, size_t most, uint8_t **bytes, size_t *length)
{
    FILE *file = fopen(path, "rb");
    *bytes = NULL;
    *length = 0;
    if (file == NULL)
        return false;
    bool taken = take_bytes(file, most, bytes, length);
    int reason = errno;
    fclose(file);
    errno = reason;
    return taken;
}
