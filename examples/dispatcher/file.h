/* A sheet's file as bytes. */
#ifndef FILE_H
#define FILE_H

#include <stdbool.h>
#include <stddef.h>
#include <stdint.h>

/* Takes the file's bytes, at most so many, into memory exactly as long: a checker then sees a read past its end. False if
   it can't be read, with the reason in errno. */
bool file_read(const char *path, size_t most, uint8_t **bytes, size_t *length);

#endif
