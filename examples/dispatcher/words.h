/* Kinds of booking and refusals in words. */
#ifndef WORDS_H
#define WORDS_H

#include <stdint.h>
#include <stdio.h>

const char *words_for_kind(char kind);

/* A refusal with its place, as one clause without a line feed. */
void words_write_refusal(FILE *out, uint32_t refusal, uint32_t place);

/* The same where a line of a block is refused. */
void words_write_block_refusal(FILE *out, uint32_t refusal, uint32_t line);

#endif
