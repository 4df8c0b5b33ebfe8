/* Memory, files and arguments for the examples. */
#ifndef BASICS_H
#define BASICS_H

#include <stddef.h>
#include <stdint.h>

/* A row of so many zeroed entries, never null: the library wants a pointer even for a slice of none. Without memory the
   program ends with a message. */
void *allocated(size_t count, size_t size);

/* The row of count entries with space for one more. A row that is only ever made longer by this has space for the next
   power of two, so its length needn't be kept. Without memory the program ends with a message. */
void *grown(void *row, size_t count, size_t size);

/* A file's bytes and one zero byte after them; NULL, with a message, if it can't be read. */
char *bytes_of_file(const char *path, size_t *len);

/* Writes the bytes as the whole of a file. 0, with a message, if it can't be written. */
int bytes_to_file(const char *path, const void *bytes, size_t len);

/* Standard output is on the disk or in the pipe. 0, with a message, if it isn't. */
int output_is_out(void);

/* Reads a word as a whole number below 2^32. 0 if it isn't one. */
int read_whole(const char *word, uint32_t *number);

#endif
