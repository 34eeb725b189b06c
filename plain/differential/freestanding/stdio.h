/* For a compiler without headers of its own, such as the kit's: what the programs of examples/ use. */
#include <stddef.h>
typedef struct file FILE;
extern FILE *stderr;
FILE *fopen(const char *path, const char *mode);
int fclose(FILE *file);
size_t fread(void *to, size_t size, size_t count, FILE *file);
int printf(const char *format, ...) __attribute__((format(printf, 1, 2)));
int fprintf(FILE *file, const char *format, ...) __attribute__((format(printf, 2, 3)));
