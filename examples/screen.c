/* The screen program's part: checks a table file and says in words what is wrong with it.
   Usage: screen FILE. Ends with 0 where the table is accepted, 1 where it is refused, 2 where it cannot be read. */
#include <stdio.h>
#include "strip.h"

/* the number that the check gives for a file, or -1 where it cannot be read */
static int checked(const char *name)
{
    uint8_t bytes[STRIP_FILE_READ]; /* what follows these changes no answer */
    FILE *file = fopen(name, "rb");
    if (file == NULL)
        return -1;
    size_t n = fread(bytes, 1, sizeof bytes, file);
    int failed = ferror(file);
    fclose(file);
    return failed ? -1 : (int)strip_table_check(bytes, n);
}

int main(int argc, char **argv)
{
    if (argc != 2) {
        fprintf(stderr, "usage: screen FILE\n");
        return 2;
    }
    int number = checked(argv[1]);
    if (number < 0) {
        printf("%s: cannot be read\n", argv[1]);
        return 2;
    }
    if (number == STRIP_OK) {
        printf("%s: accepted\n", argv[1]);
        return 0;
    }
    printf("%s: refused, %d: %s\n", argv[1], number, strip_refusal_text((uint32_t)number));
    return 1;
}
