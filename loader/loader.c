/* Hands the bytes of a table text to the proved library and prints the report.
 *
 *     loader FILE      the text is the file's bytes
 *     loader           the text is read from standard input
 *
 * Exit status: 0 with a report, whether the table is accepted or not; 2 where the command line is
 * wrong, the text cannot be read or the report cannot be printed. */
#include <errno.h>
#include <stdio.h>
#include <string.h>

#include "timerdaisy.h"

/* One byte more than the longest text is enough to tell that a text is too long. */
enum { MOST = TIMERDAISY_LONGEST + 1 };

static int failure(const char *what)
{
    fprintf(stderr, "loader: %s: %s\n", what, strerror(errno));
    return 2;
}

int main(int argc, char **argv)
{
    uint8_t text[MOST];
    uint8_t report[TIMERDAISY_LONGEST];
    const char *name = "standard input";
    FILE *input = stdin;

    if (argc > 2) {
        fprintf(stderr, "usage: loader [FILE]\n");
        return 2;
    }
    if (argc == 2) {
        name = argv[1];
        input = fopen(name, "rb");
        if (input == NULL) {
            return failure(name);
        }
    }

    /* Without a buffer in between, an endless input is read no further than MOST bytes. */
    setvbuf(input, NULL, _IONBF, 0);
    size_t text_len = fread(text, 1, sizeof text, input);
    if (ferror(input)) {
        return failure(name);
    }
    fclose(input);

    size_t report_len = timerdaisy_report(text, text_len, report, sizeof report);
    if (fwrite(report, 1, report_len, stdout) != report_len || fflush(stdout) != 0) {
        return failure("standard output");
    }
    return 0;
}
