/* The program `overlay`: reads what its arguments name, has overlay_command, which is proved, say what is to be said, writes that, and exits. */
#define OVERLAY_UNLINKED /* it links with the program's own library, which has no version */
#include "overlay.h"
#include <errno.h>
#include <stdio.h>
#include <string.h>

static uint8_t arguments[65536];
static uint8_t texts[2][OVERLAY_COMMAND_TEXT + 1]; /* one byte more tells that there are more */
static uint32_t table[OVERLAY_COMMAND_CELLS];
static int32_t work[OVERLAY_COMMAND_CELLS];
static uint8_t out[OVERLAY_COMMAND_OUT], err[OVERLAY_COMMAND_ERR];

/* What cannot be read or written, and why. */
static int fail(const char *what, const char *why) {
    fprintf(stderr, "overlay: %s: %s\n", what, why);
    return 3;
}

/* Reads the text of a source: 0 is none, 1 standard input, and any other the argument that names a file. */
static int read_text(size_t source, char **argv, uint8_t *text, size_t *length) {
    if (source == 0) return 0;
    FILE *file = source == 1 ? stdin : fopen(argv[source], "rb");
    if (file == NULL) return fail(argv[source], strerror(errno));
    *length = fread(text, 1, OVERLAY_COMMAND_TEXT + 1, file);
    if (ferror(file)) return fail(source == 1 ? "standard input" : argv[source], strerror(errno));
    if (source != 1) fclose(file);
    return 0;
}

int main(int argc, char **argv) {
    size_t given = 0, lengths[2] = {0, 0}, out_size, err_size;
    for (int i = 1; i < argc; i++) {
        size_t n = strlen(argv[i]) + 1;
        if (n > sizeof arguments - given) return fail("the arguments", "too long");
        memcpy(arguments + given, argv[i], n);
        given += n;
    }
    int failed = read_text(overlay_second_source(arguments, given), argv, texts[1], &lengths[1]);
    if (failed == 0) failed = read_text(overlay_text_source(arguments, given), argv, texts[0], &lengths[0]);
    if (failed != 0) return failed;
    uint32_t status =
        overlay_command(arguments, given, texts[0], lengths[0], texts[1], lengths[1], table, work, out, err, &out_size, &err_size);
    int wrote = fwrite(out, 1, out_size, stdout) == out_size;
    if (fclose(stdout) != 0 || !wrote) return fail("standard output", strerror(errno));
    if (fwrite(err, 1, err_size, stderr) != err_size) return 3;
    return (int)status;
}
