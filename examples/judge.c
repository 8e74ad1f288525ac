/*
 * Judges one stretch: judge PROPERTY TRACE, two files of packed bytes. On x86-64, from the top folder:
 *
 *   tools/archive
 *   cc -O2 -I include examples/judge.c target/staticlib/libstretch.a -o target/judge
 *   tools/pack --property samples/switch.txt >target/property
 *   tools/pack --trace samples/switch.txt >target/trace
 *   target/judge target/property target/trace
 *
 * Prints one line, 'refusal R verdict WORD count N'. The word is 'none' after a refusal, since
 * what was refused has not been found clear. Status: 0 after a verdict, 1 after a refusal, 2 where a
 * file could not be read or the line not be written, with a message.
 */
#include "anthegyra.h"

#include <errno.h>
#include <stdio.h>
#include <stdlib.h>
#include <string.h>

static void give_up(const char *what, const char *why)
{
    fprintf(stderr, "judge: %s: %s\n", what, why);
    exit(2);
}

/* The whole file, however long: a part of it would get a refusal that the file does not deserve. */
static uint8_t *bytes_of(const char *name, size_t *len)
{
    uint8_t *bytes = NULL;
    size_t got;
    FILE *file = fopen(name, "rb");
    if (!file) give_up(name, strerror(errno));
    *len = 0;
    do {
        bytes = realloc(bytes, *len + 65536);
        if (!bytes) give_up(name, "no memory for it");
        got = fread(bytes + *len, 1, 65536, file);
        *len += got;
    } while (got > 0);
    if (ferror(file)) give_up(name, strerror(errno));
    fclose(file);
    return bytes;
}

int main(int argc, char **argv)
{
    static const char *const words[] = {[ANTHEGYRA_CLEAR] = "clear",
                                        [ANTHEGYRA_SUSPECT] = "suspect",
                                        [ANTHEGYRA_CERTAIN] = "certain",
                                        [ANTHEGYRA_BLIND] = "blind"};
    if (argc != 3) give_up("usage", "judge PROPERTY TRACE");
    if (anthegyra_version() != ANTHEGYRA_VERSION) give_up("libstretch.a", "another version than the header");
    size_t property_len, trace_len;
    uint8_t *property = bytes_of(argv[1], &property_len);
    uint8_t *trace = bytes_of(argv[2], &trace_len);
    uint64_t n = anthegyra_stretch_judge(property, property_len, trace, trace_len);
    unsigned refusal = anthegyra_refusal(n);
    int printed = printf("refusal %u verdict %s count %u\n", refusal,
                         refusal == ANTHEGYRA_TAKEN ? words[anthegyra_verdict(n)] : "none", anthegyra_count(n));
    free(property);
    free(trace);
    /* a full disk may be seen only when what was printed is written, or when the file is closed */
    if (printed < 0 || fclose(stdout)) give_up("standard output", strerror(errno));
    return refusal == ANTHEGYRA_TAKEN ? 0 : 1;
}
