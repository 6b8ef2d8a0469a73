/* A marker: checks the signature in one file against the public key and the message in two others, and prints one row for the register,
   "yes" or "no", ended by a line feed. A refusal prints no row. The rule that it checks under is the one that it is given: no file says under which
   rule its signature was made.
   Exit status: 0 yes, 1 no, 2 refused, not readable or not written, with the reason on standard error. */
#include "passign.h"
#include <stdio.h>
#include <stdlib.h>
#include <string.h>

/* One byte more than the longest message, so that a longer one is seen and refused. */
enum { ROOM = PASSIGN_MESSAGE_MAX + 1 };
struct input { uint8_t bytes[ROOM]; size_t length; };
static struct input key, message, signature;

static void read_file(struct input *in, const char *name)
{
    FILE *file = fopen(name, "rb");
    int failed = file == NULL;
    if (file != NULL) {
        in->length = fread(in->bytes, 1, ROOM, file);
        failed = ferror(file);
        fclose(file);
    }
    if (failed) {
        fprintf(stderr, "marker: cannot read %s: give the names of a public key, a message and a signature file\n", name);
        exit(2);
    }
}

/* A number of one byte, in decimal digits alone; whether it is a rule is for passign_check to say. */
static uint8_t read_rule(const char *text)
{
    size_t digits = strspn(text, "0123456789");
    if (digits < 1 || digits > 3 || text[digits] != '\0' || atoi(text) > UINT8_MAX) {
        fprintf(stderr, "marker: '%s' is no rule: give 1 for the low byte of each evaluation in the hash, or 2 for all three bytes\n", text);
        exit(2);
    }
    return (uint8_t)atoi(text);
}

int main(int argc, char **argv)
{
    if (argc != 5) {
        fprintf(stderr, "usage: marker PUBLIC_KEY MESSAGE SIGNATURE RULE\n");
        return 2;
    }
    uint8_t rule = read_rule(argv[4]);
    read_file(&key, argv[1]);
    read_file(&message, argv[2]);
    read_file(&signature, argv[3]);
    uint32_t answer = passign_check(key.bytes, key.length, message.bytes, message.length, signature.bytes, signature.length, rule);
    if (answer == PASSIGN_YES || answer == PASSIGN_NO) {
        if (puts(answer == PASSIGN_YES ? "yes" : "no") == EOF || fflush(stdout) != 0) {
            fprintf(stderr, "marker: cannot write the row: see to standard output, and mark again\n");
            return 2;
        }
        return answer == PASSIGN_YES ? 0 : 1;
    }
    fprintf(stderr, "marker: refused with %u: %s\n", (unsigned)answer, passign_refusal_text(answer));
    return 2;
}
