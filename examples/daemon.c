/*
 * A daemon's use of the library, as small as it can be: load lists, answer lookups, compare.
 *
 *     daemon lookup FILE LOCAL REMOTE LOCAL-PORT REMOTE-PORT PROTOCOL in|out [LOCAL ...]
 *     daemon compare FILE FILE
 *
 * Addresses are written 10.1.2.3, the other numbers in decimal; six words for each lookup. A lookup
 * prints a line: the number of the catching entry and the actions of its record, the protections by
 * their bits, or "uncaught".
 * A comparison prints whether the first list refines the second, and if not, the least header where
 * it doesn't. Exit status: 0 all answered, 1 a file is no list, 2 bad usage, 3 a file can't be read
 * or the answer not written.
 *
 *     cc -std=c99 -I include examples/daemon.c target/staticlib/libgateway.a -o daemon
 */
#include <errno.h>
#include <stdio.h>
#include <stdlib.h>
#include <string.h>

#include <dunnarek/policy.h>

#define WORDS 6 /* of a header */

struct list {
    size_t length;
    uint8_t bytes[POLICY_LONGEST_FILE + 1]; /* one byte more shows that a file is too long */
};

/* Reads a number from 0 to most; returns 0 for anything else. */
static int read_number(const char *word, unsigned long most, unsigned long *number)
{
    char *end;

    if (word[0] < '0' || word[0] > '9')
        return 0;
    errno = 0;
    *number = strtoul(word, &end, 10);
    return errno == 0 && *end == '\0' && *number <= most;
}

/* Reads an address of four numbers with dots between; returns 0 for anything else. */
static int read_address(const char *word, uint32_t *address)
{
    char part[4];
    unsigned long number;
    size_t length;
    int i;

    *address = 0;
    for (i = 0; i < 4; i++) {
        length = strcspn(word, ".");
        if (length == 0 || length >= sizeof part || (i < 3) != (word[length] == '.'))
            return 0;
        memcpy(part, word, length);
        part[length] = '\0';
        if (!read_number(part, 255, &number))
            return 0;
        *address = *address * 256 + (uint32_t)number;
        word += length + 1;
    }
    return 1;
}

/* Reads a direction; returns 0 for anything else. */
static int read_direction(const char *word, uint8_t *direction)
{
    *direction = strcmp(word, "out") == 0 ? POLICY_OUT : POLICY_IN;
    return *direction == POLICY_OUT || strcmp(word, "in") == 0;
}

/* Loads a file; complains and returns 0 if it can't be read. */
static int load(const char *path, struct list *list)
{
    FILE *stream = fopen(path, "rb");
    int failed = stream == NULL;

    if (stream != NULL) {
        list->length = fread(list->bytes, 1, sizeof list->bytes, stream);
        failed = ferror(stream);
        failed |= fclose(stream) != 0;
    }
    if (failed)
        fprintf(stderr, "daemon: %s: %s\n", path, strerror(errno));
    return !failed;
}

static const char *refusal_words(uint32_t refusal)
{
    switch (refusal) {
    case POLICY_MISSIZED:
        return "its length is not the one that it states";
    case POLICY_VERSION:
        return "its version is not 1 or 2";
    case POLICY_COUNT:
        return "its number of entries is not 1 to 256, or not the one that it has";
    case POLICY_CROSSED:
        return "an entry has a low above its high, or a direction above 1";
    case POLICY_GAP:
        return "some header is caught by no entry";
    default:
        return "for a reason that this program doesn't know";
    }
}

/* Says why a file is refused; returns the exit status for it. */
static int refuse(const char *path, uint32_t refusal)
{
    fprintf(stderr, "daemon: %s is no list: %s\n", path, refusal_words(refusal));
    return 1;
}

static void print_actions(unsigned actions)
{
    const char *between = "";
    int bit;

    if (actions == 0)
        printf("nothing");
    if (actions & POLICY_DISCARD) {
        printf("discard");
        between = " or ";
    }
    if (actions & POLICY_BYPASS) {
        printf("%sbypass", between);
        between = " or ";
    }
    for (bit = 2; bit < 16; bit++) {
        if (actions & POLICY_PROTECT(bit)) {
            printf("%sprotect %d", between, bit);
            between = " or ";
        }
    }
    printf("\n");
}

/* Looks up the header of six words; returns the program's exit status so far. */
static int look_up(const char *path, const struct list *list, char **words)
{
    uint32_t local, remote, entry;
    unsigned long local_port, remote_port, protocol;
    uint8_t direction;
    const uint8_t *actions;

    if (!read_address(words[0], &local) || !read_address(words[1], &remote) ||
        !read_number(words[2], 65535, &local_port) || !read_number(words[3], 65535, &remote_port) ||
        !read_number(words[4], 255, &protocol) || !read_direction(words[5], &direction)) {
        fprintf(stderr, "daemon: no header: %s %s %s %s %s %s\n",
                words[0], words[1], words[2], words[3], words[4], words[5]);
        return 2;
    }
    entry = policy_lookup(list->bytes, list->length, local, remote, (uint16_t)local_port,
                          (uint16_t)remote_port, (uint8_t)protocol, direction);
    if (policy_lookup_refusal(entry) != 0)
        return refuse(path, policy_lookup_refusal(entry));
    if (entry == POLICY_UNCAUGHT) {
        puts("uncaught");
        return 0;
    }
    actions = list->bytes + POLICY_ACTIONS_AT(list->bytes[POLICY_VERSION_AT], entry);
    printf("entry %lu: ", (unsigned long)entry);
    print_actions(actions[0] * 256u + actions[1]);
    return 0;
}

/* The exit status for a comparison of two loaded files. */
static int compare(char **paths, const struct list *first, const struct list *second)
{
    uint8_t h[POLICY_HEADER_SIZE];
    uint32_t answer = policy_compare(first->bytes, first->length, second->bytes, second->length,
                                     h, sizeof h);

    if (policy_compare_refusal(answer) != 0)
        return refuse(paths[policy_compare_file(answer) - 1], policy_compare_refusal(answer));
    if (answer == POLICY_REFINES) {
        puts("refines");
        return 0;
    }
    printf("does not refine at local %d.%d.%d.%d port %d, remote %d.%d.%d.%d port %d, protocol %d, %s\n",
           h[0], h[1], h[2], h[3], h[8] * 256 + h[9], h[4], h[5], h[6], h[7], h[10] * 256 + h[11], h[12],
           h[13] == POLICY_OUT ? "out" : "in");
    return 0;
}

int main(int argc, char **argv)
{
    static struct list first, second;
    int at, status = 0;

    if (argc == 4 && strcmp(argv[1], "compare") == 0) {
        if (!load(argv[2], &first) || !load(argv[3], &second))
            return 3;
        status = compare(argv + 2, &first, &second);
    } else if (argc >= 3 + WORDS && (argc - 3) % WORDS == 0 && strcmp(argv[1], "lookup") == 0) {
        if (!load(argv[2], &first))
            return 3;
        for (at = 3; at < argc && status == 0; at += WORDS)
            status = look_up(argv[2], &first, argv + at);
    } else {
        fprintf(stderr, "usage: daemon lookup FILE LOCAL REMOTE LOCAL-PORT REMOTE-PORT PROTOCOL in|out ...\n"
                        "       daemon compare FILE FILE\n");
        return 2;
    }
    if (fflush(stdout) != 0) {
        fprintf(stderr, "daemon: standard output: %s\n", strerror(errno));
        return 3;
    }
    return status;
}
