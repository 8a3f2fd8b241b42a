/*
 * An example front end: turns one HTTP request into SCGI bytes.
 *
 * Without blocks it converts a request of its own with blocks of its own. With blocks it converts standard input:
 *
 *   front --facts REMOTE_ADDR=10.0.0.9 \
 *         --site SERVER_NAME=q.example SERVER_PORT=80 SERVER_SOFTWARE=gate/1 --mounts /jobs=pool <request
 *
 * A pool may have a limit of the body's bytes behind it: --mounts '/jobs=pool;65536'.
 *
 * It prints the SCGI bytes with | for NUL, the pool and the bytes used; with --raw the SCGI bytes alone, as they are. Standard
 * output is written only for a request that is accepted.
 */
#include "oyinkafubo_text.h"

#include <stdio.h>
#include <string.h>

enum { STATUS_REFUSED = 1, STATUS_USAGE = 2, STATUS_IO = 3 };
enum { FACTS, SITE, MOUNTS, BLOCKS };

struct block {
    uint8_t bytes[2 * OY_MAX_MOUNTS];
    size_t len;
};

/* What the arguments ask for. */
struct asked {
    struct block blocks[BLOCKS];
    int given; /* whether a block was named */
    int raw;
    int help;
};

/* An HTTP request, and the answer to it. */
struct exchange {
    uint8_t http[OY_MAX_HTTP];
    size_t len;
    uint8_t out[OY_MAX_REQUEST];
    uint64_t answer[OY_GATEWAY_NUMBERS];
};

static const char *const options[BLOCKS] = {"--facts", "--site", "--mounts"};

static const char usage_text[] =
    "usage: front [--raw] [--facts NAME=VALUE.. --site NAME=VALUE.. --mounts PATH=POOL[;LIMIT].. <REQUEST]\n"
    "Prints the SCGI bytes for an HTTP request on standard input or, without blocks, for one of its own.\n";

/* A request that curl sent, and blocks for it. */
static const char own_request[] =
    "POST /app/post HTTP/1.1\r\nHost: 127.0.0.1:8080\r\nUser-Agent: curl/7.88.1\r\nAccept: */*\r\n"
    "Content-Length: 27\r\nContent-Type: application/x-www-form-urlencoded\r\n\r\nWhat is the answer to life?";

static const struct {
    int block;
    const char *word;
} own_words[] = {
    {FACTS, "REMOTE_ADDR=127.0.0.1"},
    {SITE, "SERVER_NAME=q.example"},
    {SITE, "SERVER_PORT=80"},
    {SITE, "SERVER_SOFTWARE=gate/1"},
    {MOUNTS, "/app=a"}
};

static int misused(const char *problem, const char *word)
{
    fprintf(stderr, "front: %s: %s\n%s", problem, word, usage_text);
    return STATUS_USAGE;
}

/* Adds a word NAME=VALUE to the block as name, NUL, value, NUL; 0 where it is no such word or there is no room. */
static int add(struct block *block, const char *word)
{
    const char *equals = strchr(word, '=');
    size_t len = strlen(word) + 1;
    if (equals == NULL || equals == word || len > sizeof block->bytes - block->len)
        return 0;
    memcpy(block->bytes + block->len, word, len);
    block->bytes[block->len + (size_t)(equals - word)] = 0;
    block->len += len;
    return 1;
}

/* The block that an option names, as --site or --site=NAME=VALUE, and the word after its '=' or null; null where there is none. */
static struct block *block_of(struct asked *asked, const char *option, const char **word)
{
    int which;
    for (which = 0; which < BLOCKS; which++) {
        size_t len = strlen(options[which]);
        if (strncmp(option, options[which], len) == 0 && (option[len] == 0 || option[len] == '=')) {
            *word = option[len] == '=' ? option + len + 1 : NULL;
            return &asked->blocks[which];
        }
    }
    return NULL;
}

/* Reads the arguments; 0, or the exit status of bad usage. */
static int read_arguments(int count, char **words, struct asked *asked)
{
    struct block *block = NULL;
    int i;
    for (i = 1; i < count; i++) {
        const char *word = words[i];
        int is_raw = strcmp(word, "--raw") == 0, is_help = strcmp(word, "--help") == 0;
        asked->raw |= is_raw;
        asked->help |= is_help;
        if (is_raw || is_help)
            continue;
        if (word[0] == '-')
            block = block_of(asked, words[i], &word);
        if (block == NULL && words[i][0] == '-')
            return misused("unknown option", words[i]);
        if (block == NULL)
            return misused("a word before --facts, --site or --mounts", words[i]);
        if (word != NULL && !add(block, word))
            return misused("not NAME=VALUE, or too long", words[i]);
        asked->given = 1;
    }
    return 0;
}

/* Puts the request into the exchange, its own or that on standard input; 0 where it can't be read. */
static int read_request(struct asked *asked, struct exchange *exchange)
{
    size_t i;
    if (asked->given) {
        exchange->len = fread(exchange->http, 1, sizeof exchange->http, stdin);
        return !ferror(stdin);
    }
    for (i = 0; i < sizeof own_words / sizeof own_words[0]; i++)
        add(&asked->blocks[own_words[i].block], own_words[i].word);
    exchange->len = sizeof own_request - 1;
    memcpy(exchange->http, own_request, exchange->len);
    return 1;
}

/* Converts the request; 0 or the refusal. */
static uint64_t convert(const struct block *blocks, struct exchange *exchange)
{
    const struct block *facts = &blocks[FACTS], *site = &blocks[SITE], *mounts = &blocks[MOUNTS];
    return oy_gateway(facts->bytes, facts->len, site->bytes, site->len, mounts->bytes, mounts->len, exchange->http,
                      exchange->len, exchange->out, sizeof exchange->out, exchange->answer, OY_GATEWAY_NUMBERS);
}

/* Prints bytes readably: | for NUL, lines as they are, \xNN for other bytes outside of ASCII text. */
static void print_bytes(const uint8_t *bytes, size_t len)
{
    size_t i;
    for (i = 0; i < len; i++) {
        if (bytes[i] == 0)
            putchar('|');
        else if ((bytes[i] >= 32 && bytes[i] < 127) || bytes[i] == '\n')
            putchar(bytes[i]);
        else
            printf("\\x%02x", bytes[i]);
    }
}

static void print_answer(const struct asked *asked, const struct exchange *exchange)
{
    const uint64_t *answer = exchange->answer;
    size_t written = answer[OY_GATEWAY_WRITTEN];
    if (asked->raw) {
        fwrite(exchange->out, 1, written, stdout);
        return;
    }
    if (!asked->given)
        printf("a request of curl as SCGI bytes, | for NUL:\n\n");
    print_bytes(exchange->out, written);
    printf("\n\npool: ");
    print_bytes(asked->blocks[MOUNTS].bytes + answer[OY_GATEWAY_POOL_START], answer[OY_GATEWAY_POOL_LENGTH]);
    printf("\nbytes of SCGI: %lu\nbytes of HTTP used: %lu of %lu read\n", (unsigned long)written,
           (unsigned long)answer[OY_GATEWAY_USED], (unsigned long)exchange->len);
}

/* Whether all that was printed is written; the exit status. */
static int finish(void)
{
    if (ferror(stdout) || fclose(stdout) != 0) {
        perror("front: the result can't be written");
        return STATUS_IO;
    }
    return 0;
}

int main(int count, char **words)
{
    static struct asked asked;
    static struct exchange exchange;
    uint64_t refusal;
    int status = read_arguments(count, words, &asked);
    if (status != 0)
        return status;
    if (asked.help) {
        fputs(usage_text, stdout);
        return finish();
    }
    if (!read_request(&asked, &exchange)) {
        perror("front: the request can't be read");
        return STATUS_IO;
    }
    refusal = convert(asked.blocks, &exchange);
    if (refusal != 0) {
        fprintf(stderr, "front: refused %u: %s\n", (unsigned)refusal, oy_refusal_text(refusal));
        if (oy_refusal_status(refusal) != 0)
            fprintf(stderr, "front: a server answers %u and closes the connection\n", oy_refusal_status(refusal));
        return STATUS_REFUSED;
    }
    print_answer(&asked, &exchange);
    return finish();
}
