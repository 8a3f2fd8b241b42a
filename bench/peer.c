/*
 * What a user would write instead of oy_gateway: a gateway on picohttpparser (libh2o has it), with the same answer and the same bytes for
 * a good request, and without most of the checks. The benchmarks time it beside the archive; nothing else uses it.
 */
#include <stddef.h>
#include <stdint.h>
#include <string.h>
#include <strings.h>

/* picohttpparser's declarations: libh2o installs no header for them */
struct phr_header {
    const char *name;
    size_t name_len;
    const char *value;
    size_t value_len;
};
int phr_parse_request(const char *buf, size_t len, const char **method, size_t *method_len, const char **path, size_t *path_len,
                      int *minor_version, struct phr_header *headers, size_t *num_headers, size_t last_len);

struct text {
    const char *at;
    size_t len;
};

struct settings {
    struct text type, user, addr, name, port, software;
};

/* takes the values of a block of name, NUL, value, NUL, where they were not taken from an earlier one */
static void take(struct settings *s, const char *block, size_t len, int is_facts)
{
    const char *end = block + len;
    while (block < end) {
        size_t n = strlen(block), v = strlen(block + n + 1);
        struct text *to = NULL;
        if (n == 9 && is_facts && memcmp(block, "AUTH_TYPE", n) == 0)
            to = &s->type;
        else if (n == 11 && is_facts && memcmp(block, "REMOTE_USER", n) == 0)
            to = &s->user;
        else if (n == 11 && is_facts && memcmp(block, "REMOTE_ADDR", n) == 0)
            to = &s->addr;
        else if (n == 11 && memcmp(block, "SERVER_NAME", n) == 0)
            to = &s->name;
        else if (n == 11 && memcmp(block, "SERVER_PORT", n) == 0)
            to = &s->port;
        else if (n == 15 && memcmp(block, "SERVER_SOFTWARE", n) == 0)
            to = &s->software;
        if (to && to->at == NULL) {
            to->at = block + n + 1;
            to->len = v;
        }
        block += n + v + 2;
    }
}

static char *put(char *to, const char *from, size_t len)
{
    memcpy(to, from, len);
    return to + len;
}

/* a variable; the name is given with the NUL that ends it */
static char *variable(char *to, const char *name, size_t name_len, struct text value)
{
    to = put(to, name, name_len);
    to = put(to, value.at, value.len);
    *to++ = '\0';
    return to;
}
#define VARIABLE(to, name, value) variable(to, name, sizeof name, value)

/* names that are alike mostly begin alike, so their last letters are compared first */
static int is_name(const struct phr_header *h, const char *name, size_t len)
{
    return h->name_len == len && ((h->name[len - 1] ^ name[len - 1]) & ~32) == 0 && strncasecmp(h->name, name, len) == 0;
}
#define IS(h, name) is_name(h, name, sizeof name - 1)

static int is_passed(const struct phr_header *h)
{
    switch (h->name_len) {
    case 5: return !IS(h, "proxy");
    case 10: return !IS(h, "connection") && !IS(h, "keep-alive");
    case 12: return !IS(h, "content-type");
    case 13: return !IS(h, "authorization");
    case 14: return !IS(h, "content-length");
    case 19: return !IS(h, "proxy-authorization");
    default: return 1;
    }
}

static int hex(char c)
{
    return c <= '9' ? c - '0' : (c | 32) - 'a' + 10;
}

/* the decoded path; it is copied only where it has an escape */
static struct text decoded(struct text path, char *buffer)
{
    struct text out = path;
    size_t i, n = 0;
    if (memchr(path.at, '%', path.len) == NULL)
        return out;
    for (i = 0; i < path.len; i++, n++)
        if (path.at[i] == '%' && i + 2 < path.len) {
            buffer[n] = (char)(hex(path.at[i + 1]) * 16 + hex(path.at[i + 2]));
            i += 2;
        } else {
            buffer[n] = path.at[i];
        }
    out.at = buffer;
    out.len = n;
    return out;
}

/* the HTTP_ variables of the fields from the first on */
static char *put_fields(char *to, const struct phr_header *fields, size_t count)
{
    size_t i, j, k;
    for (i = 0; i < count; i++) {
        const struct phr_header *f = &fields[i];
        for (j = 0; j < i && !is_name(&fields[j], f->name, f->name_len); j++)
            ;
        if (j < i || !is_passed(f))
            continue;
        to = put(to, "HTTP_", 5);
        for (k = 0; k < f->name_len; k++) {
            char c = f->name[k];
            *to++ = c == '-' ? '_' : c >= 'a' && c <= 'z' ? (char)(c - 32) : c;
        }
        *to++ = '\0';
        to = put(to, f->value, f->value_len);
        for (j = i + 1; j < count; j++)
            if (is_name(&fields[j], f->name, f->name_len)) {
                to = put(to, IS(f, "cookie") ? "; " : ", ", 2);
                to = put(to, fields[j].value, fields[j].value_len);
            }
        *to++ = '\0';
    }
    return to;
}

/* a number in decimal at the end of a buffer of 20 bytes */
static struct text decimal(size_t n, char *buffer)
{
    struct text digits;
    char *at = buffer + 20;
    do
        *--at = (char)('0' + n % 10);
    while (n /= 10);
    digits.at = at;
    digits.len = (size_t)(buffer + 20 - at);
    return digits;
}

uint64_t peer_gateway(const char *facts, size_t facts_len, const char *site, size_t site_len, const char *mounts, size_t mounts_len,
                      const char *http, size_t http_len, char *out, size_t out_len, uint64_t *answer, size_t answer_len)
{
    static const struct text interface = {"CGI/1.1", 7}, one = {"1", 1};
    struct phr_header fields[64];
    struct text method, target, path, query, script = {NULL, 0}, pool = {NULL, 0}, type = {NULL, 0}, info, digits, version;
    struct settings lent = {{NULL, 0}, {NULL, 0}, {NULL, 0}, {NULL, 0}, {NULL, 0}, {NULL, 0}};
    size_t count = 64, body_len = 0, i, used;
    int minor, head = phr_parse_request(http, http_len, &method.at, &method.len, &target.at, &target.len, &minor, fields, &count, 0);
    char buffer[4096], number[20], *block = out + 6, *to = block;
    const char *mount = mounts, *mark;

    if (head <= 0 || answer_len < 4 || out_len < http_len + 17000)
        return 1;
    mark = memchr(target.at, '?', target.len);
    path.at = target.at;
    path.len = mark ? (size_t)(mark - target.at) : target.len;
    query.at = mark ? mark + 1 : target.at;
    query.len = mark ? target.len - path.len - 1 : 0;
    path = decoded(path, buffer);
    while (mount < mounts + mounts_len) {
        size_t n = strlen(mount), v = strlen(mount + n + 1);
        if (n <= path.len && n > script.len && memcmp(mount, path.at, n) == 0 && (n == path.len || path.at[n] == '/')) {
            script.at = path.at;
            script.len = n;
            pool.at = mount + n + 1;
            pool.len = v;
        }
        mount += n + v + 2;
    }
    if (script.at == NULL)
        return 19;
    for (i = 0; i < count; i++) {
        const char *value = fields[i].value; /* picohttpparser keeps the blanks at its end */
        while (fields[i].value_len > 0 && (value[fields[i].value_len - 1] == ' ' || value[fields[i].value_len - 1] == '\t'))
            fields[i].value_len--;
        if (IS(&fields[i], "content-length")) {
            size_t k;
            for (k = 0; k < fields[i].value_len; k++)
                body_len = body_len * 10 + (size_t)(value[k] - '0');
        } else if (IS(&fields[i], "content-type")) {
            type.at = value;
            type.len = fields[i].value_len;
        }
    }
    used = (size_t)head + body_len;
    if (http_len < used)
        return 1;
    info.at = path.at + script.len;
    info.len = path.len - script.len;
    version.at = minor ? "HTTP/1.1" : "HTTP/1.0";
    version.len = 8;
    take(&lent, facts, facts_len, 1);
    take(&lent, site, site_len, 0);

    to = VARIABLE(to, "CONTENT_LENGTH", decimal(body_len, number));
    to = VARIABLE(to, "SCGI", one);
    if (lent.type.at)
        to = VARIABLE(to, "AUTH_TYPE", lent.type);
    if (type.at)
        to = VARIABLE(to, "CONTENT_TYPE", type);
    to = VARIABLE(to, "GATEWAY_INTERFACE", interface);
    to = VARIABLE(to, "PATH_INFO", info);
    to = VARIABLE(to, "QUERY_STRING", query);
    to = VARIABLE(to, "REMOTE_ADDR", lent.addr);
    if (lent.user.at)
        to = VARIABLE(to, "REMOTE_USER", lent.user);
    to = VARIABLE(to, "REQUEST_METHOD", method);
    to = VARIABLE(to, "REQUEST_URI", target);
    to = VARIABLE(to, "SCRIPT_NAME", script);
    to = VARIABLE(to, "SERVER_NAME", lent.name);
    to = VARIABLE(to, "SERVER_PORT", lent.port);
    to = VARIABLE(to, "SERVER_PROTOCOL", version);
    to = VARIABLE(to, "SERVER_SOFTWARE", lent.software);
    to = put_fields(to, fields, count);

    /* the block stands behind room for five digits and a colon */
    digits = decimal((size_t)(to - block), number);
    if (digits.len < 5) {
        memmove(out + digits.len + 1, block, (size_t)(to - block));
        to -= 5 - digits.len;
    }
    memcpy(out, digits.at, digits.len);
    out[digits.len] = ':';
    *to++ = ',';
    to = put(to, http + head, body_len);
    answer[0] = (uint64_t)(to - out);
    answer[1] = (uint64_t)(pool.at - mounts);
    answer[2] = pool.len;
    answer[3] = used;
    return 0;
}
