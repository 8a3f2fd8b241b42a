/* Calls each function of the archive from C, with memory of exactly the length that is said and with null for empty memory. */
#include "oyinkafubo_text.h"

#include <stdio.h>
#include <stdlib.h>
#include <string.h>

/* Bytes on the heap of exactly their length, so that the address sanitizer sees each access outside of them. */
struct bytes {
    uint8_t *at; /* null where len is 0 */
    size_t len;
};

static unsigned faults;

static void check(int holds, const char *what, int line)
{
    if (holds)
        return;
    faults++;
    printf("test.c:%d: %s\n", line, what);
}

#define CHECK(condition) check((condition), #condition, __LINE__)

static void *take(size_t size)
{
    void *memory = size == 0 ? NULL : malloc(size);
    if (size != 0 && memory == NULL) {
        fputs("no memory\n", stderr);
        exit(2);
    }
    return memory;
}

static struct bytes room(size_t len)
{
    struct bytes bytes;
    bytes.at = take(len);
    bytes.len = len;
    if (len != 0)
        memset(bytes.at, 0xa5, len);
    return bytes;
}

/* The text's bytes, with NUL for |. */
static struct bytes text(const char *from)
{
    struct bytes bytes = room(strlen(from));
    size_t i;
    for (i = 0; i < bytes.len; i++)
        bytes.at[i] = from[i] == '|' ? 0 : (uint8_t)from[i];
    return bytes;
}

static int same(struct bytes a, const char *expected)
{
    struct bytes b = text(expected);
    int equal = a.len >= b.len && (b.len == 0 || memcmp(a.at, b.at, b.len) == 0);
    free(b.at);
    return equal;
}

/* A list of numbers of exactly its length. */
static uint64_t *list(size_t len)
{
    uint64_t *numbers = take(len * sizeof *numbers);
    size_t i;
    for (i = 0; i < len; i++)
        numbers[i] = 77;
    return numbers;
}

static const char *const example =
    "70:CONTENT_LENGTH|27|SCGI|1|REQUEST_METHOD|POST|REQUEST_URI|/deepthought|,What is the answer to life?";

/* What oy_scgi_read returns for a text. */
static uint64_t read_text(const char *from, uint64_t *answer, size_t answer_len)
{
    struct bytes bytes = text(from);
    uint64_t code = oy_scgi_read(bytes.at, bytes.len, answer, answer_len);
    free(bytes.at);
    return code;
}

static void test_read(void)
{
    uint64_t *answer = list(OY_READ_NUMBERS);
    CHECK(read_text("", answer, 5) == OY_CUT);
    CHECK(read_text("0", answer, 5) == OY_CUT);
    CHECK(read_text("05", answer, 5) == OY_LENGTH);
    CHECK(read_text(":", answer, 5) == OY_LENGTH);
    CHECK(read_text("16385", answer, 5) == OY_BLOCK_LONG);
    CHECK(read_text("0:x", answer, 5) == OY_COMMA);
    CHECK(read_text("1:|,", answer, 5) == OY_BLOCK);
    CHECK(read_text("0:,", answer, 5) == OY_FIRST);
    CHECK(answer[0] == 77 && answer[4] == 77);
    CHECK(read_text(example, answer, 4) == OY_ROOM);
    CHECK(answer[0] == 77 && answer[3] == 77);
    CHECK(read_text(example, NULL, 0) == OY_ROOM);
    CHECK(read_text(example, answer, 5) == 0);
    CHECK(answer[OY_READ_BLOCK_START] == 3 && answer[OY_READ_BLOCK_LENGTH] == 70);
    CHECK(answer[OY_READ_BODY_START] == 74 && answer[OY_READ_BODY_LENGTH] == 27 && answer[OY_READ_USED] == 101);
    free(answer);
}

static void test_write(void)
{
    struct bytes block = text("CONTENT_LENGTH|2|SCGI|1|"), body = text("hi");
    size_t len;
    uint64_t *answer = list(OY_WRITE_NUMBERS);
    for (len = 0; len <= 32; len++) {
        struct bytes out = room(len);
        uint64_t code = oy_scgi_write(block.at, block.len, body.at, body.len, out.at, len, answer, 1);
        CHECK(code == (len < 30 ? OY_ROOM : 0));
        CHECK(answer[OY_WRITE_WRITTEN] == (len < 30 ? 77u : 30u));
        CHECK(len == 0 || code == 0 || out.at[0] == 0xa5);
        CHECK(code != 0 || same(out, "24:CONTENT_LENGTH|2|SCGI|1|,hi"));
        CHECK(len <= 30 || out.at[30] == 0xa5);
        free(out.at);
    }
    CHECK(oy_scgi_write(block.at, block.len, NULL, 0, NULL, 0, answer, 1) == OY_BODY_LENGTH);
    CHECK(oy_scgi_write(NULL, 0, NULL, 0, NULL, 0, NULL, 0) == OY_FIRST);
    free(block.at);
    free(body.at);
    free(answer);
}

static void test_find(void)
{
    struct bytes block = text("A|1|B||A|2|"), a = text("A"), b = text("B");
    uint64_t *answer = list(OY_FIND_NUMBERS);
    CHECK(oy_scgi_find(block.at, block.len, a.at, a.len, answer, 3) == 0);
    CHECK(answer[0] == 1 && answer[1] == 2 && answer[2] == 1);
    CHECK(oy_scgi_find(block.at, block.len, b.at, b.len, answer, 3) == 0);
    CHECK(answer[OY_FIND_THERE] == 1 && answer[OY_FIND_START] == 6 && answer[OY_FIND_LENGTH] == 0);
    CHECK(oy_scgi_find(NULL, 0, NULL, 0, answer, 3) == 0);
    CHECK(answer[0] == 0 && answer[1] == 0 && answer[2] == 0);
    CHECK(oy_scgi_find(a.at, a.len, NULL, 0, answer, 3) == OY_BLOCK);
    CHECK(oy_scgi_find(block.at, block.len, a.at, a.len, NULL, 0) == OY_ROOM);
    free(block.at);
    free(a.at);
    free(b.at);
    free(answer);
}

static void test_setting(void)
{
    struct bytes facts = text("A|1|"), site = text("D|33|A|2|"), a = text("A"), d = text("D");
    uint64_t *answer = list(OY_SETTING_NUMBERS);
    CHECK(oy_setting(facts.at, facts.len, site.at, site.len, d.at, d.len, answer, 3) == 0);
    CHECK(answer[OY_SETTING_ORIGIN] == OY_IN_SITE && answer[OY_SETTING_START] == 2 && answer[OY_SETTING_LENGTH] == 2);
    CHECK(oy_setting(facts.at, facts.len, site.at, site.len, a.at, a.len, answer, 3) == 0);
    CHECK(answer[OY_SETTING_ORIGIN] == OY_IN_FACTS && answer[OY_SETTING_START] == 2 && answer[OY_SETTING_LENGTH] == 1);
    CHECK(oy_setting(NULL, 0, NULL, 0, NULL, 0, answer, 3) == 0);
    CHECK(answer[OY_SETTING_ORIGIN] == OY_IN_NEITHER && answer[OY_SETTING_START] == 0 && answer[OY_SETTING_LENGTH] == 0);
    CHECK(oy_setting(facts.at, facts.len, a.at, a.len, a.at, a.len, answer, 3) == OY_BLOCK);
    CHECK(oy_setting(facts.at, facts.len, NULL, 0, a.at, a.len, NULL, 0) == OY_ROOM);
    free(facts.at);
    free(site.at);
    free(a.at);
    free(d.at);
    free(answer);
}

static void test_spool(void)
{
    struct bytes one = text(example), two = room(2 * 101 + 1);
    uint64_t *lengths = list(3), *answer = list(OY_SPOOL_NUMBERS);
    memcpy(two.at, one.at, 101);
    memcpy(two.at + 101, one.at, 101);
    two.at[202] = 'x';
    CHECK(oy_spool(NULL, 0, NULL, 0, answer, 3) == 0);
    CHECK(answer[0] == 0 && answer[1] == OY_END_WHOLE && answer[2] == 0);
    CHECK(oy_spool(two.at, 203, lengths, 3, answer, 2) == OY_ROOM);
    CHECK(lengths[0] == 77);
    CHECK(oy_spool(two.at, 203, NULL, 0, answer, 3) == 0);
    CHECK(answer[0] == 0 && answer[1] == OY_END_FULL);
    CHECK(oy_spool(two.at, 203, lengths, 3, answer, 3) == 0);
    CHECK(answer[OY_SPOOL_STORED] == 2 && answer[OY_SPOOL_ENDING] == OY_END_REFUSED && answer[OY_SPOOL_REFUSAL] == OY_LENGTH);
    CHECK(lengths[0] == 101 && lengths[1] == 101 && lengths[2] == 77);
    CHECK(oy_spool(two.at, 201, lengths, 3, answer, 3) == 0);
    CHECK(answer[0] == 1 && answer[1] == OY_END_CUT && answer[2] == 0);
    free(one.at);
    free(two.at);
    free(lengths);
    free(answer);
}

/* What oy_socket_feed gives for a run of a text, which is null where it is empty. */
static struct oy_fed feed(struct oy_socket state, const char *from, struct bytes block)
{
    struct bytes run = text(from);
    struct oy_fed fed = oy_socket_feed(state, run.at, run.len, block.at, block.len);
    free(run.at);
    return fed;
}

/* Whether a state has these numbers and no refusal. */
static int is_state(struct oy_socket s, size_t stage, size_t digits, size_t len, size_t stored, size_t body, size_t seen)
{
    return s.stage == stage && s.refusal == 0 && s.digits == digits && s.len == len && s.stored == stored && s.body == body &&
           s.seen == seen;
}

static int is_refused(struct oy_socket s, size_t refusal)
{
    s.refusal = s.refusal == refusal ? 0 : 1;
    return is_state(s, OY_STAGE_REFUSED, 0, 0, 0, 0, 0);
}

/* What a run gave: the answer, the counts, and the lengths at the end or 0. */
static int gave(struct oy_fed fed, uint64_t refusal, size_t body, size_t after, size_t block_len, size_t body_len, size_t used)
{
    return fed.refusal == refusal && fed.body == body && fed.after == after && fed.block_len == block_len &&
           fed.body_len == body_len && fed.used == used;
}

/* The example in one run with a byte after it, and runs after the end. */
static void test_socket_one_run(void)
{
    struct bytes block = room(OY_MAX_BLOCK);
    struct oy_fed fed;
    char followed[103];
    CHECK(is_state(oy_socket_new(), OY_STAGE_LENGTH, 0, 0, 0, 0, 0));
    sprintf(followed, "%sx", example);
    fed = feed(oy_socket_new(), followed, block);
    CHECK(gave(fed, 0, 27, 1, 70, 27, 101) && is_state(fed.state, OY_STAGE_WHOLE, 2, 70, 70, 27, 27));
    CHECK(same(block, "CONTENT_LENGTH|27|SCGI|1|REQUEST_METHOD|POST|REQUEST_URI|/deepthought|") && block.at[70] == 0xa5);
    fed = feed(fed.state, "", block);
    CHECK(gave(fed, 0, 0, 0, 70, 27, 101) && is_state(fed.state, OY_STAGE_WHOLE, 2, 70, 70, 27, 27));
    fed = feed(fed.state, "70:x", block);
    CHECK(gave(fed, 0, 0, 4, 70, 27, 101) && is_state(fed.state, OY_STAGE_WHOLE, 2, 70, 70, 27, 27));
    CHECK(same(block, "CONTENT_LENGTH|27|SCGI|1|REQUEST_METHOD|POST|REQUEST_URI|/deepthought|") && block.at[70] == 0xa5);
    free(block.at);
}

/* The example byte by byte, with a run of no bytes before each, in a buffer that is longer than it must be. */
static void test_socket_byte_by_byte(void)
{
    struct bytes block = room(OY_MAX_BLOCK + 1);
    struct oy_socket state = oy_socket_new();
    size_t i;
    for (i = 0; i < 101; i++) {
        char byte[2] = {0, 0};
        struct oy_fed fed = feed(state, "", block);
        CHECK(gave(fed, OY_CUT, 0, 0, 0, 0, 0));
        byte[0] = example[i];
        fed = feed(fed.state, byte, block);
        state = fed.state;
        CHECK(i == 100 || gave(fed, OY_CUT, i >= 74, 0, 0, 0, 0));
        CHECK(i != 100 || gave(fed, 0, 1, 0, 70, 27, 101));
        CHECK(i != 1 || is_state(state, OY_STAGE_LENGTH, 2, 70, 0, 0, 0));
        CHECK(i != 2 || is_state(state, OY_STAGE_BLOCK, 2, 70, 0, 0, 0));
        CHECK(i != 72 || is_state(state, OY_STAGE_BLOCK, 2, 70, 70, 0, 0));
        CHECK(i != 73 || is_state(state, OY_STAGE_BODY, 2, 70, 70, 27, 0));
        CHECK(i < 3 || i > 72 || (block.at[i - 3] != 0xa5 && block.at[i - 2] == 0xa5));
    }
    CHECK(is_state(state, OY_STAGE_WHOLE, 2, 70, 70, 27, 27) && block.at[70] == 0xa5 && block.at[OY_MAX_BLOCK] == 0xa5);
    free(block.at);
}

/* Too short a buffer is OY_ROOM and changes nothing: before the first byte, within a request, after the end and after a refusal. */
static void test_socket_room(void)
{
    struct bytes shorter = room(OY_MAX_BLOCK - 1), block = room(OY_MAX_BLOCK), none = room(0);
    struct oy_socket states[5];
    size_t i;
    states[0] = oy_socket_new();
    states[1] = feed(states[0], "24:CONTENT", block).state;
    states[2] = feed(states[1], "_LENGTH|2|SCGI|1|,h", block).state;
    states[3] = feed(states[2], "i", block).state;
    states[4] = feed(states[0], "05", block).state;
    CHECK(is_state(states[3], OY_STAGE_WHOLE, 2, 24, 24, 2, 2) && is_refused(states[4], OY_LENGTH));
    for (i = 0; i < 5; i++) {
        struct oy_fed fed = feed(states[i], example, shorter);
        CHECK(gave(fed, OY_ROOM, 0, 0, 0, 0, 0) && memcmp(&fed.state, &states[i], sizeof states[i]) == 0);
        fed = feed(states[i], "", none);
        CHECK(gave(fed, OY_ROOM, 0, 0, 0, 0, 0) && memcmp(&fed.state, &states[i], sizeof states[i]) == 0);
    }
    CHECK(shorter.at[0] == 0xa5 && shorter.at[OY_MAX_BLOCK - 2] == 0xa5);
    free(shorter.at);
    free(block.at);
}

/* The run that brings a refusal counts nothing, and every later one counts as after the end. */
static void test_socket_refusals(void)
{
    static const struct {
        const char *first, *second;
        uint64_t refusal;
    } cases[] = {{"0", "5", OY_LENGTH}, {"", ":", OY_LENGTH}, {"1638", "5:x", OY_BLOCK_LONG}, {"0:", "xx", OY_COMMA},
                 {"1:", "|,x", OY_BLOCK}, {"6:A||", "A||,", OY_TWICE}, {"0:", ",", OY_FIRST},
                 {"30:CONTENT_LENGTH|104857", "7|SCGI|1|,x", OY_BODY_LONG}, {"17:CONTENT_LENGTH|0|", ",", OY_SCGI}};
    struct bytes block = room(OY_MAX_BLOCK);
    size_t i;
    for (i = 0; i < sizeof cases / sizeof cases[0]; i++) {
        struct oy_fed fed = feed(oy_socket_new(), cases[i].first, block);
        CHECK(gave(fed, OY_CUT, 0, 0, 0, 0, 0));
        fed = feed(fed.state, cases[i].second, block);
        CHECK(gave(fed, cases[i].refusal, 0, 0, 0, 0, 0) && is_refused(fed.state, cases[i].refusal));
        fed = feed(fed.state, "24:", block);
        CHECK(gave(fed, cases[i].refusal, 0, 3, 0, 0, 0) && is_refused(fed.state, cases[i].refusal));
        CHECK(gave(feed(fed.state, "", block), cases[i].refusal, 0, 0, 0, 0, 0));
    }
    CHECK(same(block, "CONTENT_LENGTH|0|48577|SCGI|1|") && block.at[30] == 0xa5); /* the last block over the one before */
    free(block.at);
}

/* A refusal or a stage that is none makes a state a new one. */
static void test_socket_states(void)
{
    static const size_t refusals[] = {0, 1, 11, 21, 99, 256, 258, (size_t)-1}, stages[] = {5, 256, 260, (size_t)-1};
    struct bytes block = room(OY_MAX_BLOCK);
    struct oy_socket state;
    struct oy_fed fed;
    size_t i;
    memset(&state, 0x11, sizeof state);
    state.stage = OY_STAGE_REFUSED;
    for (i = 0; i < sizeof refusals / sizeof refusals[0]; i++) {
        state.refusal = refusals[i];
        fed = feed(state, "24", block);
        CHECK(gave(fed, OY_CUT, 0, 0, 0, 0, 0) && is_state(fed.state, OY_STAGE_LENGTH, 2, 24, 0, 0, 0));
    }
    for (i = OY_LENGTH; i <= OY_SCGI; i++) {
        state.refusal = i;
        fed = feed(state, "24", block);
        CHECK(gave(fed, i, 0, 2, 0, 0, 0) && is_refused(fed.state, i));
    }
    for (i = 0; i < sizeof stages / sizeof stages[0]; i++) {
        state.stage = stages[i];
        fed = feed(state, "24", block);
        CHECK(gave(fed, OY_CUT, 0, 0, 0, 0, 0) && is_state(fed.state, OY_STAGE_LENGTH, 2, 24, 0, 0, 0));
    }
    CHECK(block.at[0] == 0xa5);
    free(block.at);
}

/* What the worker below has served, and the body's bytes that it was given. */
struct worked {
    size_t requests, body_len;
    uint8_t body[100];
    uint64_t refusal;
};

/* The worker's loop of the header, with reads of at most `most` bytes from memory. */
static struct worked work(struct bytes from, size_t most, struct bytes block)
{
    struct worked worked = {0, 0, {0}, 0};
    struct oy_socket state = oy_socket_new();
    size_t start;
    for (start = 0; start < from.len; start += most) {
        size_t at = 0, len = from.len - start < most ? from.len - start : most;
        struct bytes run = room(len);
        memcpy(run.at, from.at + start, len);
        while (at < len) {
            struct oy_fed fed = oy_socket_feed(state, run.at + at, len - at, block.at, block.len);
            size_t end = len - fed.after;
            state = fed.state;
            memcpy(worked.body + worked.body_len, run.at + end - fed.body, fed.body);
            worked.body_len += fed.body;
            worked.refusal = fed.refusal;
            if (fed.refusal != 0)
                break;
            CHECK(fed.block_len == 70 && fed.body_len == 27);
            worked.requests++;
            at = end;
            state = oy_socket_new();
        }
        free(run.at);
    }
    return worked;
}

/* Two requests end to end and a third that is cut or refused, in reads of every length. */
static void test_socket_worker(void)
{
    static const char *const last[] = {"", "70:CONTENT_LENGTH|27|SCGI", "70;"};
    static const uint64_t refusals[] = {0, OY_CUT, OY_LENGTH};
    struct bytes block = room(OY_MAX_BLOCK);
    char all[300];
    size_t i, most;
    for (i = 0; i < 3; i++) {
        struct bytes from;
        sprintf(all, "%s%s%s", example, example, last[i]);
        from = text(all);
        for (most = 1; most <= from.len; most++) {
            struct worked worked = work(from, most, block);
            CHECK(worked.requests == 2 && worked.refusal == refusals[i] && worked.body_len == 54);
            CHECK(memcmp(worked.body, "What is the answer to life?What is the answer to life?", 54) == 0);
        }
        free(from.at);
    }
    free(block.at);
}

static const char *const gateway_output =
    "267:CONTENT_LENGTH|0|SCGI|1|GATEWAY_INTERFACE|CGI/1.1|PATH_INFO|/7|QUERY_STRING|x=1|REMOTE_ADDR|10.0.0.9|"
    "REQUEST_METHOD|GET|REQUEST_URI|/jobs/7?x=1|SCRIPT_NAME|/jobs|SERVER_NAME|q.example|SERVER_PORT|80|"
    "SERVER_PROTOCOL|HTTP/1.1|SERVER_SOFTWARE|gate/1|HTTP_HOST|q.example|,";

static const char *const good_facts = "REMOTE_ADDR|10.0.0.9|";
static const char *const good_site = "SERVER_NAME|q.example|SERVER_PORT|80|SERVER_SOFTWARE|gate/1|";
static const char *const good_mounts = "/jobs|pool|";

static void test_gateway(void)
{
    struct bytes facts = text(good_facts), site = text(good_site), mounts = text(good_mounts);
    struct bytes http = text("GET /jobs/7?x=1 HTTP/1.1\r\nHost: q.example\r\n\r\n");
    uint64_t *answer = list(OY_GATEWAY_NUMBERS);
    size_t len;
    for (len = 0; len <= 274; len++) {
        struct bytes out = room(len);
        uint64_t code = oy_gateway(facts.at, facts.len, site.at, site.len, mounts.at, mounts.len, http.at, http.len, out.at,
                                   len, answer, 4);
        CHECK(code == (len < 272 ? OY_ROOM : 0));
        CHECK(len == 0 || code == 0 || (out.at[0] == 0xa5 && out.at[len - 1] == 0xa5));
        CHECK(code != 0 || same(out, gateway_output));
        CHECK(len <= 272 || out.at[272] == 0xa5);
        free(out.at);
    }
    CHECK(answer[OY_GATEWAY_WRITTEN] == 272 && answer[OY_GATEWAY_USED] == 45);
    CHECK(answer[OY_GATEWAY_POOL_START] == 6 && answer[OY_GATEWAY_POOL_LENGTH] == 4);
    CHECK(oy_gateway(NULL, 0, NULL, 0, NULL, 0, NULL, 0, NULL, 0, NULL, 0) == OY_LENT);
    CHECK(oy_gateway(facts.at, facts.len, site.at, site.len, NULL, 0, NULL, 0, NULL, 0, NULL, 0) == OY_CUT);
    CHECK(oy_gateway(facts.at, facts.len, site.at, site.len, NULL, 0, http.at, http.len, NULL, 0, answer, 4) == OY_MOUNT);
    free(facts.at);
    free(site.at);
    free(mounts.at);
    free(http.at);
    free(answer);
}

/* What oy_gateway returns for texts, in room enough for what is small; `answer` has OY_GATEWAY_NUMBERS entries. */
static uint64_t forward(const char *facts, const char *site, const char *mounts, const char *from, struct bytes out, uint64_t *answer)
{
    struct bytes lent[3], http = text(from);
    uint64_t code;
    lent[0] = text(facts);
    lent[1] = text(site);
    lent[2] = text(mounts);
    code = oy_gateway(lent[0].at, lent[0].len, lent[1].at, lent[1].len, lent[2].at, lent[2].len, http.at, http.len, out.at, out.len,
                      answer, OY_GATEWAY_NUMBERS);
    free(lent[0].at);
    free(lent[1].at);
    free(lent[2].at);
    free(http.at);
    return code;
}

/* The check at the start: no HTTP bytes, and each rule of OY_LENT broken once. */
static void test_start(void)
{
    static const char *const facts[] = {"", "REMOTE_ADDR||", "REMOTE_ADDR|a|REMOTE_ADDR|a|", "REMOTE_ADDR|a", "REMOTE_ADDR|a|AUTH_TYPE|b|",
                                        "REMOTE_ADDR|a|REMOTE_USER|u|", "REMOTE_ADDR|a|AUTH_TYPE||REMOTE_USER|u|",
                                        "REMOTE_ADDR|a|SERVER_NAME||", "REMOTE_ADDR|a||v|"};
    static const char *const ports[] = {"", "0", "080", "65536", "8o", "99999999999999999999"};
    static const char *const mounts[] = {"/|p|", "/a/|p|", "a|p|", "/a||", "/a|p|/a|q|", "/a|p", "/a|;5|", "/a|p;|", "/a|p;5;6|", "/a|p;x|",
                                         "/a|p;1048577|", "/jobs|p|/a|p;00000000005|"};
    uint64_t *answer = list(OY_GATEWAY_NUMBERS);
    struct bytes out = room(1000);
    char site[100];
    size_t i;
    CHECK(forward(good_facts, good_site, good_mounts, "", out, answer) == OY_CUT);
    CHECK(forward(good_facts, good_site, "", "", out, answer) == OY_CUT);
    CHECK(forward("REMOTE_ADDR|a|AUTH_TYPE|b|REMOTE_USER|u|X|y|", good_site, good_mounts, "", out, answer) == OY_CUT);
    for (i = 0; i < sizeof facts / sizeof facts[0]; i++)
        CHECK(forward(facts[i], good_site, good_mounts, "", out, answer) == OY_LENT);
    for (i = 0; i < sizeof mounts / sizeof mounts[0]; i++)
        CHECK(forward(good_facts, good_site, mounts[i], "", out, answer) == OY_LENT);
    for (i = 0; i < sizeof ports / sizeof ports[0]; i++) {
        sprintf(site, "SERVER_NAME|q|SERVER_SOFTWARE|g|SERVER_PORT|%s|", ports[i]);
        CHECK(forward(good_facts, site, good_mounts, "", out, answer) == OY_LENT);
    }
    CHECK(forward(good_facts, good_site, good_mounts, "GET / HTTP/1.0\r\n\r\n", out, answer) == OY_MOUNT);
    CHECK(answer[OY_GATEWAY_USED] == 77); /* so that a server can't know where the next request begins */
    free(out.at);
    free(answer);
}

/* A server's own variable: the output's block with one more header, and the same body. */
static void test_own_variable(void)
{
    static const char *const added[] = {"HTTPS|on|", "SCGI|1|"};
    static const uint64_t codes[] = {0, OY_TWICE};
    uint64_t *answer = list(OY_GATEWAY_NUMBERS), *places = list(OY_READ_NUMBERS), *found = list(OY_FIND_NUMBERS);
    struct bytes out = room(1000), block = room(1000), again = room(1000), name = text("HTTPS");
    size_t i, len;
    CHECK(forward(good_facts, good_site, good_mounts, "POST /jobs HTTP/1.0\r\nContent-Length: 2\r\n\r\nhi", out, answer) == 0);
    CHECK(oy_scgi_read(out.at, answer[OY_GATEWAY_WRITTEN], places, OY_READ_NUMBERS) == 0);
    for (i = 0; i < 2; i++) {
        struct bytes more = text(added[i]);
        len = places[OY_READ_BLOCK_LENGTH];
        memcpy(block.at, out.at + places[OY_READ_BLOCK_START], len);
        memcpy(block.at + len, more.at, more.len);
        CHECK(oy_scgi_write(block.at, len + more.len, out.at + places[OY_READ_BODY_START], places[OY_READ_BODY_LENGTH], again.at,
                            again.len, answer, OY_WRITE_NUMBERS) == codes[i]);
        free(more.at);
    }
    CHECK(oy_scgi_read(again.at, answer[OY_WRITE_WRITTEN], places, OY_READ_NUMBERS) == 0);
    CHECK(places[OY_READ_USED] == answer[OY_WRITE_WRITTEN] && places[OY_READ_BODY_LENGTH] == 2);
    CHECK(oy_scgi_find(again.at + places[OY_READ_BLOCK_START], places[OY_READ_BLOCK_LENGTH], name.at, name.len, found, 3) == 0);
    CHECK(found[OY_FIND_THERE] == 1 && found[OY_FIND_LENGTH] == 2);
    free(out.at);
    free(block.at);
    free(again.at);
    free(name.at);
    free(answer);
    free(places);
    free(found);
}

/* A body length of OY_MAX_DIGITS digits, zeros in front counted, and of one more: in the reader, the writer and the gateway. */
static void test_digits(void)
{
    static const uint64_t codes[][3] = {{0, 0, 0}, {OY_FIRST, OY_FIRST, OY_CONTENT}};
    uint64_t *answer = list(OY_READ_NUMBERS);
    struct bytes out = room(1000), body = text("hi");
    char block[100], request[200];
    int more;
    for (more = 0; more < 2; more++) {
        struct bytes lent;
        sprintf(block, "CONTENT_LENGTH|%0*d|SCGI|1|", OY_MAX_DIGITS + more, 2);
        sprintf(request, "%u:%s,hi", (unsigned)strlen(block), block);
        CHECK(read_text(request, answer, OY_READ_NUMBERS) == codes[more][0]);
        lent = text(block);
        CHECK(oy_scgi_write(lent.at, lent.len, body.at, body.len, out.at, out.len, answer, OY_WRITE_NUMBERS) == codes[more][1]);
        free(lent.at);
        sprintf(request, "POST /jobs HTTP/1.0\r\nContent-Length: %0*d\r\n\r\nhi", OY_MAX_DIGITS + more, 2);
        CHECK(forward(good_facts, good_site, good_mounts, request, out, answer) == codes[more][2]);
    }
    free(out.at);
    free(body.at);
    free(answer);
}

/* A limit behind the pool: a body of so many bytes, and of one more, here and not yet here. The pool is named without the limit. */
static void test_mount_limit(void)
{
    static const char *const mounts = "/jobs|pool;5|/jobs/night|late;0000000000|";
    uint64_t *answer = list(OY_GATEWAY_NUMBERS);
    struct bytes out = room(1000);
    CHECK(forward(good_facts, good_site, mounts, "POST /jobs HTTP/1.0\r\nContent-Length: 6\r\n\r\nhello!", out, answer) == OY_BODY_LONG);
    CHECK(forward(good_facts, good_site, mounts, "POST /jobs HTTP/1.0\r\nContent-Length: 6\r\n\r\n", out, answer) == OY_BODY_LONG);
    CHECK(forward(good_facts, good_site, mounts, "POST /jobs HTTP/1.0\r\nContent-Length: 5\r\n\r\n", out, answer) == OY_CUT);
    CHECK(out.at[0] == 0xa5 && answer[OY_GATEWAY_POOL_START] == 77);
    CHECK(forward(good_facts, good_site, mounts, "POST /jobs HTTP/1.0\r\nContent-Length: 5\r\n\r\nhello", out, answer) == 0);
    CHECK(answer[OY_GATEWAY_POOL_START] == 6 && answer[OY_GATEWAY_POOL_LENGTH] == 4);
    CHECK(forward(good_facts, good_site, mounts, "POST /jobs/night HTTP/1.0\r\nContent-Length: 1\r\n\r\nh", out, answer) == OY_BODY_LONG);
    CHECK(forward(good_facts, good_site, mounts, "GET /jobs/night HTTP/1.0\r\n\r\n", out, answer) == 0);
    CHECK(answer[OY_GATEWAY_POOL_START] == 25 && answer[OY_GATEWAY_POOL_LENGTH] == 4);
    free(out.at);
    free(answer);
}

/* Each refusal has a text of its own, and a status exactly where a server has something to answer. */
static void test_text(void)
{
    unsigned n, m;
    for (n = 0; n <= OY_CONTRADICTION + 1; n++) {
        unsigned status = oy_refusal_status(n);
        int silent = n == 0 || n == OY_CUT || n == OY_ROOM;
        CHECK(silent ? status == 0 : status >= 400 && status <= 599);
        CHECK(oy_refusal_text(n)[0] != 0);
        for (m = 0; m < n; m++)
            CHECK(strcmp(oy_refusal_text(n), oy_refusal_text(m)) != 0);
    }
    CHECK(oy_refusal_status(OY_BODY_LONG) == 413 && oy_refusal_status(OY_HEAD_LONG) == 431 && oy_refusal_status(OY_TARGET) == 400);
    CHECK(oy_refusal_status(OY_VERSION) == 505 && oy_refusal_status(OY_TRANSFER_ENCODING) == 501 && oy_refusal_status(OY_MOUNT) == 404);
    CHECK(oy_refusal_status(OY_LENT) == 500 && oy_refusal_status(OY_VARIABLES) == 431 && oy_refusal_status(OY_CONTRADICTION) == 502);
    CHECK(oy_refusal_text(UINT64_C(1) << 63) == oy_refusal_text(OY_CONTRADICTION + 1) && oy_refusal_status(UINT64_C(1) << 63) == 500);
    CHECK(strcmp(oy_refusal_text(OY_TWICE), "two headers with equal names") == 0);
}

/* What oy_response returns for texts; an empty method is null. */
static uint64_t respond(uint64_t edition, const char *method, const char *from, uint64_t *answer, size_t answer_len)
{
    struct bytes asked = text(method), script = text(from);
    uint64_t code = oy_response(edition, asked.at, asked.len, script.at, script.len, answer, answer_len);
    free(asked.at);
    free(script.at);
    return code;
}

static void test_response(void)
{
    uint64_t *answer = list(OY_RESPONSE_NUMBERS);
    CHECK(respond(OY_RFC_3875, "GET", "", answer, 6) == OY_RESPONSE);
    CHECK(respond(OY_RFC_3875, "GET", "\n", answer, 6) == OY_CONTRADICTION);
    CHECK(respond(OY_RFC_3875, "GET", "Location: /x\n\n", answer, 5) == OY_ROOM);
    CHECK(answer[0] == 77 && answer[5] == 77);
    CHECK(respond(OY_RFC_3875, "GET", "Location: /x\n\n", answer, 6) == 0);
    CHECK(answer[OY_RESPONSE_ACTION] == OY_SERVE && answer[OY_RESPONSE_STATUS] == 0);
    CHECK(answer[OY_RESPONSE_LOCATION_START] == 10 && answer[OY_RESPONSE_LOCATION_LENGTH] == 2);
    CHECK(answer[OY_RESPONSE_BODY_START] == 14 && answer[OY_RESPONSE_BODY_LENGTH] == 0);
    CHECK(respond(OY_RFC_3875, "GET", "Location: a:b\n\n", answer, 6) == 0);
    CHECK(answer[0] == OY_REDIRECT && answer[1] == 302);
    CHECK(respond(OY_RFC_3875, "GET", "Status: 200 OK\r\nContent-Type: text/plain\r\n\r\n42", answer, 6) == 0);
    CHECK(answer[0] == OY_DOCUMENT && answer[1] == 200 && answer[2] == 0 && answer[3] == 0);
    CHECK(answer[4] == 44 && answer[5] == 2);
    free(answer);
}

static const char *const location = "Location: a:b\n\n";
static const char *const malformed = "Location: a:b\nno colon\n\n";

/* Under the draft edition a Location is for GET and HEAD alone; under the RFC edition the method is not looked at. */
static void test_editions(void)
{
    static const char *const others[] = {"POST", "get", "GET ", "GETS", "GE", "HEA", "GET|", ""};
    uint64_t *answer = list(OY_RESPONSE_NUMBERS);
    size_t i;
    CHECK(OY_RFC_3875 == 0 && OY_DRAFT_1996 == 1);
    for (i = 0; i < sizeof others / sizeof others[0]; i++) {
        answer[0] = 77;
        CHECK(respond(OY_DRAFT_1996, others[i], malformed, answer, 6) == OY_RESPONSE);
        CHECK(respond(OY_DRAFT_1996, others[i], location, answer, 6) == OY_CONTRADICTION);
        CHECK(respond(OY_DRAFT_1996, others[i], location, NULL, 0) == OY_CONTRADICTION);
        CHECK(respond(OY_RFC_3875, others[i], location, NULL, 0) == OY_ROOM);
        CHECK(answer[0] == 77);
        CHECK(respond(OY_RFC_3875, others[i], location, answer, 6) == 0 && answer[0] == OY_REDIRECT);
        CHECK(respond(OY_DRAFT_1996, others[i], "Content-Type: t\n\nhi", answer, 6) == 0 && answer[0] == OY_DOCUMENT);
    }
    CHECK(respond(OY_DRAFT_1996, "GET", location, answer, 5) == OY_ROOM && answer[0] == OY_DOCUMENT);
    CHECK(respond(OY_DRAFT_1996, "GET", location, answer, 6) == 0);
    CHECK(answer[0] == OY_REDIRECT && answer[1] == 302 && answer[2] == 10 && answer[3] == 3 && answer[4] == 15 && answer[5] == 0);
    CHECK(respond(OY_DRAFT_1996, "HEAD", "location: /x\n\n", answer, 6) == 0 && answer[0] == OY_SERVE);
    CHECK(respond(OY_DRAFT_1996, "GET", "Location: /..\n\n", answer, 6) == OY_CONTRADICTION && answer[0] == OY_SERVE);
    free(answer);
}

/* Another edition comes before every other refusal. */
static void test_no_edition(void)
{
    static const uint64_t none[] = {2, 3, 257, (uint64_t)-1};
    uint64_t *answer = list(OY_RESPONSE_NUMBERS);
    size_t i;
    for (i = 0; i < sizeof none / sizeof none[0]; i++) {
        CHECK(respond(none[i], "GET", location, answer, 6) == OY_LENT);
        CHECK(respond(none[i], "POST", location, answer, 6) == OY_LENT);
        CHECK(respond(none[i], "GET", malformed, answer, 6) == OY_LENT);
        CHECK(respond(none[i], "GET", location, answer, 5) == OY_LENT);
        CHECK(oy_response(none[i], NULL, 0, NULL, 0, NULL, 0) == OY_LENT);
    }
    for (i = 0; i < OY_RESPONSE_NUMBERS; i++)
        CHECK(answer[i] == 77);
    CHECK(oy_response(OY_DRAFT_1996, NULL, 0, NULL, 0, NULL, 0) == OY_RESPONSE);
    free(answer);
}

static void (*const tests[])(void) = {
    test_read,
    test_write,
    test_find,
    test_setting,
    test_spool,
    test_socket_one_run,
    test_socket_byte_by_byte,
    test_socket_room,
    test_socket_refusals,
    test_socket_states,
    test_socket_worker,
    test_gateway,
    test_start,
    test_own_variable,
    test_digits,
    test_mount_limit,
    test_text,
    test_response,
    test_editions,
    test_no_edition,
};

int main(void)
{
    unsigned passed = 0, failed = 0, i;
    for (i = 0; i < sizeof tests / sizeof tests[0]; i++) {
        faults = 0;
        tests[i]();
        if (faults == 0)
            passed++;
        else
            failed++;
    }
    printf("%u passed, %u failed\n", passed, failed);
    return failed == 0 ? 0 : 1;
}
