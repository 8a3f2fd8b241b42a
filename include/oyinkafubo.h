/*
 * Oyinkafubo: a gateway from HTTP to SCGI. The calls of liboyinkafubo.a, for x86-64 Linux (in the source tree
 * target/staticlib/libcapi.a). oyinkafubo_text.h beside this header has a text and an HTTP status for each refusal.
 *
 * Every call but the two of the socket reader returns 0, or the number of a refusal (enum oy_refusal). The numbers that a
 * call gives go to the front of the list `answer`, in the order of the enum that stands at the call. Where a call does not
 * return 0, it has changed nothing that was lent. Where it returns 0, it has written what is said there and no other byte or
 * entry: the rest of an output or of a list is as it was. A list `answer` too short for the numbers is OY_ROOM, after every
 * other refusal; a longer one is fine. oy_socket_feed answers by a struct, and its buffer is the one exception: it holds the
 * bytes of the block that have come, also where the call refuses.
 *
 * The caller holds to this:
 * - A pointer and the length after it name memory that may be read, or written where the pointer is not const. Lengths of
 *   lists are counted in entries. A pointer may be null where its length is 0.
 * - Memory lent for writing overlaps no other memory lent to the same call. Memory lent for reading may overlap other memory
 *   lent for reading.
 *
 * The calls keep no state, allocate nothing, and call nothing but memcpy, memmove and memset. They may run in many threads
 * at once. Their scratch memory is on the stack: 64 KiB of it are enough. Every call ends, whatever the bytes.
 *
 * A block is zero or more of: name, NUL, value, NUL. Names are not empty, values may be.
 *
 * How to write the loop
 * ---------------------
 * At the start. Call oy_gateway with the three blocks and http_len 0: it returns OY_LENT (20) where a block is wrong, else
 * OY_CUT (1). The connection facts differ from one connection to the next; at the start take sample ones.
 *
 * oy_gateway gives 20 exactly where one of these fails, whatever the HTTP bytes:
 * - facts and site have at most OY_MAX_FACTS bytes each, mounts at most OY_MAX_MOUNTS bytes and OY_MAX_MOUNT_COUNT entries;
 * - each of the three is a block as above, with no name twice in it;
 * - each name of mounts begins with '/' and does not end with '/'. So no mount can be "/", and a request for "/" is always 19:
 *   such a page is the server's own. No mounts at all are allowed;
 * - each value of mounts is a pool, or a pool, ';' and a limit. The pool is not empty and has no ';' in it; the limit is 0 to
 *   OY_MAX_BODY in 1 to OY_MAX_DIGITS digits, zeros in front allowed;
 * - SERVER_NAME, SERVER_PORT and SERVER_SOFTWARE stand in facts or else in site, and the one found first is not empty;
 * - the port is 1 to 65535 in digits without a leading zero;
 * - REMOTE_ADDR stands in facts and is not empty;
 * - AUTH_TYPE and REMOTE_USER both stand in facts and are not empty, or neither does. In site they are ignored, as every
 *   name is that is not named here.
 *
 * Reading. Hold the connection's bytes in a buffer of OY_MAX_HTTP bytes (of OY_MAX_HEAD until the head is complete, to save
 * memory), call oy_gateway on all that is there, and act on what it returns:
 * - 0: send the first answer[OY_GATEWAY_WRITTEN] bytes of `out` to the pool. The next request begins at
 *   answer[OY_GATEWAY_USED]: move what is left to the front, and call again before reading, since a whole request may be there.
 * - OY_CUT: read what the socket has to give and call again. Each call reads the head again and nothing of the body, so call
 *   for what a read gives and not for every byte. A full buffer is never OY_CUT. Where the client has closed, answer 400 if
 *   a byte is there; where it is late, answer 408.
 * - OY_CUT although CR LF CR LF is among the bytes: the head is accepted, and only bytes of the body are missing. (The one
 *   refusal that comes later, 21, is a matter of room.) If the head has a field Expect with the value 100-continue, letter case
 *   aside, and the version HTTP/1.1, send "HTTP/1.1 100 Continue" and an empty line, once, before reading on.
 * - OY_ROOM: lend more. An output of OY_MAX_REQUEST bytes and a list of OY_GATEWAY_NUMBERS are always enough.
 * - every other number: answer oy_refusal_status(number) and close. An empty line before a request is 12; a server that wants
 *   to forgive one drops it itself.
 *
 * Closing. After every refusal of oy_gateway but OY_CUT and OY_ROOM the connection must be closed, 19 and 20 too, and also
 * after a 408, or a 411 for 18: the call has not said where the next request begins, and a server that goes on takes the body
 * of a refused request for a request. After an accepted request the connection may stay open, by HTTP's own rules: the field
 * Connection is not passed on, so the server looks for it in the head.
 *
 * Variables of the server's own, such as HTTPS. Read the output by oy_scgi_read, copy its block, append name, NUL, value,
 * NUL for each, and write that block with the same body by oy_scgi_write into another output. Take no name that begins with
 * HTTP_: those are the client's fields, and a name that is there already is refused (7).
 *
 * Answering. Give oy_response the edition that the pool's scripts are written to, the method that the script was sent as
 * REQUEST_METHOD (oy_scgi_find finds it in the block), and the script's whole output. The editions differ in one rule: under
 * the draft a script may send Location only where the method is GET or HEAD, and with another method it is 25. So keep an
 * edition for each pool; OY_RFC_3875 where nothing else is known. For OY_SERVE make a GET request for the target that
 * Location names, whose output is then read with GET, and count such steps, since scripts can name each other. Otherwise send
 * the status, and of the fields of the script's head, which is all before the body's start, those that are the script's to
 * send; end each line in CR LF, as the script may end it in LF alone. No name or value has a CR, LF or NUL in it. Not to be
 * forwarded: Status; Location where the action is OY_SERVE; and the connection's own, Connection, Keep-Alive,
 * Proxy-Connection, TE, Trailer, Transfer-Encoding and Upgrade. Content-Length is the server's to send, by the body's length
 * here. A response to HEAD, and one with status 204 or 304, has no body.
 *
 * A script's output need not be held whole. Its first OY_RESPONSE_SETTLED bytes, or all where it has fewer, settle what
 * oy_response returns, the action, the status, the Location and the body's start. Only the body's length is then that of the
 * bytes lent: send the body on as it comes, by chunks or up to the connection's end.
 *
 * How a worker reads from its socket
 * ----------------------------------
 * A worker need not hold a whole request. It lends a buffer for the block, hands the bytes of each read to oy_socket_feed as
 * they are, and keeps the state that comes back. Whatever the cuts between the reads, it gets what oy_scgi_read would give
 * over all the bytes:
 *
 *     uint8_t block[OY_MAX_BLOCK], run[16384];
 *     struct oy_socket state = oy_socket_new();
 *     ssize_t got;
 *     while ((got = read(fd, run, sizeof run)) > 0) {
 *         size_t at = 0, len = got;
 *         while (at < len) {
 *             struct oy_fed fed = oy_socket_feed(state, run + at, len - at, block, sizeof block);
 *             size_t end = len - fed.after;
 *             state = fed.state;
 *             take_body(run + end - fed.body, fed.body);
 *             if (fed.refusal == OY_CUT)
 *                 break;
 *             if (fed.refusal != 0)
 *                 return refuse(fed.refusal);
 *             serve(block, fed.block_len, fed.body_len);
 *             at = end;
 *             state = oy_socket_new();
 *         }
 *     }
 *
 * The body's bytes of a run are the last ones before those that come after the end. Once the state's stage is OY_STAGE_BODY
 * or OY_STAGE_WHOLE, the block is known to be right: it is the first `len` bytes of the buffer, and may be read before the
 * body has come. take_body, serve and refuse are the worker's own. Where read gives -1 the input has not ended: after EINTR
 * read again. Where it gives 0, a request was cut unless the stage is OY_STAGE_LENGTH with `digits` 0, as in a new state. After
 * a refusal the connection must be closed: nothing says where the next request begins.
 */
#ifndef OYINKAFUBO_H
#define OYINKAFUBO_H

#include <stddef.h>
#include <stdint.h>

#ifdef __cplusplus
extern "C" {
#endif

/* The version, of which this is the one source: pkg-config and cargo are told the same. */
#define OYINKAFUBO_VERSION_MAJOR 0
#define OYINKAFUBO_VERSION_MINOR 6
#define OYINKAFUBO_VERSION_PATCH 0

/* The version as text: "MAJOR.MINOR.PATCH". */
#define OYINKAFUBO_VERSION \
    OYINKAFUBO_JOIN_(OYINKAFUBO_VERSION_MAJOR, OYINKAFUBO_VERSION_MINOR, OYINKAFUBO_VERSION_PATCH)
#define OYINKAFUBO_JOIN_(major, minor, patch) OYINKAFUBO_QUOTE_(major) "." OYINKAFUBO_QUOTE_(minor) "." OYINKAFUBO_QUOTE_(patch)
#define OYINKAFUBO_QUOTE_(number) #number

/* Why a call refuses. Of two faults the call's order of refusals decides, which stands at the call. */
enum oy_refusal {
    OY_CUT = 1,                /* the bytes end before the request does */
    OY_LENGTH = 2,             /* netstring length malformed */
    OY_BLOCK_LONG = 3,         /* netstring length, or block given to the writer, above OY_MAX_BLOCK */
    OY_COMMA = 4,              /* the byte after the block is not a comma */
    OY_BLOCK = 5,              /* block malformed */
    OY_HEADERS = 6,            /* more than OY_MAX_HEADERS headers */
    OY_TWICE = 7,              /* two headers with equal names */
    OY_FIRST = 8,              /* the first header is not CONTENT_LENGTH with 1 to OY_MAX_DIGITS digits */
    OY_BODY_LONG = 9,          /* stated body length above OY_MAX_BODY; in oy_gateway, above the mount's limit */
    OY_SCGI = 10,              /* no header SCGI with value 1 */
    OY_HEAD_LONG = 11,         /* no end of the HTTP head in its first OY_MAX_HEAD bytes */
    OY_REQUEST_LINE = 12,      /* request line malformed */
    OY_VERSION = 13,           /* HTTP version other than 1.0 and 1.1 */
    OY_TARGET = 14,            /* target refused */
    OY_FIELD = 15,             /* field line refused, or more than OY_MAX_FIELDS of them */
    OY_HOST = 16,              /* HTTP/1.1 without one Host field, HTTP/1.0 with more than one */
    OY_CONTENT = 17,           /* Content-Length repeated or not 1 to OY_MAX_DIGITS digits; Content-Type repeated */
    OY_TRANSFER_ENCODING = 18, /* Transfer-Encoding present */
    OY_MOUNT = 19,             /* no mount fits the path */
    OY_LENT = 20,              /* connection facts, site settings or mounts wrong; in oy_response, no such edition */
    OY_ROOM = 21,              /* the output, the list of numbers, or the socket reader's buffer is too short */
    OY_VARIABLES = 22,         /* not given any more; the number stays unused */
    OY_BODY_LENGTH = 23,       /* writer: the body's length is not that of CONTENT_LENGTH */
    OY_RESPONSE = 24,          /* script response head malformed */
    OY_CONTRADICTION = 25      /* script response fields contradict each other, or Location is not for the method */
};

/* Limits, each the largest that is accepted. */
enum oy_limit {
    OY_MAX_BLOCK = 16384,   /* bytes of a request's block */
    OY_MAX_HEADERS = 128,   /* headers of a request's block */
    OY_MAX_BODY = 1048576,  /* bytes of a body, and the limit of a mount that names none */
    OY_MAX_DIGITS = 10,     /* digits of a CONTENT_LENGTH, a Content-Length or a mount's limit, zeros in front counted */
    OY_MAX_HEAD = 8192,     /* bytes of an HTTP or script response head with its empty line */
    OY_MAX_METHOD = 32,     /* bytes of an HTTP request's method */
    OY_MAX_TARGET = 4096,   /* bytes of a target */
    OY_MAX_SLASHES = 64,    /* slashes of a target's path */
    OY_MAX_FIELDS = 64,     /* field lines of a head */
    OY_MAX_FACTS = 1024,    /* bytes of the connection facts, and of the site settings */
    OY_MAX_MOUNTS = 4096,   /* bytes of the mounts */
    OY_MAX_MOUNT_COUNT = 32 /* entries of the mounts */
};

/* How many bytes oy_scgi_write and oy_gateway write at most: block digits, colon, block, comma, body. */
#define OY_MAX_REQUEST (5 + 1 + OY_MAX_BLOCK + 1 + OY_MAX_BODY)

/* How many bytes an HTTP request has at most: head, body. With as many bytes, oy_gateway never returns OY_CUT. */
#define OY_MAX_HTTP (OY_MAX_HEAD + OY_MAX_BODY)

/* How many bytes of a script's output settle what oy_response gives, but for the body's length: a head and a byte more. */
#define OY_RESPONSE_SETTLED (OY_MAX_HEAD + 1)

/* To which text a script is written: RFC 3875, or draft-robinson-www-interface-01 of February 1996. */
enum oy_edition {
    OY_RFC_3875 = 0,  /* a script may send Location whatever the method */
    OY_DRAFT_1996 = 1 /* only where the method is GET or HEAD */
};

/* How a spool ends. */
enum oy_ending {
    OY_END_WHOLE = 0,   /* at the end of a request */
    OY_END_CUT = 1,     /* inside of a request */
    OY_END_REFUSED = 2, /* before a request that the reader refuses */
    OY_END_FULL = 3     /* before a request that the list has no room for */
};

/* What a server does with a script's output. */
enum oy_action {
    OY_SERVE = 1,                  /* serve the target that Location names */
    OY_REDIRECT = 2,               /* redirect with status 302 */
    OY_REDIRECT_WITH_DOCUMENT = 3, /* redirect with the script's status and body */
    OY_DOCUMENT = 4                /* send the body with its status */
};

/* In which block oy_setting found a name. */
enum oy_origin {
    OY_IN_NEITHER = 0,
    OY_IN_FACTS = 1,
    OY_IN_SITE = 2 /* and not in the connection facts */
};

/* How far the request has come that a socket reader takes. */
enum oy_stage {
    OY_STAGE_LENGTH = 0, /* in the length digits; a new state too */
    OY_STAGE_BLOCK = 1,  /* in the block, or before its comma */
    OY_STAGE_BODY = 2,   /* in the body; the block is whole and right */
    OY_STAGE_WHOLE = 3,  /* the request is whole */
    OY_STAGE_REFUSED = 4
};

/* What a socket reader has taken. The caller keeps it from one call to the next and changes nothing in it. */
struct oy_socket {
    size_t stage;   /* enum oy_stage */
    size_t refusal; /* the refusal in OY_STAGE_REFUSED, where every number below is 0; else 0 */
    size_t digits;  /* length digits that have come */
    size_t len;     /* the number that they say: the block's length, once the stage is OY_STAGE_BLOCK */
    size_t stored;  /* bytes of the block that have come and stand in the buffer */
    size_t body;    /* the body length that the block states, once it is whole */
    size_t seen;    /* bytes of the body that have come */
};

/* What a run of bytes gave. */
struct oy_fed {
    struct oy_socket state; /* for the next call */
    uint64_t refusal;       /* 0 at the end of the request, OY_CUT before it, else the refusal */
    size_t body;            /* how many bytes of the run belong to the body */
    size_t after;           /* how many bytes of the run come after the end */
    size_t block_len;       /* at the end: bytes of the block, which stands at the front of the buffer; else 0 */
    size_t body_len;        /* at the end: bytes of the body; else 0 */
    size_t used;            /* at the end: bytes of the request, as OY_READ_USED; else 0 */
};

/* The places of the numbers in the list `answer` of each call, and how many there are. */
enum oy_read_index {
    OY_READ_BLOCK_START = 0,
    OY_READ_BLOCK_LENGTH = 1,
    OY_READ_BODY_START = 2,
    OY_READ_BODY_LENGTH = 3,
    OY_READ_USED = 4, /* bytes of the request, block and body with all between */
    OY_READ_NUMBERS = 5
};

enum oy_write_index {
    OY_WRITE_WRITTEN = 0, /* bytes written to the output */
    OY_WRITE_NUMBERS = 1
};

enum oy_find_index {
    OY_FIND_THERE = 0,  /* 1 where the name is there, else 0 */
    OY_FIND_START = 1,  /* of the value in the block; 0 where the name is not there */
    OY_FIND_LENGTH = 2, /* of the value; 0 where the name is not there */
    OY_FIND_NUMBERS = 3
};

enum oy_setting_index {
    OY_SETTING_ORIGIN = 0, /* enum oy_origin */
    OY_SETTING_START = 1,  /* of the value in that block; 0 where the name is in neither */
    OY_SETTING_LENGTH = 2, /* of the value; 0 where the name is in neither */
    OY_SETTING_NUMBERS = 3
};

enum oy_spool_index {
    OY_SPOOL_STORED = 0,  /* lengths stored */
    OY_SPOOL_ENDING = 1,  /* enum oy_ending */
    OY_SPOOL_REFUSAL = 2, /* the refusal's number where the ending is OY_END_REFUSED, else 0 */
    OY_SPOOL_NUMBERS = 3
};

enum oy_gateway_index {
    OY_GATEWAY_WRITTEN = 0,     /* bytes written to the output */
    OY_GATEWAY_POOL_START = 1,  /* of the pool in the mounts */
    OY_GATEWAY_POOL_LENGTH = 2, /* of the pool, without ';' and limit */
    OY_GATEWAY_USED = 3,        /* bytes of the HTTP request, head and body */
    OY_GATEWAY_NUMBERS = 4
};

enum oy_response_index {
    OY_RESPONSE_ACTION = 0,          /* enum oy_action */
    OY_RESPONSE_STATUS = 1,          /* 0 for OY_SERVE */
    OY_RESPONSE_LOCATION_START = 2,  /* of the Location's value in the output; 0 where there is none */
    OY_RESPONSE_LOCATION_LENGTH = 3, /* 0 where there is none */
    OY_RESPONSE_BODY_START = 4,      /* of the body in the output, which is the length of the head */
    OY_RESPONSE_BODY_LENGTH = 5,
    OY_RESPONSE_NUMBERS = 6
};

/*
 * Reads the SCGI request at the start of `bytes`. Bytes after it are not looked at.
 * Gives: the numbers of enum oy_read_index.
 * Refusals in their order: 1 to 3 by the length digits from the left, 1 where the comma's place is not there, 4, 5, 6, 7, 8,
 * 9, 10, 1 where the body is short, 21.
 */
uint64_t oy_scgi_read(const uint8_t *bytes, size_t len, uint64_t *answer, size_t answer_len);

/*
 * Writes the block as netstring and then the body to `out`.
 * Gives: the number of enum oy_write_index.
 * Refusals in their order: 3, 5, 6, 7, 8, 9, 10, 23, 21.
 */
uint64_t oy_scgi_write(const uint8_t *block, size_t block_len, const uint8_t *body, size_t body_len, uint8_t *out,
                       size_t out_len, uint64_t *answer, size_t answer_len);

/*
 * Looks up a name in a block of any length. Of equal names the first counts.
 * Gives: the numbers of enum oy_find_index.
 * Refusals in their order: 5, 21.
 */
uint64_t oy_scgi_find(const uint8_t *block, size_t block_len, const uint8_t *name, size_t name_len, uint64_t *answer,
                      size_t answer_len);

/*
 * Looks up a name in the connection facts, then in the site settings.
 * Gives: the numbers of enum oy_setting_index.
 * Refusals in their order: 5 where either block is malformed, 21.
 */
uint64_t oy_setting(const uint8_t *facts, size_t facts_len, const uint8_t *site, size_t site_len, const uint8_t *name,
                    size_t name_len, uint64_t *answer, size_t answer_len);

/*
 * Reads SCGI requests end to end and stores the byte length of each in `lengths`.
 * Gives: the numbers of enum oy_spool_index. Endings are no refusals: the call returns 0 and the lengths before the ending are
 * stored.
 * Refusals: 21.
 */
uint64_t oy_spool(const uint8_t *bytes, size_t len, uint64_t *lengths, size_t lengths_len, uint64_t *answer,
                  size_t answer_len);

/*
 * The state of a socket reader before the first byte of a request.
 */
struct oy_socket oy_socket_new(void);

/*
 * Takes the next bytes of an SCGI request, as the socket gives them: any number of them, also none. `block` has OY_MAX_BLOCK
 * bytes or more; it comes with the contents that the call before left in it, and only its first OY_MAX_BLOCK bytes are used.
 * Before the end the answer is OY_CUT. At the end it is 0, with the lengths and the used count that oy_scgi_read gives over all
 * the bytes taken. The run that brings another refusal counts 0 for `body` and `after`. From then on, as from the end on, every
 * call with a buffer that is long enough gives that answer again, changes nothing, and counts all bytes as `after`.
 * `block` holds the block's bytes that have come at its front, and behind them what it held when the request began.
 * A state that did not come from a call is taken as a new one where its stage is above OY_STAGE_REFUSED, or OY_STAGE_REFUSED
 * with a refusal other than 2 to 10. In OY_STAGE_REFUSED every other number is taken as 0; in the stages before it `refusal` is,
 * and a number above its limit is taken as that: `len` OY_MAX_BLOCK, `digits` `len` + 1, `stored` `len`, `body` OY_MAX_BODY,
 * `seen` `body`.
 * Refusals in their order: 21 where `block` is too short, which takes no byte, changes nothing and ends nothing; then those of
 * oy_scgi_read, but for its 21.
 */
struct oy_fed oy_socket_feed(struct oy_socket state, const uint8_t *run, size_t run_len, uint8_t *block, size_t block_len);

/*
 * Writes the SCGI request for the HTTP/1.0 or 1.1 request at the start of `http` to `out`. Bytes after it are not looked at.
 * `facts` has REMOTE_ADDR, and AUTH_TYPE with REMOTE_USER where the user is known; `facts` or else `site` has SERVER_NAME,
 * SERVER_PORT and SERVER_SOFTWARE; `mounts` has a path for each name, and for each value a pool, or a pool, ';' and how many
 * bytes a body may have there ("witness;65536"). The longest path that fits wins, and a body above its limit is 9.
 * Fields of one name become one variable, their values joined in order with ", ", those of Cookie with "; ".
 * Gives: the numbers of enum oy_gateway_index.
 * Refusals in their order: 20, then 11 or 1 where the head has no end, 12, 13, 14, 15, 16, 17, 18, 19, 9, 1 where the body is
 * short, 21.
 */
uint64_t oy_gateway(const uint8_t *facts, size_t facts_len, const uint8_t *site, size_t site_len, const uint8_t *mounts,
                    size_t mounts_len, const uint8_t *http, size_t http_len, uint8_t *out, size_t out_len, uint64_t *answer,
                    size_t answer_len);

/*
 * Reads a script's whole output, or its first OY_RESPONSE_SETTLED bytes as said above. `edition` is one of enum oy_edition.
 * `method` is that of the request, any bytes, compared byte by byte ("get" is not "GET"); OY_RFC_3875 does not look at it.
 * Gives: the numbers of enum oy_response_index.
 * Refusals in their order: 20 where `edition` is another number, 24, 25, 21.
 */
uint64_t oy_response(uint64_t edition, const uint8_t *method, size_t method_len, const uint8_t *script, size_t len,
                     uint64_t *answer, size_t answer_len);

#ifdef __cplusplus
}
#endif

#endif
