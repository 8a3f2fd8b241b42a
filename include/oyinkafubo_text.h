/*
 * Oyinkafubo: what each refusal says, as a text and as an HTTP status. All of it is in this header, from one table.
 */
#ifndef OYINKAFUBO_TEXT_H
#define OYINKAFUBO_TEXT_H

#include "oyinkafubo.h"

/* A program that uses one of the functions is not warned of the other. */
#if defined(__GNUC__)
#define OYINKAFUBO_MAY_REST_ __attribute__((__unused__))
#else
#define OYINKAFUBO_MAY_REST_
#endif

struct oy_refusal_entry {
    unsigned status;
    const char *text;
};

/* The row of what a call returned; of a number that is none, the last. */
OYINKAFUBO_MAY_REST_ static const struct oy_refusal_entry *oy_refusal_row(uint64_t number)
{
    static const struct oy_refusal_entry rows[] = {
        /*  0 */ {0, "no refusal"},
        /*  1 */ {0, "the bytes end before the request does"},
        /*  2 */ {400, "netstring length malformed"},
        /*  3 */ {400, "block above 16,384 bytes"},
        /*  4 */ {400, "no comma after the block"},
        /*  5 */ {400, "block malformed"},
        /*  6 */ {400, "more than 128 headers"},
        /*  7 */ {400, "two headers with equal names"},
        /*  8 */ {400, "the first header is not CONTENT_LENGTH with 1 to 10 digits"},
        /*  9 */ {413, "stated body length above 1,048,576 or the mount's limit"},
        /* 10 */ {400, "no header SCGI with value 1"},
        /* 11 */ {431, "HTTP head above 8,192 bytes"},
        /* 12 */ {400, "request line malformed"},
        /* 13 */ {505, "HTTP version other than 1.0 and 1.1"},
        /* 14 */ {400, "target refused"},
        /* 15 */ {400, "field line refused, or more than 64 of them"},
        /* 16 */ {400, "Host missing or repeated"},
        /* 17 */ {400, "Content-Length repeated or not 1 to 10 digits, or Content-Type repeated"},
        /* 18 */ {501, "Transfer-Encoding present"},
        /* 19 */ {404, "no mount fits the path"},
        /* 20 */ {500, "connection facts, site settings or mounts wrong, or no such edition"},
        /* 21 */ {0, "output or answer too short"},
        /* 22 */ {431, "not given any more; the number stays unused"},
        /* 23 */ {500, "body length differs from CONTENT_LENGTH"},
        /* 24 */ {502, "script response head malformed"},
        /* 25 */ {502, "script response fields contradict each other or the method"},
        {500, "unknown refusal"}
    };
    const unsigned last = sizeof rows / sizeof rows[0] - 1;
    return &rows[number < last ? number : last];
}

/* What is wrong, in words. */
OYINKAFUBO_MAY_REST_ static const char *oy_refusal_text(uint64_t number)
{
    return oy_refusal_row(number)->text;
}

/*
 * The HTTP status that a server should answer; 0 where there is none to answer: OY_CUT asks for more bytes, OY_ROOM for more
 * room, and 0 is no refusal. 2 to 8 and 10 are those of a worker that reads SCGI: a server whose own block oy_scgi_write refuses
 * answers 500. For 18 it may answer 411 to ask for a Content-Length.
 */
OYINKAFUBO_MAY_REST_ static unsigned oy_refusal_status(uint64_t number)
{
    return oy_refusal_row(number)->status;
}

#endif
