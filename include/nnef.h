/*
 * nnef.h - reads flat NNEF text.
 *
 * Link with libnnef.a, which `rt lib` in the repository's crates/nnef writes
 * to crates/nnef/out, for x86-64; once it is installed, `pkg-config
 * --cflags --libs sluicegnome` has the flags. Of the C library it asks `memcpy`
 * and `memset` alone.
 *
 * The library keeps no state and allocates nothing: it works in the buffers
 * that the caller lends it and on the stack. Any number of threads may call it
 * at the same time, each with tables, work areas and outputs of its own. Every
 * call ends, whatever bytes it is given, and touches nothing beyond the
 * lengths it is given.
 *
 * Every buffer is a pointer and a length, in bytes for texts, names and outputs,
 * in words of 32 bits for tables, work areas and orders. With length 0 the
 * pointer may be NULL; nothing is read or written through it. Texts, names and
 * orders are only read, and they may overlap each other or be one buffer.
 * Tables, work areas and outputs are written to, and none of them may overlap
 * any other buffer of the call.
 */
#ifndef NNEF_H
#define NNEF_H

#include <stddef.h>
#include <stdint.h>

#ifdef __cplusplus
extern "C" {
#endif

/* The version of the library that this header belongs to. */
#define NNEF_LIBRARY_VERSION "2.3.0"

/* Sizes: the most that there may be. */
#define NNEF_TEXT_BYTES 16384 /* bytes of a text */
#define NNEF_TOKENS 4096      /* tokens of a text */
#define NNEF_NAME_BYTES 64    /* bytes of a name */
#define NNEF_STRING_BYTES 128 /* bytes of a string between its quotes */
#define NNEF_NUMBER_BYTES 64  /* bytes of a number, without its sign */
#define NNEF_BRACKETS 8       /* brackets of arrays, tuples and types open at once */
#define NNEF_OPERATIONS 128   /* operations of a list */
#define NNEF_PARAMETERS 32    /* parameters of an operation */
#define NNEF_RESULTS 8        /* results of an operation */
#define NNEF_INPUTS 32        /* inputs of a graph */
#define NNEF_OUTPUTS 32       /* outputs of a graph */
#define NNEF_CALLS 384        /* calls of a graph */
#define NNEF_ASSIGNED 1024    /* places of a graph that assign an identifier */
#define NNEF_USES 1024        /* places of a graph that use an identifier */

/* Words of one record. */
#define NNEF_TOKEN_RECORD_WORDS 4
#define NNEF_CALL_RECORD_WORDS 4
#define NNEF_WIRE_RECORD_WORDS 2

/* Words that are to be lent, at least. */
#define NNEF_TABLE_WORDS 16384 /* of a token table */
#define NNEF_WORK_WORDS 16384  /* of a work area */
#define NNEF_CALL_WORDS 1536   /* of a call table */
#define NNEF_WIRE_WORDS 2048   /* of a wire table */

/*
 * Bytes of stack that a call takes at most: measured on the longest and deepest
 * texts, and on names, and rounded up.
 */
#define NNEF_TOKENS_STACK 53248
#define NNEF_DECLARATIONS_STACK 49152
#define NNEF_CHECK_STACK 86016
#define NNEF_CANON_STACK 106496
#define NNEF_ORDER_STACK 86016
#define NNEF_COMPARE_STACK 4096

/* What an operation answers with. */
typedef struct nnef_answer {
    uint32_t code;     /* one of enum nnef_code; 0 is acceptance */
    uint32_t text;     /* the text with the fault: 1 the list or the only one, 2 the document, 0 none */
    uint32_t position; /* the fault's place in that text, in bytes from 0; with codes 41 to 44 its place in the order, from 0 */
    uint32_t detail;   /* after acceptance a count; with code 19 a parameter's index, from 0; with code 26 a length; else 0 */
} nnef_answer;

/*
 * Codes. Of several faults the stage decides first. The stages are, in this
 * order: code 1; code 2, of the list and then of the document; the list's bytes
 * (3 to 8), its syntax (9, 10) and its rules (12 to 14); the document's bytes
 * (3 to 8), its syntax (9, 10) and its rules (11 to 13, 15 to 24); then, of
 * nnef_canon, code 25 and code 26, and of nnef_order code 41 and the order's
 * numbers (42 to 44). In one stage the fault with the smallest position is
 * given, and of those at one position the one with the smallest code.
 */
enum nnef_code {
    NNEF_ACCEPTED = 0,        /* no fault; text and position are 0 */
    NNEF_LENT_TOO_SHORT = 1,  /* a lent table or work area has too few words; text and position are 0 */
    NNEF_TEXT_TOO_LONG = 2,   /* the text has more than 16384 bytes; position is 16384 */
    NNEF_NO_TOKEN = 3,        /* the byte at position begins no token */
    NNEF_NUMBER_MISSPELT = 4, /* the number at position runs on into a letter, '_' or '.' */
    NNEF_BAD_STRING = 5,      /* the string at position is not closed, or holds a byte outside 32 to 126 */
    NNEF_TOKEN_TOO_LONG = 6,  /* the name, string or number at position is too long */
    NNEF_OUT_OF_RANGE = 7,    /* the number at position is out of range (see below) */
    NNEF_TOO_MANY_TOKENS = 8, /* the token at position is the 4097th */
    NNEF_SYNTAX = 9,          /* no valid text has the token at position there, or ends there */
    NNEF_TOO_DEEP = 10,       /* the bracket at position is the ninth that is open */
    NNEF_VERSION = 11,        /* the version is not spelt 1.0 */
    NNEF_TOO_MANY = 12,       /* more operations, parameters, results, inputs, outputs, calls or identifiers than there may be */
    NNEF_REPEATED = 13,       /* a name is repeated in a list or a header */
    NNEF_BAD_DEFAULT = 14,    /* a default does not fit its parameter's type; of a negative number position is the sign */
    NNEF_UNDECLARED = 15,     /* the operation is not declared */
    NNEF_MISPLACED = 16,      /* a positional argument may not stand there; of a negative number position is the sign */
    NNEF_MISNAMED = 17,       /* a named argument is unknown, or its parameter is already bound */
    NNEF_MISFIT = 18,         /* an argument does not fit its parameter's type; of a negative number position is the sign */
    NNEF_MISSING = 19,        /* a parameter without default is not bound; detail is the first such index */
    NNEF_UNMATCHED = 20,      /* a left side does not match the operation's results */
    NNEF_AGAIN = 21,          /* an identifier is assigned again */
    NNEF_UNASSIGNED = 22,     /* an identifier is used that no earlier call assigns */
    NNEF_MISFED = 23,         /* an input is not assigned by `external`, or another identifier is */
    NNEF_UNMADE = 24,         /* an output is never assigned */
    NNEF_CANON_TOO_LONG = 25, /* the canonical text has more than 16384 bytes or 4096 tokens; text and position are 0 */
    NNEF_OUT_TOO_SHORT = 26,  /* the lent output is shorter than the canonical text; text and position are 0, detail is its length */
    NNEF_ORDER_LENGTH = 41,   /* the order has more or fewer numbers than the graph has calls; text and position are 0 */
    NNEF_NO_CALL = 42,        /* the number at position in the order is no call of the graph; text is 0 */
    NNEF_CALL_REPEATED = 43,  /* the number at position in the order stands at an earlier place too; text is 0 */
    NNEF_USE_TOO_EARLY = 44   /* the call at position in the order uses what a call assigns that stands at no earlier place; text is 0 */
};

/*
 * Kinds of token.
 *
 * A number is in range when the exponent as written is at most 9999 in size
 * and, with the zeros at both ends of its digits dropped and the point moved
 * behind the last digit left, at most 18 digits are left and the exponent then
 * lies between -999 and 999. Zero asks only for the first of these.
 *
 * A `-` is a token of its own, before a number too. In lists and documents the
 * two make a negative literal, with white space and comments between them or
 * not. An extent lies between -2147483648 and 2147483647.
 */
enum nnef_kind {
    NNEF_NAME = 1,
    NNEF_WHOLE = 2,    /* a number of digits alone */
    NNEF_REAL = 3,     /* a number with a point or an exponent */
    NNEF_STRING = 4,   /* its start and end take in the quotes */
    NNEF_LOGICAL = 5,  /* true, false */
    NNEF_KEYWORD = 6,  /* graph fragment tensor extent scalar logical string shape_of
                          length_of range_of for in if else version */
    NNEF_OPERATOR = 7, /* + - * / ^ < <= > >= == != && || ! */
    NNEF_SYNTACTIC = 8 /* ( ) [ ] { } : = , ; -> */
};

/*
 * Splits a text into tokens. Codes 0 to 8.
 *
 * Code 1: `table` has fewer than NNEF_TABLE_WORDS words. It may not overlap the
 * text. A text of length 0 is accepted.
 *
 * When the text is accepted, detail is the number of its tokens, and the token
 * at place i, counted from 0, is in table[4*i] (its kind), table[4*i + 1] (the
 * place of its first byte), table[4*i + 2] (the place after its last byte) and
 * table[4*i + 3] (its line: one more than the number of bytes 10 before it, in
 * comments or not). The words behind the last token keep what they held. When
 * the text is refused, the whole table keeps what it held.
 */
nnef_answer nnef_tokens(const uint8_t *text, size_t text_len,
                        uint32_t *table, size_t table_len);

/*
 * Checks an operation list. Codes 0 to 10 and 12 to 14.
 *
 * Code 1: the work area `work` has fewer than NNEF_WORK_WORDS words. It may not
 * overlap the list. A list of length 0 is accepted.
 *
 * When the list is accepted, detail is the number of its operations. After any
 * answer but codes 1 and 2, which write nothing, the work area is zero over its
 * whole length.
 */
nnef_answer nnef_declarations(const uint8_t *list, size_t list_len,
                              uint32_t *work, size_t work_len);

/*
 * Checks a document against an operation list. Codes 0 to 24.
 *
 * Code 1: `list_work` or `document_work` has fewer than NNEF_WORK_WORDS words,
 * `calls` fewer than NNEF_CALL_WORDS, or `wires` fewer than NNEF_WIRE_WORDS.
 * None of these four may overlap another of them, the list or the document.
 *
 * When the document is accepted, detail is the number of its calls; call i,
 * counted from 0, is in calls[4*i] (its operation's index in the list, from 0),
 * calls[4*i + 1] (the place of the operation's name in the document),
 * calls[4*i + 2] (the identifiers it assigns) and calls[4*i + 3] (those it
 * uses); use j, in the order of the document, is in wires[2*j] (its place) and
 * wires[2*j + 1] (the index of the call that assigns it, always an earlier
 * one). The words behind these keep what they held. When anything is refused,
 * both tables keep what they held. After any answer but codes 1 and 2, which
 * write nothing, the work areas are zero over their whole length.
 */
nnef_answer nnef_check(const uint8_t *list, size_t list_len,
                       const uint8_t *document, size_t document_len,
                       uint32_t *list_work, size_t list_work_len,
                       uint32_t *document_work, size_t document_work_len,
                       uint32_t *calls, size_t calls_len,
                       uint32_t *wires, size_t wires_len);

/*
 * Writes the canonical text of a document under an operation list. Codes 0 to
 * 26.
 *
 * Code 1: `list_work` or `document_work` has fewer than NNEF_WORK_WORDS words.
 * The output `out` may have any length, NNEF_TEXT_BYTES are always enough, and
 * one that is too short is code 26. None of these three may overlap another of
 * them, the list or the document.
 *
 * When the document is accepted, detail is the number of bytes written, which
 * are the first of `out`; those behind them keep what they held. When anything
 * is refused, the whole output keeps what it held. Under one list, two documents
 * have the same canonical text exactly when they say the same, defaults filled
 * in; minus zero says what zero says. A canonical text is its own. After any
 * answer but codes 1 and 2, which write nothing, the work areas are zero over
 * their whole length.
 */
nnef_answer nnef_canon(const uint8_t *list, size_t list_len,
                       const uint8_t *document, size_t document_len,
                       uint32_t *list_work, size_t list_work_len,
                       uint32_t *document_work, size_t document_work_len,
                       uint8_t *out, size_t out_len);

/*
 * Judges an order of the calls of a document under an operation list: whether
 * each call stands in it once, and after the calls that assign what it uses.
 * Codes 0 to 24 and 41 to 44.
 *
 * Code 1: `list_work` or `document_work` has fewer than NNEF_WORK_WORDS words.
 * Neither of them may overlap the other, the list, the document or the order.
 * The order may have any length; it is only read.
 *
 * Calls have the numbers that nnef_check gives them: from 0, as they stand in
 * the document, those of `external` too. What nnef_check refuses is refused with
 * the same four numbers. Then an order of another length than the number of
 * calls is code 41. Else the first place is given at which the number is no
 * call (42), stands at an earlier place too (43), or is a call that uses an
 * identifier whose assigning call stands at no earlier place (44); text and
 * detail are 0, and position is that place, counted from 0. When the order is
 * accepted, detail is the number of calls. After any answer but codes 1 and 2,
 * which write nothing, the work areas are zero over their whole length.
 */
nnef_answer nnef_order(const uint8_t *list, size_t list_len,
                       const uint8_t *document, size_t document_len,
                       uint32_t *list_work, size_t list_work_len,
                       uint32_t *document_work, size_t document_work_len,
                       const uint32_t *order, size_t order_len);

/* What a comparison of two names says. */
typedef struct nnef_comparison {
    uint32_t same;  /* 1 if the names are the same, byte by byte, else 0 */
    uint32_t pairs; /* the pairs of bytes that were compared to tell */
} nnef_comparison;

/*
 * Compares two names: first their lengths, then their last bytes, then the
 * others from the front. The operations compare names by it.
 *
 * A name may be any bytes, and have any length, also 0. Nothing is refused and
 * nothing is written.
 *
 * The number of pairs is exact: none if the lengths differ; one if the last
 * bytes differ; else one more for each pair from the front through the first
 * that differs; for equal names their length. It is that of a comparison pair by
 * pair; the code takes eight at a turn, so it is no measure of time. One above
 * 4294967295 is given as 4294967295.
 */
nnef_comparison nnef_compare(const uint8_t *a, size_t a_len,
                             const uint8_t *b, size_t b_len);

/*
 * For messages to people. These four are plain C, in this header alone, and
 * no part of what is proved.
 */

/* The place of a code among all codes, by rising number; that of any other number is beyond them. */
static inline size_t nnef_code_place(uint32_t code)
{
    if (code <= NNEF_OUT_TOO_SHORT) {
        return code;
    }
    return code < NNEF_ORDER_LENGTH ? (size_t)-1 : (size_t)code - NNEF_ORDER_LENGTH + NNEF_OUT_TOO_SHORT + 1;
}

/* The name of a code as in enum nnef_code, without NNEF_; "UNKNOWN" of any other number. */
static inline const char *nnef_code_name(uint32_t code)
{
    static const char *const names[] = {
        "ACCEPTED",
        "LENT_TOO_SHORT",
        "TEXT_TOO_LONG",
        "NO_TOKEN",
        "NUMBER_MISSPELT",
        "BAD_STRING",
        "TOKEN_TOO_LONG",
        "OUT_OF_RANGE",
        "TOO_MANY_TOKENS",
        "SYNTAX",
        "TOO_DEEP",
        "VERSION",
        "TOO_MANY",
        "REPEATED",
        "BAD_DEFAULT",
        "UNDECLARED",
        "MISPLACED",
        "MISNAMED",
        "MISFIT",
        "MISSING",
        "UNMATCHED",
        "AGAIN",
        "UNASSIGNED",
        "MISFED",
        "UNMADE",
        "CANON_TOO_LONG",
        "OUT_TOO_SHORT",
        "ORDER_LENGTH",
        "NO_CALL",
        "CALL_REPEATED",
        "USE_TOO_EARLY"
    };
    const size_t place = nnef_code_place(code);
    return place < sizeof names / sizeof *names ? names[place] : "UNKNOWN";
}

/* What a code says, in a few words of English without a full stop. */
static inline const char *nnef_code_text(uint32_t code)
{
    static const char *const texts[] = {
        "accepted",
        "a lent table or work area has too few words",
        "the text has more than 16384 bytes",
        "this byte begins no token",
        "the number is misspelt",
        "the string is not closed, or holds a byte outside 32 to 126",
        "the name, string or number is too long",
        "the number is out of range",
        "the text has more than 4096 tokens",
        "no valid text has this token, or ends, here",
        "a ninth bracket is opened",
        "the version is not spelt 1.0",
        "there are more of these than there may be",
        "the name is repeated",
        "the default does not fit its parameter's type",
        "the operation is not declared",
        "a positional argument may not stand here",
        "the list has no parameter of this name for the operation, or it is already bound",
        "the argument does not fit its parameter's type",
        "a parameter without default is not bound",
        "the left side does not match the operation's results",
        "the identifier is assigned again",
        "no earlier call assigns this identifier",
        "an input is not assigned by external, or another identifier is",
        "the output is never assigned",
        "the canonical text has more than 16384 bytes or 4096 tokens",
        "the lent output is shorter than the canonical text",
        "the order has more or fewer numbers than the graph has calls",
        "the graph has no call of this number",
        "the call stands at an earlier place too",
        "the call uses an identifier whose assigning call stands at no earlier place"
    };
    const size_t place = nnef_code_place(code);
    return place < sizeof texts / sizeof *texts ? texts[place] : "no code of this library";
}

/* A place in a text for people: both numbers count from 1, and the column counts bytes. */
typedef struct nnef_place {
    size_t line;
    size_t column;
} nnef_place;

/* The place of a position; one beyond the text is taken for its end. A line ends at byte 10. */
static inline nnef_place nnef_place_of(const uint8_t *text, size_t text_len, size_t position)
{
    nnef_place place = {1, 1};
    size_t i;
    for (i = 0; i < position && i < text_len; i++) {
        if (text[i] == 10) {
            place.line++;
            place.column = 1;
        } else {
            place.column++;
        }
    }
    return place;
}

#ifdef __cplusplus
}
#endif

#endif
