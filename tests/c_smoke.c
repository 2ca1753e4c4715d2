/* Calls the library from C as a user of include/nnef.h would. */
#include "nnef.h"

#include <stdio.h>
#include <string.h>

static const char TEXT[] = "out = scale(px, # by half\n  by = 0.50);";

static const char LIST[] =
    "fragment external(shape: extent[]) -> (output: tensor) "
    "fragment scale(x: tensor, by: scalar = 1) -> (y: tensor)";
static const char DOCUMENT[] =
    "version 1.0 graph win(px) -> (out) { px = external(shape=[01,9]); out = scale(px, by=0.50) }";
static const char CANONICAL[] =
    "version 1.0\ngraph win(px)->(out)\n{\npx=external(shape=[1,9]);\nout=scale(x=px,by=5e-1);\n}\n";

static uint32_t table[NNEF_TABLE_WORDS];
static uint32_t list_work[NNEF_WORK_WORDS], document_work[NNEF_WORK_WORDS];
static uint32_t calls[NNEF_CALL_WORDS], wires[NNEF_WIRE_WORDS];
static uint8_t out[NNEF_TEXT_BYTES];

static nnef_answer tokens_of(const char *text, size_t table_len)
{
    return nnef_tokens((const uint8_t *)text, strlen(text), table, table_len);
}

static nnef_answer canon_of(const char *document, size_t work_len, size_t out_len)
{
    return nnef_canon((const uint8_t *)LIST, strlen(LIST), (const uint8_t *)document, strlen(document),
                      list_work, NNEF_WORK_WORDS, document_work, work_len, out, out_len);
}

static nnef_answer order_of(const char *document, size_t work_len, const uint32_t *order, size_t order_len)
{
    return nnef_order((const uint8_t *)LIST, strlen(LIST), (const uint8_t *)document, strlen(document),
                      list_work, NNEF_WORK_WORDS, document_work, work_len, order, order_len);
}

static int answers(nnef_answer a, uint32_t code, uint32_t text, uint32_t position, uint32_t detail)
{
    return a.code == code && a.text == text && a.position == position && a.detail == detail;
}

static int holds(size_t token, uint32_t kind, uint32_t start, uint32_t end, uint32_t line)
{
    const uint32_t *record = table + NNEF_TOKEN_RECORD_WORDS * token;
    return record[0] == kind && record[1] == start && record[2] == end && record[3] == line;
}

/* Each buffer of length 0 may be NULL: an empty text is read, a table or a work area is too short, an output gets nothing. */
static int takes_null(void)
{
    const uint8_t *list = (const uint8_t *)LIST, *document = (const uint8_t *)DOCUMENT;
    const size_t list_len = strlen(LIST), document_len = strlen(DOCUMENT);
    const size_t work_len = NNEF_WORK_WORDS;
    return answers(nnef_tokens(NULL, 0, table, NNEF_TABLE_WORDS), NNEF_ACCEPTED, 0, 0, 0)
        && answers(nnef_tokens(NULL, 0, NULL, 0), NNEF_LENT_TOO_SHORT, 0, 0, 0)
        && answers(nnef_declarations(NULL, 0, list_work, work_len), NNEF_ACCEPTED, 0, 0, 0)
        && answers(nnef_declarations(list, list_len, NULL, 0), NNEF_LENT_TOO_SHORT, 0, 0, 0)
        && answers(nnef_check(NULL, 0, NULL, 0, list_work, work_len, document_work, work_len,
                              calls, NNEF_CALL_WORDS, wires, NNEF_WIRE_WORDS), NNEF_SYNTAX, 2, 0, 0)
        && answers(nnef_check(NULL, 0, NULL, 0, NULL, 0, NULL, 0, NULL, 0, NULL, 0), NNEF_LENT_TOO_SHORT, 0, 0, 0)
        && answers(nnef_check(list, list_len, document, document_len, list_work, work_len, document_work, work_len,
                              calls, NNEF_CALL_WORDS, NULL, 0), NNEF_LENT_TOO_SHORT, 0, 0, 0)
        && answers(nnef_canon(NULL, 0, NULL, 0, list_work, work_len, document_work, work_len, NULL, 0), NNEF_SYNTAX, 2, 0, 0)
        && answers(nnef_canon(list, list_len, document, document_len, list_work, work_len, document_work, work_len,
                              NULL, 0), NNEF_OUT_TOO_SHORT, 0, 0, 88)
        && answers(nnef_order(NULL, 0, NULL, 0, list_work, work_len, document_work, work_len, NULL, 0), NNEF_SYNTAX, 2, 0, 0)
        && answers(nnef_order(NULL, 0, NULL, 0, NULL, 0, NULL, 0, NULL, 0), NNEF_LENT_TOO_SHORT, 0, 0, 0)
        && answers(nnef_order(list, list_len, document, document_len, list_work, work_len, document_work, work_len,
                              NULL, 0), NNEF_ORDER_LENGTH, 0, 0, 0);
}

/* Orders of two calls, the second of which uses the first. */
static int judges_orders(void)
{
    static const uint32_t right[] = {0, 1, 1}, early[] = {1, 0}, twice[] = {0, 0}, beyond[] = {0, 4294967295u};
    return answers(order_of(DOCUMENT, NNEF_WORK_WORDS, right, 2), NNEF_ACCEPTED, 0, 0, 2)
        && answers(order_of(DOCUMENT, NNEF_WORK_WORDS, right, 1), NNEF_ORDER_LENGTH, 0, 0, 0)
        && answers(order_of(DOCUMENT, NNEF_WORK_WORDS, right, 3), NNEF_ORDER_LENGTH, 0, 0, 0)
        && answers(order_of(DOCUMENT, NNEF_WORK_WORDS, beyond, 2), NNEF_NO_CALL, 0, 1, 0)
        && answers(order_of(DOCUMENT, NNEF_WORK_WORDS, twice, 2), NNEF_CALL_REPEATED, 0, 1, 0)
        && answers(order_of(DOCUMENT, NNEF_WORK_WORDS, early, 2), NNEF_USE_TOO_EARLY, 0, 0, 0)
        && answers(order_of(DOCUMENT, NNEF_WORK_WORDS - 1, right, 1), NNEF_LENT_TOO_SHORT, 0, 0, 0)
        && answers(order_of("version 1.0", NNEF_WORK_WORDS, right, 1), NNEF_SYNTAX, 2, 11, 0)
        && right[0] == 0 && right[1] == 1 && early[0] == 1;
}

static int compares(const char *a, const char *b, uint32_t same, uint32_t pairs)
{
    nnef_comparison c = nnef_compare((const uint8_t *)a, strlen(a), (const uint8_t *)b, strlen(b));
    return c.same == same && c.pairs == pairs;
}

/* Lengths, then last bytes, then the others from the front; names without bytes may be NULL; one buffer may hold both. */
static int compares_names(void)
{
    static const char name[] = "abababab";
    const uint8_t *bytes = (const uint8_t *)name;
    nnef_comparison none = nnef_compare(NULL, 0, NULL, 0), one = nnef_compare(NULL, 0, bytes, 1);
    nnef_comparison moved = nnef_compare(bytes, 6, bytes + 2, 6), cut = nnef_compare(bytes, 6, bytes, 5);
    return compares("", "", 1, 0) && compares("a", "a", 1, 1) && compares("a", "b", 0, 1)
        && compares("scale", "scales", 0, 0) && compares("star_1", "star_2", 0, 1)
        && compares("external", "internal", 0, 2) && compares("external", "externol", 0, 8)
        && compares("external", "external", 1, 8) && compares(name, name, 1, 8)
        && none.same == 1 && none.pairs == 0 && one.same == 0 && one.pairs == 0
        && moved.same == 1 && moved.pairs == 6 && cut.same == 0 && cut.pairs == 0;
}

/* A list and a document may overlap, here in a comment that ends the one and begins the other, or be one buffer. */
static int takes_overlap(void)
{
    static const char SHARED[] = " # of both\n";
    static char both[sizeof LIST + sizeof SHARED + sizeof DOCUMENT];
    const uint8_t *list = (const uint8_t *)both, *document = list + strlen(LIST);
    const size_t list_len = strlen(LIST) + strlen(SHARED), document_len = strlen(SHARED) + strlen(DOCUMENT);
    const size_t work_len = NNEF_WORK_WORDS;
    strcat(strcat(strcpy(both, LIST), SHARED), DOCUMENT);
    return answers(nnef_canon(list, list_len, document, document_len, list_work, work_len, document_work, work_len,
                              out, NNEF_TEXT_BYTES), NNEF_ACCEPTED, 0, 0, 88)
        && answers(nnef_check(list, list_len, list, list_len, list_work, work_len, document_work, work_len,
                              calls, NNEF_CALL_WORDS, wires, NNEF_WIRE_WORDS), NNEF_SYNTAX, 2, 0, 0);
}

#define NAMED(code) (strcmp(nnef_code_name(NNEF_##code), #code) == 0)

/* Every code has its own name and a text; other numbers have neither. */
static int names_codes(void)
{
    uint32_t code;
    for (code = NNEF_ACCEPTED; code <= NNEF_USE_TOO_EARLY + 1; code++) {
        int is_code = code <= NNEF_OUT_TOO_SHORT || (code >= NNEF_ORDER_LENGTH && code <= NNEF_USE_TOO_EARLY);
        if (is_code != (strcmp(nnef_code_text(code), nnef_code_text(4294967295u)) != 0)
            || is_code != (strcmp(nnef_code_name(code), "UNKNOWN") != 0)) {
            return 0;
        }
    }
    return NAMED(ACCEPTED) && NAMED(LENT_TOO_SHORT) && NAMED(TEXT_TOO_LONG) && NAMED(NO_TOKEN)
        && NAMED(NUMBER_MISSPELT) && NAMED(BAD_STRING) && NAMED(TOKEN_TOO_LONG) && NAMED(OUT_OF_RANGE)
        && NAMED(TOO_MANY_TOKENS) && NAMED(SYNTAX) && NAMED(TOO_DEEP) && NAMED(VERSION) && NAMED(TOO_MANY)
        && NAMED(REPEATED) && NAMED(BAD_DEFAULT) && NAMED(UNDECLARED) && NAMED(MISPLACED) && NAMED(MISNAMED)
        && NAMED(MISFIT) && NAMED(MISSING) && NAMED(UNMATCHED) && NAMED(AGAIN) && NAMED(UNASSIGNED)
        && NAMED(MISFED) && NAMED(UNMADE) && NAMED(CANON_TOO_LONG) && NAMED(OUT_TOO_SHORT)
        && NAMED(ORDER_LENGTH) && NAMED(NO_CALL) && NAMED(CALL_REPEATED) && NAMED(USE_TOO_EARLY)
        && strcmp(nnef_code_name(4294967295u), "UNKNOWN") == 0;
}

static int stands(const char *text, size_t position, size_t line, size_t column)
{
    nnef_place place = nnef_place_of((const uint8_t *)text, strlen(text), position);
    return place.line == line && place.column == column;
}

/* A line feed is the last byte of its line; the end is a place too. */
static int finds_places(void)
{
    return stands("", 0, 1, 1) && stands("ab\ncd", 0, 1, 1) && stands("ab\ncd", 2, 1, 3) && stands("ab\ncd", 3, 2, 1)
        && stands("ab\ncd", 5, 2, 3) && stands("ab\ncd", 16384, 2, 3) && stands("ab\n", 3, 2, 1)
        && nnef_place_of(NULL, 0, 7).line == 1;
}

int main(void)
{
    int good = answers(tokens_of(TEXT, NNEF_TABLE_WORDS), NNEF_ACCEPTED, 0, 0, 11)
        && holds(0, NNEF_NAME, 0, 3, 1)
        && holds(1, NNEF_SYNTACTIC, 4, 5, 1)
        && holds(8, NNEF_REAL, 33, 37, 2)
        && holds(10, NNEF_SYNTACTIC, 38, 39, 2)
        && holds(11, 0, 0, 0, 0)
        && answers(tokens_of("", NNEF_TABLE_WORDS), NNEF_ACCEPTED, 0, 0, 0)
        && answers(tokens_of("a = 1.", NNEF_TABLE_WORDS), NNEF_NUMBER_MISSPELT, 1, 4, 0)
        && answers(tokens_of(TEXT, NNEF_TABLE_WORDS - 1), NNEF_LENT_TOO_SHORT, 0, 0, 0)
        && answers(canon_of(DOCUMENT, NNEF_WORK_WORDS - 1, NNEF_TEXT_BYTES), NNEF_LENT_TOO_SHORT, 0, 0, 0)
        && answers(canon_of("version 1.0", NNEF_WORK_WORDS, NNEF_TEXT_BYTES), NNEF_SYNTAX, 2, 11, 0)
        && answers(canon_of(DOCUMENT, NNEF_WORK_WORDS, 87), NNEF_OUT_TOO_SHORT, 0, 0, 88)
        && out[0] == 0
        && answers(canon_of(DOCUMENT, NNEF_WORK_WORDS, NNEF_TEXT_BYTES), NNEF_ACCEPTED, 0, 0, 88)
        && memcmp(out, CANONICAL, sizeof CANONICAL) == 0
        && judges_orders()
        && compares_names()
        && names_codes()
        && finds_places()
        && takes_null()
        && takes_overlap();
    puts(good ? "from C: as the header says" : "from C: WRONG");
    return good ? 0 : 1;
}
