/*
 * Writes the canonical text of a document, or says what is wrong and where:
 *
 *   canonical LIST DOCUMENT
 *
 * Exit status 0: written; 1: refused; 2: usage; 3: cannot read or write.
 */
#include "nnef.h"

#include <errno.h>
#include <stdio.h>
#include <string.h>

typedef struct text {
    const char *path;
    size_t len;
    uint8_t bytes[NNEF_TEXT_BYTES + 1]; /* one more, so that a text that is too long is seen as such */
} text;

static text list, document;
static uint32_t list_work[NNEF_WORK_WORDS], document_work[NNEF_WORK_WORDS];
static uint8_t out[NNEF_TEXT_BYTES];

static int fails(const char *what, const char *path)
{
    fprintf(stderr, "canonical: cannot %s %s: %s\n", what, path, strerror(errno));
    return 0;
}

static int reads(text *t, const char *path)
{
    FILE *file = fopen(path, "rb");
    int good;
    t->path = path;
    if (file == NULL) {
        return fails("open", path);
    }
    t->len = fread(t->bytes, 1, sizeof t->bytes, file);
    good = !ferror(file) || fails("read", path);
    fclose(file);
    return good;
}

static int writes(size_t len)
{
    return (fwrite(out, 1, len, stdout) == len && fflush(stdout) == 0) || fails("write", "standard output");
}

/* Where an answer names no text, it has no place either. */
static void tell(nnef_answer a)
{
    const text *t = a.text == 1 ? &list : &document;
    nnef_place place = nnef_place_of(t->bytes, t->len, a.position);
    if (a.text != 0) {
        fprintf(stderr, "%s:%zu:%zu: ", t->path, place.line, place.column);
    }
    fprintf(stderr, "%s (%u): %s\n", nnef_code_name(a.code), (unsigned)a.code, nnef_code_text(a.code));
}

int main(int argc, char **argv)
{
    nnef_answer a;
    if (argc != 3) {
        fprintf(stderr, "usage: canonical LIST DOCUMENT\n");
        return 2;
    }
    if (!reads(&list, argv[1]) || !reads(&document, argv[2])) {
        return 3;
    }
    a = nnef_canon(list.bytes, list.len, document.bytes, document.len,
                   list_work, NNEF_WORK_WORDS, document_work, NNEF_WORK_WORDS, out, sizeof out);
    if (a.code != NNEF_ACCEPTED) {
        tell(a);
        return 1;
    }
    return writes(a.detail) ? 0 : 3;
}
