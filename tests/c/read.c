/* Reading from C: File A of document 01 through dcf_read, its listing, and the calls that are refused. Exit status 1 on any difference. */
#include "dcf.h"

#include <stdarg.h>
#include <stdio.h>
#include <stdlib.h>
#include <string.h>

static int differences = 0;

static void expect(int holds, const char *what)
{
    if (!holds) {
        printf("differs: %s\n", what);
        differences = 1;
    }
}

static const uint8_t file_a[169] = {
    0, 0, 0, 20, 'f', 't', 'y', 'p', 'o', 'd', 'c', 'f', 0, 0, 0, 2, 'o', 'd', 'c', 'f',
    0, 0, 0, 1, 'o', 'd', 'r', 'm', 0, 0, 0, 0, 0, 0, 0, 101, 0, 0, 0, 0,
    0, 0, 0, 49, 'o', 'd', 'h', 'e', 0, 0, 0, 0, 3, 'a', '/', 'b',
    0, 0, 0, 33, 'o', 'h', 'd', 'r', 0, 0, 0, 0, 0, 0, 0, 0, 0, 0, 0, 0, 0, 4, 0, 5, 0, 0, 0, 0, 'c', 'i', 'd', ':', 'x',
    0, 0, 0, 1, 'o', 'd', 'd', 'a', 0, 0, 0, 0, 0, 0, 0, 32, 0, 0, 0, 0, 0, 0, 0, 0, 0, 0, 0, 4, 1, 2, 3, 4,
    0, 0, 0, 48, 'm', 'd', 'r', 'i', 0, 0, 0, 40, 'f', 'r', 'e', 'e',
};

static const char listing_a[] =
    "verdict=0\n"
    "boxes=7\n"
    "containers=1\n"
    "mutable=121\n"
    "rights=0\n"
    "free=40\n"
    "row=0,20,0,66747970\n"
    "row=20,101,0,6f64726d\n"
    "row=40,49,1,6f646865\n"
    "row=56,33,2,6f686472\n"
    "row=89,32,1,6f646461\n"
    "row=121,48,0,6d647269\n"
    "row=129,40,1,66726565\n";

static char text[32768];
static size_t text_len = 0;

static void print(const char *form, ...)
{
    va_list values;
    va_start(values, form);
    text_len += (size_t)vsnprintf(text + text_len, sizeof text - text_len, form, values);
    va_end(values);
}

static unsigned long long wide(uint64_t n)
{
    return n;
}

/* Document 01's listing of an accepted file. */
static void list(uint32_t verdict, const struct dcf_answer *a)
{
    text_len = 0;
    print("verdict=%u\nboxes=%llu\ncontainers=%llu\nmutable=%llu\n", verdict, wide(a->boxes), wide(a->containers), wide(a->mutable_at));
    print("rights=%llu\nfree=%llu\n", wide(a->rights), wide(a->free_total));
    for (uint64_t i = 0; i < a->boxes && i < DCF_ROWS_MOST; i++) {
        const struct dcf_row *r = &a->rows[i];
        print("row=%llu,%llu,%llu,%08llx\n", wide(r->offset), wide(r->size), wide(r->depth), wide(r->type));
    }
}

static int is_all(const void *bytes, size_t length, uint8_t value)
{
    const uint8_t *b = bytes;
    for (size_t i = 0; i < length; i++) {
        if (b[i] != value) {
            return 0;
        }
    }
    return 1;
}

static int is_full(const struct dcf_full *f, uint64_t offset, uint64_t size, uint64_t depth, uint64_t type, uint64_t flags)
{
    return f->row.offset == offset && f->row.size == size && f->row.depth == depth && f->row.type == type && f->flags == flags;
}

static int is_stretch(const struct dcf_stretch *s, uint64_t offset, uint64_t length)
{
    return s->offset == offset && s->length == length;
}

static struct dcf_answer answer;

#define BEFORE_ROWS offsetof(struct dcf_answer, rows)
#define ROW sizeof(struct dcf_row)

/* The number of a refused call, and that it changed no byte of an answer of this length. */
static void refused(uint32_t number, const uint8_t *file, size_t file_len, size_t answer_len, const char *what)
{
    memset(&answer, 0xa5, sizeof answer);
    expect(dcf_read(file, file_len, (uint8_t *)&answer, answer_len) == number, what);
    expect(is_all(&answer, sizeof answer, 0xa5), what);
}

static void file_a_read(void)
{
    memset(&answer, 0xa5, sizeof answer);
    uint32_t verdict = dcf_read(file_a, sizeof file_a, (uint8_t *)&answer, sizeof answer);
    list(verdict, &answer);
    fputs(text, stdout);
    expect(strcmp(text, listing_a) == 0, "the listing of File A");
    expect(answer.transaction_at == 0, "A: no TransactionID");

    const struct dcf_summary *s = &answer.summaries[0];
    expect(is_full(&s->odrm, 20, 101, 0, 0x6f64726d, 0), "A: odrm");
    expect(is_full(&s->odhe, 40, 49, 1, 0x6f646865, 0), "A: odhe");
    expect(is_full(&s->ohdr, 56, 33, 2, 0x6f686472, 0), "A: ohdr");
    expect(is_full(&s->odda, 89, 32, 1, 0x6f646461, 0), "A: odda");
    expect(s->method == 0 && s->padding == 0 && s->plaintext_length == 4 && s->data_length == 4, "A: method and lengths");
    expect(is_stretch(&s->content_type, 53, 3), "A: ContentType");
    expect(is_stretch(&s->content_id, 84, 5), "A: ContentID");
    expect(is_stretch(&s->rights_issuer_url, 89, 0), "A: RightsIssuerURL");
    expect(is_stretch(&s->textual_headers, 89, 0), "A: textual headers");
    expect(is_stretch(&s->data, 117, 4), "A: data");
    expect(is_all(&answer.summaries[1], 7 * sizeof *s, 0), "A: unused summaries");
    expect(is_all(&answer.rows[7], 249 * ROW, 0xa5), "A: bytes behind the rows counted");

    /* rows for just its boxes; memory that begins at an odd address */
    static uint8_t lent[sizeof(struct dcf_answer) + 1];
    struct dcf_answer same;
    memset(lent, 0xa5, sizeof lent);
    memset(&same, 0xa5, sizeof same);
    expect(dcf_read(file_a, sizeof file_a, lent + 1, BEFORE_ROWS + 7 * ROW) == DCF_DONE, "A, seven rows");
    memcpy(&same, lent + 1, BEFORE_ROWS + 7 * ROW);
    expect(memcmp(&same, &answer, sizeof same) == 0, "A, seven rows: the answer");
    expect(lent[0] == 0xa5 && is_all(lent + 1 + BEFORE_ROWS + 7 * ROW, 249 * ROW, 0xa5), "A, seven rows: bytes around");
}

/* A with flags in its four full boxes: each in its field. */
static void flags_read(void)
{
    uint8_t file[sizeof file_a];
    memcpy(file, file_a, sizeof file);
    file[37] = 1; /* odrm */
    file[50] = 2; /* odhe */
    file[67] = 3; /* ohdr */
    file[106] = 4; /* odda */
    file[107] = 5;
    file[108] = 6;
    expect(dcf_read(file, sizeof file, (uint8_t *)&answer, sizeof answer) == DCF_DONE, "flags");
    const struct dcf_summary *s = &answer.summaries[0];
    expect(is_full(&s->odrm, 20, 101, 0, 0x6f64726d, 0x010000), "flags of odrm");
    expect(is_full(&s->odhe, 40, 49, 1, 0x6f646865, 0x000200), "flags of odhe");
    expect(is_full(&s->ohdr, 56, 33, 2, 0x6f686472, 0x000003), "flags of ohdr");
    expect(is_full(&s->odda, 89, 32, 1, 0x6f646461, 0x040506), "flags of odda");
}

/* A and free boxes after it: 256 boxes are taken, and 257 are not, even by an answer with room for more. */
static void many_read(void)
{
    static uint8_t file[sizeof file_a + 250 * 8];
    static uint8_t lent[sizeof(struct dcf_answer) + 2 * ROW];
    memcpy(file, file_a, sizeof file_a);
    for (size_t i = 0; i < 250; i++) {
        memcpy(file + sizeof file_a + 8 * i, "\0\0\0\010free", 8);
    }
    memset(lent, 0xa5, sizeof lent);
    expect(dcf_read(file, sizeof file, lent, sizeof lent) == DCF_NO_ROW, "257 boxes");
    expect(is_all(lent, sizeof lent, 0xa5), "257 boxes: the answer");
    expect(dcf_read(file, sizeof file - 8, lent, sizeof lent) == DCF_DONE, "256 boxes");
    expect(is_all(lent + sizeof answer, 2 * ROW, 0xa5), "256 boxes: bytes behind");
    memcpy(&answer, lent, sizeof answer);
    expect(answer.boxes == 256 && answer.containers == 1 && answer.free_total == 40, "256 boxes: counts");
    for (size_t i = 0; i < 249; i++) {
        const struct dcf_row *r = &answer.rows[7 + i];
        expect(r->offset == sizeof file_a + 8 * i && r->size == 8 && r->depth == 0 && r->type == 0x66726565, "256 boxes: a row");
    }
}

static void refusals(void)
{
    refused(DCF_NO_ROW, file_a, sizeof file_a, BEFORE_ROWS + 6 * ROW, "A, a row too few");
    refused(DCF_NO_ROW, file_a, sizeof file_a, BEFORE_ROWS + 7 * ROW - 1, "A, a byte too few");
    refused(DCF_NO_ROW, file_a, sizeof file_a, BEFORE_ROWS, "A, no row");
    refused(DCF_NO_ROW, file_a, sizeof file_a, BEFORE_ROWS - 1, "A, the part before the rows cut");
    refused(DCF_NO_ROW, file_a, sizeof file_a, 0, "A, no byte");
    expect(dcf_read(file_a, sizeof file_a, NULL, 0) == DCF_NO_ROW, "A, NULL");
    expect(dcf_read(NULL, 0, NULL, 0) == DCF_WRONG_PLACE, "the empty file, NULL");
    refused(DCF_WRONG_PLACE, NULL, 0, sizeof answer, "the empty file");
    refused(DCF_NO_HEADER, file_a, 7, sizeof answer, "A cut in its first header");
    refused(DCF_PAST_PARENT, file_a, sizeof file_a - 1, sizeof answer, "A without its last byte");

    uint8_t file_b[sizeof file_a];
    memcpy(file_b, file_a, sizeof file_b);
    memset(file_b + 121, 0, 4);
    refused(DCF_BAD_SIZE, file_b, sizeof file_b, sizeof answer, "(b): A with the size field of mdri set to 0");

    uint8_t *large = calloc(DCF_FILE_MOST + 1, 1);
    expect(large != NULL, "memory for a large file");
    if (large != NULL) {
        refused(DCF_FILE_TOO_LONG, large, DCF_FILE_MOST + 1, sizeof answer, "16,777,217 bytes");
        refused(DCF_BAD_SIZE, large, DCF_FILE_MOST, sizeof answer, "16,777,216 zero bytes");
        free(large);
    }
}

int main(void)
{
    expect(sizeof(struct dcf_answer) == 10416 && BEFORE_ROWS == 2224 && ROW == 32, "the layout");
    expect(sizeof(struct dcf_summary) == 272 && offsetof(struct dcf_answer, summaries) == 48, "the layout of summaries");
    file_a_read();
    flags_read();
    many_read();
    refusals();
    puts(differences ? "read: differs" : "read: ok");
    return differences;
}
