/* Reading a DCF (OMA DRM Content Format 2.1) held whole in memory: what a player's firmware calls.
   Link with libplayer.a. Nothing is allocated, nothing is kept between calls, and no call fails in another way than by its number. */
#ifndef DCF_H
#define DCF_H

#include <stddef.h>
#include <stdint.h>

#ifdef __cplusplus
extern "C" {
#endif

/* ---- Bounds */

#define DCF_FILE_MOST 16777216  /* bytes in a file */
#define DCF_ROWS_MOST 256       /* boxes in a file, or fewer where the answer has room for fewer rows */
#define DCF_CONTAINERS_MOST 8   /* containers in a file */

/* ---- The numbers given back */

#define DCF_DONE 0               /* Nothing was refused. */
#define DCF_FILE_TOO_LONG 1      /* The file has more than 16,777,216 bytes. */
#define DCF_NO_HEADER 2          /* The bytes left cannot hold a box header. */
#define DCF_BAD_SIZE 3           /* A box has a size that is not allowed, or an odda is not in long form. */
#define DCF_PAST_PARENT 4        /* A box ends after its parent or the file. */
#define DCF_NO_ROW 5             /* There is no row left for a box, or it is a ninth odrm at the top. */
#define DCF_WRONG_PLACE 6        /* A box is in a wrong place, repeated or missing. */
#define DCF_FIELDS_CUT 7         /* Fixed fields or strings run past their box, an odtt has not 16 bytes, or ftyp's brands are not whole. */
#define DCF_BAD_VERSION 8        /* A full box has a version that is not 0, or the major brand is not odcf. */
#define DCF_BAD_METHOD 9         /* The encryption method is not known, or its padding is another. */
#define DCF_BAD_LENGTH 10        /* The ContentType has not 1 to 255 bytes, or the ContentID not 1 to 256. */
#define DCF_BAD_HEADERS 11       /* The textual headers are malformed. */
#define DCF_BAD_DATA 12          /* The data is longer than its odda, or its length does not go with the method and the plaintext length. */
#define DCF_SAME_CONTENT_ID 13   /* A ContentID equals that of an earlier container. */
#define DCF_NO_MDRI 14           /* The file has no mdri, the box that can be edited. */
#define DCF_RIGHTS_LENGTH 15     /* The rights object to add has not 1 to 32,768 bytes. */
#define DCF_NO_ROOM 16           /* No free box of mdri has room for the rights object. */
#define DCF_NO_RIGHTS 17         /* There is no rights object of that index. */
#define DCF_NO_ODTT 18           /* There is no odtt, and so no TransactionID. */
#define DCF_BAD_ROOM 19          /* The editable room asked for is neither 0 nor 8 to 1,048,576. */
#define DCF_OUTPUT_TOO_SHORT 20  /* The output is too short for the file to be written. */
#define DCF_NO_CONTAINER 21      /* There is no container of that index. */
#define DCF_NO_TEXTUAL_HEADER 22 /* There is no textual header of that name. */

/* ---- The answer of a reading. Offsets count from the start of the file. Every field is eight bytes long, as this machine lays out a
   uint64_t (the archive is for x86-64), so no struct below has a gap. */

/* A box: where it starts, its size with its header, its depth (0 at the top), and its type as a number (0x66747970 is ftyp). */
struct dcf_row {
    uint64_t offset;
    uint64_t size;
    uint64_t depth;
    uint64_t type;
};

/* A full box: its row and its flags. */
struct dcf_full {
    struct dcf_row row;
    uint64_t flags;
};

/* Bytes of the file. */
struct dcf_stretch {
    uint64_t offset;
    uint64_t length;
};

/* A container: its boxes, its content's encryption, and where its strings and its data stand. */
struct dcf_summary {
    struct dcf_full odrm;
    struct dcf_full odhe;
    struct dcf_full ohdr;
    struct dcf_full odda;
    uint64_t method;                       /* 0 none, 1 CBC, 2 CTR */
    uint64_t padding;
    uint64_t plaintext_length;             /* without the IV */
    uint64_t data_length;                  /* with the IV */
    struct dcf_stretch content_type;
    struct dcf_stretch content_id;
    struct dcf_stretch rights_issuer_url;
    struct dcf_stretch textual_headers;
    struct dcf_stretch data;
};

/* A file. Rows stand last: memory that ends before rows[n] lends n rows. */
struct dcf_answer {
    uint64_t boxes;                        /* how many rows are filled */
    uint64_t containers;                   /* how many summaries are filled; the others are 0 */
    uint64_t mutable_at;                   /* the offset of mdri, 0 if there is none */
    uint64_t rights;                       /* how many rights objects mdri has */
    uint64_t free_total;                   /* the size of mdri's short-form free space */
    uint64_t transaction_at;               /* the offset of the TransactionID's 16 bytes, 0 if there is none */
    struct dcf_summary summaries[DCF_CONTAINERS_MOST];
    struct dcf_row rows[DCF_ROWS_MOST];
};

/* Reads a file, and answers DCF_DONE or the number of the first rule that it breaks.

   `answer` is memory for a struct dcf_answer, or for the front of one: with answer_len bytes it lends (answer_len - 2224) / 32 rows, 256 at
   most, and none where it is shorter than the 2,224 bytes before the rows. No file is accepted with none. A file that has more boxes than
   rows lent is refused with DCF_NO_ROW, or with what is found before.

   On DCF_DONE the part before the rows is written, and the first `boxes` rows. The bytes behind those stay as they are. On any other number
   no byte of `answer` changes. `file` is never written. The numbers given back are DCF_DONE to DCF_SAME_CONTENT_ID.

   `file` must be file_len bytes that can be read, and `answer` answer_len bytes that can be written, of any alignment; the two must not
   overlap. Either may be NULL with the length 0. It takes less than 64 KB of stack. */
uint32_t dcf_read(const uint8_t *file, size_t file_len, uint8_t *answer, size_t answer_len);

#ifdef __cplusplus
}
#endif

#endif
