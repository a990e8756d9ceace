/* What the parts of the built xmlpyx share: what ends a run, bytes that grow, and standard output. */

#ifndef XMLPYX_H
#define XMLPYX_H

#include <stdbool.h>
#include <stddef.h>
#include <stdint.h>

enum {
    LONGEST = 1048576,             /* bytes of a node's name and content together, as natix takes them */
    LONGEST_LINE = 2 * LONGEST + 4, /* a line of such a node: every byte as an escape, code, space and CR */
    BLOCK = 65536
};

/* The instructions that stand for a comment and for the document type. */
#define COMMENT "natix:comment"
#define DOCUMENT_TYPE "natix:doctype"

enum status { DONE = 0, MISUSE = 1, REFUSED = 2, READ_FAULT = 4, WRITE_FAULT = 5, NO_MEMORY = 6 };

/* Bytes that grow. */
struct bytes {
    char *data;
    size_t length, room;
};

/* Makes room for so many bytes more, and answers where they begin. */
char *make_room(struct bytes *bytes, size_t more);
void append(struct bytes *bytes, const char *data, size_t length);
void append_text(struct bytes *bytes, const char *text);
/* Appends a character in UTF-8. */
void append_character(struct bytes *bytes, uint32_t character);

/* The character in UTF-8 that begins at `data`, and its length there: 0 where none does. */
size_t character_at(const char *data, size_t length, uint32_t *character);

/* A set of names. */
struct names {
    struct name_slot *slots;
    size_t room, count, generation;
    struct bytes kept, starts; /* the names behind each other, and where each begins */
};

/* Puts a name in, and answers its number, from 0 on in the order in which they came. `*is_new` says whether it is. */
size_t put_name(struct names *names, const char *name, size_t length, bool *is_new);
/* The number of a name, or SIZE_MAX. */
size_t find_name(const struct names *names, const char *name, size_t length);
const char *name_of(const struct names *names, size_t number, size_t *length);
void clear_names(struct names *names);

/* Says a line on standard error. */
__attribute__((format(printf, 1, 2))) void tell(const char *format, ...);
_Noreturn void end_without_memory(void);
/* Ends the run, with such a line. */
__attribute__((format(printf, 2, 3))) _Noreturn void end_run(enum status status, const char *format, ...);

/* Reads a block of standard input of at most so many bytes; 0 at its end. */
size_t read_block(char *block, size_t most);

/* What comes next on standard output. It is written in blocks: `end_part` writes what there is once it is one. What
   comes once `hold_output` was called waits for `release_output`. */
extern struct bytes output;
void flush_output(void);
void hold_output(void);
void release_output(void);

static inline void end_part(void)
{
    if (output.length >= BLOCK)
        flush_output();
}

void bring_in(bool verbose, bool keep);
void bring_out(void);

#endif
