/* XML of PYX lines. */

#include "xmlpyx.h"

#include <expat.h>
#include <stdlib.h>
#include <string.h>
#include <strings.h>

/* What a byte of a content is. */
enum kind { PLAIN, QUOTED, BACKSLASH, CONTROL, HIGH };

static unsigned char kinds[256];
static const char *text_quotes[256], *attribute_quotes[256];
static bool starts_name[128], stands_in_name[128];

static struct {
    unsigned long long number; /* of the line */
    struct bytes open;         /* the names of the open elements behind each other */
    struct bytes lengths;      /* their lengths */
    struct names attributes;   /* while a start tag is open: the names of its attributes so far */
    struct bytes content;      /* of an instruction, without its escapes */
    bool in_tag, rooted, typed; /* the last two: the root element and the document type came */
} out;

static void fill_tables(void)
{
    memset(kinds, CONTROL, 32);
    memset(kinds + 128, HIGH, 128);
    for (const char *at = "\t\n\r&<>\""; *at; at++)
        kinds[(unsigned char)*at] = QUOTED;
    kinds['\\'] = BACKSLASH;
    text_quotes['&'] = attribute_quotes['&'] = "&amp;";
    text_quotes['<'] = attribute_quotes['<'] = "&lt;";
    text_quotes['>'] = attribute_quotes['>'] = "&gt;";
    text_quotes['\r'] = attribute_quotes['\r'] = "&#13;";
    attribute_quotes['"'] = "&quot;";
    attribute_quotes['\n'] = "&#10;";
    attribute_quotes['\t'] = "&#9;";
    for (int c = 0; c < 128; c++) {
        starts_name[c] = (c >= 'A' && c <= 'Z') || (c >= 'a' && c <= 'z') || c == '_' || c == ':';
        stands_in_name[c] = starts_name[c] || (c >= '0' && c <= '9') || c == '-' || c == '.';
    }
}

/* A name as a message has it: controls and bytes that are no UTF-8 by their numbers. */
static const char *shown(const char *name, size_t length)
{
    static const char digits[] = "0123456789abcdef";
    struct bytes text = {0};
    for (size_t at = 0, size; at < length; at += size) {
        uint32_t character = 0;
        size = character_at(name + at, length - at, &character);
        if (size == 0 || character < 0x20 || (character >= 0x7f && character < 0xa0)) {
            unsigned number = size == 0 ? (unsigned char)name[at] : character;
            append(&text, (char[]){'\\', 'x', digits[number >> 4], digits[number & 15]}, 4);
            size += size == 0;
        } else {
            append(&text, name + at, size);
        }
    }
    append(&text, "", 1);
    return text.data;
}

static _Noreturn void refuse(const char *why)
{
    end_run(REFUSED, "line %llu: %s", out.number, why);
}

/* Names */

struct range {
    uint32_t first, last;
};

static const struct range start_ranges[] = {
    {0xc0, 0xd6}, {0xd8, 0xf6}, {0xf8, 0x2ff}, {0x370, 0x37d}, {0x37f, 0x1fff}, {0x200c, 0x200d},
    {0x2070, 0x218f}, {0x2c00, 0x2fef}, {0x3001, 0xd7ff}, {0xf900, 0xfdcf}, {0xfdf0, 0xfffd}, {0x10000, 0xeffff},
};
static const struct range further_ranges[] = {{0xb7, 0xb7}, {0x300, 0x36f}, {0x203f, 0x2040}};

static bool is_within(uint32_t character, const struct range *ranges, size_t count)
{
    for (size_t i = 0; i < count; i++)
        if (character >= ranges[i].first && character <= ranges[i].last)
            return true;
    return false;
}

static bool is_name(const char *name, size_t length)
{
    for (size_t at = 0, size; at < length; at += size) {
        uint32_t character = (unsigned char)name[at];
        size = 1;
        if (character < 0x80) {
            if (!(at == 0 ? starts_name : stands_in_name)[character])
                return false;
            continue;
        }
        size = character_at(name + at, length - at, &character);
        if (size == 0)
            return false;
        if (!is_within(character, start_ranges, sizeof start_ranges / sizeof *start_ranges) &&
            (at == 0 || !is_within(character, further_ranges, sizeof further_ranges / sizeof *further_ranges)))
            return false;
    }
    return length > 0;
}

static void check_name(const char *name, size_t length)
{
    if (!is_name(name, length))
        end_run(REFUSED, "line %llu: '%s' is no name in XML", out.number, shown(name, length));
}

/* Contents */

/* What a backslash and the byte behind it say, or 0. */
static char escaped_byte(char code)
{
    return code == 'n' ? '\n' : code == 't' ? '\t' : code == 'r' ? '\r' : code == '\\' ? '\\' : 0;
}

/* Ends the run for a content that has bytes that are no UTF-8, from here on, or else for the character. */
static _Noreturn void refuse_content(const char *at, const char *end, uint32_t found)
{
    uint32_t character;
    for (size_t size; at < end; at += size) {
        size = character_at(at, (size_t)(end - at), &character);
        if (size == 0)
            refuse("bytes that are no UTF-8");
    }
    end_run(REFUSED, "line %llu: the character U+%04X, which XML can't have", out.number, (unsigned)found);
}

/* Copies the character of several bytes that begins at `at`, and answers the end of what was copied. */
static char *copy_character(char *to, const char **at, const char *end)
{
    uint32_t character = 0;
    size_t size = character_at(*at, (size_t)(end - *at), &character);
    if (size == 0 || character == 0xfffe || character == 0xffff)
        refuse_content(*at, end, character);
    memcpy(to, *at, size);
    *at += size;
    return to + size;
}

static char *copy_quoted(char *to, char byte, const char *const *quotes)
{
    const char *quote = quotes[(unsigned char)byte];
    if (quote == NULL) {
        *to = byte;
        return to + 1;
    }
    size_t length = strlen(quote);
    memcpy(to, quote, length);
    return to + length;
}

/* Copies the byte or the escape at `at` that isn't plain. */
static char *copy_special(char *to, const char **at, const char *end, const char *const *quotes)
{
    char byte = **at;
    switch (kinds[(unsigned char)byte]) {
    case HIGH:
        return copy_character(to, at, end);
    case CONTROL:
        refuse_content(*at, end, (unsigned char)byte);
    case BACKSLASH:
        if (end - *at > 1 && escaped_byte((*at)[1])) {
            byte = escaped_byte((*at)[1]);
            ++*at;
        }
        break;
    default:
        break;
    }
    ++*at;
    return copy_quoted(to, byte, quotes);
}

/* Puts a content without its escapes, and with what XML writes in place of some bytes. */
static void put_content(struct bytes *to, const char *at, size_t length, const char *const *quotes)
{
    const char *end = at + length;
    while (at < end) {
        size_t some = end - at < 4096 ? (size_t)(end - at) : 4096;
        char *start = make_room(to, 6 * some + 8), *next = start;
        for (const char *stop = at + some; at < stop;)
            if (kinds[(unsigned char)*at] == PLAIN)
                *next++ = *at++;
            else
                next = copy_special(next, &at, end, quotes);
        to->length += (size_t)(next - start);
    }
}

/* Lines */

static size_t depth(void)
{
    return out.lengths.length / sizeof(size_t);
}

static size_t innermost_length(void)
{
    size_t length;
    memcpy(&length, out.lengths.data + out.lengths.length - sizeof length, sizeof length);
    return length;
}

static void put(const char *data, size_t length)
{
    append(&output, data, length);
    end_part();
}

/* Ends a start tag that is open. */
static void end_tag(void)
{
    if (out.in_tag) {
        out.in_tag = false;
        put(">", 1);
    }
}

static void start_element(const char *name, size_t length)
{
    check_name(name, length);
    if (depth() == 0 && out.rooted)
        refuse("an element beside the root element");
    end_tag();
    out.rooted = true;
    append(&out.open, name, length);
    append(&out.lengths, (const char *)&length, sizeof length);
    clear_names(&out.attributes);
    out.in_tag = true;
    append(&output, "<", 1);
    put(name, length);
}

static void end_element(const char *name, size_t length)
{
    if (depth() == 0 || innermost_length() != length ||
        memcmp(out.open.data + out.open.length - length, name, length) != 0)
        refuse("the end of an element that isn't the innermost open one");
    out.open.length -= length;
    out.lengths.length -= sizeof length;
    if (depth() == 0)
        hold_output();
    if (out.in_tag) {
        append(&output, "/>", 2);
    } else {
        append(&output, "</", 2);
        append(&output, name, length);
        append(&output, ">", 1);
    }
    out.in_tag = false;
    end_part();
    if (depth() == 0)
        put("\n", 1);
}

static void put_attribute(const char *name, size_t length, const char *content, size_t size)
{
    append(&output, " ", 1);
    append(&output, name, length);
    append(&output, "=\"", 2);
    put_content(&output, content, size, attribute_quotes);
    append(&output, "\"", 1);
    bool is_new = false;
    if (out.in_tag)
        put_name(&out.attributes, name, length, &is_new);
    if (!out.in_tag)
        refuse("an attribute that doesn't stand behind the start of its element");
    if (!is_new)
        end_run(REFUSED, "line %llu: a second attribute %s", out.number, shown(name, length));
    end_part();
}

static void put_text(const char *content, size_t size)
{
    if (depth() == 0)
        refuse("a text outside the root element");
    end_tag();
    put_content(&output, content, size, text_quotes);
    end_part();
}

static bool has_pair(const struct bytes *content, char first, char second)
{
    for (size_t i = 0; i + 1 < content->length; i++)
        if (content->data[i] == first && content->data[i + 1] == second)
            return true;
    return false;
}

static bool has_byte(const struct bytes *content, char byte)
{
    return content->length && memchr(content->data, byte, content->length) != NULL;
}

/* Puts what stands between tags: a mark, what follows it, and what ends it. */
static void put_markup(const char *begin, const struct bytes *content, const char *end)
{
    end_tag();
    append_text(&output, begin);
    append(&output, content->data, content->length);
    put(end, strlen(end));
    if (depth() == 0)
        put("\n", 1);
}

static void put_comment(const struct bytes *content)
{
    if (has_pair(content, '-', '-') || has_byte(content, '\r') ||
        (content->length && content->data[content->length - 1] == '-'))
        refuse("a comment with --, with - at its end or with CR, which XML can't have");
    put_markup("<!--", content, "-->");
}

/* Where the document type of a text ends, -1 where there is none. */
struct type_end {
    XML_Parser parser;
    long at;
};

static void end_document_type(void *data)
{
    struct type_end *end = data;
    end->at = XML_GetCurrentByteIndex(end->parser);
}

/* Whether this is what stands in one document type, and nothing beside it. */
static bool is_document_type(const struct bytes *content)
{
    static const char begin[] = "<!DOCTYPE ", behind[] = "><a/>";
    struct type_end end = {XML_ParserCreate("utf-8"), -1};
    if (end.parser == NULL)
        end_without_memory();
    XML_SetUserData(end.parser, &end);
    XML_SetEndDoctypeDeclHandler(end.parser, end_document_type);
    bool is_good = XML_Parse(end.parser, begin, sizeof begin - 1, 0) == XML_STATUS_OK &&
                   XML_Parse(end.parser, content->data, (int)content->length, 0) == XML_STATUS_OK &&
                   XML_Parse(end.parser, behind, sizeof behind - 1, 1) == XML_STATUS_OK;
    XML_ParserFree(end.parser);
    return is_good && end.at == (long)(sizeof begin - 1 + content->length);
}

static void put_document_type(const struct bytes *content)
{
    if (out.rooted || out.typed)
        refuse("a document type behind the root element or another document type");
    if (!is_document_type(content))
        refuse("what is kept of a document type is none");
    out.typed = true;
    put_markup("<!DOCTYPE ", content, ">");
}

static void put_plain_instruction(const char *name, size_t length, const struct bytes *content)
{
    if (length == 3 && strncasecmp(name, "xml", 3) == 0)
        end_run(REFUSED, "line %llu: an instruction %s, which XML can't have", out.number, shown(name, length));
    char first = content->length ? content->data[0] : 0;
    if (has_pair(content, '?', '>') || has_byte(content, '\r') || first == ' ' || first == '\t' || first == '\n')
        refuse("an instruction's content with ?>, with CR, or with a space, TAB or LF at its front, which XML can't have");
    end_tag();
    append(&output, "<?", 2);
    append(&output, name, length);
    put_markup(content->length ? " " : "", content, "?>");
}

static bool is_named(const char *name, size_t length, const char *other)
{
    return length == strlen(other) && memcmp(name, other, length) == 0;
}

static void put_instruction(const char *name, size_t length, const char *raw, size_t size)
{
    static const char *const no_quotes[256] = {0};
    struct bytes *content = &out.content;
    content->length = 0;
    put_content(content, raw, size, no_quotes);
    if (is_named(name, length, COMMENT))
        put_comment(content);
    else if (is_named(name, length, DOCUMENT_TYPE))
        put_document_type(content);
    else
        put_plain_instruction(name, length, content);
}

static void take_line(const char *line, size_t length)
{
    out.number++;
    if (length > LONGEST_LINE)
        end_run(REFUSED, "line %llu: a line of more than %d bytes", out.number, LONGEST_LINE);
    if (length && line[length - 1] == '\r')
        length--;
    char code = length ? line[0] : 0;
    const char *rest = line + 1;
    size_t size = length ? length - 1 : 0;
    if (code == '-') {
        put_text(rest, size);
    } else if (code == '(') {
        start_element(rest, size);
    } else if (code == ')') {
        end_element(rest, size);
    } else if (code == 'A' || code == '?') {
        const char *space = size ? memchr(rest, ' ', size) : NULL;
        size_t name = space ? (size_t)(space - rest) : size;
        check_name(rest, name);
        size_t start = space ? name + 1 : size;
        (code == 'A' ? put_attribute : put_instruction)(rest, name, rest + start, size - start);
    } else {
        refuse("no line of PYX: it begins with none of ( ) A - ?");
    }
}

void bring_out(void)
{
    struct bytes input = {0};
    fill_tables();
    for (size_t got; (got = read_block(make_room(&input, BLOCK), BLOCK)) > 0;) {
        size_t start = 0, fresh = input.length;
        input.length += got;
        for (char *end; (end = memchr(input.data + fresh, '\n', input.length - fresh)) != NULL; fresh = start) {
            size_t stop = (size_t)(end - input.data);
            take_line(input.data + start, stop - start);
            start = stop + 1;
        }
        input.length -= start;
        memmove(input.data, input.data + start, input.length);
        if (input.length > LONGEST_LINE)
            take_line(input.data, input.length);
    }
    if (input.length)
        take_line(input.data, input.length);
    if (depth()) {
        size_t length = innermost_length();
        const char *name = shown(out.open.data + out.open.length - length, length);
        end_run(REFUSED, "line %llu: the input ends within the element %s", out.number, name);
    }
    if (!out.rooted)
        refuse("the input has no element");
    release_output();
    free(input.data);
}
