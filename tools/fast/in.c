/* PYX lines of XML, by expat. */

#include "encodings.h"
#include "xmlpyx.h"

#include <expat.h>
#include <stdio.h>
#include <stdlib.h>
#include <string.h>
#include <strings.h>

/* How the bytes of a tag are to be read. */
enum coding { UTF_8, UTF_16_LITTLE, UTF_16_BIG, LATIN_1, SINGLE_BYTES };

/* An entity, by the number of its name. */
struct entity {
    bool declared;
    size_t start, count; /* its references in `in.references` */
    size_t seen;         /* the number of the tag for which it was last looked at */
};

static struct {
    XML_Parser parser;
    bool verbose, keep, in_document_type;
    bool in_head;              /* a document type that is kept may still come */
    struct bytes head;         /* the input as long as that is so */
    struct bytes document_type; /* what stands in it before its declarations */
    long declarations;         /* where they begin in the input, -1 where there are none */
    bool unread; /* there are declarations that aren't read */
    enum coding coding;
    const int *characters;     /* of single bytes */
    struct bytes fault;        /* why the encoding isn't known */
    size_t depth, comments;
    struct bytes text;         /* what hasn't been written of the text that may still go on */
    size_t waiting;            /* how much of it came since the last handler, at its end */
    struct bytes notes;        /* each with a byte 0 behind it */
    struct names names;        /* of the entities that are declared or referred to */
    struct entity *entities;
    size_t entities_room;
    struct bytes references;   /* numbers of names */
    struct bytes to_look_at;   /* numbers of names */
    size_t tags;
} in;

#define PLACE "line %lu, column %lu: "

static unsigned long line_number(void)
{
    return (unsigned long)XML_GetCurrentLineNumber(in.parser);
}

static unsigned long column_number(void)
{
    return (unsigned long)XML_GetCurrentColumnNumber(in.parser) + 1;
}

static void note(const char *before, const char *name, const char *behind)
{
    char place[64];
    int length = snprintf(place, sizeof place, " (line %lu, column %lu)", line_number(), column_number());
    append_text(&in.notes, before);
    append_text(&in.notes, name);
    append_text(&in.notes, behind);
    append(&in.notes, place, (size_t)length + 1);
}

/* Lines */

static void put_escaped(const char *content, size_t length)
{
    static const char codes[256] = {['\n'] = 'n', ['\t'] = 't', ['\r'] = 'r', ['\\'] = '\\'};
    char *start = make_room(&output, 2 * length), *to = start;
    for (const char *at = content, *end = content + length; at < end; at++) {
        char code = codes[(unsigned char)*at];
        if (code) {
            *to++ = '\\';
            *to++ = code;
        } else {
            *to++ = *at;
        }
    }
    output.length += (size_t)(to - start);
}

static void put_text(size_t length)
{
    append(&output, "-", 1);
    put_escaped(in.text.data, length);
    append(&output, "\n", 1);
    end_part();
    in.text.length -= length;
    memmove(in.text.data, in.text.data + length, in.text.length);
}

/* What came of the text isn't waiting any more: writes the part of it that is too long for one node. Before this, the
   text waits in blocks, as Python keeps it. */
static void take_text(void)
{
    in.waiting = 0;
    while (in.text.length > LONGEST) {
        size_t end = LONGEST;
        while ((in.text.data[end] & 0xc0) == 0x80)
            end--;
        put_text(end);
    }
}

static void end_text(void)
{
    if (in.text.length)
        put_text(in.text.length);
}

static void end_head(void)
{
    in.in_head = false;
    in.head.length = 0;
}

static void put_line(char code, const char *name, const char *content)
{
    size_t length = strlen(name), size = content ? strlen(content) : 0;
    if (length + size > LONGEST)
        end_run(REFUSED, PLACE "a name and its content have %zu bytes together, and natix takes %d", line_number(),
                column_number(), length + size, LONGEST);
    append(&output, &code, 1);
    append(&output, name, length);
    if (content) {
        append(&output, " ", 1);
        put_escaped(content, size);
    }
    append(&output, "\n", 1);
    end_part();
}

/* References to entities */

static bool is_space(char byte)
{
    return byte == ' ' || (byte >= '\t' && byte <= '\r');
}

/* The name of the next reference from `*at` on, NULL where there is none. */
static const char *next_reference(const char **at, const char *end, size_t *length)
{
    for (const char *mark; (mark = memchr(*at, '&', (size_t)(end - *at))) != NULL;) {
        const char *stop = mark + 1;
        while (stop < end && *stop != ';' && *stop != '&' && !is_space(*stop))
            stop++;
        *at = stop;
        *length = (size_t)(stop - mark - 1);
        if (stop < end && *stop == ';' && *length && mark[1] != '#')
            return mark + 1;
    }
    return NULL;
}

static size_t entity_number(const char *name, size_t length)
{
    bool is_new;
    size_t number = put_name(&in.names, name, length, &is_new);
    if (number >= in.entities_room) {
        size_t room = number * 2 + 16;
        struct entity *entities = realloc(in.entities, room * sizeof *entities);
        if (entities == NULL)
            end_without_memory();
        in.entities = entities;
        in.entities_room = room;
    }
    if (is_new)
        in.entities[number] = (struct entity){0};
    return number;
}

static void keep_entity(const char *name, const char *value, size_t length)
{
    size_t number = entity_number(name, strlen(name)), count = 0, start = in.references.length, size;
    if (in.entities[number].declared)
        return;
    const char *at = value;
    for (const char *other; (other = next_reference(&at, value + length, &size)) != NULL; count++) {
        size_t reference = entity_number(other, size);
        append(&in.references, (const char *)&reference, sizeof reference);
    }
    in.entities[number].declared = true;
    in.entities[number].start = start;
    in.entities[number].count = count;
}

static _Noreturn void refuse_undeclared(const char *name, size_t length)
{
    end_run(REFUSED, PLACE "the document doesn't declare the entity %.*s, and no other file is read", line_number(),
            column_number(), (int)length, name);
}

static bool is_predefined(const char *name, size_t length)
{
    static const char *const names[] = {"amp", "lt", "gt", "quot", "apos"};
    for (size_t i = 0; i < sizeof names / sizeof *names; i++)
        if (strlen(names[i]) == length && memcmp(names[i], name, length) == 0)
            return true;
    return false;
}

/* Ends the run where the entity, or one that it refers to, isn't declared here. */
static void check_entity(const char *name, size_t length)
{
    size_t number = entity_number(name, length);
    append(&in.to_look_at, (const char *)&number, sizeof number);
    while (in.to_look_at.length) {
        in.to_look_at.length -= sizeof number;
        memcpy(&number, in.to_look_at.data + in.to_look_at.length, sizeof number);
        struct entity *entity = &in.entities[number];
        const char *other = name_of(&in.names, number, &length);
        if (entity->seen == in.tags || is_predefined(other, length))
            continue;
        entity->seen = in.tags;
        if (!entity->declared)
            refuse_undeclared(other, length);
        for (size_t i = entity->count; i-- > 0;)
            append(&in.to_look_at, in.references.data + entity->start + i * sizeof number, sizeof number);
    }
}

/* Bytes of the input as UTF-8 */

/* Of UTF-16. */
static void append_wide(struct bytes *text, const char *context, size_t size)
{
    const unsigned char *at = (const unsigned char *)context;
    unsigned high = in.coding == UTF_16_BIG ? 0 : 1;
    for (uint32_t unit, lead = 0; size >= 2; at += 2, size -= 2) {
        unit = (uint32_t)at[high] << 8 | at[1 - high];
        if (unit >= 0xdc00 && unit < 0xe000 && lead)
            append_character(text, 0x10000 + ((lead - 0xd800) << 10) + unit - 0xdc00);
        else if (unit < 0xd800 || unit >= 0xe000)
            append_character(text, unit);
        lead = unit >= 0xd800 && unit < 0xdc00 ? unit : 0;
    }
}

/* Of characters that begin with a byte of their own. */
static void append_narrow(struct bytes *text, const char *data, size_t length)
{
    if (in.coding != LATIN_1 && in.coding != SINGLE_BYTES) {
        append(text, data, length);
        return;
    }
    for (size_t i = 0; i < length; i++) {
        unsigned char byte = (unsigned char)data[i];
        append_character(text, in.coding == LATIN_1 ? byte : (uint32_t)in.characters[byte]);
    }
}

/* Tags with references */

/* The end of the tag at the beginning of a text, NULL where there is no whole tag. */
static const char *end_of_tag(const char *at, const char *end)
{
    if (at < end && *at == '<')
        for (at++; at < end; at++) {
            if (*at == '>')
                return at + 1;
            if ((*at == '"' || *at == '\'') && (at = memchr(at + 1, *at, (size_t)(end - at - 1))) == NULL)
                return NULL;
        }
    return NULL;
}

/* Takes a tag in UTF-16 for one in UTF-8: as much of what follows it as it takes to find its end. */
static const char *narrow_tag(const char **at, const char **end)
{
    static struct bytes text;
    size_t size = (size_t)(*end - *at), some = 64;
    const char *stop = NULL;
    do {
        some = some * 4 < size ? some * 4 : size;
        text.length = 0;
        append_wide(&text, *at, some);
        stop = end_of_tag(text.data, text.data + text.length);
    } while (stop == NULL && some < size);
    *at = text.data;
    *end = text.data + text.length;
    return stop;
}

/* Looks at the entity of a name as the tag has it. */
static void check_raw_entity(const char *name, size_t length)
{
    struct bytes text = {0};
    append_narrow(&text, name, length);
    check_entity(text.data, text.length);
    free(text.data);
}

/* Ends the run where a tag's attributes refer to an entity that isn't declared here, which expat passes over without
   a word where there are declarations that aren't read. */
static void check_attributes(void)
{
    int offset, size;
    const char *context = XML_GetInputContext(in.parser, &offset, &size);
    if (context == NULL)
        end_run(REFUSED, PLACE "this build of expat doesn't tell whether an attribute refers to an entity that isn't declared here",
                line_number(), column_number());
    const char *at = context + offset, *end = context + size;
    bool is_wide = in.coding == UTF_16_LITTLE || in.coding == UTF_16_BIG;
    const char *stop = is_wide ? narrow_tag(&at, &end) : end_of_tag(at, end);
    end = stop ? stop : end;
    in.tags++;
    size_t length;
    const char *first = at, *name = next_reference(&at, end, &length);
    if (name == first + 1) { /* the tag stands in this entity */
        check_raw_entity(name, length);
        return;
    }
    for (; name != NULL; name = next_reference(&at, end, &length))
        check_raw_entity(name, length);
}

/* Handlers */

static void take_characters(void *data, const XML_Char *text, int length)
{
    (void)data;
    if (in.waiting + (size_t)length > BLOCK)
        take_text();
    append(&in.text, text, (size_t)length);
    in.waiting += (size_t)length;
    if (length > BLOCK)
        take_text();
}

static void start_element(void *data, const XML_Char *name, const XML_Char **attributes)
{
    (void)data;
    take_text();
    end_text();
    if (in.unread && *attributes)
        check_attributes();
    put_line('(', name, NULL);
    for (; *attributes; attributes += 2)
        put_line('A', attributes[0], attributes[1]);
    in.depth++;
    if (in.in_head)
        end_head();
}

static void end_element(void *data, const XML_Char *name)
{
    (void)data;
    take_text();
    end_text();
    if (--in.depth == 0)
        hold_output();
    put_line(')', name, NULL);
}

static void put_instruction(const char *name, const char *content)
{
    end_text();
    put_line('?', name, *content ? content : NULL);
}

static void take_instruction(void *data, const XML_Char *name, const XML_Char *content)
{
    (void)data;
    take_text();
    if (in.in_document_type)
        return;
    bool is_comment = strcmp(name, COMMENT) == 0;
    if (is_comment || strcmp(name, DOCUMENT_TYPE) == 0)
        end_run(REFUSED, PLACE "an instruction %s, which is how a %s is kept", line_number(), column_number(), name,
                is_comment ? "comment" : "document type");
    put_instruction(name, content);
}

static void take_declaration(void *data, const XML_Char *version, const XML_Char *encoding, int standalone)
{
    (void)data, (void)standalone;
    take_text();
    if (version)
        note("XML declaration", "", "");
    if (encoding && in.coding == UTF_8 && strcasecmp(encoding, "ISO-8859-1") == 0)
        in.coding = LATIN_1;
}

static void take_comment(void *data, const XML_Char *text)
{
    (void)data;
    take_text();
    if (in.in_document_type)
        return;
    if (in.keep)
        put_instruction(COMMENT, text);
    else
        in.comments++;
}

/* What stands in a document type before its declarations. */
static void name_document_type(const char *name, const char *system, const char *public)
{
    append_text(&in.document_type, name);
    if (public) {
        append_text(&in.document_type, " PUBLIC \"");
        append_text(&in.document_type, public);
        append_text(&in.document_type, "\"");
    } else if (system) {
        append_text(&in.document_type, " SYSTEM");
    }
    if (system) {
        const char *quote = strchr(system, '"') ? "'" : "\"";
        append_text(&in.document_type, " ");
        append_text(&in.document_type, quote);
        append_text(&in.document_type, system);
        append_text(&in.document_type, quote);
    }
}

static void start_document_type(void *data, const XML_Char *name, const XML_Char *system, const XML_Char *public, int has_subset)
{
    (void)data;
    take_text();
    in.in_document_type = true;
    if (!in.keep) {
        note("document type ", name, "");
        return;
    }
    name_document_type(name, system, public);
    in.declarations = has_subset ? XML_GetCurrentByteIndex(in.parser) : -1;
}

/* Appends the declarations of the document type, as they stand there up to a place of the input. */
static void append_declarations(size_t end)
{
    struct bytes text = {0};
    size_t start = (size_t)in.declarations;
    bool is_wide = in.coding == UTF_16_LITTLE || in.coding == UTF_16_BIG;
    (is_wide ? append_wide : append_narrow)(&text, in.head.data + start, end - start);
    while (text.length && is_space(text.data[text.length - 1]))
        text.length--;
    append_text(&in.document_type, " ");
    for (size_t i = 0; i < text.length; i++) {
        bool is_pair = text.data[i] == '\r' && i + 1 < text.length && text.data[i + 1] == '\n';
        if (!is_pair)
            append(&in.document_type, text.data[i] == '\r' ? "\n" : text.data + i, 1);
    }
    free(text.data);
}

static void end_document_type(void *data)
{
    (void)data;
    take_text();
    in.in_document_type = false;
    if (!in.keep)
        return;
    if (in.declarations >= 0)
        append_declarations((size_t)XML_GetCurrentByteIndex(in.parser));
    append(&in.document_type, "", 1);
    put_instruction(DOCUMENT_TYPE, in.document_type.data);
    end_head();
}

static void take_entity(void *data, const XML_Char *name, int is_parameter, const XML_Char *value, int length,
                        const XML_Char *base, const XML_Char *system, const XML_Char *public, const XML_Char *notation)
{
    (void)data, (void)base, (void)system, (void)public, (void)notation;
    take_text();
    if (value && !is_parameter)
        keep_entity(name, value, (size_t)length);
}

static void skip_entity(void *data, const XML_Char *name, int is_parameter)
{
    (void)data;
    take_text();
    if (!is_parameter)
        refuse_undeclared(name, strlen(name));
    in.unread = true;
    note("declarations of the parameter entity ", name, ", which isn't declared here, and those behind it");
}

static int refer_outside(XML_Parser parser, const XML_Char *context, const XML_Char *base, const XML_Char *system, const XML_Char *public)
{
    (void)parser, (void)base, (void)public;
    take_text();
    if (context)
        end_run(REFUSED, PLACE "an external entity, and %s isn't read", line_number(), column_number(), system);
    in.unread = true;
    note("declarations in ", system, ", which isn't read");
    return 1;
}

static int know_encoding(void *data, const XML_Char *name, XML_Encoding *info)
{
    static int characters[256];
    (void)data;
    if (!find_encoding(name, characters, &in.fault))
        return XML_STATUS_ERROR;
    memcpy(info->map, characters, sizeof characters);
    info->data = NULL;
    info->convert = NULL;
    info->release = NULL;
    in.characters = characters;
    in.coding = SINGLE_BYTES;
    return XML_STATUS_OK;
}

/* The run */

static void set_handlers(void)
{
    XML_Parser parser = in.parser;
    XML_SetElementHandler(parser, start_element, end_element);
    XML_SetCharacterDataHandler(parser, take_characters);
    XML_SetProcessingInstructionHandler(parser, take_instruction);
    XML_SetDoctypeDeclHandler(parser, start_document_type, end_document_type);
    XML_SetEntityDeclHandler(parser, take_entity);
    XML_SetSkippedEntityHandler(parser, skip_entity);
    XML_SetExternalEntityRefHandler(parser, refer_outside);
    XML_SetUnknownEncodingHandler(parser, know_encoding, NULL);
    XML_SetParamEntityParsing(parser, XML_PARAM_ENTITY_PARSING_ALWAYS);
    XML_SetXmlDeclHandler(parser, take_declaration);
    if (in.verbose || in.keep)
        XML_SetCommentHandler(parser, take_comment);
}

/* How an input is coded that begins with this block, as far as that shows. */
static enum coding coding_of(const char *block, size_t length)
{
    const unsigned char *at = (const unsigned char *)block;
    if (length >= 2 && ((at[0] == 0xff && at[1] == 0xfe) || at[1] == 0))
        return UTF_16_LITTLE;
    if ((length >= 2 && at[0] == 0xfe && at[1] == 0xff) || (length >= 1 && at[0] == 0))
        return UTF_16_BIG;
    return UTF_8;
}

static _Noreturn void refuse_input(void)
{
    enum XML_Error error = XML_GetErrorCode(in.parser);
    if (error == XML_ERROR_NO_MEMORY)
        end_without_memory();
    if (in.fault.length)
        end_run(REFUSED, PLACE "no encoding that expat knows: %s", line_number(), column_number(), in.fault.data);
    end_run(REFUSED, PLACE "%s", line_number(), column_number(), XML_ErrorString(error));
}

static void tell_notes(void)
{
    for (size_t at = 0; at < in.notes.length; at += strlen(in.notes.data + at) + 1)
        tell("left out: %s", in.notes.data + at);
    if (in.comments)
        tell("left out: %zu comment%s", in.comments, in.comments > 1 ? "s" : "");
}

void bring_in(bool verbose, bool keep)
{
    in.verbose = verbose;
    in.keep = in.in_head = keep;
    in.parser = XML_ParserCreate(NULL);
    if (in.parser == NULL)
        end_without_memory();
    set_handlers();
    bool first = true;
    for (size_t got = 1; got > 0; first = false) {
        char *block = XML_GetBuffer(in.parser, BLOCK);
        if (block == NULL)
            end_without_memory();
        got = read_block(block, BLOCK);
        if (first)
            in.coding = coding_of(block, got);
        if (in.in_head)
            append(&in.head, block, got);
        if (XML_ParseBuffer(in.parser, (int)got, got == 0) != XML_STATUS_OK)
            refuse_input();
        take_text();
    }
    release_output();
    if (verbose)
        tell_notes();
}
