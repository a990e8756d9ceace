/* The encodings that Python knows and expat doesn't. */

#include "encodings.h"

#include "encoding_tables.h"

#include <stdlib.h>

static char lower(char byte)
{
    return byte >= 'A' && byte <= 'Z' ? (char)(byte - 'A' + 'a') : byte;
}

static bool is_plain(char byte)
{
    return (byte >= 'a' && byte <= 'z') || (byte >= '0' && byte <= '9') || byte == '.';
}

/* A name as Python looks it up: in small letters, with one _ for what stands between letters, digits and dots. */
static void append_normal(struct bytes *normal, const char *name)
{
    bool between = false;
    for (; *name; name++) {
        char byte = lower(*name);
        if (!is_plain(byte)) {
            between = true;
            continue;
        }
        if (between && normal->length)
            append(normal, "_", 1);
        between = false;
        append(normal, &byte, 1);
    }
    append(normal, "", 1);
}

static bool is_same(const char *name, const char *dotted, bool alias)
{
    for (; *name && (*name == *dotted || (alias && *name == '_' && *dotted == '.')); name++)
        dotted++;
    return *name == *dotted;
}

static void fill_characters(short table, int characters[256])
{
    for (int byte = 0; byte < 256; byte++)
        characters[byte] = byte < 128 ? byte : upper_characters[table][byte - 128];
    for (size_t i = 0; i < sizeof missing_bytes / sizeof *missing_bytes; i++)
        if (missing_bytes[i].table == table)
            characters[missing_bytes[i].byte] = -1;
    for (int byte = 128; byte < 256; byte++)
        if (characters[byte] == 0xfffd)
            characters[byte] = -1;
}

bool find_encoding(const char *name, int characters[256], struct bytes *fault)
{
    struct bytes normal = {0};
    append_normal(&normal, name);
    size_t count = sizeof encoding_names / sizeof *encoding_names, at = 0;
    while (at < count && !is_same(encoding_names[at].name, normal.data, encoding_names[at].alias))
        at++;
    free(normal.data);
    short code = at < count ? encoding_names[at].code : 0;
    if (at < count && code >= 0) {
        fill_characters(code, characters);
        return true;
    }
    if (at < count && code == NO_ASCII) { /* expat takes no table that has other characters there */
        for (int byte = 0; byte < 256; byte++)
            characters[byte] = -1;
        return true;
    }
    if (at < count && code != NO_TEXT) {
        append_text(fault, code == MANY_BYTES ? "multi-byte encodings are not supported" : "its bytes aren't decoded one by one");
    } else {
        append_text(fault, at < count ? "'" : "unknown encoding: ");
        append_text(fault, name);
        append_text(fault, at < count ? "' is not a text encoding; use codecs.decode() to handle arbitrary codecs" : "");
    }
    append(fault, "", 1);
    return false;
}
