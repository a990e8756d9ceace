/* What ends a run, bytes that grow, names, and standard input and output. */

#include "xmlpyx.h"

#include <errno.h>
#include <stdarg.h>
#include <stdio.h>
#include <stdlib.h>
#include <string.h>
#include <sys/random.h>
#include <unistd.h>

/* The end of a run */

_Noreturn void end_without_memory(void)
{
    static const char line[] = "xmlpyx: out of memory\n";
    ssize_t written = write(2, line, sizeof line - 1);
    (void)written;
    _exit(NO_MEMORY);
}

static void write_line(const char *format, va_list arguments)
{
    va_list again;
    va_copy(again, arguments);
    int length = vsnprintf(NULL, 0, format, arguments);
    char *line = length < 0 ? NULL : malloc((size_t)length + 10);
    if (line == NULL)
        end_without_memory();
    memcpy(line, "xmlpyx: ", 8);
    vsnprintf(line + 8, (size_t)length + 1, format, again);
    va_end(again);
    line[8 + length] = '\n';
    ssize_t written = write(2, line, (size_t)length + 9);
    (void)written; /* there is nobody left to tell */
    free(line);
}

void tell(const char *format, ...)
{
    va_list arguments;
    va_start(arguments, format);
    write_line(format, arguments);
    va_end(arguments);
}

void end_run(enum status status, const char *format, ...)
{
    va_list arguments;
    va_start(arguments, format);
    write_line(format, arguments);
    va_end(arguments);
    _exit((int)status);
}

/* Bytes */

char *make_room(struct bytes *bytes, size_t more)
{
    if (bytes->room - bytes->length < more) {
        size_t room = bytes->room + bytes->room / 2;
        if (room < bytes->length + more)
            room = bytes->length + more + 256;
        char *data = realloc(bytes->data, room);
        if (data == NULL)
            end_without_memory();
        bytes->data = data;
        bytes->room = room;
    }
    return bytes->data + bytes->length;
}

void append(struct bytes *bytes, const char *data, size_t length)
{
    if (length > 0)
        memcpy(make_room(bytes, length), data, length);
    bytes->length += length;
}

void append_text(struct bytes *bytes, const char *text)
{
    append(bytes, text, strlen(text));
}

void append_character(struct bytes *bytes, uint32_t character)
{
    char *at = make_room(bytes, 4);
    size_t length = character < 0x80 ? 1 : character < 0x800 ? 2 : character < 0x10000 ? 3 : 4;
    for (size_t i = length; i-- > 1; character >>= 6)
        at[i] = (char)(0x80 | (character & 0x3f));
    static const unsigned char lead[] = {0, 0, 0xc0, 0xe0, 0xf0};
    at[0] = (char)(lead[length] | character);
    bytes->length += length;
}

size_t character_at(const char *data, size_t length, uint32_t *character)
{
    static const uint32_t least[] = {0, 0, 0x80, 0x800, 0x10000};
    const unsigned char *at = (const unsigned char *)data;
    if (length == 0)
        return 0;
    size_t size = at[0] < 0x80 ? 1 : at[0] < 0xc0 ? 0 : at[0] < 0xe0 ? 2 : at[0] < 0xf0 ? 3 : at[0] < 0xf8 ? 4 : 0;
    if (size == 0 || size > length)
        return 0;
    uint32_t found = size == 1 ? at[0] : at[0] & (0xffu >> (size + 1));
    for (size_t i = 1; i < size; i++) {
        if ((at[i] & 0xc0) != 0x80)
            return 0;
        found = found << 6 | (at[i] & 0x3f);
    }
    if (found < least[size] || (found >= 0xd800 && found < 0xe000) || found > 0x10ffff)
        return 0;
    *character = found;
    return size;
}

/* Names */

struct name_slot {
    size_t generation, number; /* in use where the generation is that of the set */
};

const char *name_of(const struct names *names, size_t number, size_t *length)
{
    size_t start[2] = {0, names->kept.length};
    size_t last = number + 1 == names->count;
    memcpy(start, names->starts.data + number * sizeof *start, (2 - last) * sizeof *start);
    *length = start[1] - start[0];
    return names->kept.data + start[0];
}

static size_t hash_of(const char *name, size_t length)
{
    static uint64_t seed;
    if (seed == 0 && getrandom(&seed, sizeof seed, 0) != sizeof seed)
        seed = 0x9e3779b97f4a7c15u;
    uint64_t hash = seed ^ length;
    while (length > 0) {
        uint64_t unit = 0;
        size_t size = length < 8 ? length : 8;
        memcpy(&unit, name, size);
        __extension__ unsigned __int128 product = (unsigned __int128)(hash ^ unit ^ seed) * 0xd6e8feb86659fd93u;
        hash = (uint64_t)product ^ (uint64_t)(product >> 64);
        name += size;
        length -= size;
    }
    return (size_t)(hash ^ hash >> 32);
}

static struct name_slot *slot_of(const struct names *names, const char *name, size_t length)
{
    size_t at = hash_of(name, length) & (names->room - 1);
    for (;; at = (at + 1) & (names->room - 1)) {
        struct name_slot *slot = &names->slots[at];
        if (slot->generation != names->generation)
            return slot;
        size_t size;
        const char *other = name_of(names, slot->number, &size);
        if (size == length && memcmp(other, name, length) == 0)
            return slot;
    }
}

/* Doubles the slots. */
static void grow_names(struct names *names)
{
    struct names old = *names;
    size_t length;
    names->room = old.room == 0 ? 16 : old.room * 2;
    names->slots = calloc(names->room, sizeof *names->slots);
    if (names->slots == NULL)
        end_without_memory();
    names->generation = 1;
    for (size_t i = 0; i < old.room; i++)
        if (old.slots[i].generation == old.generation) {
            const char *name = name_of(names, old.slots[i].number, &length);
            *slot_of(names, name, length) = (struct name_slot){names->generation, old.slots[i].number};
        }
    free(old.slots);
}

size_t put_name(struct names *names, const char *name, size_t length, bool *is_new)
{
    if (names->count * 2 >= names->room)
        grow_names(names);
    struct name_slot *slot = slot_of(names, name, length);
    *is_new = slot->generation != names->generation;
    if (*is_new) {
        *slot = (struct name_slot){names->generation, names->count++};
        append(&names->starts, (const char *)&names->kept.length, sizeof names->kept.length);
        append(&names->kept, name, length);
    }
    return slot->number;
}

size_t find_name(const struct names *names, const char *name, size_t length)
{
    if (names->room == 0)
        return SIZE_MAX;
    struct name_slot *slot = slot_of(names, name, length);
    return slot->generation == names->generation ? slot->number : SIZE_MAX;
}

void clear_names(struct names *names)
{
    names->generation++;
    names->count = 0;
    names->kept.length = 0;
    names->starts.length = 0;
}

/* Input and output */

size_t read_block(char *block, size_t most)
{
    for (;;) {
        ssize_t length = read(0, block, most);
        if (length >= 0)
            return (size_t)length;
        if (errno != EINTR)
            end_run(READ_FAULT, "read fault: %s", strerror(errno));
    }
}

static _Noreturn void fail_to_write(void)
{
    end_run(WRITE_FAULT, "write fault: %s", strerror(errno));
}

struct bytes output;

static bool holding;
static struct bytes held;
static int held_file = -1; /* what is held and more than 1 MiB */

static void write_to(int file, const char *data, size_t length)
{
    while (length > 0) {
        ssize_t written = write(file, data, length);
        if (written < 0 && errno == EINTR)
            continue;
        if (written < 0)
            fail_to_write();
        data += written;
        length -= (size_t)written;
    }
}

/* Opens a file that has no name any more. */
static int open_nameless(void)
{
    const char *folders[] = {getenv("TMPDIR"), getenv("TEMP"), getenv("TMP"), "/tmp", "/var/tmp", "/usr/tmp", "."};
    for (size_t i = 0; i < sizeof folders / sizeof *folders; i++) {
        if (folders[i] == NULL || *folders[i] == 0)
            continue;
        struct bytes name = {0};
        append_text(&name, folders[i]);
        append(&name, "/xmlpyx-XXXXXX", sizeof "/xmlpyx-XXXXXX");
        int file = mkstemp(name.data);
        if (file >= 0)
            unlink(name.data);
        free(name.data);
        if (file >= 0)
            return file;
    }
    fail_to_write();
}

void flush_output(void)
{
    if (!holding) {
        write_to(1, output.data, output.length);
    } else if (held_file >= 0) {
        write_to(held_file, output.data, output.length);
    } else {
        append(&held, output.data, output.length);
        if (held.length > 1 << 20) {
            held_file = open_nameless();
            write_to(held_file, held.data, held.length);
        }
    }
    output.length = 0;
}

void hold_output(void)
{
    if (!holding) {
        flush_output();
        holding = true;
    }
}

void release_output(void)
{
    flush_output();
    holding = false;
    if (held_file < 0) {
        write_to(1, held.data, held.length);
        return;
    }
    static char block[BLOCK];
    if (lseek(held_file, 0, SEEK_SET) != 0)
        fail_to_write();
    for (;;) {
        ssize_t length = read(held_file, block, sizeof block);
        if (length < 0 && errno == EINTR)
            continue;
        if (length < 0)
            fail_to_write();
        if (length == 0)
            return;
        write_to(1, block, (size_t)length);
    }
}
