/* What the work of a reader costs in plain C, with the checks that ntboot makes of a clean hive, but no reasons, no limits of memory and
 * no proofs: plain judge|show|export HIVE. `show` and `export` write what ntboot writes. Built and run by plain_c.py. */
#include <stdint.h>
#include <stdio.h>
#include <stdlib.h>
#include <string.h>

enum mode { JUDGE, SHOW, EXPORT };

/* A name where it is stored. */
struct name {
    const uint8_t *bytes;
    int length;
    int narrow;
};

static enum mode mode;
static uint8_t *bins;
static uint32_t size;
/* A bit for eight bytes: a cell begins there; it was used. */
static uint8_t *starts, *used;
static uint8_t *out;
static uint8_t path[1 << 18];
static int path_end;

static void refuse(const char *why) {
    fprintf(stderr, "%s\n", why);
    exit(1);
}

static uint32_t u32(uint32_t at) {
    uint32_t number;
    memcpy(&number, bins + at, 4);
    return number;
}

static uint16_t u16(uint32_t at) {
    uint16_t number;
    memcpy(&number, bins + at, 2);
    return number;
}

static int has(const uint8_t *bits, uint32_t at) { return bits[at >> 6] >> (at >> 3 & 7) & 1; }

static void set(uint8_t *bits, uint32_t at) { bits[at >> 6] |= 1 << (at >> 3 & 7); }

/* Uses a cell once, and answers where its payload is and how long. */
static uint32_t use(uint32_t at, uint32_t *length) {
    if (at % 8 || at >= size || !has(starts, at)) refuse("out of range");
    int32_t cell = (int32_t)u32(at);
    if (cell >= 0) refuse("free cell");
    if (has(used, at)) refuse("shared");
    set(used, at);
    *length = -cell - 4;
    return at + 4;
}

/* A descriptor's cell, which many keys may use. */
static void use_security(uint32_t at) {
    if (at == UINT32_MAX) return;
    if (at % 8 || at >= size || !has(starts, at)) refuse("out of range");
    uint32_t length = -(int32_t)u32(at) - 4;
    if (u16(at + 4) != 0x6b73 || length < 20 || length < 20 + u32(at + 20)) refuse("form");
}

/* ---- names */

static unsigned fold(unsigned unit) { return unit - 'a' < 26 ? unit - 32 : unit; }

static int units(struct name name) { return name.narrow ? name.length : name.length / 2; }

static unsigned unit(struct name name, int i) {
    return name.narrow ? name.bytes[i] : name.bytes[2 * i] | name.bytes[2 * i + 1] << 8;
}

static int compare(struct name a, struct name b) {
    int m = units(a), n = units(b);
    for (int i = 0; i < m && i < n; i++) {
        unsigned x = fold(unit(a, i)), y = fold(unit(b, i));
        if (x != y) return x < y ? -1 : 1;
    }
    return m - n;
}

static uint32_t hash(struct name name) {
    uint32_t sum = 0;
    for (int i = 0, n = units(name); i < n; i++) sum = sum * 37 + fold(unit(name, i));
    return sum;
}

/* No two names fold alike: at once where they rise, else by a table of hashes. */
static void check_names(const struct name *names, uint32_t count) {
    uint32_t i = 1;
    while (i < count && compare(names[i - 1], names[i]) < 0) i++;
    if (i >= count) return;
    uint32_t room = 4;
    while (room < 2 * count) room *= 2;
    uint32_t *table = calloc(room, sizeof *table);
    for (i = 0; i < count; i++) {
        uint32_t slot = hash(names[i]) & (room - 1);
        for (; table[slot]; slot = (slot + 1) & (room - 1))
            if (!compare(names[table[slot] - 1], names[i])) refuse("double name");
        table[slot] = i + 1;
    }
    free(table);
}

static int has_backslash(struct name name) {
    for (int i = 0, n = units(name); i < n; i++)
        if (unit(name, i) == '\\') return 1;
    return 0;
}

/* ---- texts */

static const char DIGITS[] = "0123456789abcdef";

/* A unit in UTF-8; names here have no surrogates. */
static void put_utf8(unsigned u) {
    if (u < 0x80) {
        *out++ = u;
    } else if (u < 0x800) {
        *out++ = 0xc0 | u >> 6;
        *out++ = 0x80 | (u & 63);
    } else {
        *out++ = 0xe0 | u >> 12;
        *out++ = 0x80 | (u >> 6 & 63);
        *out++ = 0x80 | (u & 63);
    }
}

static void show_name(struct name name) {
    for (int i = 0, n = units(name); i < n; i++) put_utf8(unit(name, i));
}

static void show_number(uint32_t number) {
    char digits[12];
    int i = 12;
    do digits[--i] = '0' + number % 10;
    while (number /= 10);
    memcpy(out, digits + i, 12 - i);
    out += 12 - i;
}

static void show_value(struct name name, uint32_t kind, const uint8_t *data, uint32_t length, int depth) {
    memset(out, ' ', 2 * depth + 2);
    out += 2 * depth + 2;
    *out++ = '=';
    *out++ = ' ';
    show_name(name);
    *out++ = ' ';
    show_number(kind);
    *out++ = ' ';
    show_number(length);
    if (length) *out++ = ' ';
    for (uint32_t i = 0; i < length; i++) {
        *out++ = DIGITS[data[i] >> 4];
        *out++ = DIGITS[data[i] & 15];
    }
    *out++ = '\n';
}

static void put_unit(unsigned u) {
    *out++ = u & 255;
    *out++ = u >> 8;
}

static void put_text(const char *text) {
    while (*text) put_unit(*text++);
}

static void put_quoted(unsigned u) {
    if (u == '"' || u == '\\') put_unit('\\');
    put_unit(u);
}

/* A text that quotes can hold: one zero, at its end, and no line end. */
static int is_text(const uint8_t *data, uint32_t length) {
    if (length < 2 || length % 2) return 0;
    for (uint32_t i = 0; i < length; i += 2) {
        unsigned u = data[i] | data[i + 1] << 8;
        if (u == '\n' || u == '\r' || (u == 0) != (i + 2 == length)) return 0;
    }
    return 1;
}

static void put_hex(const uint8_t *data, uint32_t length) {
    for (uint32_t i = 0; i < length; i++) {
        if (i) put_unit(',');
        put_unit(DIGITS[data[i] >> 4]);
        put_unit(DIGITS[data[i] & 15]);
    }
}

static void export_value(struct name name, uint32_t kind, const uint8_t *data, uint32_t length) {
    if (name.length) {
        put_unit('"');
        for (int i = 0, n = units(name); i < n; i++) put_quoted(unit(name, i));
        put_unit('"');
    } else {
        put_unit('@');
    }
    put_unit('=');
    if (kind == 4 && length == 4) {
        put_text("dword:");
        for (int i = 3; i >= 0; i--) {
            put_unit(DIGITS[data[i] >> 4]);
            put_unit(DIGITS[data[i] & 15]);
        }
    } else if (kind == 1 && is_text(data, length)) {
        put_unit('"');
        for (uint32_t i = 0; i + 2 < length; i += 2) put_quoted(data[i] | data[i + 1] << 8);
        put_unit('"');
    } else if (kind == 3) {
        put_text("hex:");
        put_hex(data, length);
    } else {
        char head[16];
        sprintf(head, "hex(%x):", kind);
        put_text(head);
        put_hex(data, length);
    }
    put_text("\r\n");
}

/* ---- keys */

/* The data of a value that is no longer than what its cells hold. */
static const uint8_t *data_of(uint32_t value, uint32_t length) {
    uint32_t room, at;
    if (u32(value + 4) >> 31) return bins + value + 8;
    if (!length) return bins;
    at = use(u32(value + 8), &room);
    if (length <= 16344 || u16(at) != 0x6264) {
        if (room < length) refuse("form");
        return bins + at;
    }
    static uint8_t *joined;
    static uint32_t most;
    if (most < length) joined = realloc(joined, most = length);
    uint32_t list_room, list = use(u32(at + 4), &list_room), left = length;
    for (uint32_t i = 0; i < u16(at + 2); i++) {
        uint32_t part = left < 16344 ? left : 16344, segment = use(u32(list + 4 * i), &room);
        if (room < part) refuse("form");
        memcpy(joined + length - left, bins + segment, part);
        left -= part;
    }
    return joined;
}

static void read_values(uint32_t node, int depth) {
    uint32_t count = u32(node + 36), room;
    if (!count) return;
    uint32_t list = use(u32(node + 40), &room);
    if (room / 4 < count) refuse("form");
    struct name few[64], *names = count > 64 ? malloc(count * sizeof *names) : few;
    for (uint32_t i = 0; i < count; i++) {
        uint32_t value = use(u32(list + 4 * i), &room);
        if (room < 20 || u16(value) != 0x6b76 || room < 20u + u16(value + 2)) refuse("form");
        uint32_t length = u32(value + 4) & 0x7fffffff;
        names[i] = (struct name){bins + value + 20, u16(value + 2), u16(value + 16) & 1};
        const uint8_t *data = data_of(value, length);
        if (mode == SHOW) show_value(names[i], u32(value + 12), data, length, depth);
        if (mode == EXPORT) export_value(names[i], u32(value + 12), data, length);
    }
    check_names(names, count);
    if (names != few) free(names);
}

static void read_key(uint32_t at, int depth);

/* The offsets of the children, through a list of lists where there is one. */
static void read_children(uint32_t node, int depth) {
    uint32_t count = u32(node + 20), found = 0, room;
    if (!count) return;
    uint32_t list = use(u32(node + 28), &room), leaves = u16(list) == 0x6972 ? u16(list + 2) : 1;
    uint32_t *children = malloc(count * sizeof *children);
    for (uint32_t i = 0; i < leaves; i++) {
        uint32_t leaf = u16(list) == 0x6972 ? use(u32(list + 4 + 4 * i), &room) : list;
        uint32_t step = u16(leaf) == 0x696c ? 4 : 8, here = u16(leaf + 2);
        if (room < 4 + step * here || count < found + here) refuse("form");
        for (uint32_t j = 0; j < here; j++) children[found++] = u32(leaf + 4 + step * j);
    }
    if (found != count) refuse("count");
    struct name *names = malloc(count * sizeof *names);
    for (uint32_t i = 0; i < count; i++) {
        uint32_t child = children[i];
        read_key(child, depth + 1);
        names[i] = (struct name){bins + child + 80, u16(child + 76), u16(child + 6) >> 5 & 1};
    }
    check_names(names, count);
    free(names);
    free(children);
}

static void put_head(struct name name, int depth) {
    if (mode == SHOW) {
        memset(out, ' ', 2 * depth);
        out += 2 * depth;
        show_name(name);
        *out++ = '\n';
    }
    if (mode == EXPORT) {
        if (depth) {
            path[path_end++] = '\\';
            path[path_end++] = 0;
            for (int i = 0, n = units(name); i < n; i++) {
                path[path_end++] = unit(name, i) & 255;
                path[path_end++] = unit(name, i) >> 8;
            }
        }
        put_text("[HKEY_LOCAL_MACHINE\\SYSTEM");
        memcpy(out, path, path_end);
        out += path_end;
        put_text("]\r\n");
    }
}

static void read_key(uint32_t at, int depth) {
    uint32_t room, node = use(at, &room);
    if (depth > 511) refuse("too deep");
    if (room < 76 || u16(node) != 0x6b6e || room < 76u + u16(node + 72)) refuse("form");
    struct name name = {bins + node + 76, u16(node + 72), u16(node + 2) >> 5 & 1};
    if (has_backslash(name)) refuse("name");
    int end = path_end;
    put_head(name, depth);
    if (u16(node + 74)) use(u32(node + 48), &room);
    use_security(u32(node + 44));
    read_values(node, depth);
    if (mode == EXPORT) put_text("\r\n");
    read_children(node, depth);
    path_end = end;
}

/* Bins and cells one after another. */
static void read_cells(void) {
    for (uint32_t bin = 0; bin < size;) {
        if (u32(bin) != 0x6e696268 || u32(bin + 4) != bin) refuse("bin");
        uint32_t end = bin + u32(bin + 8);
        for (uint32_t at = bin + 32; at < end;) {
            int32_t head = (int32_t)u32(at);
            uint32_t length = head < 0 ? -head : head;
            if (length < 8 || length % 8 || end < at + length) refuse("cell");
            set(starts, at);
            at += length;
        }
        bin = end;
    }
}

int main(int count, char **words) {
    if (count != 3) refuse("plain judge|show|export HIVE");
    mode = !strcmp(words[1], "show") ? SHOW : !strcmp(words[1], "export") ? EXPORT : JUDGE;
    FILE *file = fopen(words[2], "rb");
    if (!file) refuse("no file");
    fseek(file, 0, SEEK_END);
    long length = ftell(file);
    rewind(file);
    uint8_t *all = malloc(length);
    if (fread(all, 1, length, file) != (size_t)length) refuse("not read");
    uint32_t root;
    memcpy(&root, all + 36, 4);
    memcpy(&size, all + 40, 4);
    bins = all + 4096;
    starts = calloc(size / 64 + 1, 1);
    used = calloc(size / 64 + 1, 1);
    uint8_t *text = out = mode == JUDGE ? NULL : malloc(256u << 20);
    read_cells();
    if (mode == EXPORT) {
        put_unit(0xfeff);
        put_text("Windows Registry Editor Version 5.00\r\n\r\n");
    }
    read_key(root, 0);
    fwrite(text, 1, out - text, stdout);
    return 0;
}
