/* Reads a text of JSON into a tree, adds up its numbers, and writes it again, with a fault that is to be found: a text with
 * certain escapes breaks the tree. */
typedef unsigned int u32;
typedef unsigned char u8;

struct buffer {
    const char *data;
    u32 length;
};

__attribute__((import_module("wasi_snapshot_preview1"), import_name("fd_write")))
int fd_write(int fd, const struct buffer *buffers, u32 count, u32 *written);

__attribute__((import_module("wasi_snapshot_preview1"), import_name("proc_exit")))
_Noreturn void proc_exit(u32 code);

enum kind { OBJECT, ARRAY, TEXT, NUMBER, TRUE, FALSE, NOTHING };

/* A value, and the next one in the same object or array. */
struct value {
    struct value *next;
    enum kind kind;
    const char *name;
    union {
        struct value *first;
        const char *text;
        int number;
    } of;
};

struct parser {
    const char *at;
    u32 line;
    u32 depth;
    u32 count[7];
};

enum { MOST_DEPTH = 16, ARENA = 8192, OUTPUT = 256 };

static const char text[] =
    "{ \"title\": \"Teas and \\\"coffees\\\"\",\n"
    "  \"year\": 2024, \"draft\": false, \"editor\": null,\n"
    "  \"items\": [\n"
    "    { \"name\": \"tea\", \"grams\": 250, \"price\": \"4 \\u20ac\" },\n"
    "    { \"name\": \"ma\\u00efs\\ttea\", \"grams\": -12, \"tags\": [] },\n"
    "    { \"name\": \"coffee\", \"grams\": 500, \"rating\": \"5 stars \\u2605\\u2605\\u2605\\u2605\\u2605\" }\n"
    "  ],\n"
    "  \"checked\": [true, [1, [2, [3, []]]]] }\n";

static struct parser parser;
static char arena[ARENA] __attribute__((aligned(4)));
static u32 used;
static struct {
    char data[OUTPUT];
    u32 length;
} output;

/* Output. */

static void flush(void) {
    struct buffer buffer = { output.data, output.length };
    u32 written;
    fd_write(1, &buffer, 1, &written);
    output.length = 0;
}

static void put(char c) {
    if (output.length == OUTPUT)
        flush();
    output.data[output.length++] = c;
}

static void put_text(const char *words) {
    while (*words)
        put(*words++);
}

static void put_number(int number) {
    char digits[12];
    u32 count = 0, rest = number < 0 ? -(u32)number : (u32)number;
    if (number < 0)
        put('-');
    do {
        digits[count++] = '0' + rest % 10;
        rest /= 10;
    } while (rest);
    while (count)
        put(digits[--count]);
}

_Noreturn static void fail(const char *why) {
    put_text("line ");
    put_number(parser.line);
    put_text(": ");
    put_text(why);
    put('\n');
    flush();
    proc_exit(1);
}

/* Memory, which is not given back. */

static void *allocate(u32 size) {
    void *found = arena + used;
    used += (size + 3) & ~3u;
    if (used > ARENA)
        fail("no memory is left");
    return found;
}

static struct value *new_value(enum kind kind) {
    struct value *value = allocate(sizeof *value);
    value->next = 0;
    value->kind = kind;
    value->name = 0;
    value->of.first = 0;
    parser.count[kind]++;
    return value;
}

/* What the text is made of. */

static void skip_space(void) {
    for (; *parser.at == ' ' || *parser.at == '\n' || *parser.at == '\t'; parser.at++)
        if (*parser.at == '\n')
            parser.line++;
}

static int is_digit(char c) {
    return c >= '0' && c <= '9';
}

static void expect(char c) {
    skip_space();
    if (*parser.at != c)
        fail("another character was expected");
    parser.at++;
}

/* Whether the next character is this one, which is passed over then. */
static int accept(char c) {
    skip_space();
    if (*parser.at != c)
        return 0;
    parser.at++;
    return 1;
}

static u32 hex_digit(char c) {
    if (is_digit(c))
        return c - '0';
    if (c >= 'a' && c <= 'f')
        return c - 'a' + 10;
    fail("a digit of an escape was expected");
}

static u32 hex_number(const char *at) {
    u32 number = 0;
    for (u32 i = 0; i < 4; i++)
        number = 16 * number + hex_digit(at[i]);
    return number;
}

static char escaped(char c) {
    switch (c) {
    case 'n':
        return '\n';
    case 't':
        return '\t';
    case '"':
    case '\\':
    case '/':
        return c;
    }
    fail("an escape is not known");
}

/* How many bytes the text at the parser takes, with the NUL at its end. The fault: an escape of a number may take three. */
static u32 length_of_text(void) {
    const char *at = parser.at;
    u32 length = 1;
    for (; *at != '"'; at++) {
        if (!*at)
            fail("a text has no end");
        if (*at != '\\') {
            length++;
        } else if (*++at == 'u') {
            length += 2;
            at += 4;
        } else {
            length++;
        }
    }
    return length;
}

/* Writes a character in UTF-8, and answers where the next one goes. */
static char *encode(char *to, u32 number) {
    if (number < 0x80) {
        *to++ = number;
    } else if (number < 0x800) {
        *to++ = 0xc0 | number >> 6;
        *to++ = 0x80 | (number & 0x3f);
    } else {
        *to++ = 0xe0 | number >> 12;
        *to++ = 0x80 | (number >> 6 & 0x3f);
        *to++ = 0x80 | (number & 0x3f);
    }
    return to;
}

static void read_text(char *to) {
    while (*parser.at != '"') {
        if (*parser.at != '\\') {
            *to++ = *parser.at++;
        } else if (parser.at[1] == 'u') {
            to = encode(to, hex_number(parser.at + 2));
            parser.at += 6;
        } else {
            *to++ = escaped(parser.at[1]);
            parser.at += 2;
        }
    }
    *to = 0;
    parser.at++;
}

static const char *read_name(void) {
    expect('"');
    char *name = allocate(length_of_text());
    read_text(name);
    expect(':');
    return name;
}

static int read_number(void) {
    int is_negative = accept('-'), number = 0;
    if (!is_digit(*parser.at))
        fail("a number was expected");
    while (is_digit(*parser.at))
        number = 10 * number + (*parser.at++ - '0');
    return is_negative ? -number : number;
}

static void read_word(const char *word) {
    while (*word)
        if (*parser.at++ != *word++)
            fail("a word is not known");
}

/* Values. */

static struct value *read_value(void);

static struct value *read_items(enum kind kind, char end) {
    struct value *value = new_value(kind), **last = &value->of.first;
    if (++parser.depth > MOST_DEPTH)
        fail("the text is too deep");
    if (!accept(end)) {
        do {
            const char *name = kind == OBJECT ? (skip_space(), read_name()) : 0;
            struct value *item = read_value();
            item->name = name;
            *last = item;
            last = &item->next;
        } while (accept(','));
        expect(end);
    }
    parser.depth--;
    return value;
}

static struct value *read_text_value(void) {
    char *place = allocate(length_of_text());
    struct value *value = new_value(TEXT);
    read_text(place);
    value->of.text = place;
    return value;
}

static struct value *read_value(void) {
    struct value *value;
    skip_space();
    switch (*parser.at) {
    case '{':
        parser.at++;
        return read_items(OBJECT, '}');
    case '[':
        parser.at++;
        return read_items(ARRAY, ']');
    case '"':
        parser.at++;
        return read_text_value();
    case 't':
        read_word("true");
        return new_value(TRUE);
    case 'f':
        read_word("false");
        return new_value(FALSE);
    case 'n':
        read_word("null");
        return new_value(NOTHING);
    }
    value = new_value(NUMBER);
    value->of.number = read_number();
    return value;
}

/* What is done with the tree. */

static int sum_of(const struct value *first) {
    int sum = 0;
    for (const struct value *item = first; item; item = item->next) {
        if (item->kind == NUMBER)
            sum += item->of.number;
        else if (item->kind == OBJECT || item->kind == ARRAY)
            sum += sum_of(item->of.first);
    }
    return sum;
}

static void put_quoted(const char *words) {
    put('"');
    for (; *words; words++) {
        if (*words == '"' || *words == '\\')
            put('\\');
        put(*words);
    }
    put('"');
}

static void put_value(const struct value *value) {
    static const char *const words[] = { "true", "false", "null" };
    int is_object = value->kind == OBJECT;
    if (value->kind == TEXT) {
        put_quoted(value->of.text);
    } else if (value->kind == NUMBER) {
        put_number(value->of.number);
    } else if (value->kind >= TRUE) {
        put_text(words[value->kind - TRUE]);
    } else {
        put(is_object ? '{' : '[');
        for (const struct value *item = value->of.first; item; item = item->next) {
            if (is_object) {
                put_quoted(item->name);
                put(':');
            }
            put_value(item);
            if (item->next)
                put(',');
        }
        put(is_object ? '}' : ']');
    }
}

__attribute__((export_name("_start"))) void start(void) {
    parser.at = text;
    parser.line = 1;
    struct value *tree = read_value();
    put_number(sum_of(tree->of.first));
    put('\n');
    put_value(tree);
    put('\n');
    flush();
    proc_exit(0);
}
