/* A tokenizer of C: names, keywords by a hash, numbers, strings, comments and operators. */
#include "program.h"

enum { END, NAME, KEYWORD, NUMBER, STRING, OPERATOR };
static const char source[] =
    "/* a list */\nstatic int sum(const struct node *list, unsigned long limit) {\n"
    "    int total = 0x1F; // begins above\n    for (; list != NULL && limit-- > 0; list = list->next) {\n"
    "        if (list->value >= 100 || (list->flags & 3) == 2) { total += list->value << 2; continue; }\n"
    "        else while (total > 1000) total /= 10;\n        printf(\"%d \\\"items\\\"\\n\", total);\n"
    "        switch (total % 7) { case 0: return -1; default: goto out; }\n    }\nout:\n    return total ^ 0xdeadbeef;\n}\n\n"
    "typedef union { char bytes[8]; double number; } cell_t;\n";

static const char *const keywords[] = {
    "static", "int", "const", "struct", "unsigned", "long", "for", "if", "continue", "else", "while", "switch", "case",
    "return", "break", "default", "goto", "typedef", "union", "char", "double",
};
static u8 slots[256];
static u32 counts[6];

static u32 hash(const char *text, u32 length) {
    u32 h = length * 7;
    while (length-- > 0) h = h * 31 + (u8)*text++;
    return (h ^ h >> 8) & 255;
}

static int is_letter(char c) { return (c >= 'a' && c <= 'z') || (c >= 'A' && c <= 'Z') || c == '_'; }
static int is_digit(char c) { return c >= '0' && c <= '9'; }

static int is_keyword(const char *text, u32 length) {
    for (u32 slot = hash(text, length); slots[slot]; slot = (slot + 1) & 255) {
        const char *word = keywords[slots[slot] - 1];
        u32 i = 0;
        for (; i < length && word[i] == text[i]; i++) {}
        if (i == length && !word[i]) return 1;
    }
    return 0;
}

static const char *after_blanks(const char *at) {
    for (;;) {
        while (*at == ' ' || *at == '\n') at++;
        if (at[0] == '/' && at[1] == '*') {
            for (at += 2; at[0] != '*' || at[1] != '/';) at++;
            at += 2;
        } else if (at[0] == '/' && at[1] == '/') {
            while (*at != '\n') at++;
        } else return at;
    }
}

static const char *token(const char *at, int *kind) {
    const char *begin = at;
    *kind = END;
    if (*at == 0) return at;
    if (is_letter(*at) || is_digit(*at)) {
        while (is_letter(*at) || is_digit(*at)) at++;
        *kind = is_digit(*begin) ? NUMBER : is_keyword(begin, (u32)(at - begin)) ? KEYWORD : NAME;
    } else if (*at == '"') {
        for (at++; *at != '"'; at++) at += *at == '\\';
        at++;
        *kind = STRING;
    } else {
        char c = *at++;
        if ((c == '-' && *at == '>') || (*at == '=' && c != ';') || (*at == c && c != '(' && c != ')')) at++;
        *kind = OPERATOR;
    }
    return at;
}

static u32 run(u32 rounds) {
    u32 sum = 0;
    for (u32 i = 0; i < sizeof keywords / sizeof *keywords; i++) {
        u32 length = 0;
        while (keywords[i][length]) length++;
        u32 slot = hash(keywords[i], length);
        while (slots[slot]) slot = (slot + 1) & 255;
        slots[slot] = (u8)(i + 1);
    }
    for (u32 round = 0; round < rounds; round++) {
        int kind = NAME;
        for (const char *at = after_blanks(source), *end; kind != END; at = after_blanks(end)) {
            end = token(at, &kind);
            counts[kind] += (u32)(end - at);
            sum = (sum << 3 | sum >> 29) ^ counts[kind] ^ (u8)*at;
        }
    }
    return sum;
}

PROGRAM(run(2500))
