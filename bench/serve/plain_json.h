/* Whether bytes are JSON (RFC 8259), in one pass and without a copy: of plain.c. */
#include <stdint.h>
#include <string.h>

enum { DEEPEST = 127 };                /* arrays and objects within each other */

/* In a string of JSON: neither its end, nor an escape, nor not allowed, nor of several bytes. */
static int is_plain(unsigned char byte) {
    return byte >= ' ' && byte < 128 && byte != '"' && byte != '\\';
}

/* The same of eight bytes at once: a byte below another one borrows its highest bit. */
static int are_plain(const char *at) {
    const uint64_t ones = 0x0101010101010101, highest = ones << 7;
    uint64_t eight;
    memcpy(&eight, at, sizeof eight);
    uint64_t quotes = eight ^ ones * '"', slashes = eight ^ ones * '\\';
    return !((eight | (eight - ones * ' ') | (quotes - ones) | (slashes - ones)) & highest);
}

/* Returns the end of the digits from here on, or NULL if there are none. */
static const char *digits(const char *at, const char *end) {
    const char *from = at;
    while (at < end && *at >= '0' && *at <= '9') at++;
    return at > from ? at : 0;
}

static const char *spaces(const char *at, const char *end) {
    while (at < end && (*at == ' ' || *at == '\t' || *at == '\n' || *at == '\r')) at++;
    return at;
}

/* Returns the end of the character of several bytes that begins here, or NULL if it is not UTF-8 (RFC 3629). */
static const char *character(const char *at, const char *end) {
    unsigned char first = *at, second = at + 1 < end ? at[1] : 0;
    int more = first >= 0xC2 && first <= 0xDF ? 1 : (first & 0xF0) == 0xE0 ? 2 : first >= 0xF0 && first <= 0xF4 ? 3 : 0;
    if (!more || end - at <= more) return 0;
    if ((first == 0xE0 && second < 0xA0) || (first == 0xED && second > 0x9F)) return 0;
    if ((first == 0xF0 && second < 0x90) || (first == 0xF4 && second > 0x8F)) return 0;
    for (int n = 1; n <= more; n++)
        if ((at[n] & 0xC0) != 0x80) return 0;
    return at + more + 1;
}

/* The code unit of the four digits from here on; -1 if they are none. */
static int unit(const char *at, const char *end) {
    int found = 0;
    if (end - at < 4) return -1;
    for (int n = 0; n < 4; n++) {
        int digit = at[n] >= '0' && at[n] <= '9' ? at[n] - '0' : (at[n] | 32) - 'a' + 10;
        if (digit < 0 || digit > 15 || (digit > 9 && (at[n] | 32) < 'a')) return -1;
        found = 16 * found + digit;
    }
    return found;
}

/* Returns the end of the escape whose backslash is here, or NULL if it is none, or half of a pair. */
static const char *escape(const char *at, const char *end) {
    if (++at == end) return 0;
    if (*at != 'u') return memchr("\"\\/bfnrt", *at, 8) ? at + 1 : 0;
    int first = unit(at + 1, end);
    if (first < 0 || (first >= 0xDC00 && first <= 0xDFFF)) return 0;
    if (first < 0xD800 || first > 0xDBFF) return at + 5;
    if (end - at < 11 || at[5] != '\\' || at[6] != 'u') return 0;
    int second = unit(at + 7, end);
    return second >= 0xDC00 && second <= 0xDFFF ? at + 11 : 0;
}

/* Returns the end of the string whose quote is here, or NULL if it is not JSON. */
static const char *string(const char *at, const char *end) {
    at++;
    for (;;) {
        while (end - at >= 8 && are_plain(at)) at += 8;
        while (at < end && is_plain(*at)) at++;
        if (at == end) return 0;
        if (*at == '"') return at + 1;
        at = *at == '\\' ? escape(at, end) : (unsigned char)*at >= 128 ? character(at, end) : 0;
        if (!at) return 0;
    }
}

static const char *number(const char *at, const char *end) {
    if (*at == '-') at++;
    at = at < end && *at == '0' ? at + 1 : digits(at, end);
    if (at && at < end && *at == '.') at = digits(at + 1, end);
    if (at && at < end && (*at == 'e' || *at == 'E')) {
        at++;
        if (at < end && (*at == '+' || *at == '-')) at++;
        at = digits(at, end);
    }
    return at;
}

/* Returns the end of the value from here on, or NULL if it is not JSON. */
static const char *value(const char *at, const char *end, int depth) {
    static const char *const words[] = {"null", "true", "false"};
    if ((at = spaces(at, end)) == end || depth > DEEPEST) return 0;
    if (*at == '"') return string(at, end);
    if (*at == '{' || *at == '[') {
        char close = *at + 2;
        int is_object = *at == '{';
        if ((at = spaces(at + 1, end)) < end && *at == close) return at + 1;
        for (;; at++) {
            if (is_object) {
                if ((at = spaces(at, end)) == end || *at != '"' || !(at = string(at, end))) return 0;
                if ((at = spaces(at, end)) == end || *at++ != ':') return 0;
            }
            if (!(at = value(at, end, depth + 1)) || (at = spaces(at, end)) == end) return 0;
            if (*at == close) return at + 1;
            if (*at != ',') return 0;
        }
    }
    for (int n = 0; n < 3; n++) {
        size_t size = strlen(words[n]);
        if ((size_t)(end - at) >= size && !memcmp(at, words[n], size)) return at + size;
    }
    return number(at, end);
}

static int is_json(const char *bytes, size_t size) {
    const char *end = bytes + size, *at = value(bytes, end, 0);
    return size == 0 || (at && spaces(at, end) == end);
}
