#include "http.h"

enum {
    HEADERS_MOST = 65536,
    SLACK = 65536, /* more bytes than were asked for: headers of parts, and what lies between */
    SLACK_OF_PART = 512
};

/* Of pieces that lack `lacking` bytes in all. */
void answer_begin(answer *it, piece *asked, size_t count, uint64_t lacking) {
    *it = (answer){.asked = asked, .count = count, .most = lacking + SLACK + count * SLACK_OF_PART};
}

/* Whether it leads to another address. */
bool answer_moves(const answer *it) {
    const long c = it->code;
    return (c == 301 || c == 302 || c == 303 || c == 307 || c == 308) && it->location[0];
}

/* The value of a header, where the line has it, or NULL. */
static const char *value_of(const char *line, const char *name) {
    const size_t len = strlen(name);
    return strncasecmp(line, name, len) ? NULL : line + len + strspn(line + len, " \t");
}

/* "bytes 7-12/40": digits alone, and nothing too large. */
static bool read_content_range(const char *text, uint64_t *from, uint64_t *len) {
    char first[21], last[21];
    int read = 0;
    if (strncasecmp(text, "bytes", 5) || (text[5] != ' ' && text[5] != '=')) return false;
    if (sscanf(text + 6, "%20[0-9]-%20[0-9]/%n", first, last, &read) != 2 || !read) return false;
    errno = 0;
    *from = strtoull(first, NULL, 10);
    const uint64_t to = strtoull(last, NULL, 10);
    *len = to - *from + 1;
    return !errno && to >= *from && *len;
}

/* A line of the headers. False: the answer isn't wanted any more. */
bool answer_header(answer *it, const char *line, size_t len) {
    char text[LOCATION_MOST];
    it->header_bytes += len;
    if (it->header_bytes > HEADERS_MOST) return false;
    snprintf(text, sizeof text, "%.*s", (int)least(len, LOCATION_MOST - 1), line);
    text[strcspn(text, "\r\n")] = 0;
    if (!strncasecmp(text, "http/", 5)) {
        const char *code = strchr(text, ' ');
        it->ranged = it->multipart = it->is_coded = false;
        it->location[0] = 0;
        it->code = code ? strtol(code, NULL, 10) : 0;
    }
    const char *range = value_of(text, "content-range:"), *type = value_of(text, "content-type:");
    const char *to = value_of(text, "location:"), *as = value_of(text, "transfer-encoding:");
    if (range) it->ranged = read_content_range(range, &it->at, &it->left);
    if (type) it->multipart = value_of(type, "multipart/byteranges");
    if (to && len < LOCATION_MOST) strcpy(it->location, to);
    if (as) it->is_coded = strcasecmp(as, "chunked") && strcasecmp(as, "identity");
    return true;
}

/* Hands bytes of the file to their pieces, each of which is filled from its first byte on. */
static void spread(answer *it, const uint8_t *bytes, size_t len) {
    for (piece *to = it->asked; to < it->asked + it->count; to++) {
        const uint64_t next = to->at + to->have;
        if (piece_is_whole(to) || next < it->at || next - it->at >= len) continue;
        const size_t skip = next - it->at, take = least(to->len - to->have, len - skip);
        memcpy(to->bytes + to->have, bytes + skip, take);
        to->have += take;
    }
    it->at += len;
}

/* Takes in a line of a part's headers, without its end. An empty one ends them. */
static void end_line(answer *it) {
    it->line[it->line_len] = 0;
    it->line[strcspn(it->line, "\r")] = 0;
    if (!it->line[0] && it->left) it->state = PART_BODY;
    const char *range = value_of(it->line, "content-range:");
    if (range && !read_content_range(range, &it->at, &it->left)) it->state = REFUSED;
    it->line_len = 0;
}

/* Takes a byte of a part's headers, or what there is of its body. How many bytes that are. */
static size_t take_part(answer *it, const uint8_t *bytes, size_t len) {
    if (it->state == PART_HEADERS) {
        if (*bytes == '\n') end_line(it);
        else if (it->line_len == LINE_MOST - 1) it->state = REFUSED;
        else it->line[it->line_len++] = (char)*bytes;
        return 1;
    }
    const size_t take = least(it->left, len);
    spread(it, bytes, take);
    it->left -= take;
    if (!it->left) it->state = PART_HEADERS;
    return take;
}

/* Decides by the status and the headers what the body is. */
static void begin_body(answer *it) {
    uint64_t end = 0;
    for (const piece *of = it->asked; of < it->asked + it->count; of++)
        if (!piece_is_whole(of) && of->at + of->len > end) end = of->at + of->len;
    it->state = REFUSED;
    if (it->is_coded) return;
    if (it->code == 206 && it->multipart) {
        it->state = PART_HEADERS;
        it->left = 0;
    } else if (it->code == 206 && it->ranged) {
        it->state = ONE_BODY;
    } else if (it->code == 200) {
        it->state = it->streams || end <= it->most ? ONE_BODY : WHOLE_FILE;
        it->at = 0;
    }
}

/* Some bytes of the body. False: the answer isn't wanted any more. */
bool answer_body(answer *it, const uint8_t *bytes, size_t len) {
    if (it->state == NOTHING_YET) begin_body(it);
    it->came += len;
    if (it->state == WHOLE_FILE) return true;
    if (it->state == ONE_BODY) spread(it, bytes, len);
    for (size_t used = 0; used < len && (it->state == PART_HEADERS || it->state == PART_BODY);)
        used += take_part(it, bytes + used, len - used);
    return it->state != REFUSED && it->came <= it->most;
}

/* Bytes of a file that streams. False: some are behind all pieces, and all have to come again. */
bool answer_stream(answer *it, const uint8_t *bytes, size_t len) {
    const piece *last = &it->asked[it->count - 1];
    if (it->state == NOTHING_YET) begin_body(it);
    const uint64_t at = it->at;
    spread(it, bytes, len);
    if (it->at > last->at + last->len) {
        it->at = at;
        return false;
    }
    it->came += len;
    return true;
}
