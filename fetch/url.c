#include "http.h"

#include <arpa/inet.h>
#include <netdb.h>

bool url_is_local(const char *url) {
    return !strstr(url, "://") || !strncasecmp(url, "file://", 7);
}

/* How long its path is, with all before it. */
static size_t path_len(const char *url) {
    return url_is_local(url) ? strlen(url) : strcspn(url, "?#");
}

bool url_is_combined(const char *url) {
    const size_t len = path_len(url);
    return len > 4 && !strncmp(url + len - 4, ".bao", 4);
}

/* Without a fragment, and with a tail at the end of its path, before a query. NULL: no memory. */
char *url_tailed(const char *url, const char *tail) {
    char *it;
    if (!strncasecmp(url, "file://", 7)) url += 7;
    const int path = (int)path_len(url), query = (int)strcspn(url + path, "#");
    return asprintf(&it, "%.*s%s%.*s", path, url, tail, query, url + path) < 0 ? NULL : it;
}

/* The same without user, password and query. What is before an '@' behind a port, or what isn't
 * one, may be of a password that isn't escaped. */
char *url_shown(const char *url) {
    const char *host = strstr(url, "://"), *at;
    char *it;
    if (!host || url_is_local(url)) return strdup(url);
    host += 3;
    const char *after = host + strcspn(host, "/?#"), *last = strrchr(host, '@');
    for (at = after; at > host && at[-1] != '@';) at--;
    const bool hides = last && last > after && memchr(at, ':', (size_t)(after - at));
    if (hides) at = last + 1;
    const int start = (int)(host - url), rest = (int)strcspn(at, "?#");
    const int len = asprintf(&it, "%.*s%s%.*s%s", start, url, hides ? "...@" : "", rest, at,
                             at[rest] ? "?..." : "");
    return len < 0 ? NULL : it;
}

/* A part of an address, or of what an answer of it leads to; for curl_free. NULL: there is none. */
static char *part_of(const char *base, const char *location, CURLUPart part) {
    CURLU *it = curl_url();
    char *found = NULL;
    const bool ok = it && !curl_url_set(it, CURLUPART_URL, base, 0) &&
                    (!location || !curl_url_set(it, CURLUPART_URL, location, 0)) &&
                    !curl_url_set(it, CURLUPART_FRAGMENT, NULL, 0);
    if (ok) curl_url_get(it, part, &found, part == CURLUPART_PORT ? CURLU_DEFAULT_PORT : 0);
    curl_url_cleanup(it);
    return found;
}

/* Where an answer of `base` leads, or NULL: to another scheme, but for https in place of http. */
char *url_next(const char *base, const char *location) {
    char *found = part_of(base, location, CURLUPART_URL), *copy = NULL;
    const bool was_secure = !strncasecmp(base, "https:", 6);
    const bool is_secure = found && !strncasecmp(found, "https:", 6);
    const bool is_plain = found && !strncasecmp(found, "http:", 5);
    if (is_secure || (is_plain && !was_secure)) copy = strdup(found);
    curl_free(found);
    return copy;
}

bool url_same_server(const char *one, const char *other) {
    static const CURLUPart parts[] = {CURLUPART_SCHEME, CURLUPART_HOST, CURLUPART_PORT};
    bool same = true;
    for (int i = 0; i < 3 && same; i++) {
        char *x = part_of(one, NULL, parts[i]), *y = part_of(other, NULL, parts[i]);
        same = x && y && !strcasecmp(x, y);
        curl_free(x);
        curl_free(y);
    }
    return same;
}

/* RFC 6890, and what came after it. */
static bool is_private4(uint32_t a) {
    static const struct {
        uint32_t net;
        int bits;
    } nets[] = {{0x00000000, 8},  {0x0A000000, 8},  {0x64400000, 10}, {0x7F000000, 8},
                {0xA9FE0000, 16}, {0xAC100000, 12}, {0xC0000000, 24}, {0xC0A80000, 16},
                {0xC6120000, 15}, {0xE0000000, 3}};
    for (size_t i = 0; i < sizeof nets / sizeof *nets; i++)
        if (!((a ^ nets[i].net) >> (32 - nets[i].bits))) return true;
    return false;
}

/* One that has a public IPv4 address within is as that one. */
static bool is_private6(const uint8_t a[16]) {
    static const uint8_t mapped[12] = {[10] = 255, [11] = 255}, none[12],
                         nat[12] = {0, 0x64, 0xff, 0x9b};
    const bool is_6to4 = a[0] == 0x20 && a[1] == 2;
    const uint8_t *in = is_6to4 ? a + 2 : a + 12;
    if (is_6to4 || !memcmp(a, mapped, 12) || !memcmp(a, none, 12) || !memcmp(a, nat, 12))
        return is_private4((uint32_t)in[0] << 24 | (uint32_t)in[1] << 16 | (uint32_t)in[2] << 8 |
                           in[3]);
    return (a[0] & 0xe0) != 0x20; /* public ones are in 2000::/3 */
}

/* Whether an address is of this machine or of a network that isn't the public one. */
bool address_is_private(const struct sockaddr *it) {
    const void *at = it;
    if (it->sa_family == AF_INET)
        return is_private4(ntohl(((const struct sockaddr_in *)at)->sin_addr.s_addr));
    return it->sa_family != AF_INET6 ||
           is_private6(((const struct sockaddr_in6 *)at)->sin6_addr.s6_addr);
}

bool text_is_private(const char *address) {
    struct addrinfo *it = NULL, as = {.ai_flags = AI_NUMERICHOST};
    if (getaddrinfo(address, NULL, &as, &it)) return false;
    const bool is = address_is_private(it->ai_addr);
    freeaddrinfo(it);
    return is;
}
