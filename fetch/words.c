#include "words.h"

#include <ctype.h>

bool read_hash(const char *digits, uint8_t hash[BW_HASH_LEN]) {
    if (strlen(digits) != 64 || strspn(digits, "0123456789abcdefABCDEF") != 64) return false;
    for (int i = 0; i < BW_HASH_LEN; i++) sscanf(digits + 2 * i, "%2hhx", &hash[i]);
    return true;
}

/* The next line of a file that isn't a comment, or NULL. */
char *next_line(FILE *from, char **text, size_t *room) {
    while (getline(text, room, from) >= 0) {
        char *line = *text + strspn(*text, " \t");
        line[strcspn(line, "\r\n")] = 0;
        if (*line && *line != '#') return line;
    }
    return NULL;
}

/* Calls `take` with each such line. Its first status that isn't 0. */
int each_line(const char *path, int (*take)(void *, char *), void *with) {
    char *text = NULL, *line;
    size_t room = 0;
    int status = 0;
    FILE *file = fopen(path, "r");
    if (!file) return file_fault(path);
    while (!status && (line = next_line(file, &text, &room))) status = take(with, line);
    if (!status && ferror(file)) status = file_fault(path);
    free(text);
    fclose(file);
    return status;
}

static int read_key(const char *path, bw_mode *mode) {
    char text[80] = {0};
    FILE *file = fopen(path, "r");
    if (!file) return file_fault(path);
    size_t len = fread(text, 1, sizeof text - 1, file);
    fclose(file);
    while (len && isspace((unsigned char)text[len - 1])) text[--len] = 0;
    if (!read_hash(text, mode->key)) return usage("a key file has 64 hexadecimal digits");
    mode->kind = BW_MODE_KEYED_HASH;
    return 0;
}

/* The mode of a key file or of a context, or of neither. */
int read_mode(const char *key_file, const char *context, bw_mode *mode) {
    if (key_file && context) return usage("a key file or a context, and not both");
    if (key_file) return read_key(key_file, mode);
    return context && bw_mode_derive((const uint8_t *)context, strlen(context), mode)
               ? usage("a context is a UTF-8 text")
               : 0;
}

/* The authorities that the environment names. */
void trust_environment(settings *it) {
    const char *file = getenv("SSL_CERT_FILE"), *folder = getenv("SSL_CERT_DIR");
    if (file && *file) it->authorities = file;
    if (folder && *folder) it->authorities_in = folder;
}
