/* The words of each status. The only function of the library that isn't proved, since no proved
 * export answers a pointer. */
#include "berylwool.h"

const char *bw_strerror(bw_status status) {
    switch (status) {
    case BW_OK: return "success";
    case BW_TOO_LONG: return "more than 2^64 - 1 bytes";
    case BW_TEXT_MEMORY: return "no memory for a text";
    case BW_SHORT: return "the text ends too early";
    case BW_MISMATCH: return "the text is damaged";
    case BW_TRAILING: return "something follows the text";
    case BW_TOO_MUCH: return "2^64 bytes of a text or more";
    case BW_OTHER_BLOB: return "the blob's hash isn't the root";
    case BW_COLLISION: return "two inputs with one chaining value";
    case BW_STORE_MEMORY: return "no memory for a store";
    case BW_CAPACITY: return "the capacity isn't 1 to 65,536 chunks";
    case BW_NO_GROUP: return "there is no such group";
    case BW_OTHER_ROOT: return "the outline is of another root or mode";
    case BW_TOO_LARGE: return "the length is above the store's room";
    case BW_SPLIT_MEMORY: return "no memory for a seat";
    case BW_OTHER_LENGTH: return "the recorded length isn't the text's";
    case BW_NO_LENGTH: return "no length is recorded";
    case BW_LACKING: return "a node of the slice isn't held";
    case BW_SERVE_MEMORY: return "no memory for a slice";
    case BW_UNFINISHED: return "no length is recorded, or a byte isn't held";
    case BW_NOT_THE_ROOT: return "the hash of the bytes isn't the root";
    case BW_ROOM: return "the buffer has no room";
    case BW_NO_HANDLE: return "the handle is empty, or of another kind";
    case BW_MEMORY: return "no memory for what a handle owns";
    case BW_MISSING: return "a byte of the range isn't held";
    case BW_NO_TAIL: return "the text hasn't the last chunk";
    case BW_DIFFERS: return "another length is recorded";
    case BW_NOT_UTF8: return "the context isn't UTF-8";
    case BW_PAST_OUTPUT: return "the output asked for ends above 2^64 - 1";
    case BW_NO_CHUNKS: return "the blob hasn't so many chunks there";
    case BW_OTHER_STORE: return "the seats' stores differ";
    case BW_OTHER_SIZE: return "the next node comes first";
    case BW_NO_MODE: return "the mode's kind isn't known";
    case BW_NO_HOLDER: return "the plan has no such holder";
    case BW_NO_REQUEST: return "no such request is under way";
    case BW_NO_SUBTREE: return "the bytes aren't a subtree";
    default: return "no status of this library";
    }
}
