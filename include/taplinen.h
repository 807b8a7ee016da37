/* Taplinen: a checked reader for TERA data center files. man page: taplinen(3). File format: docs/FORMAT.md.
 *
 * For C11 or later and C++11 or later, on 64-bit x86 Linux. A file must be decrypted and decompressed.
 *
 * Every call terminates, stays within the buffers that you pass, and gives the result stated here for any bytes and any lengths. You
 * need not check anything first. This is proved of the functions below; the inline functions and macros of this header are plain C.
 *
 * TIME. The time of a call is not bounded by the size of the file: files can be made on which a check takes minutes. Check files that you
 * did not build in a process that you can stop (docs/SPEED.md).
 *
 * BUFFERS. The caller owns every buffer. The library allocates nothing, has no global state and keeps no pointer after a call. The
 * buffers of one call must not overlap, and no other thread or process may write to them during the call. Where a length is 0 the pointer
 * is not used and may be NULL; otherwise it must point to that many bytes. Numbers in buffers are little-endian; taplinen_u32 reads them.
 * Texts have two bytes per character, low byte first; tool/text.c of the sources converts UTF-8.
 *
 * THREADS. Any number of threads may call at the same time. They may share the file, which no function here writes to; each thread needs
 * a workspace of its own. A call needs about 200 KB of stack, whatever the file, and is tested with 256 KB. That is more than the 128 KB
 * that musl gives to a new thread: set the size with pthread_attr_setstacksize there. (glibc puts thread-local data onto the same stack;
 * sanitizers have a lot of it, and 1 MB is enough for them.)
 *
 * WORKSPACE. Each question checks the file first, and needs one byte of workspace for each used node. (A used node is an element within
 * the used count of its segment, reachable or not. It is live if it has a name.) A workspace of file_len / 16 bytes is always enough. To
 * learn the exact number, call taplinen_accept with ws NULL and ws_len 0. A file without fault is then refused with
 * TAPLINEN_REFUSED_WORKSPACE, and value is the number of bytes. So is a file whose first fault is 21 or 22: only a call with a workspace
 * finds those. What a call leaves in the workspace depends on the check of the file alone:
 *   accepted, also if 24, 25 or 26 follows  byte i is 1 if used node i, counted along the file, is in the child range of a live node, and
 *                                           0 otherwise;
 *   refused 21, 22                          the first bytes, one for each used node, are 0;
 *   refused 1 to 20, 23                     as before the call.
 * Bytes past the used nodes stay as they are, whatever the result.
 *
 * RESULTS. refusal is 0 (TAPLINEN_ANSWERED) if the question is answered. Otherwise it is one of the numbers below, and value is the place
 * of the fault: a file offset, unless the list says otherwise. Only the first fault is given. Output buffers are left untouched on any
 * refusal. Test refusal before kind: kind is 0 on a refusal, which is also the number of TAPLINEN_FOUND.
 *
 * ORDER OF CHECKING. 1. Then 2 to 6, field by field along the file. Then the values table and after it the names table: 7 to 12, all of
 * them for one entry before the next entry; then 13 for each position of the address list. Then 14. Then 15, key by key. Then node by
 * node, in file order: 16, 17, for each attribute 18 and 19, then 23. Then 20, 21 node by node, 22 in document order. A file that passes
 * is accepted; only then 24, and last 25 or 26. */
#ifndef TAPLINEN_H
#define TAPLINEN_H

#include <stddef.h>
#include <stdint.h>

#ifdef __cplusplus
extern "C" {
#endif

/* The version of this header. taplinen_version() gives the number of the library that is linked. */
#define TAPLINEN_VERSION_MAJOR 0
#define TAPLINEN_VERSION_MINOR 1
#define TAPLINEN_VERSION_PATCH 0
#define TAPLINEN_VERSION "0.1.0"
#define TAPLINEN_VERSION_NUMBER (TAPLINEN_VERSION_MAJOR * 1000000 + TAPLINEN_VERSION_MINOR * 1000 + TAPLINEN_VERSION_PATCH)

/* The size of the largest file that is accepted. */
#define TAPLINEN_FILE_SIZE_MAX 1073741824

/* The value of the field refusal. In brackets: the place. */
enum taplinen_refusal {
    TAPLINEN_ANSWERED = 0,

    /* The file: layout. */
    TAPLINEN_REFUSED_FILE_SIZE = 1,       /* more than 1,073,741,824 bytes (0) */
    TAPLINEN_REFUSED_TRUNCATED = 2,       /* a field or an array runs past the end (its offset) */
    TAPLINEN_REFUSED_VERSION = 3,         /* the version is not 6 (0) */
    TAPLINEN_REFUSED_HEADER_WORD = 4,     /* a header word that must be 0 is not (the word) */
    TAPLINEN_REFUSED_COUNT = 5,           /* a count is outside its limits (the count) */
    TAPLINEN_REFUSED_FOOTER = 6,          /* the footer is not 0 (the footer), or bytes follow it (the first of them) */

    /* The file: string tables. */
    TAPLINEN_REFUSED_ENTRY_ADDRESS = 7,   /* an entry's address does not resolve (the entry) */
    TAPLINEN_REFUSED_ENTRY_LENGTH = 8,    /* the length field of an entry is not the length of its text (the entry) */
    TAPLINEN_REFUSED_ENTRY_HASH = 9,      /* an entry's hash is not that of its text (the entry) */
    TAPLINEN_REFUSED_ENTRY_ORDER = 10,    /* an entry is in the wrong bucket, or its hash is below the previous one (the entry) */
    TAPLINEN_REFUSED_ENTRY_INDEX = 11,    /* an entry's index is out of range, or the address listed there differs (the entry) */
    TAPLINEN_REFUSED_DUPLICATE_TEXT = 12, /* an earlier entry of the bucket has the same text (the entry) */
    TAPLINEN_REFUSED_UNUSED_INDEX = 13,   /* no entry has the index of a position of the address list (the list element) */
    TAPLINEN_REFUSED_SPECIAL_NAMES = 14,  /* __root__ and __value__ are not the two highest names (the names address count) */

    /* The file: keys, nodes and attributes. */
    TAPLINEN_REFUSED_KEY = 15,            /* key 0 is not all zero; or a field of a key is neither 0 nor a name index, or is the name
                                             index of __value__ (the key) */
    TAPLINEN_REFUSED_NODE = 16,           /* there is no used node 0:0 (the node segment count); or the root is not __root__ or has
                                             attributes, or a name, flags or key index is out of range (the node) */
    TAPLINEN_REFUSED_ATTRIBUTE_RANGE = 17, /* a node's attribute range does not resolve (the node) */
    TAPLINEN_REFUSED_ATTRIBUTE = 18,      /* an attribute's name, order, type, extended code or truth value is wrong (the attribute) */
    TAPLINEN_REFUSED_ATTRIBUTE_TEXT = 19, /* a text attribute's address is not the address of an entry of the values table, or its value
                                             hash is wrong (the attribute) */
    TAPLINEN_REFUSED_CHILD_RANGE = 23,    /* a child range does not resolve, or its nodes are not sorted by name index (the node) */

    /* The workspace, then the tree. */
    TAPLINEN_REFUSED_WORKSPACE = 20,      /* the workspace is too short (the number of bytes needed) */
    TAPLINEN_REFUSED_SHARED_CHILD = 21,   /* a child range contains the root, or a node of an earlier child range (the range's node) */
    TAPLINEN_REFUSED_DEPTH = 22,          /* a chain from the root has 65 nodes (its last node) */

    /* The question. */
    TAPLINEN_REFUSED_TEXT = 24,           /* an odd number of bytes; or a path or a list of texts that does not end in a 0 character
                                             (the length in bytes) */
    TAPLINEN_REFUSED_PLACES = 25,         /* more matches or texts than the output buffer has room for (their number) */
    TAPLINEN_REFUSED_OUTLINE = 26         /* the outline is longer than its buffer (the number of bytes needed) */
};

/* The value of the field kind of an answered look-up. It is 0 for every other question, and on a refusal. */
enum taplinen_kind {
    TAPLINEN_FOUND = 0,
    TAPLINEN_ABSENT = 1,
    TAPLINEN_COLLIDED = 2 /* no entry has the text, but at least one has its 32-bit hash */
};

typedef struct {
    uint32_t refusal;
    uint32_t kind;
    uint64_t value; /* the answer; on a refusal its place */
} taplinen_answer;

typedef struct {
    uint32_t refusal;
    uint32_t version;
    uint64_t place;          /* on a refusal its place, otherwise 0 */
    double timestamp;        /* NaN where the bits are those of a NaN */
    uint64_t timestamp_bits; /* as in the file */
    uint32_t has_revision;   /* 1 for every accepted file today; 0 means that the file has no revision */
    uint32_t revision;
} taplinen_header_report;

/* 1 if a look-up was answered and the text was found. */
static inline int taplinen_found(taplinen_answer answer)
{
    return answer.refusal == TAPLINEN_ANSWERED && answer.kind == TAPLINEN_FOUND;
}

/* The 4-byte number at p, as output buffers hold it. */
static inline uint32_t taplinen_u32(const uint8_t *p)
{
    return p[0] + 256u * p[1] + 65536u * p[2] + 16777216u * p[3];
}

/* A sentence for a refusal, without a full stop. Never NULL. */
static inline const char *taplinen_reason(uint32_t refusal)
{
    switch (refusal) {
    case TAPLINEN_ANSWERED: return "answered";
    case TAPLINEN_REFUSED_FILE_SIZE: return "the file has more than 1,073,741,824 bytes";
    case TAPLINEN_REFUSED_TRUNCATED: return "a field or an array runs past the end of the file";
    case TAPLINEN_REFUSED_VERSION: return "the version is not 6";
    case TAPLINEN_REFUSED_HEADER_WORD: return "a header word that must be 0 is not 0";
    case TAPLINEN_REFUSED_COUNT: return "a count is outside its limits";
    case TAPLINEN_REFUSED_FOOTER: return "the footer is not 0, or bytes follow it";
    case TAPLINEN_REFUSED_ENTRY_ADDRESS: return "the address of a string entry does not resolve";
    case TAPLINEN_REFUSED_ENTRY_LENGTH: return "the length field of a string entry is not the length of its text";
    case TAPLINEN_REFUSED_ENTRY_HASH: return "the hash of a string entry is not that of its text";
    case TAPLINEN_REFUSED_ENTRY_ORDER: return "a string entry is in the wrong bucket, or its hash is below the previous one";
    case TAPLINEN_REFUSED_ENTRY_INDEX: return "the index of a string entry is out of range, or the address listed there differs";
    case TAPLINEN_REFUSED_DUPLICATE_TEXT: return "an earlier string entry of the bucket has the same text";
    case TAPLINEN_REFUSED_UNUSED_INDEX: return "no string entry has the index of this position of the address list";
    case TAPLINEN_REFUSED_SPECIAL_NAMES: return "__root__ and __value__ are not the two highest names";
    case TAPLINEN_REFUSED_KEY:
        return "key 0 is not all zero; or a field of a key is neither 0 nor a name index, or is the name index of __value__";
    case TAPLINEN_REFUSED_NODE: return "the root is missing or wrong, or the name, flags or key index of a node is out of range";
    case TAPLINEN_REFUSED_ATTRIBUTE_RANGE: return "the attribute range of a node does not resolve";
    case TAPLINEN_REFUSED_ATTRIBUTE: return "the name, order, type, extended code or truth value of an attribute is wrong";
    case TAPLINEN_REFUSED_ATTRIBUTE_TEXT:
        return "the address of a text attribute is not the address of an entry of the values table, or its value hash is wrong";
    case TAPLINEN_REFUSED_WORKSPACE: return "the workspace is too short";
    case TAPLINEN_REFUSED_SHARED_CHILD: return "a child range contains the root, or a node of an earlier child range";
    case TAPLINEN_REFUSED_DEPTH: return "a chain from the root has 65 nodes";
    case TAPLINEN_REFUSED_CHILD_RANGE: return "a child range does not resolve, or its nodes are not sorted by name index";
    case TAPLINEN_REFUSED_TEXT: return "a text has an odd number of bytes, or a path or a list of texts does not end in a 0 character";
    case TAPLINEN_REFUSED_PLACES: return "there are more matches or texts than the output buffer has room for";
    case TAPLINEN_REFUSED_OUTLINE: return "the outline is longer than its buffer";
    default: return "unknown refusal";
    }
}

/* The version of the linked library, as TAPLINEN_VERSION_NUMBER. */
uint32_t taplinen_version(void);

/* Checks the file. The field value is the number of used nodes, which is also the number of workspace bytes needed. */
taplinen_answer taplinen_accept(const uint8_t *file, size_t file_len, uint8_t *ws, size_t ws_len);

/* The header of an accepted file. On a refusal every field but refusal and place is 0. */
taplinen_header_report taplinen_header(const uint8_t *file, size_t file_len, uint8_t *ws, size_t ws_len);

/* Looks a text up in the names table. The parameter text has two bytes per character, low byte first, without a final 0. Two names with the
 * same hash are two names. The field kind says what the field value is:
 *   TAPLINEN_FOUND     A name has the text. The value is its index.
 *   TAPLINEN_ABSENT    No name has the text, and none has its 32-bit hash; or the text contains a 0 character. The value is 0.
 *   TAPLINEN_COLLIDED  No name has the text, but at least one has its 32-bit hash. The value is the number of names with this hash.
 *                      Treat the text as not found, and log it: the text is wrong, or it is missing from the file. A program that
 *                      compares hashes alone would take one of those names for it, and a player would get another item. Before you add
 *                      the text to the file, make sure that no program you ship does so. */
taplinen_answer taplinen_name(const uint8_t *file, size_t file_len, uint8_t *ws, size_t ws_len,
                              const uint8_t *text, size_t text_len);

/* Looks a text up in the values table. If it is found, the field value is its address as segment * 65536 + element. Test kind: 0:0 is an
 * address, too. Absent and collided are as with taplinen_name. */
taplinen_answer taplinen_value(const uint8_t *file, size_t file_len, uint8_t *ws, size_t ws_len,
                               const uint8_t *text, size_t text_len);

/* Looks up many texts with one check of the file. In texts, each text is followed by a 0 character. The buffer answers receives 8 bytes for
 * each text, kind and then value, 4 bytes each, as taplinen_name or taplinen_value answers for that text alone. Its other bytes stay as
 * they are. The field value of the result is the number of texts. */
taplinen_answer taplinen_names(const uint8_t *file, size_t file_len, uint8_t *ws, size_t ws_len,
                               const uint8_t *texts, size_t texts_len, uint8_t *answers, size_t answers_len);
taplinen_answer taplinen_values(const uint8_t *file, size_t file_len, uint8_t *ws, size_t ws_len,
                                const uint8_t *texts, size_t texts_len, uint8_t *answers, size_t answers_len);

/* Lists the nodes that a path of names leads to. In path, each name is followed by a 0 character; the empty path leads to the root. The
 * buffer list receives 4 bytes for each match, segment * 65536 + element, in document order. Its other bytes stay as they are. The field
 * value is the number of matches. With list_len 0 the refusal TAPLINEN_REFUSED_PLACES tells how many matches there are, unless there are
 * none. */
taplinen_answer taplinen_path(const uint8_t *file, size_t file_len, uint8_t *ws, size_t ws_len,
                              const uint8_t *path, size_t path_len, uint8_t *list, size_t list_len);

/* Writes the tree as text: a line for each node with its name and attributes, indented by two spaces per level. The field value is the
 * length in bytes. There is no final 0, and the bytes of out past the outline stay as they are. With out_len 0 the refusal
 * TAPLINEN_REFUSED_OUTLINE tells the length. */
taplinen_answer taplinen_outline(const uint8_t *file, size_t file_len, uint8_t *ws, size_t ws_len,
                                 uint8_t *out, size_t out_len);

/* The hash of a text, for programs that build files (docs/BUILDERS.md). The text has two bytes per character, low byte first; a 0 character
 * counts like any other. A whole text starts at 0. A text may be hashed in parts: pass the result of one part as the start of the next.
 * The text may be split at any byte: an odd last byte is the low byte of a character whose high byte comes with the next part. */
uint32_t taplinen_hash(uint32_t start, const uint8_t *text, size_t text_len);

/* The value hash of a whole text, 0 to 16383, as the type word of a text attribute holds it above its two low bits. An odd last byte is
 * ignored. A value hash cannot be continued; docs/BUILDERS.md says what to do instead. */
uint32_t taplinen_value_hash(const uint8_t *text, size_t text_len);

/* The layout of the structs that the library was built with. */
#ifdef __cplusplus
#define TAPLINEN_STATIC_ASSERT static_assert
#else
#define TAPLINEN_STATIC_ASSERT _Static_assert
#endif
TAPLINEN_STATIC_ASSERT(sizeof(size_t) == 8, "taplinen is built for 64-bit platforms");
TAPLINEN_STATIC_ASSERT(sizeof(taplinen_answer) == 16, "taplinen_answer: size");
TAPLINEN_STATIC_ASSERT(offsetof(taplinen_answer, refusal) == 0, "taplinen_answer: refusal");
TAPLINEN_STATIC_ASSERT(offsetof(taplinen_answer, kind) == 4, "taplinen_answer: kind");
TAPLINEN_STATIC_ASSERT(offsetof(taplinen_answer, value) == 8, "taplinen_answer: value");
TAPLINEN_STATIC_ASSERT(sizeof(taplinen_header_report) == 40, "taplinen_header_report: size");
TAPLINEN_STATIC_ASSERT(offsetof(taplinen_header_report, refusal) == 0, "taplinen_header_report: refusal");
TAPLINEN_STATIC_ASSERT(offsetof(taplinen_header_report, version) == 4, "taplinen_header_report: version");
TAPLINEN_STATIC_ASSERT(offsetof(taplinen_header_report, place) == 8, "taplinen_header_report: place");
TAPLINEN_STATIC_ASSERT(offsetof(taplinen_header_report, timestamp) == 16, "taplinen_header_report: timestamp");
TAPLINEN_STATIC_ASSERT(offsetof(taplinen_header_report, timestamp_bits) == 24, "taplinen_header_report: timestamp_bits");
TAPLINEN_STATIC_ASSERT(offsetof(taplinen_header_report, has_revision) == 32, "taplinen_header_report: has_revision");
TAPLINEN_STATIC_ASSERT(offsetof(taplinen_header_report, revision) == 36, "taplinen_header_report: revision");
#undef TAPLINEN_STATIC_ASSERT

#ifdef __cplusplus
}
#endif

#endif
