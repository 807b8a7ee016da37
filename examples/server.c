/* The inside of a small server: several threads answer requests about one file. It has no network: the requests are a fixed list, made for
 * samples/shop.dc. It shows what a program with threads has to do:
 *   - The file is loaded once. All threads read the same bytes, which the library never writes to.
 *   - Each thread has a workspace of its own, because every call writes to its workspace.
 *   - The stack of each thread is large enough for a call.
 *   - Many names are asked with one call, since each call checks the file again.
 *   - refusal is tested before the rest of an answer is used.
 * Texts are ASCII here; tool/text.c shows how to convert UTF-8. This is C11 and C++11. */
#include <pthread.h>
#include <stdio.h>
#include <stdlib.h>
#include <string.h>

#include <taplinen.h>

/* A call needs about 200 KB of stack. With glibc, thread-local data is taken from the stack, too: sanitizers have a lot of it. */
enum { THREADS = 4, STACK_LEN = 1024 * 1024, TEXT_LEN = 64, ANSWER_LEN = 256 };

enum request_kind { NAMES, PATH, PRICE };

struct request {
    enum request_kind kind;
    const char *text; /* shorter than TEXT_LEN */
    char answer[ANSWER_LEN];
};

static struct request requests[] = {
    {NAMES, "Item/Quest/Monster/Price", ""}, {NAMES, "LegendarySword/@b`naiosyRyopk", ""}, {NAMES, "Gimehoteru/Item", ""},
    {PATH, "Item/Price", ""},                {PATH, "Monster", ""},                        {PRICE, "Iron\\0020sword", ""},
    {PRICE, "Oak\\0020shield", ""},          {PRICE, "Gold\\0020crown", ""},
};

/* What the threads share: the file and its outline, which nobody writes to, and the number of the next request, under a lock. */
static uint8_t *file;
static size_t file_len, ws_len;
static char *outline;
static pthread_mutex_t lock = PTHREAD_MUTEX_INITIALIZER;
static size_t next_request;

static void *allocate(size_t len)
{
    void *p = malloc(len + 1);
    if (p == NULL)
        abort();
    return p;
}

/* The indices of names, or the nodes of a path. */
static void ask(uint8_t *ws, struct request *r)
{
    /* Each name as 16-bit characters, low byte first, followed by a 0 character. */
    uint8_t texts[2 * TEXT_LEN] = {0}, out[8 * TEXT_LEN];
    size_t count = strlen(r->text) + 1, at = 0;
    for (size_t i = 0; i < count; i++)
        texts[2 * i] = (uint8_t)(r->text[i] == '/' ? 0 : r->text[i]);
    taplinen_answer a = r->kind == NAMES ? taplinen_names(file, file_len, ws, ws_len, texts, 2 * count, out, sizeof out)
                                         : taplinen_path(file, file_len, ws, ws_len, texts, 2 * count, out, sizeof out);
    if (a.refusal != TAPLINEN_ANSWERED) {
        snprintf(r->answer, ANSWER_LEN, " refused %u: %s", a.refusal, taplinen_reason(a.refusal));
        return;
    }
    /* An item has at most 12 characters. Items that have no room are left out. */
    for (size_t i = 0; i < a.value && at + 12 < ANSWER_LEN; i++) {
        const uint8_t *item = out + (r->kind == NAMES ? 8 : 4) * i;
        if (r->kind == PATH)
            at += (size_t)snprintf(r->answer + at, ANSWER_LEN - at, " %u:%u", taplinen_u32(item) / 65536, taplinen_u32(item) % 65536);
        else if (taplinen_u32(item) == TAPLINEN_FOUND)
            at += (size_t)snprintf(r->answer + at, ANSWER_LEN - at, " %u", taplinen_u32(item + 4));
        else
            at += (size_t)snprintf(r->answer + at, ANSWER_LEN - at, "%s", taplinen_u32(item) == TAPLINEN_COLLIDED ? " collided" : " absent");
    }
}

/* A price. No call gives an attribute, so it is read from the outline: from a line "    Price cost=i:120" below a line with the title,
 * "  Item id=i:7 title=s:TITLE ..". The title is given as the outline writes it, with \0020 for a space. */
static void find_price(struct request *r)
{
    char title[TEXT_LEN + 16];
    snprintf(title, sizeof title, " title=s:%s ", r->text);
    const char *line = strstr(outline, title);
    snprintf(r->answer, ANSWER_LEN, " none");
    /* Every line ends in a newline, and the lines below an item have two spaces more. */
    while (line != NULL && strncmp(line = strchr(line, '\n') + 1, "    ", 4) == 0)
        if (strncmp(line, "    Price cost=i:", 17) == 0)
            snprintf(r->answer, ANSWER_LEN, " %ld", strtol(line + 17, NULL, 10));
        else if (strncmp(line, "    Price cost=f:", 17) == 0)
            snprintf(r->answer, ANSWER_LEN, " a float with the bits %.8s", line + 17);
}

static void *work(void *unused)
{
    uint8_t *ws = (uint8_t *)allocate(ws_len);
    for (;;) {
        pthread_mutex_lock(&lock);
        size_t i = next_request++;
        pthread_mutex_unlock(&lock);
        if (i >= sizeof requests / sizeof requests[0])
            break;
        if (requests[i].kind == PRICE)
            find_price(&requests[i]);
        else
            ask(ws, &requests[i]);
    }
    free(ws);
    return unused;
}

/* Reads the file and makes its outline. An outline with no buffer is refused with its length. */
static taplinen_answer load(FILE *f)
{
    size_t room = 1 << 16, got;
    file = (uint8_t *)allocate(room);
    while ((got = fread(file + file_len, 1, room - file_len, f)) > 0)
        if ((file_len += got) == room && (file = (uint8_t *)realloc(file, room *= 2)) == NULL)
            abort();
    ws_len = file_len / 16;
    uint8_t *ws = (uint8_t *)allocate(ws_len);
    taplinen_answer a = taplinen_outline(file, file_len, ws, ws_len, NULL, 0);
    if (a.refusal == TAPLINEN_REFUSED_OUTLINE) {
        size_t len = (size_t)a.value;
        outline = (char *)allocate(len);
        a = taplinen_outline(file, file_len, ws, ws_len, (uint8_t *)outline, len);
        outline[len] = 0;
    }
    free(ws);
    return a;
}

int main(int argc, char **argv)
{
    FILE *f = argc == 2 ? fopen(argv[1], "rb") : NULL;
    if (f == NULL) {
        argc == 2 ? perror(argv[1]) : (void)fputs("usage: server FILE\n", stderr);
        return 2;
    }
    taplinen_answer a = load(f);
    if (ferror(f)) {
        perror(argv[1]);
        return 2;
    }
    fclose(f);
    if (a.refusal != TAPLINEN_ANSWERED) {
        fprintf(stderr, "refused %u at %llu: %s\n", a.refusal, (unsigned long long)a.value, taplinen_reason(a.refusal));
        return 1;
    }
    pthread_t threads[THREADS];
    pthread_attr_t attributes;
    pthread_attr_init(&attributes);
    pthread_attr_setstacksize(&attributes, STACK_LEN);
    for (int i = 0; i < THREADS; i++)
        if (pthread_create(&threads[i], &attributes, work, NULL) != 0)
            abort();
    for (int i = 0; i < THREADS; i++)
        pthread_join(threads[i], NULL);
    pthread_attr_destroy(&attributes);
    static const char *const kinds[] = {"names", "path", "price"};
    for (size_t i = 0; i < sizeof requests / sizeof requests[0]; i++)
        printf("%s %s:%s\n", kinds[requests[i].kind], requests[i].text, requests[i].answer);
    free(outline);
    free(file);
    return 0;
}
