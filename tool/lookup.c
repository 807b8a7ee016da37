/* taplinen name, taplinen value: looks texts up. All of them are asked with one call, which checks the file once. */
#include <stdio.h>
#include <stdlib.h>

#include "error.h"
#include "input.h"
#include "refusal.h"
#include "text.h"
#include "address.h"

enum { ANSWER_LEN = 8 };

/* A table of texts: how to ask it, and how to print where a text was found. */
struct table {
    taplinen_answer (*ask)(const uint8_t *file, size_t file_len, uint8_t *ws, size_t ws_len, const uint8_t *texts, size_t texts_len,
                           uint8_t *answers, size_t answers_len);
    void (*print_found)(uint32_t value);
};

static void print_index(uint32_t index)
{
    printf("index %u\n", index);
}

static void print_value_address(uint32_t address)
{
    fputs("address ", stdout);
    print_address(address);
}

static enum status print_answer(const struct table *table, const char *text, uint32_t kind, uint32_t value)
{
    printf("%s: ", text);
    switch (kind) {
    case TAPLINEN_FOUND:
        table->print_found(value);
        return STATUS_ANSWERED;
    case TAPLINEN_COLLIDED:
        printf(value == 1 ? "collided: %u other text has this hash\n" : "collided: %u other texts have this hash\n", value);
        return STATUS_NEGATIVE;
    default:
        puts("absent");
        return STATUS_NEGATIVE;
    }
}

static enum status ask(const struct table *table, const struct input *input, const struct characters *texts, char **shown, size_t count)
{
    uint8_t *answers = allocate(ANSWER_LEN * count);
    taplinen_answer answer = table->ask(input->bytes, input->len, input->workspace, input->workspace_len, texts->bytes, texts->len,
                                        answers, ANSWER_LEN * count);
    enum status status = STATUS_ANSWERED;
    if (answer.refusal != TAPLINEN_ANSWERED)
        status = print_refusal(stderr, input, answer.refusal, answer.value);
    else
        for (size_t i = 0; i < count; i++) {
            const uint8_t *at = answers + ANSWER_LEN * i;
            if (print_answer(table, shown[i], taplinen_u32(at), taplinen_u32(at + 4)) != STATUS_ANSWERED)
                status = STATUS_NEGATIVE;
        }
    free(answers);
    return status;
}

static bool append_texts(struct characters *list, char **texts, size_t count)
{
    for (size_t i = 0; i < count; i++) {
        /* FILE is argument 1. */
        if (!append_text(list, texts[i], i + 2))
            return false;
        append_end(list);
    }
    return true;
}

static enum status look_up(const struct table *table, const struct arguments *arguments)
{
    char **texts = arguments->operands + 1;
    size_t count = arguments->count - 1;
    struct characters list = characters_for(texts, count);
    enum status status = STATUS_ERROR;
    if (append_texts(&list, texts, count)) {
        struct input input;
        if (input_open(&input, arguments->operands[0]))
            status = ask(table, &input, &list, texts, count);
        input_close(&input);
    }
    free(list.bytes);
    return status;
}

enum status run_name(const struct arguments *arguments)
{
    static const struct table names = {taplinen_names, print_index};
    return look_up(&names, arguments);
}

enum status run_value(const struct arguments *arguments)
{
    static const struct table values = {taplinen_values, print_value_address};
    return look_up(&values, arguments);
}
