/* Tests that taplinen.h is as it says. Compiled as C11, C++11 and C++17, and linked to the library. */
#include <taplinen.h>
#include <taplinen.h>

#include <stdio.h>
#include <string.h>

static const uint32_t refusals[] = {
    TAPLINEN_ANSWERED,
    TAPLINEN_REFUSED_FILE_SIZE,
    TAPLINEN_REFUSED_TRUNCATED,
    TAPLINEN_REFUSED_VERSION,
    TAPLINEN_REFUSED_HEADER_WORD,
    TAPLINEN_REFUSED_COUNT,
    TAPLINEN_REFUSED_FOOTER,
    TAPLINEN_REFUSED_ENTRY_ADDRESS,
    TAPLINEN_REFUSED_ENTRY_LENGTH,
    TAPLINEN_REFUSED_ENTRY_HASH,
    TAPLINEN_REFUSED_ENTRY_ORDER,
    TAPLINEN_REFUSED_ENTRY_INDEX,
    TAPLINEN_REFUSED_DUPLICATE_TEXT,
    TAPLINEN_REFUSED_UNUSED_INDEX,
    TAPLINEN_REFUSED_SPECIAL_NAMES,
    TAPLINEN_REFUSED_KEY,
    TAPLINEN_REFUSED_NODE,
    TAPLINEN_REFUSED_ATTRIBUTE_RANGE,
    TAPLINEN_REFUSED_ATTRIBUTE,
    TAPLINEN_REFUSED_ATTRIBUTE_TEXT,
    TAPLINEN_REFUSED_WORKSPACE,
    TAPLINEN_REFUSED_SHARED_CHILD,
    TAPLINEN_REFUSED_DEPTH,
    TAPLINEN_REFUSED_CHILD_RANGE,
    TAPLINEN_REFUSED_TEXT,
    TAPLINEN_REFUSED_PLACES,
    TAPLINEN_REFUSED_OUTLINE,
};
enum { REFUSALS = sizeof refusals / sizeof refusals[0] };

static int faults;

static void expect(int holds, const char *what, uint32_t number)
{
    if (holds)
        return;
    fprintf(stderr, "header: %s: %lu\n", what, (unsigned long)number);
    faults++;
}

static void check_reasons(void)
{
    static const uint32_t unknown[] = {REFUSALS, REFUSALS + 1, 255, 256, 65536, 0x80000000u, 0xffffffffu};

    expect(REFUSALS == 27, "the number of refusals", REFUSALS);
    for (uint32_t i = 0; i < REFUSALS; i++) {
        const char *reason = taplinen_reason(i);
        expect(refusals[i] == i, "a constant has another number than its position in the list", i);
        if (reason == NULL || reason[0] == '\0') {
            expect(0, "a refusal has no sentence", i);
            continue;
        }
        expect(reason[strlen(reason) - 1] != '.', "a sentence ends in a full stop", i);
        expect(strcmp(reason, "unknown refusal") != 0, "a refusal is unknown", i);
        for (uint32_t j = 0; j < i; j++)
            expect(strcmp(reason, taplinen_reason(j)) != 0, "a refusal has the sentence of an earlier one", i);
    }
    for (size_t i = 0; i < sizeof unknown / sizeof unknown[0]; i++)
        expect(strcmp(taplinen_reason(unknown[i]), "unknown refusal") == 0, "a number past the last has a sentence", unknown[i]);
}

static void check_found(void)
{
    static const struct {
        taplinen_answer answer;
        int found;
    } cases[] = {
        {{TAPLINEN_ANSWERED, TAPLINEN_FOUND, 0}, 1},
        {{TAPLINEN_ANSWERED, TAPLINEN_FOUND, 7}, 1},
        {{TAPLINEN_ANSWERED, TAPLINEN_ABSENT, 0}, 0},
        {{TAPLINEN_ANSWERED, TAPLINEN_COLLIDED, 2}, 0},
        {{TAPLINEN_REFUSED_TRUNCATED, TAPLINEN_FOUND, 0}, 0},
    };

    for (uint32_t i = 0; i < sizeof cases / sizeof cases[0]; i++)
        expect(taplinen_found(cases[i].answer) == cases[i].found, "taplinen_found is wrong in case", i);
}

static void check_u32(void)
{
    static const uint8_t bytes[] = {0x01, 0x02, 0x83, 0xf4, 0xff, 0xff, 0xff, 0xff};

    expect(taplinen_u32(bytes) == 0xf4830201u, "taplinen_u32 is wrong", taplinen_u32(bytes));
    expect(taplinen_u32(bytes + 4) == 0xffffffffu, "taplinen_u32 is wrong", taplinen_u32(bytes + 4));
}

/* Every function can be called without a file. All but the hashes are refused with 2 at 0. */
static void check_calls(void)
{
    const taplinen_answer answers[] = {
        taplinen_accept(NULL, 0, NULL, 0),
        taplinen_name(NULL, 0, NULL, 0, NULL, 0),
        taplinen_value(NULL, 0, NULL, 0, NULL, 0),
        taplinen_names(NULL, 0, NULL, 0, NULL, 0, NULL, 0),
        taplinen_values(NULL, 0, NULL, 0, NULL, 0, NULL, 0),
        taplinen_path(NULL, 0, NULL, 0, NULL, 0, NULL, 0),
        taplinen_outline(NULL, 0, NULL, 0, NULL, 0),
    };
    const taplinen_header_report report = taplinen_header(NULL, 0, NULL, 0);

    for (uint32_t i = 0; i < sizeof answers / sizeof answers[0]; i++)
        expect(answers[i].refusal == TAPLINEN_REFUSED_TRUNCATED && answers[i].kind == 0 && answers[i].value == 0,
               "an empty file is not refused as truncated by function", i);
    expect(report.refusal == TAPLINEN_REFUSED_TRUNCATED && report.place == 0 && report.has_revision == 0,
           "an empty file is not refused as truncated by taplinen_header", report.refusal);
    expect(taplinen_hash(0, NULL, 0) == 0, "the hash of no text is not 0", taplinen_hash(0, NULL, 0));
    expect(taplinen_value_hash(NULL, 0) == 0, "the value hash of no text is not 0", taplinen_value_hash(NULL, 0));
}

/* Prints the version of the header, and that of the library in the same form. */
static void check_version(void)
{
    const uint32_t number = taplinen_version();
    char text[40];

    expect(number == TAPLINEN_VERSION_NUMBER, "the library has another version than the header", number);
    snprintf(text, sizeof text, "%d.%d.%d", TAPLINEN_VERSION_MAJOR, TAPLINEN_VERSION_MINOR, TAPLINEN_VERSION_PATCH);
    expect(strcmp(text, TAPLINEN_VERSION) == 0, "TAPLINEN_VERSION is not made of its three numbers", 0);
    printf("%s %u.%u.%u\n", TAPLINEN_VERSION, number / 1000000, number / 1000 % 1000, number % 1000);
}

int main(void)
{
    check_reasons();
    check_found();
    check_u32();
    check_calls();
    check_version();
    return faults != 0;
}
