/* taplinen explain: what a refusal means. */
#include <stdio.h>
#include <stdlib.h>

#include "error.h"
#include "taplinen.h"

struct explanation {
    uint32_t number;
    const char *place;
    const char *look;
};

static const struct explanation explanations[] = {
    {1, "0", "whether it is the right file, and whether it is decrypted and decompressed"},
    {2, "the offset of the field or array", "a truncated file, or a count before the place that is too large"},
    {3, "0, the offset of the version", "a file of another edition, or one that is not decrypted and decompressed"},
    {4, "the offset of the word", "how the header is written"},
    {5, "the offset of the count",
     "the count: a key count is 1 to 4,096; segment counts and full counts are at most 65,535; a used count is at most its full count; an "
     "address count is at least 1, that of the names at most 65,536"},
    {6, "the offset of the footer, or of the first byte after it", "padding after the footer, or a table with a wrong count"},
    {7, "the offset of the entry", "the address, or the used count of its segment"},
    {8, "the offset of the entry", "the length counts the final 0, also where the file does not store it"},
    {9, "the offset of the entry", "the hash function: low byte first, shift right"},
    {10, "the offset of the entry", "how the bucket is chosen; entries of a bucket ascend by hash"},
    {11, "the offset of the entry", "the address list"},
    {12, "the offset of the entry", "a text that was added twice"},
    {13, "the offset of the list element", "an address left over in the list"},
    {14, "the offset of the names address count", "the order of the names: these two are added last"},
    {15, "the offset of the key", "the fields of the key: each is 0 or a name index, which is at most the number of names"},
    {16, "the offset of the node, or of the node segment count if there is no used node 0:0",
     "the name index, flags and key index of the node; the root has the name __root__ and no attributes"},
    {17, "the offset of the node", "its attribute address and attribute count"},
    {18, "the offset of the attribute", "the attribute: attributes ascend by name index, and types are 1, 2, 3"},
    {19, "the offset of the attribute", "the address, or how characters are folded for the value hash: 0151 is not folded to 0150"},
    {20, "the number of bytes needed; no offset", "the workspace: pass that many bytes"},
    {21, "the offset of the node that has the range", "two parents of one child"},
    {22, "the offset of the last node of the chain", "the depth of the tree: at most 64"},
    {23, "the offset of the node", "its child address and child count; whether the children are sorted by name index"},
    {24, "the length in bytes; no offset", "the text: two bytes per character"},
    {25, "the number of matches or texts; no offset", "the output buffer: four bytes per match, eight per text"},
    {26, "the number of bytes needed; no offset", "the output buffer: pass that many bytes"},
};

enum { EXPLANATIONS = sizeof explanations / sizeof explanations[0] };

static const struct explanation *find(const char *number)
{
    char *end;
    unsigned long wanted = strtoul(number, &end, 10);
    /* strtoul takes blanks and signs, too. */
    if (number[0] < '0' || number[0] > '9' || *end != 0)
        return NULL;
    for (size_t i = 0; i < EXPLANATIONS; i++)
        if (explanations[i].number == wanted)
            return &explanations[i];
    return NULL;
}

enum status run_explain(const struct arguments *arguments)
{
    if (arguments->count == 0) {
        for (size_t i = 0; i < EXPLANATIONS; i++)
            printf("%2u  %s\n", explanations[i].number, taplinen_reason(explanations[i].number));
        return STATUS_ANSWERED;
    }
    const struct explanation *explanation = find(arguments->operands[0]);
    if (explanation == NULL)
        return wrong_use(arguments->command, "there is no refusal %s", arguments->operands[0]);
    printf("refusal: %u\n", explanation->number);
    printf("reason: %s\n", taplinen_reason(explanation->number));
    printf("place: %s\n", explanation->place);
    printf("look at: %s\n", explanation->look);
    return STATUS_ANSWERED;
}
