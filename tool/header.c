/* taplinen header: what the header of a file says. */
#include <math.h>
#include <stdio.h>
#include <time.h>

#include "input.h"
#include "refusal.h"

/* The timestamp is the Unix time at which the file was made. Times outside the years 1970 to 9999 are taken for something else. */
static void print_date(double timestamp)
{
    static const double year_10000 = 253402300800.0;
    struct tm date;
    char text[sizeof "9999-12-31T23:59:59Z"];
    /* A NaN fails both comparisons. */
    bool plausible = timestamp >= 0 && timestamp < year_10000;
    time_t seconds = plausible ? (time_t)timestamp : 0;
    if (plausible && gmtime_r(&seconds, &date) != NULL && strftime(text, sizeof text, "%Y-%m-%dT%H:%M:%SZ", &date) > 0)
        printf("date: %s\n", text);
    else
        puts("date: none");
}

static void print_header(const taplinen_header_report *header)
{
    printf("version: %u\n", header->version);
    if (header->has_revision)
        printf("revision: %u\n", header->revision);
    else
        puts("revision: none");
    /* C libraries differ in how they print the sign of a NaN. The bits have it. */
    if (isnan(header->timestamp))
        puts("timestamp: nan");
    else
        printf("timestamp: %.17g\n", header->timestamp);
    printf("timestamp bits: %016llx\n", (unsigned long long)header->timestamp_bits);
    print_date(header->timestamp);
}

static enum status ask(const struct input *input)
{
    taplinen_header_report header = taplinen_header(input->bytes, input->len, input->workspace, input->workspace_len);
    if (header.refusal != TAPLINEN_ANSWERED)
        return print_refusal(stderr, input, header.refusal, header.place);
    print_header(&header);
    return STATUS_ANSWERED;
}

enum status run_header(const struct arguments *arguments)
{
    struct input input;
    enum status status = STATUS_ERROR;
    if (input_open(&input, arguments->operands[0]))
        status = ask(&input);
    input_close(&input);
    return status;
}
