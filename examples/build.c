/* Builds a path in C as a record, case H of document 01 with user 50; writes its sheet, and judges the sheet and the record.
 *
 *     bin/library judge
 *     cc -Iinclude examples/build.c target/staticlib/libjudge.a -o build
 */
#include "judge.h"
#include <stdio.h>
#include <stdlib.h>

enum { ANY_POLICY = 1 };

/* What the functions return: a number, and 256 times a place or a length. */
static unsigned number(uint32_t returned) { return (unsigned)(returned % 256); }
static unsigned beside(uint32_t returned) { return (unsigned)(returned / 256); }

static void fail(const char *what) {
    fprintf(stderr, "build: %s\n", what);
    exit(EXIT_FAILURE);
}

/* Ends the program on a refusal. */
static void accepted(const char *what, uint32_t returned) {
    if (skandrulo_refuses((uint8_t)number(returned))) {
        fprintf(stderr, "build: %s is refused with %u\n", what, number(returned));
        exit(EXIT_FAILURE);
    }
}

/* A list of policies. */
struct list {
    const uint16_t *policies;
    uint16_t count;
};
#define LIST(array) {array, sizeof array / sizeof *array}

/* A certificate: its policies, and its pairs as issuers and as many subjects. A skip value is one more than the number of
 * certificates, or 0 where it is absent. */
struct certificate {
    uint16_t self_issued;
    struct list policies, issuers, subjects;
    uint16_t require_explicit_policy, inhibit_policy_mapping, inhibit_any_policy;
};

/* A record, of which the first `length` places are used. */
struct record {
    uint16_t places[SKANDRULO_RECORD];
    size_t length;
};

/* The next so many places of a record, all 0. */
static uint16_t *append(struct record *record, size_t count) {
    uint16_t *next = record->places + record->length;
    if (count > SKANDRULO_RECORD - record->length) fail("the record is full");
    for (size_t place = 0; place < count; place++) next[place] = 0;
    record->length += count;
    return next;
}

static void append_list(struct record *record, struct list list) {
    uint16_t *next = append(record, list.count);
    for (size_t place = 0; place < list.count; place++) next[place] = list.policies[place];
}

/* Starts a record: no certificates yet, the flags clear, and the user list. */
static void start(struct record *record, struct list user) {
    record->length = 0;
    append(record, SKANDRULO_HEAD)[SKANDRULO_USERS] = user.count;
    append_list(record, user);
}

/* Appends a certificate, and counts it. */
static void append_certificate(struct record *record, const struct certificate *certificate) {
    uint16_t *head = append(record, SKANDRULO_CERTIFICATE_HEAD);
    if (certificate->issuers.count != certificate->subjects.count) fail("a pair is not whole");
    head[SKANDRULO_SELF_ISSUED] = certificate->self_issued;
    head[SKANDRULO_POLICIES] = certificate->policies.count;
    head[SKANDRULO_PAIRS] = certificate->issuers.count;
    head[SKANDRULO_REQUIRE_EXPLICIT_POLICY] = certificate->require_explicit_policy;
    head[SKANDRULO_INHIBIT_POLICY_MAPPING] = certificate->inhibit_policy_mapping;
    head[SKANDRULO_INHIBIT_ANY_POLICY] = certificate->inhibit_any_policy;
    append_list(record, certificate->policies);
    append_list(record, certificate->issuers);
    append_list(record, certificate->subjects);
    record->places[SKANDRULO_N]++;
}

/* Explicit policy, user 50; a certificate with anyPolicy and the pair 50 > 51, then one with 51. */
static void build(struct record *record) {
    static const uint16_t any[] = {ANY_POLICY}, asked[] = {50}, mapped[] = {51};
    const struct list user = LIST(asked);
    const struct certificate first = {.policies = LIST(any), .issuers = LIST(asked), .subjects = LIST(mapped)};
    const struct certificate second = {.policies = LIST(mapped)};
    start(record, user);
    record->places[SKANDRULO_EXPLICIT_POLICY] = 1;
    append_certificate(record, &first);
    append_certificate(record, &second);
}

static void print_sheet(const uint8_t *sheet, size_t length) {
    printf("sheet");
    for (size_t place = 0; place < length; place++) printf(" %02X", (unsigned)sheet[place]);
    printf("\n");
}

static void print_verdict(const char *judged, uint32_t answer) {
    accepted(judged, answer);
    printf("%s: verdict %u place %u\n", judged, number(answer), beside(answer));
}

/* A set stands first in its table, and a 0 ends it. */
static void print_set(const char *name, const uint16_t *table) {
    printf("%s", name);
    for (size_t place = 0; place < SKANDRULO_TABLE && table[place] != 0; place++) printf(" %u", (unsigned)table[place]);
    printf("\n");
}

static void print_counters(const uint16_t *counters) {
    printf("counters explicit %u, mapping %u, any %u\n", (unsigned)counters[SKANDRULO_COUNTER_EXPLICIT],
           (unsigned)counters[SKANDRULO_COUNTER_MAPPING], (unsigned)counters[SKANDRULO_COUNTER_ANY]);
}

int main(void) {
    static struct record record;
    static uint8_t sheet[SKANDRULO_SHEET_BYTES];
    static uint16_t authority[SKANDRULO_TABLE], user[SKANDRULO_TABLE], counts[SKANDRULO_DEPTHS],
        counters[SKANDRULO_COUNTERS];
    uint32_t written, answer;

    build(&record);
    written = skandrulo_write_record(record.places, record.length, sheet, SKANDRULO_SHEET_BYTES);
    accepted("writing", written);
    print_sheet(sheet, beside(written));

    answer = skandrulo_judge_sheet(sheet, beside(written), authority, SKANDRULO_TABLE, user, SKANDRULO_TABLE, counts,
                                   SKANDRULO_DEPTHS, counters, SKANDRULO_COUNTERS);
    print_verdict("the sheet", answer);
    answer = skandrulo_judge_record(record.places, record.length, authority, SKANDRULO_TABLE, user, SKANDRULO_TABLE, counts,
                                    SKANDRULO_DEPTHS, counters, SKANDRULO_COUNTERS);
    print_verdict("the record", answer);
    print_set("user", user);
    print_counters(counters);
    return EXIT_SUCCESS;
}
