/* From certificates to a verdict: reads the policy extensions of a path's certificates, writes the path's sheet and judges it.
 *
 *     bin/library judge
 *     cc -Iinclude examples/certificates.c target/staticlib/libjudge.a -o certificates
 *     ./certificates POLICY CERTIFICATE.der ..
 *
 * POLICY is in dotted form, or `any`. The certificates come in path order, from the one that the trust anchor issued to the
 * end certificate, SKANDRULO_CERTIFICATES at most. The explicit policy flag is set. Only the policy part of path validation is done: signatures,
 * names, dates and the rest are to be checked elsewhere. The exit status is 0 whatever the verdict, 1 where a certificate is
 * refused, and 2 for a wrong call or a file that cannot be read.
 *
 * certificates.expected has what these runs in the folder certificates write, one after the other; the fourth and the fifth have status 1.
 *
 *     ./certificates 1.3.6.1.4.1.32473.1.1 bridge.der issuing.der handheld.der
 *     ./certificates 1.3.6.1.4.1.32473.1.1 bridge.der issuing.der visitor.der
 *     ./certificates 1.3.6.1.4.1.32473.1.1 bridge.der issuing.der plain.der
 *     ./certificates 1.3.6.1.4.1.32473.1.1 bridge.der issuing.der repeated.der
 *     ./certificates 1.3.6.1.4.1.32473.1.1 doubled.der issuing.der handheld.der
 *     ./certificates any bridge.der issuing.der rollover.der gate.der
 *     ./certificates 2.25.329800735698586629295641978511506172918 direct.der rollover.der gate.der
 *     ./certificates 1.3.6.1.4.1.32473.9.9 direct.der
 *     ./certificates any direct.der
 */
#include "judge.h"
#include <stdbool.h>
#include <stdio.h>
#include <stdlib.h>
#include <string.h>

enum { REFUSED = 1, WRONG_CALL = 2 };
enum { ANY_POLICY = 1, FIRST_ENTRY = 2 };
enum { MOST_CERTIFICATES = SKANDRULO_CERTIFICATES, MOST_BYTES = 65536, LONGEST_IDENTIFIER = 32 };

/* What the functions return: a number, and 256 times a place or a length. */
static unsigned number(uint32_t returned) { return (unsigned)(returned % 256); }
static unsigned beside(uint32_t returned) { return (unsigned)(returned / 256); }

static void stop(int status, const char *name, const char *what) {
    fprintf(stderr, "certificates: %s %s\n", name, what);
    exit(status);
}

/* A file's name without its folder. */
static const char *file_name(const char *name) {
    const char *slash = strrchr(name, '/');
    return slash == NULL ? name : slash + 1;
}

/* A part of a certificate's bytes, or of the register's. */
struct part {
    const uint8_t *octets;
    size_t length;
};

static bool same(struct part one, struct part other) {
    return one.length == other.length && memcmp(one.octets, other.octets, one.length) == 0;
}

/* Cuts the first octets off, which must be there, and gives them back. */
static struct part cut(struct part *rest, size_t length) {
    const struct part first = {rest->octets, length};
    rest->octets += length;
    rest->length -= length;
    return first;
}

/* DER. Each reader takes what it reads off the front of `rest`, looks at no octet beyond it, and says whether it was there. */

enum {
    BOOLEAN = 0x01,
    INTEGER = 0x02,
    BIT_STRING = 0x03,
    OCTET_STRING = 0x04,
    OBJECT_IDENTIFIER = 0x06,
    SEQUENCE = 0x30,
    VERSION = 0xA0,
    ISSUER_UNIQUE_ID = 0x81,
    SUBJECT_UNIQUE_ID = 0x82,
    EXTENSIONS = 0xA3
};

static bool has_tag(struct part rest, uint8_t tag) { return rest.length > 0 && rest.octets[0] == tag; }

/* A length, definite and in as few octets as it can be. One that needs more than two after the first passes any file's end. */
static bool take_length(struct part *rest, size_t *length) {
    struct part octets;
    if (rest->length == 0) return false;
    *length = cut(rest, 1).octets[0];
    if (*length < 0x80) return true;
    if (*length == 0x80 || *length > 0x82 || *length - 0x80 > rest->length) return false;
    octets = cut(rest, *length - 0x80);
    *length = octets.octets[0];
    if (octets.length == 1) return *length >= 0x80;
    *length = *length * 256 + octets.octets[1];
    return *length >= 0x100;
}

/* An element with this tag: its content is handed back as a part, with no copy. */
static bool take(struct part *rest, uint8_t tag, struct part *content) {
    size_t length;
    if (!has_tag(*rest, tag)) return false;
    cut(rest, 1);
    if (!take_length(rest, &length) || length > rest->length) return false;
    *content = cut(rest, length);
    return true;
}

static bool pass(struct part *rest, uint8_t tag) {
    struct part content;
    return take(rest, tag, &content);
}

static bool pass_optional(struct part *rest, uint8_t tag) { return !has_tag(*rest, tag) || pass(rest, tag); }

/* The four extensions, in the order in which the library takes their values, and the content of their identifiers. */
enum { POLICIES, MAPPINGS, CONSTRAINTS, INHIBIT_ANY, FOUR };
static const uint8_t four[FOUR][3] = {{0x55, 0x1D, 0x20}, {0x55, 0x1D, 0x21}, {0x55, 0x1D, 0x24}, {0x55, 0x1D, 0x36}};

/* What is wanted of a certificate. The value of an absent extension has length 0, and its pointer is not null. */
struct certificate {
    bool self_issued;
    struct part values[FOUR];
};
static const uint8_t nothing = 0;

/* An extension: its identifier, whether it is critical, and its value. One of the four that stands twice is refused, and so is
 * one with an empty value, which the library would take for absent. */
static bool read_extension(struct part extension, struct certificate *certificate) {
    struct part identifier, value;
    if (!take(&extension, OBJECT_IDENTIFIER, &identifier) || !pass_optional(&extension, BOOLEAN)) return false;
    if (!take(&extension, OCTET_STRING, &value) || extension.length != 0) return false;
    for (size_t place = 0; place < FOUR; place++) {
        const struct part wanted = {four[place], sizeof four[place]};
        if (!same(identifier, wanted)) continue;
        if (certificate->values[place].length != 0 || value.length == 0) return false;
        certificate->values[place] = value;
    }
    return true;
}

/* A list of extensions, which is not empty. */
static bool read_extension_list(struct part tagged, struct certificate *certificate) {
    struct part list, extension;
    if (!take(&tagged, SEQUENCE, &list) || tagged.length != 0) return false;
    do {
        if (!take(&list, SEQUENCE, &extension) || !read_extension(extension, certificate)) return false;
    } while (list.length != 0);
    return true;
}

/* The fields of TBSCertificate. A certificate is self-issued where issuer and subject are the same name. Names are compared
 * octet by octet; RFC 5280 7.1 also takes names for the same that differ in case or spaces. */
static bool read_fields(struct part fields, struct certificate *certificate) {
    struct part issuer, subject, extensions;
    if (!pass_optional(&fields, VERSION)) return false;
    if (!pass(&fields, INTEGER)) return false;  /* serialNumber */
    if (!pass(&fields, SEQUENCE)) return false; /* signature */
    if (!take(&fields, SEQUENCE, &issuer)) return false;
    if (!pass(&fields, SEQUENCE)) return false; /* validity */
    if (!take(&fields, SEQUENCE, &subject)) return false;
    if (!pass(&fields, SEQUENCE)) return false; /* subjectPublicKeyInfo */
    if (!pass_optional(&fields, ISSUER_UNIQUE_ID) || !pass_optional(&fields, SUBJECT_UNIQUE_ID)) return false;
    certificate->self_issued = same(issuer, subject);
    if (fields.length == 0) return true;
    return take(&fields, EXTENSIONS, &extensions) && fields.length == 0 && read_extension_list(extensions, certificate);
}

static bool read_certificate(struct part bytes, struct certificate *certificate) {
    struct part whole, fields;
    certificate->self_issued = false;
    for (size_t place = 0; place < FOUR; place++) certificate->values[place] = (struct part){&nothing, 0};
    if (!take(&bytes, SEQUENCE, &whole) || bytes.length != 0) return false;
    if (!take(&whole, SEQUENCE, &fields)) return false;
    if (!pass(&whole, SEQUENCE)) return false;   /* signatureAlgorithm */
    if (!pass(&whole, BIT_STRING)) return false; /* signatureValue */
    return whole.length == 0 && read_fields(fields, certificate);
}

/* Identifiers in dotted form. An arc may be wider than any C type: a UUID has 128 bits. */

/* A number: its digits in some base, the lowest first, and zeros after them. 32 octets of 7 bits make 68 decimal digits. */
enum { MOST_DIGITS = 68 };
struct wide {
    uint8_t digits[MOST_DIGITS];
    size_t count;
};

/* Multiplies a number and adds to it; the result may not be negative. False where it has too many digits. */
static bool multiply_add(struct wide *wide, int base, int factor, int addend) {
    int carry = addend;
    for (size_t place = 0; place < wide->count; place++) {
        carry += wide->digits[place] * factor;
        wide->digits[place] = (uint8_t)((carry % base + base) % base);
        carry = (carry - wide->digits[place]) / base;
    }
    for (; carry > 0; carry /= base) {
        if (wide->count == MOST_DIGITS) return false;
        wide->digits[wide->count++] = (uint8_t)(carry % base);
    }
    return true;
}

/* The content octets of an identifier. */
struct identifier {
    uint8_t octets[LONGEST_IDENTIFIER];
    size_t length;
};

/* Appends a number in base 128: the highest digit first, and each but the last with 80 hex. */
static bool append_subidentifier(struct identifier *identifier, const struct wide *wide) {
    size_t place = wide->count == 0 ? 1 : wide->count;
    if (place > LONGEST_IDENTIFIER - identifier->length) return false;
    while (place-- > 0) identifier->octets[identifier->length++] = (uint8_t)(wide->digits[place] | (place > 0 ? 0x80 : 0));
    return true;
}

/* Reads an arc in base 128, and moves the text past it. */
static bool read_arc(const char **text, struct wide *arc) {
    const char *start = *text;
    *arc = (struct wide){.count = 0};
    for (; **text >= '0' && **text <= '9'; ++*text)
        if (!multiply_add(arc, 128, 10, **text - '0')) return false;
    return *text != start;
}

/* From dotted form to content octets. The first two arcs go into one subidentifier. */
static bool encode(const char *text, struct identifier *identifier) {
    struct wide arc;
    const int root = text[0] - '0';
    identifier->length = 0;
    if (root < 0 || root > 2 || text[1] != '.') return false;
    text += 2;
    if (!read_arc(&text, &arc)) return false;
    if (root < 2 && (arc.count > 1 || arc.digits[0] >= 40)) return false;
    if (!multiply_add(&arc, 128, 1, 40 * root) || !append_subidentifier(identifier, &arc)) return false;
    while (*text == '.') {
        text++;
        if (!read_arc(&text, &arc) || !append_subidentifier(identifier, &arc)) return false;
    }
    return *text == '\0';
}

static void print_decimal(const struct wide *wide) {
    size_t place = wide->count;
    while (place > 1 && wide->digits[place - 1] == 0) place--;
    if (place == 0) printf("0");
    while (place-- > 0) printf("%d", wide->digits[place]);
}

/* Takes the root arc out of a first subidentifier, and prints it. */
static void print_root(struct wide *first) {
    const int low = first->count > 2 ? 80 : first->digits[1] * 10 + first->digits[0];
    const int root = low < 80 ? low / 40 : 2;
    printf("%d", root);
    multiply_add(first, 10, 1, -40 * root);
}

/* Prints valid content of at most 32 octets in dotted form. */
static void print_dotted(struct part content) {
    struct wide arc = {.count = 0};
    bool first = true;
    for (size_t place = 0; place < content.length; place++) {
        multiply_add(&arc, 10, 128, content.octets[place] & 0x7F);
        if (content.octets[place] & 0x80) continue;
        if (first) print_root(&arc);
        printf(".");
        print_decimal(&arc);
        arc = (struct wide){.count = 0};
        first = false;
    }
}

/* The register: how many entries it has, and the one at a position. */
static size_t entries(const uint8_t *reg) {
    return (size_t)reg[SKANDRULO_REGISTER_COUNT] * 256 + reg[SKANDRULO_REGISTER_COUNT + 1];
}

static struct part entry(const uint8_t *reg, size_t position) {
    const uint8_t *length = reg + SKANDRULO_REGISTER_ENTRIES + SKANDRULO_REGISTER_ENTRY * position;
    return (struct part){length + 1, *length};
}

/* The user's policy, and anyPolicy. */
static const struct identifier any_policy = {{0x55, 0x1D, 0x20, 0x00}, 4};

static struct part content_of(const struct identifier *identifier) {
    return (struct part){identifier->octets, identifier->length};
}

/* The user's policy as a number. Where the register lacks it, no certificate of the path names it: it gets the number after
 * the last entry's, which stands in no certificate of the path either. */
static uint16_t user_number(const uint8_t *reg, const struct identifier *user) {
    size_t position = 0;
    if (same(content_of(user), content_of(&any_policy))) return ANY_POLICY;
    while (position < entries(reg) && !same(content_of(user), entry(reg, position))) position++;
    return (uint16_t)(FIRST_ENTRY + position);
}

/* Prints a policy of the user set: anyPolicy, an entry of the register, or the user's own that the register lacks. */
static void print_policy(const uint8_t *reg, const struct identifier *user, uint16_t policy) {
    if (policy == ANY_POLICY)
        printf("anyPolicy");
    else if ((size_t)(policy - FIRST_ENTRY) < entries(reg))
        print_dotted(entry(reg, policy - FIRST_ENTRY));
    else
        print_dotted(content_of(user));
}

/* A record, of which the first `length` places are used. Beside one user policy it has room for as many certificates as a path may have. */
struct record {
    uint16_t places[SKANDRULO_RECORD];
    size_t length;
};

static void print_skip(const char *name, uint16_t skip) {
    if (skip == 0)
        printf(", %s absent", name);
    else
        printf(", %s %d", name, skip - 1);
}

static void print_certificate(const char *name, const uint16_t *head) {
    printf("%s: %sself-issued", file_name(name), head[SKANDRULO_SELF_ISSUED] ? "" : "not ");
    printf(", policies %d, pairs %d", head[SKANDRULO_POLICIES], head[SKANDRULO_PAIRS]);
    print_skip("requireExplicitPolicy", head[SKANDRULO_REQUIRE_EXPLICIT_POLICY]);
    print_skip("inhibitPolicyMapping", head[SKANDRULO_INHIBIT_POLICY_MAPPING]);
    print_skip("inhibitAnyPolicy", head[SKANDRULO_INHIBIT_ANY_POLICY]);
    printf("\n");
}

/* Reads a file into a buffer of one byte more than a file may have. */
static struct part read_file(const char *name, uint8_t *buffer) {
    FILE *file = fopen(name, "rb");
    size_t length;
    if (file == NULL) stop(WRONG_CALL, name, "cannot be read");
    length = fread(buffer, 1, MOST_BYTES + 1, file);
    if (ferror(file)) stop(WRONG_CALL, name, "cannot be read");
    fclose(file);
    if (length > MOST_BYTES) stop(REFUSED, name, "has more than 64 KiB");
    return (struct part){buffer, length};
}

/* Appends a certificate: the library writes it at its place in the record, and each new identifier gets a number. The register
 * keeps the identifiers' octets, so the buffer is free for the next file. */
static void append_certificate(struct record *record, uint8_t *reg, const char *name) {
    static uint8_t buffer[MOST_BYTES + 1];
    struct certificate certificate;
    const struct part *values = certificate.values;
    uint16_t *next = record->places + record->length;
    uint32_t answer;

    if (!read_certificate(read_file(name, buffer), &certificate)) stop(REFUSED, name, "is no certificate in DER");
    answer = skandrulo_read_extensions(values[POLICIES].octets, values[POLICIES].length, values[MAPPINGS].octets,
                                       values[MAPPINGS].length, values[CONSTRAINTS].octets, values[CONSTRAINTS].length,
                                       values[INHIBIT_ANY].octets, values[INHIBIT_ANY].length, certificate.self_issued, reg,
                                       SKANDRULO_REGISTER, next, SKANDRULO_CERTIFICATE);
    if (number(answer) != 0) {
        printf("%s: refused with %u\n", file_name(name), number(answer));
        exit(REFUSED);
    }
    print_certificate(name, next);
    record->length += beside(answer);
    record->places[SKANDRULO_N]++;
}

/* Starts a record: the explicit policy flag, and a place for one user policy, whose number is known once all is read. */
static void start(struct record *record) {
    record->places[SKANDRULO_EXPLICIT_POLICY] = 1;
    record->places[SKANDRULO_USERS] = 1;
    record->length = SKANDRULO_HEAD + 1;
}

static void print_sheet(const uint8_t *sheet, size_t length) {
    printf("sheet");
    for (size_t place = 0; place < length; place++) printf(" %02X", (unsigned)sheet[place]);
    printf("\n");
}

/* Prints the verdict, the user set, which stands first in its table, where a 0 ends it, and the counters. */
static void print_answer(const uint8_t *reg, const struct identifier *user, uint32_t answer, const uint16_t *table,
                         const uint16_t *counters) {
    printf("verdict %u place %u\n", number(answer), beside(answer));
    printf("user");
    for (size_t place = 0; place < SKANDRULO_TABLE && table[place] != 0; place++) {
        printf(" ");
        print_policy(reg, user, table[place]);
    }
    printf("\ncounters %u %u %u\n", (unsigned)counters[SKANDRULO_COUNTER_EXPLICIT], (unsigned)counters[SKANDRULO_COUNTER_MAPPING],
           (unsigned)counters[SKANDRULO_COUNTER_ANY]);
}

/* Writes the sheet of a record's path, judges it, and prints both. */
static void judge(const struct record *record, const uint8_t *reg, const struct identifier *user) {
    static uint8_t sheet[SKANDRULO_SHEET_BYTES];
    static uint16_t authority[SKANDRULO_TABLE], table[SKANDRULO_TABLE], counts[SKANDRULO_DEPTHS],
        counters[SKANDRULO_COUNTERS];
    uint32_t written, answer;

    written = skandrulo_write_record(record->places, record->length, sheet, SKANDRULO_SHEET_BYTES);
    if (number(written) != 0) stop(REFUSED, "the record", "is refused");
    print_sheet(sheet, beside(written));
    answer = skandrulo_judge_sheet(sheet, beside(written), authority, SKANDRULO_TABLE, table, SKANDRULO_TABLE, counts,
                                   SKANDRULO_DEPTHS, counters, SKANDRULO_COUNTERS);
    if (skandrulo_refuses((uint8_t)number(answer))) stop(REFUSED, "the sheet", "is refused");
    print_answer(reg, user, answer, table, counters);
}

int main(int argc, char **argv) {
    static struct record record;
    static uint8_t reg[SKANDRULO_REGISTER];
    struct identifier user = any_policy;

    if (argc < 3 || argc > 2 + MOST_CERTIFICATES) stop(WRONG_CALL, "POLICY", "and 1 to 15 certificates are needed");
    if (strcmp(argv[1], "any") != 0 && !encode(argv[1], &user))
        stop(WRONG_CALL, argv[1], "is no policy identifier of at most 32 octets");
    start(&record);
    for (int place = 2; place < argc; place++) append_certificate(&record, reg, argv[place]);
    record.places[SKANDRULO_HEAD] = user_number(reg, &user);
    judge(&record, reg, &user);
    return EXIT_SUCCESS;
}
