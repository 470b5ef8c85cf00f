/* The policy judge for C. Link target/staticlib/libjudge.a, which `bin/library judge` writes (x86-64 Linux). The functions for sheets that arrive
 * in pieces, at the end, are in target/staticlib/libpieces.a, which `bin/library pieces` writes; a program may link both.
 *
 * Each slice is a pointer and the number of its elements. A pointer may not be null, also where the length is 0, a slice that is written
 * may not overlap another, and each must have as many elements as its length says. Nothing else is asked: any bytes may come in, and a
 * slice that is too short is answered and never overrun. What each function promises is proved; see docs/PROMISES.md.
 */
#ifndef SKANDRULO_JUDGE_H
#define SKANDRULO_JUDGE_H

#include <stddef.h>
#include <stdint.h>

/* The most certificates of a path, and the most user policies, policies and mapping pairs of a list. */
#define SKANDRULO_CERTIFICATES 15
#define SKANDRULO_LISTED 31

/* The places that a lent table needs, the depth counts, the counters, the bytes that the writer's buffer needs, the places of the longest record and
 * of the longest certificate in one, and the bytes of a register.
 */
#define SKANDRULO_TABLE 899
#define SKANDRULO_DEPTHS 16
#define SKANDRULO_COUNTERS 3
#define SKANDRULO_SHEET_BYTES 2929
#define SKANDRULO_RECORD 1521
#define SKANDRULO_CERTIFICATE 99
#define SKANDRULO_REGISTER 17922

/* The bytes of a state that keeps a sheet which arrives in pieces. */
#define SKANDRULO_STATE 2932

/* The places of the counters explicit_policy, policy_mapping and inhibit_anyPolicy. */
enum { SKANDRULO_COUNTER_EXPLICIT, SKANDRULO_COUNTER_MAPPING, SKANDRULO_COUNTER_ANY };

/* Judges a sheet. Returns the number of document 01's table plus 256 times the place.
 *
 * 7, where `authority` or `user` has fewer than SKANDRULO_TABLE places, `counts` fewer than SKANDRULO_DEPTHS or `counters` fewer than
 * SKANDRULO_COUNTERS: nothing is written.
 * 1 to 6 and 11: the sheet is refused; both tables are as they were, and the first SKANDRULO_DEPTHS places of `counts` and the first
 * SKANDRULO_COUNTERS of `counters` are 0. 11 is a mapping pair that repeats within one certificate, given when its second subject is read: there 1
 * comes first, then 4, then 11.
 * 8 and 9: both tables are all zero, and so are the counts; `counters` has the counters as they stood when the certificate named was tested, before its
 * mappings and its skip values. 9 names a certificate before the last: the last one's mappings are ignored.
 * 0 and 10: each table holds its set first, ascending with no repeats, and zeros to its end; `counts` has the number of
 * policies at each depth, and `counters` the counters as the end rules left them. A counter is at most n + 1, and at an 8 or a 10 explicit_policy is 0.
 * Places of `counts` beyond SKANDRULO_DEPTHS, and of `counters` beyond SKANDRULO_COUNTERS, are as they were.
 *
 * So the counters are zero after every refusal but 7, which leaves the slice alone: a caller who lends zeros has zeros then too.
 */
uint32_t skandrulo_judge_sheet(const uint8_t *sheet, size_t sheet_len, uint16_t *authority, size_t authority_len,
                               uint16_t *user, size_t user_len, uint16_t *counts, size_t counts_len, uint16_t *counters,
                               size_t counters_len);

/* Whether the judge refuses with this number: 1 for 1 to 7 and 11, and 0 for any other. The number is what a function returned, modulo 256; of those that
 * judge every other is a verdict. It is not for skandrulo_read_extensions, which refuses with each number but 0, some of them its own.
 */
uint8_t skandrulo_refuses(uint8_t number);

/* Reads a sheet and writes its path again. Returns the refusal, 1 to 6 or 11, or 256 times the sheet's length.
 *
 * 7, where `buffer` has fewer than SKANDRULO_SHEET_BYTES bytes, comes first. After a refusal the buffer is as it was. Otherwise it holds
 * the sheet first, the same bytes that came in, and is as it was beyond them.
 */
uint32_t skandrulo_rewrite_sheet(const uint8_t *sheet, size_t sheet_len, uint8_t *buffer, size_t buffer_len);

/* A record: a path as numbers one after the other, with no unused places between them.
 *
 *     n, the certificates                  1 to SKANDRULO_CERTIFICATES
 *     mapping inhibit                      0 or 1
 *     explicit policy                      0 or 1
 *     anyPolicy inhibit                    0 or 1
 *     the number of user policies          0 to SKANDRULO_LISTED
 *     the user policies
 *     for each certificate, from the one that the trust anchor issued:
 *         self-issued                      0 or 1
 *         the number of its policies       0 to SKANDRULO_LISTED, 0 being absence
 *         the number of its mapping pairs  0 to SKANDRULO_LISTED, 0 being absence
 *         requireExplicitPolicy            0 if absent, else the value and 1
 *         inhibitPolicyMapping             0 if absent, else the value and 1
 *         inhibitAnyPolicy                 0 if absent, else the value and 1
 *         its policies
 *         the issuer policies of its pairs
 *         their subject policies, in the same order
 *
 * Any numbers may stand in a record that is handed over. A flag that is not 0 is set, a skip value above 255 counts as 255, and
 * numbers after the record never matter. The refusals come in the sheet's field order: 3 where n or a count is out of its limits or the
 * record is too short for a head or for what a count says, 4 where a policy is 0, 5 where a policy repeats within one certificate's
 * policies, 11 where a pair repeats within one certificate's pairs, at its second subject and after 4.
 */

/* The places of a record's head, and of a certificate's, counted from its own start; the lists follow the head. */
enum {
    SKANDRULO_N,
    SKANDRULO_MAPPING_INHIBIT,
    SKANDRULO_EXPLICIT_POLICY,
    SKANDRULO_ANY_POLICY_INHIBIT,
    SKANDRULO_USERS,
    SKANDRULO_HEAD
};
enum {
    SKANDRULO_SELF_ISSUED,
    SKANDRULO_POLICIES,
    SKANDRULO_PAIRS,
    SKANDRULO_REQUIRE_EXPLICIT_POLICY,
    SKANDRULO_INHIBIT_POLICY_MAPPING,
    SKANDRULO_INHIBIT_ANY_POLICY,
    SKANDRULO_CERTIFICATE_HEAD
};

/* Judges the path of a record. The result and the four slices are those of skandrulo_judge_sheet on the path's sheet; the refusals are
 * 7, and then 3, 4, 5 and 11.
 */
uint32_t skandrulo_judge_record(const uint16_t *record, size_t record_len, uint16_t *authority, size_t authority_len,
                                uint16_t *user, size_t user_len, uint16_t *counts, size_t counts_len, uint16_t *counters,
                                size_t counters_len);

/* Writes the sheet of a record's path. Returns the refusal, or 256 times the sheet's length.
 *
 * 7, where `buffer` has fewer than SKANDRULO_SHEET_BYTES bytes, comes first; then 3, 4, 5 and 11. After a refusal the buffer is as it was.
 * Otherwise it holds the sheet first, and is as it was beyond it.
 */
uint32_t skandrulo_write_record(const uint16_t *record, size_t record_len, uint8_t *buffer, size_t buffer_len);

/* Reads a sheet into the record of its path. Returns the refusal, or 256 times the number of places that the record takes.
 *
 * 7, where `record` has fewer than SKANDRULO_RECORD places, comes first; then 1 to 6 and 11. After a refusal the record is as it was. Otherwise
 * it holds the path's record first, with flags of 0 and 1, and is as it was beyond it.
 */
uint32_t skandrulo_read_record(const uint8_t *sheet, size_t sheet_len, uint16_t *record, size_t record_len);

/* A register: the policy identifiers that have a number, the content octets of each. SKANDRULO_REGISTER bytes, all of them 0 when it is empty.
 *
 *     bytes 0 and 1                   the number of entries, 0 to 512, the high byte first
 *     bytes 2 + 2 i and 3 + 2 i       the position of the entry that is the i-th in ascending order, the high byte first
 *     byte 1026 + 33 k                the length of the entry at position k, 1 to 32
 *     bytes 1027 + 33 k and after     its octets
 *
 * The entry at position k has policy number k + 2. anyPolicy, 55 1D 20 00 hex, is always 1 and is no entry. Each entry is valid content of a DER
 * identifier, and no two are alike: in ascending order, octet by octet, with what another starts with before it, each is above the one before it. Bytes
 * beyond the entries and beyond an entry's length never matter.
 */
enum {
    SKANDRULO_REGISTER_COUNT = 0,
    SKANDRULO_REGISTER_ORDER = 2,
    SKANDRULO_REGISTER_ENTRIES = 1026,
    SKANDRULO_REGISTER_ENTRY = 33
};

/* Reads a certificate's extensions: the values of certificatePolicies, policyMappings, policyConstraints and inhibitAnyPolicy, that is the content of
 * each extnValue. A value of length 0 says that the extension is absent: a caller that meets an extension with an empty value has to refuse it itself.
 * `self_issued` is set where it is not 0.
 * Returns the refusal, or 256 times the number of places that the certificate takes.
 *
 * 7, where `reg` has fewer than SKANDRULO_REGISTER bytes or `certificate` fewer than SKANDRULO_CERTIFICATE places, comes first: nothing is written.
 * 20, where the register is not as said above, comes next. Then the values are read in the order named, each from its first octet to its last, and the
 * first fault is given: 13 for anything but DER of the extension's type, a negative skip value included; 3 for an empty list of policies or pairs,
 * and beyond SKANDRULO_LISTED of them; 15 for an identifier of more than 32 octets; 14 where a new identifier is needed and 512 stand; 5 where a policy repeats;
 * 11 where a pair repeats, at its second subject. Of one identifier 13 comes first, then 3, 15, 14, and then 5 or 11. Qualifiers are checked and dropped. A skip
 * value above 255 is 255.
 *
 * After 3, 5, 11, 13, 14, 15 and 20 the register is as it was and the first SKANDRULO_CERTIFICATE places of `certificate` are 0. After 0 they hold the
 * certificate as it stands in a record, and zeros after it, and each identifier that is new has the next number: its entry is written, its position
 * inserted in the order, and the number of entries raised; the other bytes of the register are as they were.
 */
uint32_t skandrulo_read_extensions(const uint8_t *policies, size_t policies_len, const uint8_t *mappings, size_t mappings_len,
                                   const uint8_t *constraints, size_t constraints_len, const uint8_t *inhibit_any, size_t inhibit_any_len,
                                   uint8_t self_issued, uint8_t *reg, size_t reg_len, uint16_t *certificate, size_t certificate_len);

/* A sheet that arrives in pieces is kept in a state: SKANDRULO_STATE bytes, all of them 0 when it is fresh. The first two are the number of bytes kept,
 * the high byte first; then these follow, and zeros after them. It keeps the first SKANDRULO_SHEET_BYTES + 1 bytes: no byte after those changes an
 * answer. Any bytes are a state: a number above the places counts as all of them, and places after the bytes kept count for nothing.
 *
 * Each of the three functions answers 7 first where `state` has another number of bytes than SKANDRULO_STATE, and then writes nothing at all.
 */

/* Makes a state fresh. Returns 0. */
uint32_t skandrulo_fresh(uint8_t *state, size_t state_len);

/* Takes a piece, which may be empty: the state is then that of the bytes kept so far followed by the piece, with zeros after them. Returns 0, also where
 * the bytes are no sheet or are too many: refusals are the finish's.
 */
uint32_t skandrulo_feed(uint8_t *state, size_t state_len, const uint8_t *piece, size_t piece_len);

/* Finishes the sheet. The result and the four slices are those of skandrulo_judge_sheet on the bytes kept, and so, where the state was fresh before the
 * first piece, on the pieces joined together; 7 for a short slice comes first. With no piece that is the empty sheet, 1. Whatever the judge answered, the
 * state is fresh then and serves for the next sheet.
 */
uint32_t skandrulo_finish(uint8_t *state, size_t state_len, uint16_t *authority, size_t authority_len, uint16_t *user, size_t user_len,
                          uint16_t *counts, size_t counts_len, uint16_t *counters, size_t counters_len);

#endif
