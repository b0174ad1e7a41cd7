/* rule FILE [OPTION..]: may the key of the attestation extension in FILE be used like this, now, on this panel? `rule --help`
 * has the options. The ruling is the library's; this program chooses words and writes dates.
 *
 *   gcc -Wall -Wextra -Werror -Iinclude examples/c/rule.c target/staticlib/libsculldrip.a -o target/rule
 *   target/rule samples/document01.der --clock 1970-01-01T00:00:00Z
 *
 * It answers 0 where the use is permitted, 1 where it is refused, and 2 where there is nothing to rule on or the ruling could
 * not be written. */
#define _POSIX_C_SOURCE 200809L /* clock_gettime */
#include <inttypes.h>
#include <stdio.h>
#include <stdlib.h>
#include <string.h>
#include <time.h>

#include "sculldrip.h"

enum { PERMITTED = 0, REFUSED = 1, NOTHING_TO_RULE_ON = 2 };

#define MS_A_DAY UINT64_C(86400000)
#define DATE_BYTES 48

/* Document 01's floor. */
#define DEFAULT_FLOOR UINT64_C(1600000000000)

struct name {
    const char *text;
    uint64_t number;
};

static const struct name purposes[] = {{"sign", SCULLDRIP_PURPOSE_SIGN},
                                       {"decrypt", SCULLDRIP_PURPOSE_DECRYPT},
                                       {"agree", SCULLDRIP_PURPOSE_AGREE_KEY},
                                       {"attest", SCULLDRIP_PURPOSE_ATTEST_KEY},
                                       {NULL, 0}};
static const struct name digests[] = {{"sha256", SCULLDRIP_DIGEST_SHA_2_256}, {"sha384", SCULLDRIP_DIGEST_SHA_2_384},
                                      {"sha512", SCULLDRIP_DIGEST_SHA_2_512}, {"sha224", SCULLDRIP_DIGEST_SHA_2_224},
                                      {"sha1", SCULLDRIP_DIGEST_SHA1},        {"md5", SCULLDRIP_DIGEST_MD5},
                                      {"none", SCULLDRIP_DIGEST_NONE},        {NULL, 0}};
static const struct name paddings[] = {{"none", SCULLDRIP_PADDING_NONE},
                                       {"pss", SCULLDRIP_PADDING_RSA_PSS},
                                       {"pkcs1-sign", SCULLDRIP_PADDING_RSA_PKCS1_SIGN},
                                       {"oaep", SCULLDRIP_PADDING_RSA_OAEP},
                                       {"pkcs1-encrypt", SCULLDRIP_PADDING_RSA_PKCS1_ENCRYPT},
                                       {NULL, 0}};

/* The bits of a mark, from 0. */
static const char *const rules[] = {"purpose [1]",
                                    "algorithm [2]",
                                    "padding [6]",
                                    "digest [5]",
                                    "key size [3]",
                                    "start date [400]",
                                    "expiry date for signing and attesting [401]",
                                    "expiry date for decrypting and agreeing [402]",
                                    "authentication of the user [504]",
                                    "how long an authentication counts [505]",
                                    "device unlocked [509]",
                                    "user present [507]",
                                    "user's confirmation [508]",
                                    "early boot only [305]",
                                    "limit of uses [405]",
                                    "no authentication needed [503]"};

static const struct {
    unsigned row;
    const char *what;
} dates[] = {{SCULLDRIP_ROW_ACTIVE_DATE_TIME, "start date [400]"},
             {SCULLDRIP_ROW_ORIGINATION_EXPIRE_DATE_TIME, "expiry date for signing and attesting [401]"},
             {SCULLDRIP_ROW_USAGE_EXPIRE_DATE_TIME, "expiry date for decrypting and agreeing [402]"},
             {SCULLDRIP_ROW_CREATION_DATE_TIME, "key made [701]"}};
#define DATES (sizeof dates / sizeof dates[0])

/* What was asked for, and what was left to the program. */
struct question {
    const char *path;
    uint64_t request[SCULLDRIP_REQUEST_WORDS];
    int has_digest, has_padding, has_clock, has_floor, has_uses;
};

struct extension {
    uint8_t bytes[SCULLDRIP_EXTENSION_BYTES + 1]; /* one more, so that a file that is too long is seen */
    size_t length;
    uint64_t image[SCULLDRIP_IMAGE_WORDS];
};

/* ---- Dates ---- */

static int is_leap(uint64_t year) { return year % 4 == 0 && (year % 100 != 0 || year % 400 == 0); }

static uint64_t days_of_month(uint64_t year, unsigned month) {
    static const uint8_t days[] = {31, 28, 31, 30, 31, 30, 31, 31, 30, 31, 30, 31};
    return days[month - 1] + (month == 2 && is_leap(year) ? 1u : 0u);
}

/* How many days the years before this one have, from the year 1 on. */
static uint64_t days_before(uint64_t year) {
    uint64_t years = year - 1;
    return 365 * years + years / 4 - years / 100 + years / 400;
}

/* Any number of ms since 1970 in UTC. From the year 10000 on with a plus before it, as ISO 8601 has it. */
static const char *date_of(uint64_t ms, char *text) {
    uint64_t days = ms / MS_A_DAY + days_before(1970), rest = ms % MS_A_DAY;
    uint64_t year = days / 366 + 1; /* not past it, and near */
    unsigned month = 1;
    year += (days - days_before(year)) / 366;
    while (days_before(year + 1) <= days)
        year++;
    days -= days_before(year);
    while (days >= days_of_month(year, month))
        days -= days_of_month(year, month++);
    snprintf(text, DATE_BYTES, "%s%04" PRIu64 "-%02u-%02uT%02u:%02u:%02u.%03uZ", year > 9999 ? "+" : "", year, month,
             (unsigned)days + 1, (unsigned)(rest / 3600000), (unsigned)(rest / 60000 % 60), (unsigned)(rest / 1000 % 60),
             (unsigned)(rest % 1000));
    return text;
}

/* Digits, at most so many, as a number; what follows them is left in *text. */
static int take_number(const char **text, size_t most, uint64_t *number) {
    size_t count = strspn(*text, "0123456789"), i;
    if (count == 0 || count > most)
        return 0;
    for (*number = 0, i = 0; i < count; i++)
        *number = 10 * *number + (uint64_t)(*(*text)++ - '0');
    return 1;
}

static int take(const char **text, char character) {
    if (**text != character)
        return 0;
    (*text)++;
    return 1;
}

/* hh:mm, hh:mm:ss or hh:mm:ss.mmm, as ms. */
static int take_time(const char **text, uint64_t *ms) {
    uint64_t hours, minutes, seconds = 0, thousandths = 0;
    if (!take_number(text, 2, &hours) || !take(text, ':') || !take_number(text, 2, &minutes))
        return 0;
    if (take(text, ':') && !take_number(text, 2, &seconds))
        return 0;
    if (take(text, '.') && (strspn(*text, "0123456789") != 3 || !take_number(text, 3, &thousandths)))
        return 0;
    *ms = ((hours * 60 + minutes) * 60 + seconds) * 1000 + thousandths;
    return hours < 24 && minutes < 60 && seconds < 60;
}

/* 2021-01-01, with a time behind a T, and a Z at the end; up to the last ms of 64 bits, in the year 584,556,019. */
static int date_from(const char *text, uint64_t *ms) {
    uint64_t year, month, day, time_of_day = 0, days;
    unsigned before;
    take(&text, '+');
    if (!take_number(&text, 9, &year) || !take(&text, '-') || !take_number(&text, 2, &month) || !take(&text, '-') ||
        !take_number(&text, 2, &day) || year < 1970 || month < 1 || month > 12 || day < 1 ||
        day > days_of_month(year, (unsigned)month))
        return 0;
    if (take(&text, 'T') && (!take_time(&text, &time_of_day) || *text != 'Z'))
        return 0;
    take(&text, 'Z');
    days = days_before(year) - days_before(1970) + day - 1;
    for (before = 1; before < month; before++)
        days += days_of_month(year, before);
    *ms = days * MS_A_DAY + time_of_day;
    return *text == '\0' && days <= UINT64_MAX / MS_A_DAY && *ms >= time_of_day;
}

static uint64_t now(void) {
    struct timespec time;
    return clock_gettime(CLOCK_REALTIME, &time) == 0 && time.tv_sec >= 0
               ? (uint64_t)time.tv_sec * 1000 + (uint64_t)time.tv_nsec / 1000000
               : 0;
}

/* ---- The words of a command ---- */

static const char usage[] =
    "usage: rule FILE [OPTION..]: may the key of the attestation extension in FILE be used like this?\n"
    "  --clock TIME       what the panel's clock says: 2021-01-01T00:00:00Z, 2021-01-01, or ms since 1970 (default: now)\n"
    "  --floor TIME       a moment that is known to have passed (default: 2020-09-13T12:26:40Z)\n"
    "  --purpose WORD     sign (default), decrypt, agree or attest\n"
    "  --digest WORD      none, md5, sha1, sha224, sha256, sha384 or sha512 (default: as the key's lists allow)\n"
    "  --padding WORD     none, oaep, pss, pkcs1-encrypt or pkcs1-sign (default: as the key's lists allow)\n"
    "What is not said of the panel is taken to be against the use:\n"
    "  --unlocked         the device is unlocked\n"
    "  --present          the user is present\n"
    "  --confirmed        the user has confirmed\n"
    "  --early-boot       early boot is not over\n"
    "  --uses NUMBER      how often the key has been used\n"
    "  --token BITS       the user was authenticated, by these types\n"
    "  --token-age MS     so long ago\n"
    "  --token-matches    for this very operation\n"
    "A purpose, digest or padding may also be its number. Exit status: 0 permitted, 1 refused, 2 nothing to rule on (as after\n"
    "--help), or the ruling could not be written.\n";

static void stop(const char *what, const char *about) {
    fprintf(stderr, "rule: %s: %s\n", about, what);
    exit(NOTHING_TO_RULE_ON);
}

/* Any number of 64 bits. */
static uint64_t number_from(const char *option, const char *text) {
    static const char largest[] = "18446744073709551615";
    size_t length = strlen(text);
    int fits = length < 20 || (length == 20 && strcmp(text, largest) <= 0);
    if (length == 0 || strspn(text, "0123456789") != length || !fits)
        stop("no such number or word", option);
    return strtoull(text, NULL, 10);
}

static uint64_t named(const char *option, const char *text, const struct name *names) {
    for (; names->text != NULL; names++)
        if (strcmp(text, names->text) == 0)
            return names->number;
    return number_from(option, text);
}

static uint64_t time_from(const char *option, const char *text) {
    uint64_t ms;
    return date_from(text, &ms) ? ms : number_from(option, text);
}

/* An option that says something by itself. */
static int said(struct question *question, const char *option) {
    if (strcmp(option, "--unlocked") == 0)
        question->request[SCULLDRIP_REQUEST_DEVICE_LOCKED] = 0;
    else if (strcmp(option, "--present") == 0)
        question->request[SCULLDRIP_REQUEST_USER_PRESENT] = 1;
    else if (strcmp(option, "--confirmed") == 0)
        question->request[SCULLDRIP_REQUEST_USER_CONFIRMED] = 1;
    else if (strcmp(option, "--early-boot") == 0)
        question->request[SCULLDRIP_REQUEST_EARLY_BOOT_OVER] = 0;
    else if (strcmp(option, "--token-matches") == 0)
        question->request[SCULLDRIP_REQUEST_TOKEN_CHALLENGE] = question->request[SCULLDRIP_REQUEST_OPERATION_HANDLE];
    else
        return 0;
    return 1;
}

/* An option with a word behind it. */
static int said_with(struct question *question, const char *option, const char *word) {
    uint64_t *request = question->request;
    if (strcmp(option, "--clock") == 0) {
        request[SCULLDRIP_REQUEST_CLOCK] = time_from(option, word);
        question->has_clock = 1;
    } else if (strcmp(option, "--floor") == 0) {
        request[SCULLDRIP_REQUEST_CLOCK_FLOOR] = time_from(option, word);
        question->has_floor = 1;
    } else if (strcmp(option, "--purpose") == 0) {
        request[SCULLDRIP_REQUEST_PURPOSE] = named(option, word, purposes);
    } else if (strcmp(option, "--digest") == 0) {
        request[SCULLDRIP_REQUEST_DIGEST] = named(option, word, digests);
        question->has_digest = 1;
    } else if (strcmp(option, "--padding") == 0) {
        request[SCULLDRIP_REQUEST_PADDING] = named(option, word, paddings);
        question->has_padding = 1;
    } else if (strcmp(option, "--uses") == 0) {
        request[SCULLDRIP_REQUEST_USES_SO_FAR] = number_from(option, word);
        question->has_uses = 1;
    } else if (strcmp(option, "--token") == 0) {
        request[SCULLDRIP_REQUEST_HAS_TOKEN] = 1;
        request[SCULLDRIP_REQUEST_TOKEN_TYPE] = number_from(option, word);
    } else if (strcmp(option, "--token-age") == 0) {
        request[SCULLDRIP_REQUEST_UPTIME] = number_from(option, word);
        request[SCULLDRIP_REQUEST_TOKEN_UPTIME] = 0;
    } else {
        return 0;
    }
    return 1;
}

static struct question asked(int count, char **words) {
    struct question question = {0};
    int i;
    sculldrip_strict_request(question.request);
    question.request[SCULLDRIP_REQUEST_PURPOSE] = SCULLDRIP_PURPOSE_SIGN;
    question.request[SCULLDRIP_REQUEST_CLOCK] = now();
    question.request[SCULLDRIP_REQUEST_CLOCK_FLOOR] = DEFAULT_FLOOR;
    for (i = 1; i < count; i++) {
        if (strcmp(words[i], "--help") == 0) {
            fputs(usage, stdout);
            exit(NOTHING_TO_RULE_ON);
        }
        if (said(&question, words[i]))
            continue;
        if (strncmp(words[i], "--", 2) != 0 && question.path == NULL) {
            question.path = words[i];
        } else if (i + 1 < count && said_with(&question, words[i], words[i + 1])) {
            i++;
        } else {
            stop("not understood; rule --help has the options", words[i]);
        }
    }
    if (question.path == NULL)
        stop("which file? rule --help has the options", "FILE");
    return question;
}

/* ---- Words for the ruling ---- */

/* Words of a text, broken before column 100 and set in. */
static void print_words(const char *text) {
    size_t column = 0;
    while (*text != '\0') {
        size_t length = strcspn(text, " ");
        if (column > 0 && column + 1 + length > 96) {
            putchar('\n');
            column = 0;
        }
        printf("%s%.*s", column == 0 ? "    " : " ", (int)length, text);
        column += length + 1;
        text += length + strspn(text + length, " ");
    }
    putchar('\n');
}

static const char *name_of(const struct name *names, uint64_t number, char *room) {
    for (; names->text != NULL; names++)
        if (names->number == number)
            return names->text;
    snprintf(room, DATE_BYTES, "number %" PRIu64, number);
    return room;
}

static void print_time(const char *what, uint64_t ms, const char *note) {
    char date[DATE_BYTES];
    printf("%s%s (%" PRIu64 " ms)%s\n", what, date_of(ms, date), ms, note);
}

/* Where digest and padding, of which not all was said, come from: past 34 the lists allow them. */
static const char *choice(const struct question *question, unsigned number) {
    if (question->has_digest && question->has_padding)
        return "";
    return number == 0 || number > SCULLDRIP_REFUSED_DIGEST_NOT_ALLOWED ? " (what was not said: as the key's lists allow)"
                                                                        : " (what was not said: chosen here)";
}

static void print_question(const struct question *question, unsigned number) {
    const uint64_t *request = question->request;
    char purpose[DATE_BYTES], digest[DATE_BYTES], padding[DATE_BYTES];
    printf("Asked:  %s", name_of(purposes, request[SCULLDRIP_REQUEST_PURPOSE], purpose));
    if (request[SCULLDRIP_REQUEST_PURPOSE] != SCULLDRIP_PURPOSE_AGREE_KEY &&
        request[SCULLDRIP_REQUEST_PURPOSE] != SCULLDRIP_PURPOSE_ATTEST_KEY)
        printf(", digest %s, padding %s%s", name_of(digests, request[SCULLDRIP_REQUEST_DIGEST], digest),
               name_of(paddings, request[SCULLDRIP_REQUEST_PADDING], padding), choice(question, number));
    print_time("\nClock:  ", request[SCULLDRIP_REQUEST_CLOCK], question->has_clock ? "" : ", this machine's");
    print_time("Floor:  ", request[SCULLDRIP_REQUEST_CLOCK_FLOOR],
               question->has_floor ? "" : ", as none was given: a clock before it is wrong");
    printf("Panel:  %s, user %spresent, %sconfirmed, early boot %sover, ",
           request[SCULLDRIP_REQUEST_DEVICE_LOCKED] ? "locked" : "unlocked",
           request[SCULLDRIP_REQUEST_USER_PRESENT] ? "" : "not ", request[SCULLDRIP_REQUEST_USER_CONFIRMED] ? "" : "not ",
           request[SCULLDRIP_REQUEST_EARLY_BOOT_OVER] ? "" : "not ");
    if (request[SCULLDRIP_REQUEST_HAS_TOKEN])
        printf("user authenticated by types %" PRIu64 ", ", request[SCULLDRIP_REQUEST_TOKEN_TYPE]);
    else
        printf("user not authenticated, ");
    if (question->has_uses)
        printf("used %" PRIu64 " times\n", request[SCULLDRIP_REQUEST_USES_SO_FAR]);
    else
        printf("uses not said, so none left\n");
}

static const char *list_name(unsigned list) { return list == SCULLDRIP_SOFTWARE ? "software" : "hardware"; }

static void print_dates(const uint64_t *image) {
    unsigned i, found = 0;
    uint64_t ms;
    char date[DATE_BYTES];
    printf("Dates of the key:\n");
    for (i = 0; i < 2 * DATES; i++) {
        if (!sculldrip_number_field(image, i % 2, dates[i / 2].row, &ms))
            continue;
        found++;
        printf("    %s list: %s: %s (%" PRIu64 " ms)\n", list_name(i % 2), dates[i / 2].what, date_of(ms, date), ms);
    }
    if (found == 0)
        printf("    none, in neither list\n");
}

static void print_permit(const uint64_t *request, const uint64_t *image, const uint64_t *permit) {
    unsigned bit;
    printf("\nPERMITTED\n\n    Each rule that was applied, and who enforces it:\n");
    for (bit = 0; bit < 16; bit++) {
        int is_hardware = (int)(permit[SCULLDRIP_PERMIT_HARDWARE] >> bit & 1);
        int is_software = (int)(permit[SCULLDRIP_PERMIT_SOFTWARE] >> bit & 1);
        if (is_hardware || is_software)
            printf("    %-46s %s%s%s\n", rules[bit], is_hardware ? "hardware" : "",
                   is_hardware && is_software ? " and " : "", is_software ? "software" : "");
    }
    if (sculldrip_attestation_level(image) == SCULLDRIP_LEVEL_SOFTWARE ||
        sculldrip_keymint_level(image) == SCULLDRIP_LEVEL_SOFTWARE)
        print_words("A security level of the key is Software, so nothing counts as enforced by hardware.");
    if (request[SCULLDRIP_REQUEST_CLOCK] < request[SCULLDRIP_REQUEST_CLOCK_FLOOR]) {
        putchar('\n');
        print_words("The clock is before the floor, so it is wrong. No date of the key applies to this use: the clock was not "
                    "judged.");
    }
}

/* Whether a date, of this row, is why the ruling gave this number. */
static int is_reason(unsigned number, unsigned row, const uint64_t *request, uint64_t ms) {
    uint64_t purpose = request[SCULLDRIP_REQUEST_PURPOSE], clock = request[SCULLDRIP_REQUEST_CLOCK];
    int is_making = purpose == SCULLDRIP_PURPOSE_SIGN || purpose == SCULLDRIP_PURPOSE_ATTEST_KEY;
    switch (row) {
    case SCULLDRIP_ROW_ACTIVE_DATE_TIME:
        return number == SCULLDRIP_REFUSED_NOT_YET_ACTIVE && clock < ms;
    case SCULLDRIP_ROW_ORIGINATION_EXPIRE_DATE_TIME:
        return number == SCULLDRIP_REFUSED_EXPIRED && is_making && clock > ms;
    case SCULLDRIP_ROW_USAGE_EXPIRE_DATE_TIME:
        return number == SCULLDRIP_REFUSED_EXPIRED && !is_making && clock > ms;
    default:
        return 0;
    }
}

/* What a refusal for a date is about, in these very dates. */
static void print_reasons(const uint64_t *request, const uint64_t *image, unsigned number) {
    char clock[DATE_BYTES], date[DATE_BYTES], text[512];
    uint64_t ms;
    unsigned i;
    date_of(request[SCULLDRIP_REQUEST_CLOCK], clock);
    if (number == SCULLDRIP_REFUSED_CLOCK_BELOW_FLOOR) {
        snprintf(text, sizeof text,
                 "Here: the clock says %s. That is before %s, which is known to have passed: the clock is wrong, and a date "
                 "that it gives means nothing.",
                 clock, date_of(request[SCULLDRIP_REQUEST_CLOCK_FLOOR], date));
        print_words(text);
    }
    for (i = 0; i < 2 * DATES; i++)
        if (sculldrip_number_field(image, i % 2, dates[i / 2].row, &ms) &&
            is_reason(number, dates[i / 2].row, request, ms)) {
            snprintf(text, sizeof text, "Here: the clock says %s, and the %s list has %s: %s.", clock, list_name(i % 2),
                     dates[i / 2].what, date_of(ms, date));
            print_words(text);
        }
}

static void print_refusal(const uint64_t *request, const uint64_t *image, unsigned number) {
    char text[640];
    printf("\nREFUSED, %u: %s\n\n", number, sculldrip_name(number));
    print_words(sculldrip_sentence(number));
    print_reasons(request, image, number);
    snprintf(text, sizeof text, "What to do: %s", sculldrip_advice(number));
    print_words(text);
}

/* ---- The ruling ---- */

static void load(const char *path, struct extension *extension) {
    FILE *file = fopen(path, "rb");
    uint64_t answer;
    int is_read;
    if (file == NULL) {
        perror(path);
        exit(NOTHING_TO_RULE_ON);
    }
    extension->length = fread(extension->bytes, 1, sizeof extension->bytes, file);
    is_read = !ferror(file);
    fclose(file);
    if (!is_read)
        stop("cannot be read", path);
    answer = sculldrip_read(extension->bytes, extension->length, extension->image, SCULLDRIP_IMAGE_WORDS);
    if (sculldrip_number(answer) != 0) {
        unsigned number = sculldrip_number(answer);
        printf("%s: no attestation extension, so there is nothing to rule on.\n\nREFUSED, %u at byte %" PRIu64 ": %s\n\n", path,
               number, sculldrip_rest(answer), sculldrip_name(number));
        print_words(sculldrip_sentence(number));
        print_words(sculldrip_advice(number));
        exit(NOTHING_TO_RULE_ON);
    }
}

static unsigned rule(const uint64_t *image, const uint64_t *request, uint64_t *permit) {
    return sculldrip_number(sculldrip_rule(image, SCULLDRIP_IMAGE_WORDS, request, SCULLDRIP_REQUEST_WORDS, permit,
                                           SCULLDRIP_PERMIT_WORDS));
}

/* The digest and the padding that were not said: the first pair that the ruling permits, or else lets furthest, the checks
 * being in the order of their numbers. */
static void choose(struct question *question, const uint64_t *image) {
    const struct name *digest, *padding;
    uint64_t permit[SCULLDRIP_PERMIT_WORDS], best[SCULLDRIP_REQUEST_WORDS];
    unsigned furthest = 0;
    for (padding = paddings; padding->text != NULL; padding++)
        for (digest = digests; digest->text != NULL; digest++) {
            unsigned number;
            if (!question->has_digest)
                question->request[SCULLDRIP_REQUEST_DIGEST] = digest->number;
            if (!question->has_padding)
                question->request[SCULLDRIP_REQUEST_PADDING] = padding->number;
            number = rule(image, question->request, permit);
            number = number == 0 ? UINT8_MAX + 1 : number;
            if (number > furthest) {
                furthest = number;
                memcpy(best, question->request, sizeof best);
            }
        }
    memcpy(question->request, best, sizeof best);
}

static const char *level_name(uint32_t level) {
    return level == SCULLDRIP_LEVEL_SOFTWARE              ? "Software"
           : level == SCULLDRIP_LEVEL_TRUSTED_ENVIRONMENT ? "TrustedEnvironment"
           : level == SCULLDRIP_LEVEL_STRONGBOX           ? "StrongBox"
                                                          : "unknown";
}

int main(int count, char **words) {
    static struct extension extension;
    struct question question = asked(count, words);
    uint64_t permit[SCULLDRIP_PERMIT_WORDS];
    const uint64_t *image = extension.image;
    unsigned number;
    load(question.path, &extension);
    choose(&question, image);
    number = rule(image, question.request, permit);
    printf("Key:    %s, version %" PRIu32 ", levels %s and %s\n", question.path, sculldrip_attestation_version(image),
           level_name(sculldrip_attestation_level(image)), level_name(sculldrip_keymint_level(image)));
    print_question(&question, number);
    print_dates(image);
    if (number == 0)
        print_permit(question.request, image, permit);
    else
        print_refusal(question.request, image, number);
    if (fflush(stdout) != 0 || ferror(stdout)) {
        perror("rule: standard output");
        return NOTHING_TO_RULE_ON;
    }
    return number == 0 ? PERMITTED : REFUSED;
}
