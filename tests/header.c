/* Tests what the header itself defines, and that C and C++ alike compile it without a warning and link the library: tests/run
 * compiles this file as both. The first argument is the version that CHANGELOG.md has on top. */
#include "heathcinder.h"

#include <stdio.h>
#include <string.h>

static int failures;

static void expect(int holds, const char *what)
{
    if (holds)
        return;
    printf("FAILED header: %s\n", what);
    failures++;
}

static void test_version(const char *latest)
{
    char numbers[32];
    snprintf(numbers, sizeof numbers, "%u.%u.%u", HC_VERSION_MAJOR, HC_VERSION_MINOR, HC_VERSION_PATCH);
    expect(strcmp(numbers, HC_VERSION) == 0, "HC_VERSION is not made of its three numbers");
    expect(strcmp(latest, HC_VERSION) == 0, "HC_VERSION is not CHANGELOG.md's latest");
}

/* Every status has a text of its own, and every other number the same one. */
static void test_texts(void)
{
    static const uint32_t statuses[] = {HC_SUCCESSFUL, HC_INVALID_NAME, HC_INVALID_ID, HC_TOO_MANY, HC_INVALID_SIZE,
                                        HC_INVALID_ADDRESS, HC_INVALID_NUMBER, HC_NOT_DEFINED, HC_UNSATISFIED,
                                        HC_INCORRECT_STATE, HC_INVALID_CLOCK, HC_NOT_SOUND, HC_LIST_TOO_SHORT};
    const char *none = hc_status_text(UINT32_MAX);
    const size_t count = sizeof statuses / sizeof *statuses;
    size_t with_text = 0;
    for (size_t i = 0; i < count; i++)
        for (size_t k = 0; k < i; k++)
            expect(strcmp(hc_status_text(statuses[i]), hc_status_text(statuses[k])) != 0, "two statuses have one text");
    for (uint32_t status = 0; status < 1000; status++)
        with_text += strcmp(hc_status_text(status), none) != 0;
    expect(with_text == count, "not just the statuses have a text");
    expect(strcmp(hc_status_text(HC_TOO_MANY), "too many") == 0, "5 is not 'too many'");
}

static void test_names(void)
{
    expect(HC_NAME('G', 'R', 'D', '1') == 0x47524431, "HC_NAME('G', 'R', 'D', '1')");
    expect(HC_NAME(0xff, 0, 0x80, '\xfe') == 0xff0080fe, "HC_NAME of bytes above 127");
}

/* Two timers that fire in one tick, through the library. */
static void test_entries(void)
{
    uint32_t table[HC_TABLE_WORDS(2)], list[HC_LIST_WORDS(2)], id[2], count = 0;
    const size_t words = HC_TABLE_WORDS(2);
    expect(hc_lay_out(table, words, 2, 100, HC_ONE_PARTY) == HC_SUCCESSFUL, "lay out");
    for (uint32_t k = 0; k < 2; k++) {
        expect(hc_create(table, words, HC_PARTY_1, HC_NAME('T', 'M', 'R', '0' + k), &id[k]) == HC_SUCCESSFUL, "create");
        expect(hc_fire_after(table, words, HC_PARTY_1, id[k], 1, 7 + k, 70 + k) == HC_SUCCESSFUL, "fire after");
    }
    expect(hc_tick(table, words, list, HC_LIST_WORDS(2), &count) == HC_SUCCESSFUL && count == 2, "tick");
    for (uint32_t k = 0; k < 2; k++) {
        struct hc_fired timer = hc_fired_at(list, k);
        expect(timer.id == id[k] && timer.routine == 7 + k && timer.data == 70 + k, "an entry of the list");
    }
}

int main(int count, char **arguments)
{
    test_version(count > 1 ? arguments[1] : "");
    test_texts();
    test_names();
    test_entries();
    return failures != 0;
}
