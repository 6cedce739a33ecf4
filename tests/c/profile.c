/*
 * Calls dz_profile() from C, through the header alone, and prints what comes.
 * Exit status 1 if an answer is not the one stated here.
 * Every input is lent by lend().
 */
#include "lend.h"

#include "dzintrulo.h"

static int mismatches = 0;

/* Holds the answer for these bytes, and its parts as the header gives them, to what is stated. */
static void answers(const char *what, const void *table, size_t table_len, const void *text, size_t text_len,
                    int number, int edition, uint32_t minimum, uint32_t maximum)
{
    struct lent t = lend(table, table_len), x = lend(text, text_len);
    uint64_t answer = dz_profile(t.bytes, t.length, x.bytes, x.length);
    give_back(t);
    give_back(x);

    /* From the header's table of bits, and not by its functions: so they are tested too, and the unused bits. */
    uint64_t packed = (uint64_t)number | (uint64_t)edition << 6 | (uint64_t)minimum << 8 | (uint64_t)maximum << 33;
    bool same = answer == packed && dz_profile_number(answer) == number && dz_profile_edition(answer) == edition &&
                dz_profile_minimum(answer) == minimum && dz_profile_maximum(answer) == maximum;

    printf("%-56s ", what);
    if (dz_profile_number(answer) == DZ_OK)
        printf("edition %d, %u to %u", dz_profile_edition(answer), (unsigned)dz_profile_minimum(answer),
               (unsigned)dz_profile_maximum(answer));
    else
        printf("refused, number %d: %s", dz_profile_number(answer), dz_words(dz_profile_number(answer)));
    if (!same) {
        printf(" <- wrong: 0x%016llx and not 0x%016llx", (unsigned long long)answer, (unsigned long long)packed);
        mismatches++;
    }
    putchar('\n');
}

static uint8_t trail[DZ_PART_MAX], table[DZ_PART_MAX], text[DZ_PART_MAX];

/* Of a document, worked out. */
static void document(const char *written, int number, int edition, uint32_t minimum, uint32_t maximum)
{
    uint64_t done = dz_resolve((const uint8_t *)written, strlen(written), NULL, 0, DZ_BUDGET_MAX, trail, sizeof trail,
                               table, sizeof table, text, sizeof text);
    must(dz_number(done) == DZ_OK, "document");
    struct dz_sheet sheet = dz_resolve_sheet(done, trail, table, text);
    must(dz_sheet_profile(&sheet) == dz_profile(table, sheet.table_length, text, sheet.text_length), "profile of a sheet");
    answers(written, table, sheet.table_length, text, sheet.text_length, number, edition, minimum, maximum);
}

static void refused(const char *written, int number)
{
    document(written, number, 0, 0, 0);
}

int main(void)
{
    document("profile=1,unit=mm,plate{min=102,max=300}", DZ_OK, 1, 10200, 30000);
    document("profile=1,unit=in,plate{min=0,max=100000}", DZ_OK, 1, 0, DZ_PROFILE_LENGTH_MAX);
    document("profile=2,plate{min=\"2540 um\",max=\"0.1 in\"}", DZ_OK, 2, 25400, 25400);
    document("profile=2,plate{min=0 mm,max=1000 mm}", DZ_OK, 2, 0, 10 * DZ_MICROMETRES_MAX);
    refused("profile=\"1\",unit=mm,plate{min=1,max=2}", DZ_BAD_PROFILE);
    refused("[1]", DZ_BAD_PROFILE);
    refused("profile=1,plate{min=1,max=2}", DZ_BAD_UNIT);
    refused("profile=2,unit=null,plate{min=1 mm,max=2 mm}", DZ_BAD_UNIT);
    refused("profile=1,unit=mm,plate{min=1.0,max=2}", DZ_BAD_MINIMUM);
    refused("profile=2,plate{min=5,max=6 mm}", DZ_BAD_MINIMUM);
    refused("profile=1,unit=mm,plate{min=1,max=100001}", DZ_BAD_MAXIMUM);
    refused("profile=1,unit=mm,plate{min=1}", DZ_BAD_MAXIMUM);
    refused("profile=2,plate{min=1 in,max=25 mm}", DZ_MINIMUM_ABOVE_MAXIMUM);

    answers("null", "\1", 1, "", 0, DZ_BAD_PROFILE, 0, 0, 0);
    answers("a byte after the table", "\1\1", 2, "", 0, DZ_NOT_A_TABLE, 0, 0, 0);
    answers("text outside the text part", "\5\0\0\0\1", 5, "", 0, DZ_NOT_A_TABLE, 0, 0, 0);
    answers("nothing", NULL, 0, NULL, 0, DZ_NOT_A_TABLE, 0, 0, 0);

    static uint8_t long_text[DZ_PART_MAX + 1];
    answers("text of 32,768 bytes", "\1", 1, long_text, DZ_PART_MAX, DZ_BAD_PROFILE, 0, 0, 0);
    answers("text of 32,769 bytes", "\1", 1, long_text, DZ_PART_MAX + 1, DZ_BAD_INPUT, 0, 0, 0);

    if (mismatches != 0)
        fprintf(stderr, "%d of the answers are wrong\n", mismatches);
    return mismatches == 0 ? 0 : 1;
}
