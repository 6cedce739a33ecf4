/* explain: what a refusal means, an example, how to mend it. */
#include "tool.h"

#include <stdlib.h>
#include <string.h>

static const struct entry {
    int number;
    const char *meaning, *example, *mend;
} entries[] = {
    {DZ_BAD_INPUT, "An input is over its size, or the names given are not allowed: at most\n"
                   "32,768 bytes of a file, 64 names, 8,192 bytes of names and texts, all in UTF-8.",
     "a file of 40,000 bytes", "Make the file smaller, or give fewer names with -e."},
    {DZ_ILL_FORMED_UTF8, "The file is not UTF-8 text. The place is the first byte that is not.",
     "a file saved as Latin-1 with a `\302\265` in it", "Save the file as UTF-8."},
    {DZ_BYTE_NOT_ALLOWED, "A character stands where the format does not allow it.", "[1,,2]",
     "Look at what is missing before it: a value, a `=`, a comma, a new line, quotes."},
    {DZ_UNEXPECTED_END, "The file ends inside something: quotes, `{`, `[`, `${`, or a name without a\nvalue.", "plate { min = 1",
     "Close it."},
    {DZ_BAD_NUMBER_OR_STRING, "A `-` is not followed by a number; or, in quotes, an escape is not one of\n"
                              "JSON's, a `\\u` has no four hex digits, half of a surrogate pair is missing, or\n"
                              "a control byte stands there.",
     "path = \"C:\\shop\"", "Write `\\\\` for a backslash, or use triple quotes, which take everything as it\nis."},
    {DZ_INCLUDE, "`include` is not read yet.", "include \"shop.conf\"",
     "Put the settings into the file. A setting of this name is written \"include\"."},
    {DZ_BAD_PATH, "A name is empty or has an empty part, or a `${..}` stands in a name.", "a..b = 1",
     "Give the part a name. An empty name is written in quotes, as \"\"."},
    {DZ_OVER_LIMIT, "There is one too many of something: at most 32 levels, 2,048 items, 256 values\nwith `${..}`, 16 parts in a name.",
     "a.b.c.d.e.f.g.h.i.j.k.l.m.n.o.p.q = 1", "Make it smaller: fewer levels, fewer items, shorter names."},
    {DZ_UNDEFINED, "Nothing sets a name that a `${..}` requires: not the file, and not the names\ngiven with -e.", "plate.min = 102 ${unit}",
     "Set the name in the file, or give it with -e NAME=TEXT."},
    {DZ_CIRCULAR, "A value is needed to work out itself.", "a = ${b}\n    b = ${a}", "Break the loop: one of the values has to be written out."},
    {DZ_MIXED_KINDS, "Text, a list `[..]` and a group `{..}` cannot be one value.", "a = [1] 5",
     "A comma or a new line may be missing between two values."},
    {DZ_OVER_BUDGET, "More values with `${..}` are needed than --budget allows. With 256, the default,\nthis cannot come.",
     "dzintrulo resolve --budget 0 FILE, with `b = ${a}` in FILE", "Give a larger budget."},
    {DZ_TOO_LARGE, "A value is too large: at most 16,384 bytes of records, 16,384 of text, 32\nlevels.",
     "a list that is joined with itself again and again", "Repeat less: each `${..}` copies what it names."},
    {DZ_NO_ROOM, "The sheet is too large: at most 32,768 bytes each of trail, table and text.",
     "many values that each copy a long list", "Repeat less: each `${..}` copies what it names."},
    {DZ_NOT_A_TABLE, "The table of a sheet is damaged.", "a sheet of which a byte was changed", "Make the sheet again: dzintrulo resolve -o SHEET FILE."},
    {DZ_NOT_FOUND, "No setting has this name.", "dzintrulo get FILE plate.mid", "The help lists the names that there are."},
    {DZ_NOT_ACCEPTED, "The sheet is not one of this file with these names given, or it was changed.",
     "dzintrulo check FILE SHEET, after FILE was edited", "Make the sheet again, with the same -e names."},
    {DZ_MALFORMED_LENGTH, "The value is no length. A length is a number without exponent, then mm, um or\nin.", "plate.min = 5 cm",
     "Write it as 2.6 mm, 2600 um or 0.1 in."},
    {DZ_BARE_NUMBER, "The value is a number without its unit, which is never taken for a length.", "plate.min = 102", "Write of what: 102 um, 102 mm."},
    {DZ_MINUS_SIGN, "A length has no minus sign, not even before 0.", "plate.min = -1 mm", "Leave it out."},
    {DZ_NOT_WHOLE_MICROMETRES, "The length is not whole micrometres, and nothing is rounded.", "plate.min = 0.0001 mm",
     "Write it to the micrometre: mm with at most three decimals, um with none."},
    {DZ_TOO_LONG, "The length is over 1,000,000 micrometres, which is one metre.", "plate.min = 1500 mm",
     "Look at the unit."},
    {DZ_BAD_PROFILE, "`profile` is missing, or not the number 1 or 2, written so: not in quotes, not as 1.0.", "profile = \"1\"",
     "Write profile = 1 for lengths in numbers, by `unit`, or profile = 2 for lengths with their own unit."},
    {DZ_BAD_UNIT, "Profile 1 has `unit`, which is mm or in. Profile 2 has no `unit`, null neither.", "profile = 1\n    unit = um",
     "Write unit = mm for hundredths of a millimetre or unit = in for thousandths of an inch, or take it out of profile 2."},
    {DZ_BAD_MINIMUM, "`plate.min` is missing, or no length of its profile: in profile 1 a number of 0 to 100000 in digits only,\n"
                     "in profile 2 a number and mm, um or in.",
     "profile = 1\n    unit = mm\n    plate.min = 1.02", "Write 102 in profile 1, by unit = mm, or 1.02 mm in profile 2."},
    {DZ_BAD_MAXIMUM, "`plate.max` is missing, or no length of its profile: in profile 1 a number of 0 to 100000 in digits only,\n"
                     "in profile 2 a number and mm, um or in.",
     "profile = 2\n    plate.min = 1 mm\n    plate.max = 2", "Write 200 in profile 1, by unit = mm, or 2 mm in profile 2."},
    {DZ_MINIMUM_ABOVE_MAXIMUM, "`plate.min` is above `plate.max`. They may be equal.",
     "profile = 2\n    plate.min = 1 in\n    plate.max = 20 mm", "Exchange them, or look at their units."},
};

static enum status explain_all(void)
{
    for (size_t i = 0; i < sizeof entries / sizeof entries[0]; i++)
        printf("%2d  %s\n", entries[i].number, dz_words(entries[i].number));
    return DONE;
}

enum status explain(const struct args *args)
{
    if (args->operand_count == 0)
        return explain_all();
    const char *word = args->operands[0];
    bool is_number = word[0] != '\0' && strlen(word) < 3 && word[strspn(word, "0123456789")] == '\0';
    int number = is_number ? atoi(word) : 0;
    for (size_t i = 0; i < sizeof entries / sizeof entries[0] && args->operand_count == 1; i++)
        if (entries[i].number == number) {
            printf("%d: %s\n\n%s\n\nExample:\n\n    %s\n\n%s\n", number, dz_words(number), entries[i].meaning,
                   entries[i].example, entries[i].mend);
            return DONE;
        }
    return usage_error("explain needs one number of a refusal: 1 to 17, 20 to 24, or 39 to 43");
}
