/*
 * profile: the limits of a plate, as the device will take them. The numbers are the library's; what stands in the file is
 * shown beside them, with what it counts.
 */
#include "tool.h"

/* Whether a setting has this text. Where the library took `profile` and `unit`, that tells the edition and the unit. */
static bool is_text(const struct source *source, const char *path, const char *text)
{
    return dz_text_equals(&source->sheet, dz_find(&source->sheet, path), text);
}

/* What a length of edition 1 counts. */
static const char *counted(const struct source *source)
{
    return is_text(source, "unit", "in") ? "thousandths of an inch" : "hundredths of a millimetre";
}

/* ---- The refusals. */

static void say_setting(struct shown *shown, const struct source *source, const char *path)
{
    const uint8_t *value = dz_find(&source->sheet, path);
    say(shown, "`%s` ", path);
    if (value == NULL) {
        say(shown, "is not set");
        return;
    }
    say(shown, "is ");
    say_value(shown, value, source->sheet.text);
}

static void edition_words(struct message *message, const struct source *source)
{
    say_setting(&message->words, source, "profile");
    say(&message->words, ", and it has to be the number 1 or 2");
    say(&message->help, "write profile = 1 for lengths in numbers, by `unit`, or profile = 2 for lengths with their own unit");
}

static void unit_words(struct message *message, const struct source *source, bool is_first)
{
    say_setting(&message->words, source, "unit");
    if (is_first) {
        say(&message->words, ", and profile 1 has mm or in");
        say(&message->help, "write unit = mm for hundredths of a millimetre, or unit = in for thousandths of an inch");
    } else {
        say(&message->words, ", and profile 2 has none");
        say(&message->help, "take `unit` out of the file, null too: each length has its own, as 2.6 mm");
    }
}

static void plate_words(struct message *message, const struct source *source, const char *path, bool is_first)
{
    const uint8_t *value = dz_find(&source->sheet, path);
    say_setting(&message->words, source, path);
    if (is_first) {
        say(&message->words, "%s", value == NULL ? "" : ", and profile 1 has digits only, from 0 to 100000");
        say(&message->help, "write how many %s it is, as 102, without quotes, dot and unit", counted(source));
        return;
    }
    if (value != NULL)
        say(&message->words, "%s", length_words(dz_number(dz_find_length(&source->sheet, path))));
    say(&message->help, "profile 2 has a number and mm, um or in, as 2.6 mm");
}

static void order_words(struct message *message, const struct source *source)
{
    say(&message->words, "`plate.min`, ");
    say_value(&message->words, dz_find(&source->sheet, "plate.min"), source->sheet.text);
    say(&message->words, ", is above `plate.max`, ");
    say_value(&message->words, dz_find(&source->sheet, "plate.max"), source->sheet.text);
    say(&message->help, "look which of the two is meant to be the smaller, and at its unit");
}

static enum status refuse_profile(const struct source *source, uint64_t answer)
{
    struct message message = {.kind = "error", .name = source->name, .number = dz_number(answer)};
    bool is_first = is_text(source, "profile", "1");
    switch (message.number) {
    case DZ_BAD_PROFILE: edition_words(&message, source); break;
    case DZ_BAD_UNIT: unit_words(&message, source, is_first); break;
    case DZ_BAD_MINIMUM: plate_words(&message, source, "plate.min", is_first); break;
    case DZ_BAD_MAXIMUM: plate_words(&message, source, "plate.max", is_first); break;
    case DZ_MINIMUM_ABOVE_MAXIMUM: order_words(&message, source); break;
    default: return refuse_path(source->name, &source->sheet, "profile", answer);
    }
    report(&message);
    return REFUSED;
}

/* ---- The answer. */

/* As `plate.min = 102 in hundredths of a millimetre: 1.0200 mm`. */
static void print_limit(const struct source *source, const char *path, bool is_first, uint32_t limit)
{
    struct shown line = {.length = 0};
    say(&line, "%s = ", path);
    say_value(&line, dz_find(&source->sheet, path), source->sheet.text);
    if (is_first)
        say(&line, " in %s", counted(source));
    printf("%s: %u.%04u mm\n", line.text, (unsigned)(limit / 10000), (unsigned)(limit % 10000));
}

enum status run_profile(const struct args *args)
{
    static struct source source;
    if (args->operand_count != 1)
        return usage_error("profile needs one FILE or SHEET");
    enum status status = open_first(args, &source);
    if (status != DONE)
        return status;
    uint64_t answer = dz_sheet_profile(&source.sheet);
    if (dz_number(answer) != DZ_OK)
        return refuse_profile(&source, answer);
    bool is_first = dz_profile_edition(answer) == 1;
    printf("profile %d, %s\n", dz_profile_edition(answer),
           is_first ? is_text(&source, "unit", "in") ? "unit in" : "unit mm" : "each length with its own unit");
    print_limit(&source, "plate.min", is_first, dz_profile_minimum(answer));
    print_limit(&source, "plate.max", is_first, dz_profile_maximum(answer));
    return DONE;
}
