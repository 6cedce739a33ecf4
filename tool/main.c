/* The tool dzintrulo: HOCON files worked out, checked and read, over the proved library. */
#define _POSIX_C_SOURCE 200809L

#include "tool.h"

#include <signal.h>
#include <string.h>

static enum status run(const struct command *command, int argc, char **argv)
{
    static struct args args;
    if (!read_args(&args, command, argc, argv))
        return TROUBLE;
    set_messages(&args);
    return args.help ? show_help_of(command) : command->run(&args);
}

static enum status choose(int argc, char **argv)
{
    const char *name = argc > 1 ? argv[1] : "";
    if (strcmp(name, "--help") == 0 || strcmp(name, "-h") == 0)
        return show_help();
    if (strcmp(name, "--version") == 0) {
        print_version();
        return DONE;
    }
    const struct command *command = find_command(name);
    if (command != NULL)
        return run(command, argc - 2, argv + 2);
    return argc > 1 ? usage_error("there is no command '%s'", name) : usage_error("a command is needed");
}

int main(int argc, char **argv)
{
    static char buffer[1 << 21]; /* holds what any file comes to: a full disk is noticed when all is done */
    setvbuf(stdout, buffer, _IOFBF, sizeof buffer);
    signal(SIGXFSZ, SIG_IGN); /* a file over the size that is allowed is an error like a full disk */
    prepare_messages(argc, argv);
    if (dz_version_number() != DZINTRULO_VERSION_NUMBER) {
        trouble("libdzintrulo.a", dz_version());
        return TROUBLE;
    }
    enum status status = choose(argc, argv);
    return close_output() ? (int)status : TROUBLE;
}
