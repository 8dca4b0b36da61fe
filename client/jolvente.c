/* A client of the C calls, for use at a desk: `jolvente --help` tells its commands. */
#define _XOPEN_SOURCE 700
#include <errno.h>
#include <signal.h>
#include <stdio.h>
#include <string.h>

#include "client.h"

struct command {
    const char *name;
    int least, most;
    const char *words;
    const char *purpose;
    int (*run)(char **words);
};

static const struct command COMMANDS[] = {
    {"plan", 2, 2, "WIRING PLAN", "plans a wiring file and writes its plan file", plan_wiring},
    {"read", 1, 1, "PLAN", "reads a plan file and says its sizes", read_plan},
    {"list", 1, 1, "PLAN", "says the addresses of all cards", list_plan},
    {"address", 2, 2, "PLAN CARD", "says a card's address", say_address},
    {"walk", 3, 4, "PLAN FROM TO [CALLER]", "walks a frame, of caller 0 where none is named, and says the cards met", walk_frame},
    {"check", 1, 1, "PLAN", "walks every pair of cards, both ways, and counts the links", check_plan},
};
enum { COUNT = sizeof COMMANDS / sizeof COMMANDS[0] };

static int asks_help(const char *word)
{
    return strcmp(word, "--help") == 0 || strcmp(word, "-h") == 0;
}

static int help(void)
{
    int i;
    printf("jolvente plans intercom racks and walks their plans.\n\n");
    for (i = 0; i < COUNT; i++)
        printf("  jolvente %-8s%-23s%s\n", COMMANDS[i].name, COMMANDS[i].words, COMMANDS[i].purpose);
    printf("  jolvente --help, jolvente COMMAND --help, jolvente --version\n\n"
           "Cards and links are counted from 0, and callers are 0 to 15. Exit status: 0 done; 1 refused by number, or a frame that is\n"
           "stuck or takes more links than needed; 2 wrong use, or a file or output that cannot be read or written.\n");
    return DONE;
}

static int run(const struct command *command, int count, char **words)
{
    int helps = count == 1 && asks_help(words[0]);
    if (!helps && command->least <= count && count <= command->most)
        return command->run(words);
    fprintf(helps ? stdout : stderr, "usage: jolvente %s %s\n", command->name, command->words);
    return helps ? DONE : TROUBLE;
}

static int begin(int argc, char **argv)
{
    int i;
    if (argc == 2 && asks_help(argv[1]))
        return help();
    if (argc == 2 && strcmp(argv[1], "--version") == 0) {
        printf("jolvente %s\n", JOLVENTE_VERSION);
        return DONE;
    }
    for (i = 0; i < COUNT; i++)
        if (argc > 1 && strcmp(argv[1], COMMANDS[i].name) == 0)
            return run(&COMMANDS[i], argc - 2, argv + 2);
    fprintf(stderr, "usage: jolvente COMMAND WORDS; jolvente --help lists the commands\n");
    return TROUBLE;
}

int main(int argc, char **argv)
{
    int status;
    signal(SIGXFSZ, SIG_IGN); /* a file over the user's limit is then a write that fails, with its reason */
    status = begin(argc, argv);
    if (fflush(stdout) != 0 || ferror(stdout))
        return trouble("cannot write", "standard output", strerror(errno));
    return status;
}
