/* Stands in for a program that is packed: the name NAME, its process and its arguments, a line each;
   or the version VERSION; or a help text in the form of clap's, with lines that would mean something
   else to the manual's formatter or to a shell. */
#include <stdio.h>
#include <string.h>
#include <unistd.h>

static const char *const commands[] = {"keygen", "witness", "sign", "batch", "serve", "verify",
                                       "info", "inspect", "public", "resume", "endorse", "join", "join-public"};

static void help_with_all(void) {
    puts("Helps with all\n\nUsage: lms_tool <COMMAND>\n\nCommands:");
    for (size_t at = 0; at < sizeof commands / sizeof *commands; at++) {
        printf("  %-11s  Helps with %s, which isn't \"all\"\n", commands[at], commands[at]);
    }
    puts("  help         Print this message\n\nOptions:\n  -h, --help     Print help\n  -V, --version  Print version");
}

static void help_with(const char *command) {
    printf("Helps with %s, which isn't \"all\"\n\nUsage: lms_tool %s --state <FILE> --number <N>\n\n", command, command);
    puts("Options:\n      --state <FILE>  A file [with brackets], a \\ and a - in its text\n"
         "      --number <N>    .5 or more: isn't it $HOME?\n  -h, --help          Print help\n");
    printf("Example, of a line:\n  lms_tool %s --state \"$(a long command with many words)\" --number 1 --number 2 \\\n      --more\n\n", command);
    puts(".begins with a dot\n'begins with a quote, has `a word`\n  and is indented\n\nThe last line.");
}

int main(int count, char **words) {
    if (count > 1 && !strcmp(words[count - 1], "--help")) {
        if (count > 2) {
            help_with(words[1]);
        } else {
            help_with_all();
        }
        return 0;
    }
    if (count > 1 && !strcmp(words[count - 1], "--version")) {
        printf("lms_tool %s\n", VERSION);
        return 0;
    }
    printf("%s\n%ld\n", NAME, (long)getpid());
    for (int at = 1; at < count; at++) {
        puts(words[at]);
    }
    return 3;
}
