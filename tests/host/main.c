/* The host's tests, by subject. Usage: host_tests [--long] [--seed NUMBER] */
#include "harness.h"

#include <unistd.h>

/* A call that does not come back ends the program: no subject takes so many seconds. */
enum { PATIENCE = 1800 };

static void subject(const char *name, void (*run)(void))
{
    unsigned long cases = cases_run(), calls = calls_made();
    alarm(PATIENCE);
    run();
    printf("%-10s %5lu cases %8lu calls\n", name, cases_run() - cases, calls_made() - calls);
    fflush(NULL);
}

static unsigned long calls = 100000;
static uint64_t seed = 82586;

static void hash_subject(void)
{
    hashes(seed);
}

static void random_subject(void)
{
    random_calls(calls, seed);
}

static void read_arguments(int argc, char **argv)
{
    for (int i = 1; i < argc; i++) {
        if (strcmp(argv[i], "--long") == 0) {
            calls = 1000000;
        } else if (strcmp(argv[i], "--seed") == 0 && i + 1 < argc) {
            seed = strtoul(argv[++i], NULL, 0);
        } else {
            printf("usage: host_tests [--long] [--seed NUMBER]\n");
            exit(2);
        }
    }
}

int main(int argc, char **argv)
{
    read_arguments(argc, argv);
    subject("refusals", refusals);
    subject("records", records);
    subject("papers", papers);
    subject("swaps", swaps);
    subject("readings", readings);
    subject("edges", edges);
    subject("control", control);
    subject("commands", commands);
    subject("hash", hash_subject);
    subject("receiving", receiving);
    subject("reasons", reasons);
    subject("headers", headers);
    subject("addresses", addresses);
    subject("copies", copies);
    subject("shapes", shapes);
    subject("random", random_subject);
    printf("host tests: %lu cases, %lu calls, all passed\n", cases_run(), calls_made());
    return 0;
}
