#!/usr/bin/env python3
"""What a rule costs before any of it is understood: its memory asked for and given back, that memory's pages, one look at its octets.

  bench/rule.py

It makes a C program in a folder of its own (cc) over the 800 rules of bench/waits.py. The program asks `malloc` and `free` for what
`check` asks for of each rule, in the same order and sizes, and writes into what it gets: for a tree that has copies of its strings, and
for one that borrows them from the script. It looks at each octet of the script once, as a scanner has to. It does so in a fresh
process, whose pages the system makes as they are touched, and then again and again in the same memory. Each figure is the least of 40
processes, in microseconds a rule, and beside it its share of the goal of 1.2.
"""
import tempfile
from measure import head, ran, row, words_of
from waits import rules

COUNT = 800
GOAL = 1.2
SOURCE = r"""
#include <stdio.h>
#include <stdlib.h>
#include <string.h>
#include <sys/resource.h>
#include <time.h>

#define COUNT 800
/* What the tree keeps of a rule: its branch, the lists of its test, its block; and the texts, where they are copied. */
struct rule { void *branch, *fields, *field[2], *keys, *key, *block, *mailbox; };
static struct rule rules[COUNT];

static double now(void)
{
    struct timespec at;
    clock_gettime(CLOCK_MONOTONIC, &at);
    return at.tv_sec * 1e6 + at.tv_nsec / 1e3;
}

static void *got(size_t size)
{
    char *room = malloc(size);
    if (!room)
        exit(1);
    memset(room, 1, size);
    return room;
}

/* In the order of `check`: what is freed here is what it needs on the way. */
static void parse(struct rule *rule, int two, int copies)
{
    void *strings = two ? got(128) : NULL, *values = got(128);
    rule->fields = got((two ? 2 : 1) * (copies ? 24 : 32));
    rule->field[0] = copies ? got(7) : NULL;
    rule->field[1] = copies && two ? got(6) : NULL;
    rule->keys = got(copies ? 24 : 32);
    rule->key = copies ? got(7) : NULL;
    free(values);
    rule->block = got(80);
    free(strings);
    rule->mailbox = copies ? got(9) : NULL;
    rule->branch = got(copies ? 104 : 112);
}

static void dropped(struct rule *rule)
{
    free(rule->field[0]);
    free(rule->field[1]);
    free(rule->fields);
    free(rule->key);
    free(rule->keys);
    free(rule->mailbox);
    free(rule->block);
    free(rule->branch);
}

static double memory(int copies)
{
    double began = now();
    for (int at = 0; at < COUNT; at++)
        parse(&rules[at], at % 2, copies);
    for (int at = 0; at < COUNT; at++)
        dropped(&rules[at]);
    return now() - began;
}

/* Each octet's class, the octets of each class counted. */
static double looked(const unsigned char *text, size_t len, size_t *found)
{
    static unsigned char class[256];
    for (int at = 0; at < 256; at++)
        class[at] = at >= 'a' && at <= 'z' ? 1 : at >= '0' && at <= '9' ? 2 : at == ' ' || at == '\n' ? 3 : at == '"' ? 4 : 0;
    double began = now();
    for (size_t at = 0; at < len; at++)
        found[class[text[at]]]++;
    return now() - began;
}

static double least(double one, double other)
{
    return one < other ? one : other;
}

int main(int count, char **words)
{
    int copies = count > 1 && !strcmp(words[1], "copies");
    static unsigned char text[1 << 20];
    size_t len = fread(text, 1, sizeof text, stdin), found[5] = {0};
    struct rusage before, after;
    getrusage(RUSAGE_SELF, &before);
    double first = memory(copies);
    getrusage(RUSAGE_SELF, &after);
    double again = 1e9, look = 1e9;
    for (int turn = 0; turn < 20; turn++) {
        again = least(again, memory(copies));
        look = least(look, looked(text, len, found));
    }
    printf("%f %f %f %ld %zu\n", first, again, look, after.ru_minflt - before.ru_minflt, found[1]);
    return 0;
}
"""


def made(folder):
    """The program."""
    with open(f"{folder}/rule.c", "w") as file:
        file.write(SOURCE)
    ran(["cc", "-O2", "-o", f"{folder}/rule", f"{folder}/rule.c"])
    return f"{folder}/rule"


def figures(program, tree):
    """The least of the three times, in microseconds for all rules, and the page faults of the first."""
    found = [[float(word) for word in ran([program, tree], rules(COUNT)).out.split()] for _ in range(40)]
    return [min(column) for column in zip(*found)]


def tell(what, took, faults=""):
    row(what, f"{took / COUNT:.2f}", f"{took / COUNT / GOAL * 100:.0f} %", faults)


def main():
    words_of(__doc__)
    head("Of 800 rules", "us a rule", "of 1.2 us", "page faults")
    with tempfile.TemporaryDirectory() as folder:
        program = made(folder)
        for tree, what in ("copies", "has copies of its strings"), ("borrows", "borrows its strings"):
            first, again, look, faults, _ = figures(program, tree)
            tell(f"`malloc` and `free` for a tree that {what}, in memory that is used again", again)
            tell("the same in a fresh process", first, f"{faults:.0f}")
        tell("one look at each octet, a table's class of it counted", look)


if __name__ == "__main__":
    main()
