/* embedded WAY N: makes N transfers through the library argus_c, and prints N. The steps are those of the program
 * transfer_speed. WAY is `lines` (each step by its line) or `calls` (each step by its call); `lines-read` and `calls-read`
 * read the answer of each step, too. */
#include "../bindings/c/argus.h"
#include <stdio.h>
#include <stdlib.h>
#include <string.h>

enum { GUARDIANS = 4, ACCOUNTS = 64 };

static argus_world world;
static int reads;

static void ask_for(int done, const char *what) {
    if (done) return;
    fprintf(stderr, "%s\n", what);
    exit(1);
}

/* A step has been made. If answers are read, it has to be accepted. */
static void made(uint32_t code) {
    char place[64];
    size_t len;
    ask_for(code == ARGUS_DONE, "a step is not made");
    if (!reads) return;
    ask_for(argus_answer(&world, place, sizeof place, &len) == ARGUS_DONE, "an answer is not there");
    ask_for(*place != 'r' && *place != 'w' && (len != 7 || memcmp(place, "vote no", 7)), "a step is not accepted");
}

/* Writes the form with a number in place of each `#`, and gives the length. printf would take a sixth of the time. */
static size_t spell(char *text, const char *form, const unsigned *numbers) {
    char *at = text, digits[10];
    for (; *form; form++) {
        if (*form != '#') {
            *at++ = *form;
            continue;
        }
        int count = 0;
        for (unsigned left = *numbers++; left || !count; left /= 10) digits[count++] = (char)('0' + left % 10);
        while (count) *at++ = digits[--count];
    }
    return (size_t)(at - text);
}

#define SPELL(text, form, ...) spell(text, form, (const unsigned[]){__VA_ARGS__})

#define LINE(form, ...) made(argus_step(&world, text, SPELL(text, form, __VA_ARGS__)))

static void by_lines(unsigned top, unsigned home, unsigned other, unsigned account) {
    char text[64];
    unsigned first = home < other ? home : other, last = home < other ? other : home;
    LINE("top #", home);
    LINE("op # #/# get n", top, home, account);
    LINE("op # #/# set n -#", top, home, account, top);
    LINE("call # #", top, other);
    LINE("op #.1 #/# get n", top, other, account);
    LINE("op #.1 #/# set n #", top, other, account, top);
    LINE("commit #.1", top);
    LINE("tell # #.1", other, top);
    LINE("close #", top);
    LINE("prepare # #", first, top);
    LINE("prepare # #", last, top);
    LINE("decide #", top);
    LINE("tell # #", first, top);
    LINE("tell # #", last, top);
}

static void by_calls(unsigned top, unsigned home, unsigned other, unsigned account) {
    char name[16], sub[16], sets[32];
    size_t n = SPELL(name, "#", top), m = SPELL(sub, "#.1", top), len = SPELL(sets, "set n -#", top);
    unsigned first = home < other ? home : other, last = home < other ? other : home;
    made(argus_top(&world, home));
    made(argus_op(&world, name, n, home, account, "get n", 5));
    made(argus_op(&world, name, n, home, account, sets, len));
    len = SPELL(sets, "set n #", top);
    made(argus_call(&world, name, n, other));
    made(argus_op(&world, sub, m, other, account, "get n", 5));
    made(argus_op(&world, sub, m, other, account, sets, len));
    made(argus_commit(&world, sub, m));
    made(argus_tell(&world, other, sub, m));
    made(argus_close_top(&world, name, n));
    made(argus_prepare(&world, first, name, n));
    made(argus_prepare(&world, last, name, n));
    made(argus_decide(&world, name, n));
    made(argus_tell(&world, first, name, n));
    made(argus_tell(&world, last, name, n));
}

/* A new world of four guardians, which have 64 accounts each. */
static void open_world(void) {
    static char setup[1 << 14];
    size_t len = 0;
    for (int account = 0; account < GUARDIANS * ACCOUNTS; account++) {
        const char *before = account % ACCOUNTS ? "," : account ? "]},{\"objects\":[" : "{\"guardians\":[{\"objects\":[";
        len += (size_t)snprintf(setup + len, sizeof setup - len, "%s{\"record\":{\"n\":0}}", before);
    }
    len += (size_t)snprintf(setup + len, sizeof setup - len, "]}]}");
    ask_for(argus_open(&world, setup, len) == ARGUS_DONE, "no world is opened");
}

/* What the transfer wrote is installed at both guardians. */
static void check(unsigned top, unsigned home, unsigned other, unsigned account) {
    char place[64], wanted[64];
    size_t len;
    for (int at_home = 0; at_home < 2; at_home++) {
        uint32_t code = argus_base(&world, at_home ? home : other, account, place, sizeof place, &len);
        int n = snprintf(wanted, sizeof wanted, "{\"record\":{\"n\":%s%u}}", at_home ? "-" : "", top);
        ask_for(code == ARGUS_DONE && len == (size_t)n && !memcmp(place, wanted, len), "an account has another value");
    }
}

int main(int argc, char **argv) {
    const char *way = argc == 3 ? argv[1] : "";
    int lines = !strncmp(way, "lines", 5), calls = !strncmp(way, "calls", 5);
    ask_for(lines || calls, "embedded lines|calls|lines-read|calls-read N");
    reads = !strcmp(way + 5, "-read");
    unsigned count = (unsigned)strtoul(argv[2], NULL, 10);
    open_world();
    for (unsigned top = 1; top <= count; top++) {
        unsigned home = top % GUARDIANS + 1, other = (top + 1) % GUARDIANS + 1, account = top % ACCOUNTS + 1;
        (lines ? by_lines : by_calls)(top, home, other, account);
        if (top == count) check(top, home, other, account);
    }
    ask_for(argus_close(&world) == ARGUS_DONE, "the world is not closed");
    printf("%u\n", count);
    return 0;
}
