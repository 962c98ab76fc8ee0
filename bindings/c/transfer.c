/* transfer SETUP STEPS: makes the steps of a file and prints their answers, as `argus steps` does. A call that runs out of
 * memory is made again. First it makes the mistakes that a call can tell, unless a third word is there. */
#include "argus.h"
#include <stdio.h>
#include <string.h>

static char text[1 << 16];

/* What a call must answer, or the program ends. */
#define WANT(code, number) if ((code) != (number)) return fprintf(stderr, "line %d\n", __LINE__), 1

/* Out of memory, nothing has happened: so the call is made once more. */
#define AGAIN(call) ((call) == ARGUS_MEMORY ? (call) : w.error)

static int mistakes(const char *setup, size_t n) {
    argus_world w = {0}, wild = {12345, 0, NULL};
    char place[64];
    size_t len = 77;
    WANT(argus_step(NULL, "top 1", 5), ARGUS_NULL);
    WANT(argus_step(&w, "top 1", 5), ARGUS_CLOSED);
    WANT(argus_close(&w), ARGUS_CLOSED);
    WANT(argus_step(&wild, "top 1", 5), ARGUS_CLOSED);
    WANT(argus_open(&w, "{", 1), ARGUS_BAD);
    WANT(argus_open(&w, NULL, 0), ARGUS_BAD);
    WANT(argus_open(&w, setup, n), ARGUS_DONE);
    WANT(argus_open(&w, setup, n), ARGUS_OPEN);
    WANT(argus_answer(&w, place, sizeof place, &len), ARGUS_NOTHING);
    WANT(argus_base(&w, 9, 9, place, sizeof place, &len), ARGUS_NOTHING);
    WANT(len, 77);
    WANT(argus_step(&w, NULL, 5), ARGUS_NULL);
    WANT(argus_step(&w, NULL, 0), ARGUS_BAD);
    WANT(argus_step(&w, "top \xff", 5), ARGUS_BAD);
    WANT(argus_commit(&w, "1.", 2), ARGUS_BAD);
    WANT(argus_error(&w, place, sizeof place, &len), ARGUS_DONE);
    WANT(strncmp(place, "not a setup, stores, a step or a name", len), 0);
    WANT(argus_top(&w, 1), ARGUS_DONE);
    WANT(argus_answer(&w, place, 2, &len), ARGUS_SMALL);
    WANT(argus_answer(&w, place, len, &len), ARGUS_DONE);
    WANT(len, 7);
    WANT(strncmp(place, "began 1", len), 0);
    WANT(argus_close(&w), ARGUS_DONE);
    WANT(argus_close(&w), ARGUS_CLOSED);
    return 0;
}

/* Stores that are none, are cut, are no UTF-8, or are not those of the setup; and guardians that are not there. */
static int mistakes_of_stores(const char *setup, size_t n) {
    argus_world w = {0};
    uint32_t guardian = 77;
    size_t len = 77, m = 0;
    WANT(argus_changed(NULL, &guardian), ARGUS_NULL);
    WANT(argus_changed(&w, NULL), ARGUS_NULL);
    WANT(argus_changed(&w, &guardian), ARGUS_CLOSED);
    WANT(argus_store(&w, 1, NULL, 0, &len), ARGUS_CLOSED);
    WANT(argus_kept(&w, 1), ARGUS_CLOSED);
    WANT(argus_reopen(&w, setup, n, NULL, 2), ARGUS_NULL);
    WANT(argus_reopen(&w, setup, n, "", 0), ARGUS_BAD);
    WANT(argus_reopen(&w, setup, n, "[\xff]", 3), ARGUS_BAD);
    WANT(argus_reopen(&w, setup, n, "[{}]", 4), ARGUS_BAD);
    WANT(argus_reopen(&w, setup, n, "[]", 2), ARGUS_NOT_OURS);
    WANT(argus_open(&w, setup, n), ARGUS_DONE);
    WANT(argus_reopen(&w, setup, n, "[]", 2), ARGUS_OPEN);
    WANT(argus_changed(&w, &guardian), ARGUS_DONE);
    WANT(guardian, 1);
    WANT(argus_store(&w, 0, NULL, 0, &len), ARGUS_NOTHING);
    WANT(argus_store(&w, 2, NULL, 0, &len), ARGUS_NOTHING);
    WANT(argus_store(&w, 1, text + 1, sizeof text - 2, &m), ARGUS_DONE);
    WANT(argus_kept(&w, 1), ARGUS_DONE);
    WANT(argus_changed(&w, &guardian), ARGUS_NOTHING);
    WANT(argus_top(&w, 1), ARGUS_DONE);
    WANT(argus_changed(&w, &guardian), ARGUS_NOTHING);
    WANT(argus_close(&w), ARGUS_DONE);
    text[0] = '[';
    text[m + 1] = ']';
    WANT(argus_reopen(&w, setup, n, text, m + 1), ARGUS_BAD);
    WANT(argus_reopen(&w, setup, n, text, m + 2), ARGUS_DONE);
    WANT(argus_changed(&w, &guardian), ARGUS_DONE);
    WANT(argus_close(&w), ARGUS_DONE);
    return len != 77;
}

static int transfer(const char *setup, size_t n, FILE *steps) {
    argus_world w = {0};
    char place[256];
    size_t len;
    WANT(AGAIN(argus_open(&w, setup, n)), ARGUS_DONE);
    while (fgets(text, sizeof text, steps)) {
        WANT(AGAIN(argus_step(&w, text, strcspn(text, "\n"))), ARGUS_DONE);
        WANT(AGAIN(argus_answer(&w, place, sizeof place, &len)), ARGUS_DONE);
        printf("%.*s\n", (int)len, place);
    }
    WANT(AGAIN(argus_base(&w, 1, 1, place, sizeof place, &len)), ARGUS_DONE);
    WANT(strncmp(place, "{\"record\":{\"balance\":70}}", len), 0);
    WANT(argus_close(&w), ARGUS_DONE);
    return 0;
}

int main(int argc, char **argv) {
    static char setup[1 << 16];
    FILE *file = argc > 2 ? fopen(argv[1], "rb") : NULL;
    FILE *steps = argc > 2 ? fopen(argv[2], "rb") : NULL;
    if (!file || !steps) return 2;
    size_t n = fread(setup, 1, sizeof setup, file);
    int failed = (argc == 3 && (mistakes(setup, n) || mistakes_of_stores(setup, n))) || transfer(setup, n, steps);
    fclose(file);
    fclose(steps);
    return failed;
}
