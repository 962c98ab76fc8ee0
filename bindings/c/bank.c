/* bank FOLDER: the payments of the crate bank, over stores in files. The first run stops within a payment that was
 * prepared, and the second goes on from there. Together they print what the crate prints. */
#define _POSIX_C_SOURCE 200809L
#include "argus_folder.h"
#include <inttypes.h>
#include <string.h>

static const char setup[] = "{\"guardians\":["
    "{\"objects\":[{\"record\":{\"balance\":100}},{\"record\":{\"balance\":20}}]},"
    "{\"objects\":[{\"record\":{\"balance\":50}},{\"record\":{\"balance\":0}}]}]}";

typedef struct { const char *owner; uint32_t branch, number; } account;
static const account ann = {"ann", 1, 1}, ben = {"ben", 1, 2}, cleo = {"cleo", 2, 1}, dan = {"dan", 2, 2};

static argus_world world;
static const char *folder;
static char answer[256];

static void check(uint32_t code) {
    if (code == ARGUS_DONE) return;
    fprintf(stderr, "code %" PRIu32 "\n", code);
    exit(1);
}

/* Keeps what the step changed, and reads its answer. Zero if the step has to wait. */
static int tried(uint32_t code) {
    size_t n = 0;
    check(code);
    check(argus_keep(&world, folder));
    check(argus_answer(&world, answer, sizeof answer - 1, &n));
    answer[n] = 0;
    check(strncmp(answer, "refused", 7) == 0 ? ARGUS_BAD : ARGUS_DONE);
    return strncmp(answer, "waits", 5) != 0;
}

static void made(uint32_t code) { check(tried(code) ? ARGUS_DONE : ARGUS_BAD); }

/* The action that the step has begun. */
static void began(uint32_t code, char name[32]) {
    made(code);
    snprintf(name, 32, "%.31s", answer + strlen("began "));
}

static void tell_all(const char *action) {
    for (uint32_t branch = 1; branch <= 2; branch++) made(argus_tell(&world, branch, action, strlen(action)));
}

static void end_call(const char *call, account of, int commits) {
    made(commits ? argus_commit(&world, call, strlen(call)) : argus_abort(&world, call, strlen(call)));
    made(argus_tell(&world, of.branch, call, strlen(call)));
}

static uint32_t op(const char *call, account of, const char *wanted) {
    return argus_op(&world, call, strlen(call), of.branch, of.number, wanted, strlen(wanted));
}

/* The balance that was read. */
static long long balance(void) { return strtoll(answer + strlen("granted "), NULL, 10); }

/* Adds the amount to the balance, or gives why not. */
static const char *add(const char *call, account of, long long amount) {
    char wanted[64];
    if (!tried(op(call, of, "get balance"))) return "waits for other actions";
    if (balance() + amount < 0) return "too little money";
    snprintf(wanted, sizeof wanted, "set balance %lld", balance() + amount);
    return tried(op(call, of, wanted)) ? NULL : "waits for other actions";
}

/* A handler: it adds the amount to the balance. If that cannot be, it is aborted, and gives why. */
static const char *change(const char *top, account of, long long amount) {
    char call[32];
    began(argus_call(&world, top, strlen(top), of.branch), call);
    const char *why = add(call, of, amount);
    end_call(call, of, why == NULL);
    return why;
}

/* Moves the money in a new top action. If a handler is aborted, so is the top action, and this gives why. */
static const char *move(account from, account to, long long amount, char top[32]) {
    began(argus_top(&world, from.branch), top);
    const char *why = change(top, from, -amount);
    if (why == NULL) why = change(top, to, amount);
    if (why != NULL) {
        made(argus_abort(&world, top, strlen(top)));
        tell_all(top);
    }
    return why;
}

/* Closes the top action, and lets the branches vote. A no ends the votes. */
static int prepare(const char *top) {
    made(argus_close_top(&world, top, strlen(top)));
    for (uint32_t branch = 1; branch <= 2; branch++) {
        made(argus_prepare(&world, branch, top, strlen(top)));
        if (strcmp(answer, "vote yes") != 0) return 0;
    }
    return 1;
}

/* Commits the top action by two phases, or aborts it after a no. */
static int commit(const char *top) {
    int yes = prepare(top);
    made(yes ? argus_decide(&world, top, strlen(top)) : argus_abort(&world, top, strlen(top)));
    tell_all(top);
    return yes;
}

static void pay(account from, account to, int amount) {
    char top[32];
    const char *why = move(from, to, amount, top);
    printf("%s pays %s %d: ", from.owner, to.owner, amount);
    if (why != NULL) printf("aborted, %s\n", why);
    else printf("%s\n", commit(top) ? "paid" : "aborted by a vote");
}

/* The payee's branch crashes between the two phases. Before that, another payment has to wait. */
static void pay_over_a_crash(account from, account to, int amount) {
    char top[32];
    if (move(from, to, amount, top) != NULL || !prepare(top)) exit(1);
    printf("%s pays %s %d: both branches vote yes\n", from.owner, to.owner, amount);
    pay(ben, dan, 45);
    made(argus_crash(&world, to.branch));
    made(argus_recover(&world, to.branch));
    printf("branch %" PRIu32 " crashes and recovers\n", to.branch);
    made(argus_decide(&world, top, strlen(top)));
    tell_all(top);
    printf("%s pays %s %d: paid\n", from.owner, to.owner, amount);
}

static void show(void) {
    const account all[] = {ann, ben, cleo, dan};
    char top[32], call[32];
    long long balances[4];
    began(argus_top(&world, 1), top);
    for (int i = 0; i < 4; i++) {
        began(argus_call(&world, top, strlen(top), all[i].branch), call);
        made(op(call, all[i], "get balance"));
        balances[i] = balance();
        end_call(call, all[i], 1);
    }
    if (!commit(top)) exit(1);
    for (int i = 0; i < 4; i++) printf("%s has %lld\n", all[i].owner, balances[i]);
}

int main(int argc, char **argv) {
    char top[32];
    if (argc != 2) return 2;
    folder = argv[1];
    uint32_t code = argus_over(&world, folder, setup, sizeof setup - 1);
    if (code == ARGUS_DONE) {
        pay(ann, cleo, 30);
        pay(ben, dan, 45);
        pay_over_a_crash(cleo, ben, 25);
        if (move(ben, dan, 45, top) != NULL || !prepare(top)) return 1;
        printf("the bank stops before ben pays dan 45 is decided, and opens again\n");
        fflush(stdout);
        _exit(0);
    }
    if (code != ARGUS_FILES || argus_reopen_folder(&world, folder, setup, sizeof setup - 1) != ARGUS_DONE) return 1;
    pay(ben, dan, 45);
    show();
    return argus_close(&world) != ARGUS_DONE;
}
