/* argus for C: a world of guardians, whose stores are in memory. The caller is told which stores have changed, and keeps
 * them: argus_folder.h keeps them in files.
 *
 * The functions argus_c_* are exported by libargus_c.a, and are proved for callers that keep three rules:
 *   - a world begins as {0}, and C never changes its fields, copies it or moves it while it is open;
 *   - one call at a time has a world, on the thread that opened it, and each pointer is valid, not null, for its length;
 *   - what a call writes overlaps nothing else that it is given.
 * The functions argus_* below test for null, and call them. A length may be 0, and then its pointer may be null. */
#ifndef ARGUS_H
#define ARGUS_H
#include <stddef.h>
#include <stdint.h>

/* What a call answers. It stays in the world's field `error` until the next call. */
enum {
    ARGUS_DONE = 0,
    ARGUS_BAD = 1,     /* no setup, no stores, no step, or no action's name; nothing happened */
    ARGUS_NOTHING = 2, /* no step was made yet, there is no such object, guardian or code, or no store has changed */
    ARGUS_MEMORY = 3,  /* out of memory; nothing happened */
    ARGUS_SMALL = 4,   /* the place is too small: the text's length is told, and nothing is written */
    ARGUS_CLOSED = 5,  /* the world is closed */
    ARGUS_OPEN = 6,    /* the world is open already */
    ARGUS_STORE = 7,   /* the store of a guardian failed; nothing happened */
    ARGUS_NOT_OURS = 8, /* the stores are not those of this setup; nothing happened */
    ARGUS_NULL = 9     /* a pointer is null: of argus_* alone, and not kept in the world */
};

typedef struct {
    uint32_t mark;
    uint32_t error;
    unsigned char *seat;
} argus_world; /* {0}: closed */

#ifdef __cplusplus
extern "C" {
#endif
uint32_t argus_c_open(argus_world *w, const unsigned char *setup, size_t n);
uint32_t argus_c_reopen(argus_world *w, const unsigned char *setup, size_t n, const unsigned char *stores, size_t m);
uint32_t argus_c_changed(argus_world *w, uint32_t *guardian);
uint32_t argus_c_store(argus_world *w, uint32_t guardian, unsigned char *place, size_t room, size_t *len);
uint32_t argus_c_kept(argus_world *w, uint32_t guardian);
uint32_t argus_c_step(argus_world *w, const unsigned char *line, size_t n);
uint32_t argus_c_answer(argus_world *w, unsigned char *place, size_t room, size_t *len);
uint32_t argus_c_base(argus_world *w, uint32_t guardian, uint32_t number, unsigned char *place, size_t room, size_t *len);
uint32_t argus_c_text(uint32_t code, unsigned char *place, size_t room, size_t *len);
uint32_t argus_c_close(argus_world *w);
uint32_t argus_c_top(argus_world *w, uint32_t guardian);
uint32_t argus_c_nest(argus_world *w, const unsigned char *action, size_t n);
uint32_t argus_c_call(argus_world *w, const unsigned char *action, size_t n, uint32_t guardian);
uint32_t argus_c_op(argus_world *w, const unsigned char *action, size_t n, uint32_t guardian, uint32_t number,
                    const unsigned char *wanted, size_t m);
uint32_t argus_c_commit(argus_world *w, const unsigned char *action, size_t n);
uint32_t argus_c_abort(argus_world *w, const unsigned char *action, size_t n);
uint32_t argus_c_close_top(argus_world *w, const unsigned char *top, size_t n);
uint32_t argus_c_prepare(argus_world *w, uint32_t guardian, const unsigned char *top, size_t n);
uint32_t argus_c_decide(argus_world *w, const unsigned char *top, size_t n);
uint32_t argus_c_tell(argus_world *w, uint32_t guardian, const unsigned char *action, size_t n);
uint32_t argus_c_crash(argus_world *w, uint32_t guardian);
uint32_t argus_c_recover(argus_world *w, uint32_t guardian);
#ifdef __cplusplus
}
#endif

/* Bytes that may be null where there are none. */
static inline const unsigned char *argus_bytes_(const void *at) {
    return at ? (const unsigned char *)at : (const unsigned char *)"";
}

static inline uint32_t argus_open(argus_world *w, const void *setup, size_t n) {
    return w && (setup || !n) ? argus_c_open(w, argus_bytes_(setup), n) : ARGUS_NULL;
}

/* Goes on from stores: a JSON array of their texts, in the order of their guardians. */
static inline uint32_t argus_reopen(argus_world *w, const void *setup, size_t n, const void *stores, size_t m) {
    if (!w || (!setup && n) || (!stores && m)) return ARGUS_NULL;
    return argus_c_reopen(w, argus_bytes_(setup), n, argus_bytes_(stores), m);
}

/* The last guardian whose store may have changed since it was kept. */
static inline uint32_t argus_changed(argus_world *w, uint32_t *guardian) {
    return w && guardian ? argus_c_changed(w, guardian) : ARGUS_NULL;
}

/* The text of what the guardian's store holds. */
static inline uint32_t argus_store(argus_world *w, uint32_t guardian, void *place, size_t room, size_t *len) {
    unsigned char none;
    if (!w || !len || (!place && room)) return ARGUS_NULL;
    return argus_c_store(w, guardian, place ? (unsigned char *)place : &none, room, len);
}

/* The caller keeps that text, as argus_store told it last, and no step was made since. */
static inline uint32_t argus_kept(argus_world *w, uint32_t guardian) { return w ? argus_c_kept(w, guardian) : ARGUS_NULL; }

static inline uint32_t argus_step(argus_world *w, const void *line, size_t n) {
    return w && (line || !n) ? argus_c_step(w, argus_bytes_(line), n) : ARGUS_NULL;
}

static inline uint32_t argus_answer(argus_world *w, void *place, size_t room, size_t *len) {
    unsigned char none;
    if (!w || !len || (!place && room)) return ARGUS_NULL;
    return argus_c_answer(w, place ? (unsigned char *)place : &none, room, len);
}

static inline uint32_t argus_base(argus_world *w, uint32_t guardian, uint32_t number, void *place, size_t room, size_t *len) {
    unsigned char none;
    if (!w || !len || (!place && room)) return ARGUS_NULL;
    return argus_c_base(w, guardian, number, place ? (unsigned char *)place : &none, room, len);
}

/* The text of the world's last code. */
static inline uint32_t argus_error(const argus_world *w, void *place, size_t room, size_t *len) {
    unsigned char none;
    if (!w || !len || (!place && room)) return ARGUS_NULL;
    return argus_c_text(w->error, place ? (unsigned char *)place : &none, room, len);
}

static inline uint32_t argus_close(argus_world *w) { return w ? argus_c_close(w) : ARGUS_NULL; }

static inline uint32_t argus_top(argus_world *w, uint32_t guardian) { return w ? argus_c_top(w, guardian) : ARGUS_NULL; }

static inline uint32_t argus_nest(argus_world *w, const void *action, size_t n) {
    return w && (action || !n) ? argus_c_nest(w, argus_bytes_(action), n) : ARGUS_NULL;
}

static inline uint32_t argus_call(argus_world *w, const void *action, size_t n, uint32_t guardian) {
    return w && (action || !n) ? argus_c_call(w, argus_bytes_(action), n, guardian) : ARGUS_NULL;
}

static inline uint32_t argus_op(argus_world *w, const void *action, size_t n, uint32_t guardian, uint32_t number,
                                const void *wanted, size_t m) {
    if (!w || (!action && n) || (!wanted && m)) return ARGUS_NULL;
    return argus_c_op(w, argus_bytes_(action), n, guardian, number, argus_bytes_(wanted), m);
}

static inline uint32_t argus_commit(argus_world *w, const void *action, size_t n) {
    return w && (action || !n) ? argus_c_commit(w, argus_bytes_(action), n) : ARGUS_NULL;
}

static inline uint32_t argus_abort(argus_world *w, const void *action, size_t n) {
    return w && (action || !n) ? argus_c_abort(w, argus_bytes_(action), n) : ARGUS_NULL;
}

static inline uint32_t argus_close_top(argus_world *w, const void *top, size_t n) {
    return w && (top || !n) ? argus_c_close_top(w, argus_bytes_(top), n) : ARGUS_NULL;
}

static inline uint32_t argus_prepare(argus_world *w, uint32_t guardian, const void *top, size_t n) {
    return w && (top || !n) ? argus_c_prepare(w, guardian, argus_bytes_(top), n) : ARGUS_NULL;
}

static inline uint32_t argus_decide(argus_world *w, const void *top, size_t n) {
    return w && (top || !n) ? argus_c_decide(w, argus_bytes_(top), n) : ARGUS_NULL;
}

static inline uint32_t argus_tell(argus_world *w, uint32_t guardian, const void *action, size_t n) {
    return w && (action || !n) ? argus_c_tell(w, guardian, argus_bytes_(action), n) : ARGUS_NULL;
}

static inline uint32_t argus_crash(argus_world *w, uint32_t guardian) { return w ? argus_c_crash(w, guardian) : ARGUS_NULL; }

static inline uint32_t argus_recover(argus_world *w, uint32_t guardian) { return w ? argus_c_recover(w, guardian) : ARGUS_NULL; }
#endif
