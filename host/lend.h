/* Memory lent to a call under watch: on one side of each buffer a page that may not be touched, on the other guard bytes. */
#ifndef HOST_LEND_H
#define HOST_LEND_H

#include "draw.h"

/* The buffers that one call can be lent. */
enum lent {
    LENT_TABLE,
    LENT_INDEX,
    LENT_QUERY,
    LENT_WITHDRAWN,
    LENT_ROOM,
    LENT_WORK,
    LENT_HOW,
    LENT_ROWS,
    LENT_DISTANCES,
    LENT_ANSWERS,
    LENT_IMAGE,
    LENT_KINDS
};

/* Takes over the signals of a touched page and of a call that does not come back; each prints the story and ends with 1. */
void lend_watch(void);

/* What to print when such a signal comes. */
void lend_story(const char *text);

/* Lends `bytes` bytes with this content, or with drawn content where it is NULL. */
void *lend(struct draw *d, enum lent which, size_t bytes, const void *content);

/* A copy of what was lent, to be made what it should become. */
void *lend_expected(enum lent which);
/* Makes that copy again what was lent. */
void lend_undo(enum lent which);
void *lend_given(enum lent which);
size_t lend_bytes(enum lent which);

/* Whether the buffer is as expected; if not, the first byte that differs, or SIZE_MAX for a guard byte. */
bool lend_kept(enum lent which, size_t *where);
const char *lend_name(enum lent which);

#endif
