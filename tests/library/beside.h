/* What the parts of beside.c share. */
#define _GNU_SOURCE
#include "ymodem.h"

#include <stddef.h>
#include <stdint.h>
#include <sys/types.h>

enum { DELIVERY = 2048, LIMIT = 60000, MOST = 60, STATES = 9, TRIES = 4 };

/* What the workers count together. */
struct counts { unsigned ended[STATES], deliveries, again, failed, next; };
extern struct counts *counts;

/* ---- program.c: the program, and numbers by chance */

struct program { pid_t child; int out, line; };

/* Begins the numbers of a stream. */
void seed(uint64_t with);
unsigned below(unsigned bound);
void some(uint8_t *bytes, size_t len);

/* What was wrong with the last stream. It gives 0. */
extern char fault[512];
int wrong(const char *form, ...);

/* Ends this process where it cannot go on. */
void wants(int holds, const char *what);

struct program started(char *const *words);
int readable(int handle);
/* These bytes, and no others, come over the line. */
int comes(const struct program *it, const uint8_t *wanted, size_t len, const char *where);
int puts_all(const struct program *it, const uint8_t *bytes, size_t len);
/* Nothing more comes, and it ends with this status and these last words. */
int ends(struct program *it, int status, const char *last);
void gone(struct program *it);
void at_once(int line);

/* ---- sends.c */

void make_files(void);
uint64_t blocks_of(uint64_t length, int is_short);
/* A stream of replies to a sender of the library: a line more in the file `cases` of this folder, which the program `line_cases` plays to the
   engine of `ymodem send`, and what has to come of it, in `wanted`: the state, and what is written. */
int sends(const char *folder);

/* ---- receives.c */

/* A stream of deliveries, to a receiver of the library and to `ymodem receive` at this port. */
int receives(uint16_t port, char *command, char *folder);
/* Empties the folder. */
void emptied(const char *folder);
