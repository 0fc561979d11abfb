/* The functions that the crate `exports` proves, by C linkage. Link the archive that `tools/native-archive exports OUT.a` writes for this
   machine, or `rt staticlib exports` for x86-64.

   None of them keeps a pointer, has state, calls anything, allocates or blocks: they may be called from several threads at once, and they
   have no frame on the stack, so a thread of any size will do. Any numbers may be passed. Nothing but the bytes of a text is read, and
   nothing is written. docs/TRUST.md has what the proofs rest on. */
#ifndef REGISTER_H
#define REGISTER_H

#include <stdbool.h>
#include <stddef.h>
#include <stdint.h>

#ifdef __cplusplus
extern "C" {
#endif

/* The limit of the metadata log that the property's text gives; 100 where it is no number, and for a text of length 0.
   text: length bytes that can be read and that nothing writes while the call runs; no NUL need follow. With length 0 it may be anything, NULL too. */
uint64_t register_limit(const uint8_t *text, size_t length);

/* The tolerance of a run that is given none, in milliseconds. */
#define REGISTER_DEFAULT_TOLERANCE_MS INT64_C(60000)

/* Whether the time is before the last one by more than the tolerance: time + tolerance < last, exactly, for any three numbers. All in
   milliseconds. */
bool register_too_early(int64_t time, int64_t last, int64_t tolerance);

/* number: 0 accepted, 9 first row id below next row id, 11 the range would end above 2^64 - 1.
   next: the next row id from then on, first + added; on a refusal the one that came in. */
struct register_rows {
    uint8_t number;
    uint64_t next;
};

struct register_rows register_row_check(uint64_t next, uint64_t first, uint64_t added);

#ifdef __cplusplus
}
#endif

#endif
