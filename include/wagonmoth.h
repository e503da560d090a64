/* Wagonmoth for C hosts: the functions of the crate `capi`, each proved to be the function that it wraps, exported by the static library `capi_c`. `rt lib` in crates/capi_c proves them
   and writes out/libcapi_c.a, for programs of x86-64; tools/build-c.sh also makes a shared library, and examples/host.c is a host. A host passes pointers to memory of at least the length
   that it names; the two buffers of one call do not overlap. Nothing is kept between calls. */
#ifndef WAGONMOTH_H
#define WAGONMOTH_H

#include <stddef.h>
#include <stdint.h>

#ifdef __cplusplus
extern "C" {
#endif

/* Replays the schedule in bytes and lays its text at the front of out; gives the length of the text, and leaves all behind it as it was. A buffer shorter than
   wagonmoth_longest_text() is left as it was, and 0 is given: no text is empty. A file that is no schedule has the text `refused NUMBER`. */
size_t wagonmoth_replay(const uint8_t *bytes, size_t length, uint8_t *out, size_t room);

/* No text of a replay is longer. */
size_t wagonmoth_longest_text(void);

/* Judges a history file (docs/JUDGING.md): 0 where the order in it explains it, else the number of the refusal, 22 to 27. */
uint8_t wagonmoth_verdict(const uint8_t *bytes, size_t length);

/* A monthly sheet, held by the host between schedules. The least and the greatest wait are 0 where their count is. */
typedef struct { uint64_t begun, completed; } wagonmoth_operations;
typedef struct { uint64_t count, sum, least, greatest; } wagonmoth_waits;
typedef struct { wagonmoth_operations reads, writes; wagonmoth_waits waits; } wagonmoth_history;
typedef struct { uint64_t sent, delivered, lost, left; } wagonmoth_traffic;
typedef struct {
    uint64_t schedules;
    uint64_t files[32]; /* schedules refused by file under each number, under 0 those that were not */
    wagonmoth_history history;
    wagonmoth_traffic traffic;
} wagonmoth_sheet;
typedef struct { uint8_t refusal; wagonmoth_sheet sheet; } wagonmoth_added;

/* A sheet that no schedule was added to. */
wagonmoth_sheet wagonmoth_empty_sheet(void);

/* The sheet with the schedule in bytes added, and 0; or 28 and the sheet as it was, where a total would pass 64 bits. */
wagonmoth_added wagonmoth_add_schedule(wagonmoth_sheet sheet, const uint8_t *bytes, size_t length);

/* Lays the text of a sheet at the front of out; gives its length, and leaves all behind it as it was. A buffer shorter than wagonmoth_longest_sheet() is left as it was, and 0 is given. */
size_t wagonmoth_print_sheet(wagonmoth_sheet sheet, uint8_t *out, size_t room);

/* No text of a sheet is longer. */
size_t wagonmoth_longest_sheet(void);

/* A stamp as one number, time times eight plus process. While processes are below 8, numbers compare as stamps do, and equal numbers are equal stamps. */
uint64_t wagonmoth_rank(uint32_t time, uint8_t process);

#ifdef __cplusplus
}
#endif

#endif
