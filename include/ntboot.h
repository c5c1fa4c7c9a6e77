/* ntboot.h: the commands of ntboot over files in memory.
 *
 * One call does what the program does: it reads the words of a command line, finds the files that they name among the four that are given, and
 * gives back the program's exit status and all that it prints and saves. The library keeps nothing between calls: there is no handle to close,
 * no global and no callback. Each call loads the hive anew, so ask for as much as you can in one (`key --depth`, `services`, a whole report).
 *
 * Link with libntboot.so, which `./build` makes. tests/c_library.c is a whole program; docs/texts.md has the commands and what they print.
 */
#ifndef NTBOOT_H
#define NTBOOT_H

#include <stdbool.h>
#include <stddef.h>
#include <stdint.h>

#ifdef __cplusplus
extern "C" {
#endif

/* What a call comes to: the exit status of the program. */
enum ntboot_status {
    NTBOOT_DONE = 0,           /* done; the report was printed */
    NTBOOT_USAGE = 1,          /* the words cannot be parsed */
    NTBOOT_NO_FILE = 2,        /* a file that the words name is not given */
    NTBOOT_SCRIPT_FAULT = 3,   /* the script, or the commands of `control`, cannot be parsed: "script fault LINE KIND" was printed */
    NTBOOT_BOOT_INI_FAULT = 4, /* boot.ini is too long or has too many entries: "boot.ini fault KIND" */
    NTBOOT_HIVE_FAULT = 5,     /* the hive has a fault: "hive fault KIND at OFFSET" (of the second hive "with fault KIND at OFFSET"). OFFSET is in bytes: in
                                  the file where the base block or the log has the fault, else in the bins data, which begin at byte 4096 of the file */
    NTBOOT_FOUND = 8,          /* done, and the report says that something was found (`find`: that nothing was) */
    NTBOOT_NO_MEMORY = 9,      /* malloc gave no memory */
    NTBOOT_REG_FAULT = 10      /* a registry text has a fault: "reg fault LINE KIND" */
};

/* Which of the four files are there. */
struct ntboot_given {
    bool hive;     /* the file `hive` */
    bool log;      /* the file `log` */
    bool boot_ini; /* the file `boot.ini` */
    bool text;     /* the file `text`: a script, commands or a registry text */
};

/* Does what the words ask for.
 *
 * words            the words of the command line as UTF-8, one a line: "key\n--hive\nhive\n--key\nSelect\n". A carriage return right before a line
 *                  feed is no part of the word. Where a word is no UTF-8, that is bad usage
 * given            which of the files hive, log, boot_ini and text are there; the bytes of the others count for nothing
 * said             gets the first bytes of what was printed, as many as there is room for
 * said_length      gets the length of all that was printed, in bytes
 * saved_hive, ..   the same of the file `saved`, where the words save a hive of this name ("--save-hive\nsaved\n"), else the length 0
 * saved_log, ..    the same of the file `saved.log`
 *
 * All lengths and rooms are in bytes. The caller owns all memory; none of it is kept. No pointer is NULL, even where its length is 0, and what
 * is written to overlaps nothing else. Any bytes may be given: a hive that is damaged in any way is a fault that is told. Calls from several
 * threads at once need no lock; each takes up to 1 MiB of its thread's stack. No call may be made in a signal handler, nor in the forked child of
 * a process with threads. Memory comes from the program's malloc, realloc and free; where these are not the C library's, they are of one
 * allocator, and align a block to each power of two up to 16 that divides its size.
 *
 * Where a length is more than its room, call again with the room that it says: equal words and files give equal answers.
 */
uint8_t ntboot_call(
    const uint8_t *words, size_t words_length,
    const struct ntboot_given *given,
    const uint8_t *hive, size_t hive_length,
    const uint8_t *log, size_t log_length,
    const uint8_t *boot_ini, size_t boot_ini_length,
    const uint8_t *text, size_t text_length,
    uint8_t *said, size_t said_room, size_t *said_length,
    uint8_t *saved_hive, size_t saved_hive_room, size_t *saved_hive_length,
    uint8_t *saved_log, size_t saved_log_room, size_t *saved_log_length);

#ifdef __cplusplus
}
#endif

#endif
