/* How a driver uses the gate: it checks an add-on before it loads it, keeps the ledger that the check
 * writes, and by that ledger patches the add-on later.
 *
 *     driver ADDON [OFFSET PATCH]
 *
 * ADDON and PATCH are files of raw code; PATCH replaces the bundles that stand OFFSET bytes into ADDON.
 * Exit status: 0 accepted; 1 refused; 2 wrong usage, or a file that could not be read. After
 * `box/build`:
 *
 *     cc -Iinclude examples/driver.c target/host/libawlthimble.a -o driver */
#include "awlthimble.h"

#include <errno.h>
#include <inttypes.h>
#include <stdio.h>
#include <stdlib.h>
#include <string.h>

/* Where this driver keeps add-ons and trampolines, and the longest code that the gate takes. */
enum { CODE_START = 131072, TRAMPOLINE_FIRST = 65536, TRAMPOLINE_END = 131072, CODE_LIMIT = 65536 };
static const bool TEST_PAIRS = true;

enum { WORD = 4, ROLES = 4, REFUSALS = 14, NO_CLASS = 4, WHYS = 4 };
enum { ACCEPTED = 0, REFUSED = 1, UNREADABLE = 2 };

static const char *const MEANING[REFUSALS + 1] = {
    [0] = "for a reason that this driver does not know",
    [1] = "the layout breaks a rule",
    [2] = "the length is no multiple of 16 from 16 to 65536",
    [3] = "the ledger has not one entry for each word",
    [4] = "the word is not on the list of allowed ones",
    [5] = "the word names r9, or r15 where it may not",
    [6] = "the word writes or names r13, the stack pointer, where it may not",
    [7] = "the load or store has no guard",
    [8] = "the branch to a register has no guard",
    [9] = "the call is not the last word of its bundle",
    [10] = "the literal load does not read a word of the code",
    [11] = "the branch goes where none may land",
    [12] = "the patch is not whole bundles that lie in the code",
    [13] = "the ledger does not fit the bundles that are to be replaced",
    [14] = "a branch from elsewhere would land inside a pair or on data",
};

static const char *const WHY[WHYS + 1] = {
    [0] = "for a why that this driver does not know",
    [AWL_WHY_CONDITION_15] = "its condition is 15",
    [AWL_WHY_SYSTEM_CALL] = "it is a system call",
    [AWL_WHY_REGISTER_INDEXED] = "it is a load or store indexed by a register",
    [AWL_WHY_UNLISTED] = "no class of words takes it",
};

/* Room for one byte more than the gate takes, so that a longer file is refused and not cut to fit. */
static uint8_t code[CODE_LIMIT + 1], patch[CODE_LIMIT + 1];
static uint32_t ledger[CODE_LIMIT / WORD];

/* Reads as much of a file as there is room for. */
static bool read_file(const char *name, uint8_t room[CODE_LIMIT + 1], uint64_t *len)
{
    FILE *file = fopen(name, "rb");
    if (!file) {
        fprintf(stderr, "%s: cannot be opened: %s\n", name, strerror(errno));
        return false;
    }
    *len = fread(room, 1, CODE_LIMIT + 1, file);
    bool failed = ferror(file) != 0;
    if (failed)
        fprintf(stderr, "%s: cannot be read: %s\n", name, strerror(errno));
    fclose(file);
    return !failed;
}

static bool read_offset(const char *text, uint64_t *offset)
{
    char *end;
    errno = 0;
    *offset = strtoull(text, &end, 10);
    if (text[0] >= '0' && text[0] <= '9' && *end == '\0' && errno == 0)
        return true;
    fprintf(stderr, "%s: is no offset in bytes\n", text);
    return false;
}

static int refuse(const char *name, uint64_t answer)
{
    uint32_t number = awl_number(answer), why = awl_why(answer), address = awl_address(answer);
    fprintf(stderr, "%s: refused %" PRIu32, name, number);
    if (address != 0)
        fprintf(stderr, " at %" PRIu32, address);
    fprintf(stderr, ": %s", MEANING[number <= REFUSALS ? number : 0]);
    if (number == NO_CLASS)
        fprintf(stderr, ": %s", WHY[why <= WHYS ? why : 0]);
    fprintf(stderr, "\n");
    return REFUSED;
}

/* An entry of the ledger is 4 x (direct branches that land on the word) + its role. */
static int accept(const char *name, uint64_t len, uint64_t words)
{
    uint32_t roles[ROLES] = {0}, landings = 0;
    for (uint64_t word = 0; word < words; word++) {
        roles[ledger[word] % ROLES]++;
        landings += ledger[word] / ROLES;
    }
    printf("%s: accepted %" PRIu64 " bytes\n", name, len);
    printf("words: plain %" PRIu32 ", inner %" PRIu32 ", data %" PRIu32 ", heads %" PRIu32
           "; landings %" PRIu32 "\n", roles[0], roles[1], roles[2], roles[3], landings);
    fflush(stdout); /* before any refusal, which goes to standard error */
    return ACCEPTED;
}

static int check_addon(const char *name, uint64_t code_len)
{
    uint64_t answer = awl_check(CODE_START, TRAMPOLINE_FIRST, TRAMPOLINE_END, TEST_PAIRS, code,
                                code_len, ledger, code_len / WORD);
    return answer == 0 ? accept(name, code_len, code_len / WORD) : refuse(name, answer);
}

static int patch_addon(const char *name, uint64_t code_len, uint64_t offset, uint64_t patch_len)
{
    /* What stands there is shorter than a patch that reaches past the end, which the gate refuses. */
    uint64_t left = offset < code_len ? code_len - offset : 0;
    uint64_t old_len = patch_len < left ? patch_len : left;
    uint8_t *old_bundles = code + (code_len - left);
    uint64_t answer = awl_patch(CODE_START, TRAMPOLINE_FIRST, TRAMPOLINE_END, TEST_PAIRS, ledger,
                                code_len / WORD, offset, old_bundles, old_len, patch, patch_len);
    return answer == 0 ? accept(name, patch_len, code_len / WORD) : refuse(name, answer);
}

int main(int argc, char **argv)
{
    uint64_t code_len = 0, patch_len = 0, offset = 0;
    if (argc != 2 && argc != 4) {
        fprintf(stderr, "usage: driver ADDON [OFFSET PATCH]\n");
        return UNREADABLE;
    }
    bool patching = argc == 4;
    if (!read_file(argv[1], code, &code_len))
        return UNREADABLE;
    if (patching && !(read_offset(argv[2], &offset) && read_file(argv[3], patch, &patch_len)))
        return UNREADABLE;

    int status = check_addon(argv[1], code_len);
    if (status != ACCEPTED || !patching)
        return status;
    return patch_addon(argv[3], code_len, offset, patch_len);
}
