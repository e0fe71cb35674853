/* Replays on the linked library, from standard input, the calls that second/src/bin/vectors.rs writes:
 * compares each answer, and all that the call was lent, with what it must leave. The last line counts
 * them. Both machines are little-endian, as the stream is. */
#define _DEFAULT_SOURCE /* for mmap */
#include "awlthimble.h"

#include <assert.h>
#include <inttypes.h>
#include <stdio.h>
#include <stdlib.h>
#include <string.h>
#include <sys/mman.h>
#include <unistd.h>

enum { END, CHECK, PATCH };
enum { WORD = 4, ROOM = 1 << 20, SHOWN = 5 };

struct head {
    uint32_t code_start, trampoline_first, trampoline_end, test_pairs;
    uint64_t offset, ledger_len, bytes_len, new_len;
};
static_assert(sizeof(struct head) == 4 * 4 + 4 * 8, "the stream has no gaps");

/* What a call is lent: as it was, as it must be left, and as it is, before a page that traps. */
struct part {
    size_t size;
    uint8_t before[ROOM], after[ROOM];
    uint8_t *lent, *guard;
};
static struct part ledger, bytes, new_bytes;

static _Noreturn void stop(const char *why)
{
    fprintf(stderr, "replay: %s\n", why);
    exit(2);
}

static void make_room(struct part *part)
{
    size_t page = (size_t)sysconf(_SC_PAGESIZE);
    uint8_t *room =
        mmap(NULL, ROOM + page, PROT_READ | PROT_WRITE, MAP_PRIVATE | MAP_ANONYMOUS, -1, 0);
    if (room == MAP_FAILED || mprotect(room + ROOM, page, PROT_NONE) != 0)
        stop("no memory for the calls");
    part->guard = room + ROOM;
}

static void take(void *to, size_t size)
{
    if (fread(to, 1, size, stdin) != size)
        stop("the stream is short");
}

/* The stream holds as much as the low 32 bits of a length say; a longer length is a mere claim. */
static void take_before(struct part *part, uint64_t len, size_t width)
{
    uint32_t held = (uint32_t)len;
    if (held > ROOM / 2 / width)
        stop("the stream is ill-formed: a part is too long");
    part->size = held * width;
    take(part->before, part->size);
}

static void lend(struct part *part, size_t gap)
{
    part->lent = part->guard - gap - part->size;
    memcpy(part->lent, part->before, part->size);
}

static bool is(const struct part *part, const uint8_t *state)
{
    return memcmp(part->lent, state, part->size) == 0;
}

static uint64_t call(uint32_t kind, const struct head *head)
{
    bool test_pairs = head->test_pairs != 0;
    uint32_t *entries = (uint32_t *)(void *)ledger.lent;
    if (kind == CHECK)
        return awl_check(head->code_start, head->trampoline_first, head->trampoline_end, test_pairs,
                         bytes.lent, head->bytes_len, entries, head->ledger_len);
    return awl_patch(head->code_start, head->trampoline_first, head->trampoline_end, test_pairs,
                     entries, head->ledger_len, head->offset, bytes.lent, head->bytes_len,
                     new_bytes.lent, head->new_len);
}

/* Reads the rest of a call and makes it. Says what is wrong with the outcome, or NULL. */
static const char *replay(uint32_t kind, uint64_t number)
{
    struct head head;
    uint64_t expected;
    take(&head, sizeof head);
    take_before(&ledger, head.ledger_len, WORD);
    take_before(&bytes, head.bytes_len, 1);
    take_before(&new_bytes, head.new_len, 1);
    take(&expected, sizeof expected);
    take(ledger.after, ledger.size);
    take(bytes.after, bytes.size);

    /* Bytes may stand at any address: one call in four has them at a word's, and up to the guard. */
    lend(&ledger, 0);
    lend(&bytes, number % WORD);
    lend(&new_bytes, number / WORD % WORD);
    uint64_t answer = call(kind, &head);

    if (answer != expected)
        return "another answer";
    if (!is(&ledger, ledger.after) || !is(&bytes, bytes.after))
        return "another ledger or other bytes";
    if (answer != 0 && !is(&ledger, ledger.before))
        return "a refusal that changed the ledger";
    if ((answer != 0 || kind == CHECK) && !is(&bytes, bytes.before))
        return "bytes changed that must stay";
    return is(&new_bytes, new_bytes.before) ? NULL : "new bytes changed";
}

int main(void)
{
    make_room(&ledger);
    make_room(&bytes);
    make_room(&new_bytes);

    uint64_t calls = 0, failed = 0, written;
    uint32_t kind;
    for (take(&kind, sizeof kind); kind != END; take(&kind, sizeof kind)) {
        if (kind != CHECK && kind != PATCH)
            stop("the stream is ill-formed: no such call");
        const char *wrong = replay(kind, calls);
        if (wrong && ++failed <= SHOWN)
            printf("call %" PRIu64 ": %s\n", calls, wrong);
        calls++;
    }
    take(&written, sizeof written);
    if (written != calls || calls == 0 || getchar() != EOF)
        stop("the stream is ill-formed: not as many calls as it says");
    printf("%" PRIu64 " passed, %" PRIu64 " failed\n", calls - failed, failed);
    return failed != 0;
}
