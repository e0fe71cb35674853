/* The gate for untrusted 32-bit ARM add-ons. Each call answers 0 where it accepts; else a refusal's
 * number, address and why, which awl_number, awl_address and awl_why take out of the answer. A refusal
 * changes no byte of code and no ledger entry.
 *
 * Any lengths and contents may be passed. What the caller must keep to:
 * - The pointers are good for their lengths, ledger does not overlap the bytes, and a pointer of length
 *   0 is not NULL. Lengths and offset have 64 bits on every machine, since the proved calls count in 64
 *   bits.
 * - Nobody else writes to lent memory during a call. The check reads the code more than once, so a
 *   second writer could swap a word after it was tested.
 * - Nothing but these calls writes to checked code or its ledger. An add-on's stores reach the whole
 *   sandbox, so while one runs its code is not writable there, and the ledger lies outside.
 * - A ledger belongs to the edition of the rules that made it. Another edition may give words other
 *   roles: a patch with the older ledger may then be refused with 13, or go by roles that no longer
 *   hold. So when the library is exchanged, check accepted code again, and keep that check's ledger.
 * - A call promises what memory holds. That the processor sees it, past its instruction caches, is the
 *   caller's to bring about.
 * So to load an add-on: copy it to where it is to run, check that copy, make it not writable,
 * synchronise the instruction caches, and only then run it. */
#ifndef AWLTHIMBLE_H
#define AWLTHIMBLE_H

#include <stdbool.h>
#include <stdint.h>

#ifdef __cplusplus
extern "C" {
#endif

/* Why a word is in no class, which is number 4: the first of these that holds. */
enum {
    AWL_WHY_CONDITION_15 = 1,     /* its condition, bits 31..28, is 15 */
    AWL_WHY_SYSTEM_CALL = 2,      /* its bits 27..24 are 15 */
    AWL_WHY_REGISTER_INDEXED = 3, /* indexed by a register: bits 27..25 are 011, and bit 4 is 0 */
    AWL_WHY_UNLISTED = 4          /* none of the above */
};

/* The refusal's number, bits 7..0: 1 to 14, and 0 where the call accepts. */
static inline uint32_t awl_number(uint64_t answer)
{
    return (uint32_t)(answer & 0xFF);
}

/* Its why, bits 15..8: one of the four where the number is 4, and else 0. Bits 31..16 are 0. */
static inline uint32_t awl_why(uint64_t answer)
{
    return (uint32_t)(answer >> 8 & 0xFF);
}

/* Its address, the high 32 bits: 0 where it has none. */
static inline uint32_t awl_address(uint64_t answer)
{
    return (uint32_t)(answer >> 32);
}

/* Checks code that is to stand at code_start, with trampolines from trampoline_first up to, and not
 * with, trampoline_end. Where it accepts, each ledger entry is 4 x (direct branches that land on the
 * word) + its role: 0 plain, 1 inner, 2 data, 3 literal head. */
uint64_t awl_check(uint32_t code_start, uint32_t trampoline_first, uint32_t trampoline_end,
                   bool test_pairs, const uint8_t *code, uint64_t code_len, uint32_t *ledger,
                   uint64_t ledger_len);

/* Patches code that awl_check accepted, under the same layout, without reading the rest of it: the
 * bundles of old_bundles, which stand offset bytes past code_start, become those of new_bundles. ledger
 * is the region's, as awl_check or the last patch left it. Where it accepts, the old bytes have been
 * overwritten and the ledger moved to fit. new_bundles must overlap neither of the others. Bytes are
 * copied one by one, so during the call no thread runs the bundles that are being replaced, and none
 * runs the add-on at all unless the call writes through a mapping of its own. The instruction caches
 * are synchronised before the new bundles run. */
uint64_t awl_patch(uint32_t code_start, uint32_t trampoline_first, uint32_t trampoline_end,
                   bool test_pairs, uint32_t *ledger, uint64_t ledger_len, uint64_t offset,
                   uint8_t *old_bundles, uint64_t old_len, const uint8_t *new_bundles,
                   uint64_t new_len);

#ifdef __cplusplus
}
#endif

#endif
