/* Varskumo: the interrupt controllers of a board, called by its monitor.
 *
 * The board has four harts, 0 to 3. Each has five message files (IMSIC): 0 machine, 1 supervisor, 2 to 4 the
 * guest files 1 to 3. One wired controller (APLIC) has sources 1 to 63 and two domains.
 *
 * A call is lent two blocks, the state of the board and the message log; there is no memory behind the calls.
 * It answers a vsk_answer. Any number may be given as any argument: what names nothing is refused, and
 * numbers that name something are compared in all their 64 bits. (Of a word that is written, parts that are
 * too large are cut or ignored, as is said there.)
 *
 * What each call answers and leaves is proved for all numbers and all contents of both blocks: a contract
 * says the outcome of the call (Claim-93; for vsk_move Claim-100) and allows no other (Claim-162), and the
 * code meets it (Claim-114). "Claims" in the comment of a function are those that say what the outcome is;
 * docs/CLAIMS.md is the index.
 *
 * The proof asks of C, and no call checks:
 *   - both pointers are not null, are aligned for uint32_t, and have as many words behind them as their
 *     lengths say; vsk_move's record is not null, aligned for uint64_t, and has VSK_SAVED_NUMBERS numbers;
 *   - the two blocks do not overlap, nor does the record overlap either;
 *   - one call at a time is made on one state or one log, and nothing else touches them meanwhile; over
 *     several harts that takes a lock, by which each call sees what the last one stored. Nothing is proved of
 *     calls that overlap, even if they store nothing; a call that an interrupt handler makes in the middle of
 *     another overlaps it.
 * Where a compiler can see a breach it is told to: gcc from 12 on, with -Wall, warns of a null pointer, of an
 * answer that is dropped, of a block that is shorter than its length, of one block lent twice to a call that
 * stores, and of a state that was never set.
 *
 * What is stored, if a call is not refused; what is not named here stays as it was (Claims 91, 150 to 156):
 *   vsk_reset         state: every word
 *   vsk_wire          state: the wire, its source, the files that its messages reach; log: the messages
 *   vsk_domain_read   state: by a claimi in direct mode; nothing by any other register (Claim-140)
 *   vsk_domain_write  state: the domain (by a machine sourcecfg both), the files that its messages reach;
 *                     log: the messages
 *   vsk_page_write    state: at most one pending bit of the file
 *   vsk_register      state: the register of the file, unless the kind is VSK_READ
 *   vsk_claim         state: one pending bit of the file, if the top is not 0
 *   vsk_move          state: the old or the new file, or one target; record: accesses 1, 2 and 72 to 79
 *   vsk_page_read, vsk_top, vsk_signals   nothing
 * A block that a call never stores to is a pointer to const.
 *
 * Link with target/archives/TARGET/libmonitor.a, which `make archives` writes: TARGET is x86_64, aarch64,
 * riscv64-lp64d or riscv64-lp64. Whoever links it has to have memset, which vsk_reset calls, and on RISC-V
 * memcpy, both as C defines them; nothing else is undefined. The library keeps no data, allocates nothing,
 * and a call takes less than 1024 bytes of stack beside what these two take (docs/PERFORMANCE.md). The
 * archives for RISC-V use general registers alone. Those for x86-64 and aarch64 also use vector registers, as
 * their calling conventions allow, and access the state up to 16 bytes at a time: a handler that calls them
 * has to save those registers, and where alignment is checked the blocks have to be aligned to 16.
 *
 * Valid as C99 and as C++11. "The standard" is the RISC-V Advanced Interrupt Architecture 1.0 of June 2023,
 * and numbers such as 3.8.1 are its sections. */
#ifndef VARSKUMO_H
#define VARSKUMO_H

#include <stddef.h>
#include <stdint.h>

/* The version of this header and of the archive that it goes with, in parts and as text.
 *   MAJOR changes if a call with the same blocks and numbers may answer or leave something else, if a word of
 *         the state or the log means something else, if a block has another length or a function other
 *         parameters, or if a name here is removed. A block that another MAJOR left must not be lent: it
 *         carries no version, and may be taken for a state.
 *   MINOR changes if something is added and all that was there stays as it was.
 *   PATCH changes with the words here, with what compilers are told, and with the speed of a call.
 * CHANGELOG.md says what each version changed, CONTRIBUTING.md which part each request that is to come moves.
 * Nothing compares it with the archive when a monitor runs: the archive's comment section has the version
 * that it is stamped with, and readelf -p prints it. */
#define VSK_VERSION_MAJOR 2
#define VSK_VERSION_MINOR 0
#define VSK_VERSION_PATCH 0
#define VSK_VERSION "2.0.0"

#ifdef __cplusplus
extern "C" {
#endif

/* ---- sizes and numbers of the board ---- */

/* The lengths of both blocks, in words. docs/LAYOUT.md says where each number of a state lies. */
#define VSK_STATE_WORDS 650
#define VSK_LOG_WORDS 63

#define VSK_HARTS 4        /* harts 0 to 3 */
#define VSK_FILES 5        /* of each hart: files 0 to 4 */
#define VSK_GUESTS 3       /* of each hart: guests 1 to 3 */
#define VSK_IDENTITIES 255 /* of each file: identities 1 to 255 */
#define VSK_SOURCES 63     /* wires and sources 1 to 63 */
#define VSK_DOMAINS 2

#define VSK_MACHINE_FILE 0
#define VSK_SUPERVISOR_FILE 1
/* The file of guest 1 to 3, as hstatus.VGEIN numbers them. Take care with VGEIN 0, which means no guest
 * file: here it would name the supervisor's, which no call but vsk_move refuses; so would -1 the machine
 * file. 4 to 63, all else that VGEIN can hold, give refusal 4. For VSEIP take bit VGEIN of VSK_HGEIP:
 * VSK_SIGNAL looks at low bits, and refuses nothing. */
#define VSK_GUEST_FILE(guest) (UINT64_C(1) + (uint64_t)(guest))
#define VSK_MACHINE_DOMAIN 0
#define VSK_SUPERVISOR_DOMAIN 1 /* the child of the machine domain */

/* ---- answers and refusals ---- */

/* What a call answers. If it sent messages, count is their number and they are the first words of the log, in
 * the order sent, by ascending source; the other words of the log stay as they were. Only vsk_wire and
 * vsk_domain_write send, at most VSK_LOG_WORDS in one call (Claim-86, Claim-171). By the time a call returns,
 * its messages are in their files. */
typedef struct vsk_answer {
    uint64_t value;   /* 0 unless the function's comment says more */
    uint32_t count;   /* messages sent */
    uint32_t refusal; /* a vsk_refusal */
} vsk_answer;

/* The refusals, in the order in which they are tested: of those that apply the lowest is given, exactly when
 * the line says (Claim-84, Claim-177). A refused call answers value 0 and count 0, and changes neither block,
 * nor a move's record (Claim-85). Every call may be refused with 1, 2 and 3, but reset with 1 and 2 only; the
 * comment of a function names the further ones. */
typedef enum vsk_refusal {
    VSK_DONE = 0,
    VSK_STATE_LENGTH = 1,  /* the state has not VSK_STATE_WORDS words */
    VSK_LOG_LENGTH = 2,    /* the log has not VSK_LOG_WORDS words */
    VSK_BROKEN_RULE = 3,   /* the state breaks a state rule */
    VSK_NO_SUCH = 4,       /* no such hart, file, domain, wire, level or kind of access; or a barred move */
    VSK_BAD_ADDRESS = 5,   /* the address is no multiple of 4, or outside the region or page */
    VSK_ILLEGAL_SELECT = 6 /* the select number is below 0x70, above 0xFF, or odd and above 0x80 */
} vsk_refusal;

/* The name of a refusal, for a trace. Costs nothing where it is not called. */
static inline const char *vsk_refusal_name(uint32_t refusal)
{
    switch (refusal) {
    case VSK_DONE: return "VSK_DONE";
    case VSK_STATE_LENGTH: return "VSK_STATE_LENGTH";
    case VSK_LOG_LENGTH: return "VSK_LOG_LENGTH";
    case VSK_BROKEN_RULE: return "VSK_BROKEN_RULE";
    case VSK_NO_SUCH: return "VSK_NO_SUCH";
    case VSK_BAD_ADDRESS: return "VSK_BAD_ADDRESS";
    case VSK_ILLEGAL_SELECT: return "VSK_ILLEGAL_SELECT";
    default: return "no refusal has this number";
    }
}

/* What a refusal means for the software whose access the monitor was making: the exception that a hart raises
 * for it, with the standard's sections. A virtual instruction exception is the hypervisor's to take and never
 * reaches the guest: a monitor that is the hypervisor keeps the guest's priorities for the even selects of
 * 0x30 to 0x3F (6.3.1), keeps a message file of its own for a guest that has none here and is told that it
 * has one (6.2), and for all else gives the guest an illegal instruction exception.
 *
 *   1, 2, 3  Never a guest's doing. The lengths are the monitor's, and what an accepted call leaves keeps the
 *            rules (Claim-86): with a 3 the state was never reset, or something else wrote to it. The
 *            monitor must stop. A 0 does not say that it was reset: a block of zeros keeps the rules too,
 *            and is a board on which every file is switched off.
 *
 *   4        Wires, levels, domains, harts, kinds, and the accesses of a move are the monitor's own numbers,
 *            and the mistake is its own; but a supervisor domain that delivers directly, which bars a move,
 *            may be its software's doing. Software chooses a hart and a file by the address of a page, where
 *            a page of no file reads 0 and ignores writes (3.6), and a file by hstatus.VGEIN. If VGEIN is
 *            the number of no guest file (0, which the monitor has to test for, or above VSK_GUESTS):
 *               M, HS      vstopei, vsireg from 0x70 to 0xFF        illegal instruction   2.3
 *               VS         stopei, sireg from 0x70 to 0xFF          virtual instruction   2.3
 *            4 comes before 6, so look at the select first: with one outside 0x70 to 0xFF it is as below.
 *
 *   5        No multiple of 4: a load gets a load access fault, a store or an AMO a store/AMO access fault,
 *            whoever made it: 3.5 for a page, 4.5 for a region (a bus error would do as well). Outside the
 *            page or region: the monitor gave an offset that is not this device's, and the mistake is its
 *            own.
 *
 *   6           M          mireg, but for 0x30 to 0x3F              illegal instruction   2.1, 3.8.3, 3.8.4
 *               M, HS, S   sireg, but for 0x30 to 0x3F              illegal instruction   2.2, 3.8.3, 3.8.4
 *               M, HS      vsireg, each one that is refused         illegal instruction   2.3, 3.8.3, 3.8.4
 *               VS         sireg, odd from 0x81 to 0xFF             virtual instruction   3.8.3, 3.8.4
 *               VS         sireg, 0x30 to 0x3F                      virtual instruction   2.3, 6.3.1
 *               VS         sireg, any other that is refused         illegal instruction   2.3
 *
 * Some accesses are no calls at all. 0x30 to 0x3F by mireg, and by sireg from M, HS and S: the even ones are
 * priorities of major interrupts, which the monitor keeps itself (all 0 and read-only will do), and the odd
 * ones an illegal instruction (5.2.1, 5.4.1). miselect, siselect and vsiselect, which the monitor keeps too.
 * VU gets a virtual instruction exception for sireg, and VS and VU for vsireg, whatever the select is (2.3);
 * so do VU for stopei, and VS and VU for vstopei (2.4). Odd selects are refused as for XLEN 64: S and VS have
 * to run with it. Before all of this go 2.5, where Smstateen is implemented, and 5.3: while bit 9 of mvien is
 * 1, stopei, and sireg from 0x70 to 0xFF, are an illegal instruction from S and HS. */

/* ---- the log ---- */

/* A logged message is hart x 2048 + file x 256 + identity. Identity 0 is logged and reaches no bit: it is
 * what a target sends that was not written yet. The parts are masked, and so are the numbers of VSK_LOGGED,
 * each to the width of its field: 2, 3 and 8 bits. */
#define VSK_LOGGED_HART(word) ((uint32_t)(word) >> 11 & 3u)
#define VSK_LOGGED_FILE(word) ((uint32_t)(word) >> 8 & 7u)
#define VSK_LOGGED_IDENTITY(word) ((uint32_t)(word) & 255u)
#define VSK_LOGGED(hart, file, identity) \
    (((uint32_t)(hart) & 3u) << 11 | ((uint32_t)(file) & 7u) << 8 | ((uint32_t)(identity) & 255u))

/* ---- the wired controller ---- */

/* A region takes aligned accesses of 4 bytes, one call each. Other widths, misaligned accesses, AMOs, LR and
 * SC must not reach it: the monitor answers them itself with an access fault (4.5).
 *
 * The registers of a domain by their addresses, which count from the start of its region, 0 to 0x4FFC: i is a
 * source, 1 to 63; h a hart; k is 0 for sources 1 to 31 and 1 for sources 32 to 63. Source 0 has no
 * registers: VSK_SOURCECFG(0) is domaincfg, and VSK_TARGET(0) is genmsi. Too large a number gives the address
 * of another register, or of none: it is not looked at here.
 * Words that are not named here read 0 and ignore writes: those of harts that are not there, and the four
 * registers of message addresses, 0x1BC0 to 0x1BCC. (The standard has these in the machine domain; fixed
 * addresses may read 0 there, but for the lock, 0x80000000 at 0x1BC4, 4.5.3 and 4.5.4: if machine software
 * looks, the monitor answers that read itself.) */
#define VSK_REGION_BYTES UINT64_C(0x5000)
#define VSK_DOMAINCFG UINT64_C(0x0000)
#define VSK_SOURCECFG(i) (UINT64_C(4) * (uint64_t)(i))
#define VSK_SETIP(k) (UINT64_C(0x1C00) + UINT64_C(4) * (uint64_t)(k))
#define VSK_SETIPNUM UINT64_C(0x1CDC)
#define VSK_IN_CLRIP(k) (UINT64_C(0x1D00) + UINT64_C(4) * (uint64_t)(k))
#define VSK_CLRIPNUM UINT64_C(0x1DDC)
#define VSK_SETIE(k) (UINT64_C(0x1E00) + UINT64_C(4) * (uint64_t)(k))
#define VSK_SETIENUM UINT64_C(0x1EDC)
#define VSK_CLRIE(k) (UINT64_C(0x1F00) + UINT64_C(4) * (uint64_t)(k))
#define VSK_CLRIENUM UINT64_C(0x1FDC)
#define VSK_SETIPNUM_LE UINT64_C(0x2000)
#define VSK_SETIPNUM_BE UINT64_C(0x2004)
#define VSK_GENMSI UINT64_C(0x3000)
#define VSK_TARGET(i) (UINT64_C(0x3000) + UINT64_C(4) * (uint64_t)(i))
#define VSK_IDELIVERY(h) (UINT64_C(0x4000) + UINT64_C(32) * (uint64_t)(h))
#define VSK_IFORCE(h) (UINT64_C(0x4004) + UINT64_C(32) * (uint64_t)(h))
#define VSK_ITHRESHOLD(h) (UINT64_C(0x4008) + UINT64_C(32) * (uint64_t)(h))
#define VSK_TOPI(h) (UINT64_C(0x4018) + UINT64_C(32) * (uint64_t)(h))
#define VSK_CLAIMI(h) (UINT64_C(0x401C) + UINT64_C(32) * (uint64_t)(h))

/* Where source i stands in setip, in_clrip, setie and clrie: the word k, and its bit in that word. Of i only
 * the low 6 bits count: 65 is source 1. */
#define VSK_SOURCE_WORD(i) ((uint32_t)(i) >> 5 & 1u)
#define VSK_SOURCE_BIT(i) (UINT32_C(1) << ((uint32_t)(i) & 31u))

/* While a domain has DM and IE, each source of it that is active, pending and enabled is sent, and its
 * pending bit is then clear; a level source is not sent again by itself while its wire stays. So write its
 * target before a source is enabled: what goes out before that has identity 0 and is lost.
 *
 * setip and setie read their bits; clrie and the registers that take a number read 0. A number that is not
 * that of an active source does nothing. A write sets or clears pending bits as far as 4.7 allows: of a level
 * source in direct mode neither, and with DM it sets one only while the wire is asserted. setipnum_be takes
 * its value with the four bytes reversed: 0x05000000 is source 5.
 *
 * in_clrip reads the rectified values (4.5.7), each by the mode that its source has in the domain that is
 * read: 1 while the wire is high for Edge1 and Level1, 1 while it is low for Edge0 and Level0, and 0 for a
 * source that is inactive, detached or delegated away. Before 2.0.0 it read the wires as they are, those of
 * detached sources too: a monitor that turned round the bits of active-low sources must no longer do so.
 * What a handler can rely on: with DM a level source, active high or active low, is asserted exactly while
 * its bit here is 1. So the first way of 4.9.2 works with Level0 sensors too: handle a cause, read in_clrip,
 * repeat while the bit is 1, and leave once it is 0; the next assertion makes the source pending and, if it
 * is enabled, is sent anew. The second way, to write setipnum before leaving, works as before. Without DM
 * the bit of a level source is its pending bit in setip, always. A bit of an edge source shows its wire now,
 * and nothing of edges that have passed. The wire of a source that is not active is kept and read by no
 * register; it counts as soon as the source gets a mode, so Level0 with a low wire reads 1 at once. */

/* domaincfg. It reads 0x80 in its top byte, whatever is written: 0x80000104 with IE and DM.
 * Where a write changes DM, genmsi becomes 0, and the target of each active source its start value: hart 0
 * with priority 1 for direct delivery, hart 0 with identity 0 for messages. Pending and enable bits stay, but
 * that a level source in direct mode is pending exactly while its level stands. If a write that changes DM
 * leaves IE set, what is pending and enabled goes out in the same call to these start values: directly to
 * hart 0, or as messages with identity 0, which nobody gets, and whose pending bits are gone. So: write DM
 * without IE, write the targets, then set IE. */
#define VSK_DOMAINCFG_FIXED 0x80000000u /* read, whatever was written */
#define VSK_DOMAINCFG_IE 0x100u         /* the domain delivers */
#define VSK_DOMAINCFG_DM 0x004u         /* by messages; without it directly */

/* sourcecfg. The supervisor domain has a source only while it is delegated, and its sourcecfg is 0 when it
 * gets or loses one; to delegate again what is delegated changes nothing. 2 and 3 are stored as 0, and so is
 * a write with VSK_SOURCE_DELEGATED in the supervisor domain; what else is written is not kept. A source that
 * is not active in a domain has no pending bit, no enable bit and no target there, and has to be enabled and
 * targeted anew; between active modes both stay.
 * Pending bits follow 4.7. Where 4.5.2 leaves it open: a write that takes the rectified value from low to
 * high sets the pending bit, in edge modes too (inactive and detached sources count as low), and what is then
 * to be sent is sent. All wires are low after a reset: set that of an active-low source to 1 before its mode
 * is written, or it is pending at once. */
#define VSK_SOURCE_DELEGATED 0x400u /* machine domain only: the supervisor domain has the source */
#define VSK_SOURCE_INACTIVE 0u
#define VSK_SOURCE_DETACHED 1u
#define VSK_SOURCE_EDGE1 4u
#define VSK_SOURCE_EDGE0 5u
#define VSK_SOURCE_LEVEL1 6u
#define VSK_SOURCE_LEVEL0 7u

/* target and genmsi. Both have two bits for a hart, a target of the supervisor domain two for a guest (0 is
 * the supervisor file; the machine domain sends to the machine file), and eight for an identity or a
 * priority. Too large a number counts by its low bits, here as in the registers, and nothing refuses it: a
 * target for hart 5 is hart 1's, one for guest 4 is the supervisor file's, identity 256 is identity 0. A
 * priority that is 0 is stored as 1. A target can be written only while its source is active, and has its
 * start value whenever it becomes so. genmsi can be written only while its domain has DM, and sends at once,
 * with IE or without, to the machine file or, in the supervisor domain, to the supervisor file; it reads what
 * was kept of the last write, and is never busy. */
#define VSK_TARGET_DIRECT(hart, priority) \
    (((uint32_t)(hart) & 3u) << 18 | ((uint32_t)(priority) & 255u))
#define VSK_TARGET_MESSAGE(hart, guest, identity) \
    (((uint32_t)(hart) & 3u) << 18 | ((uint32_t)(guest) & 3u) << 12 | ((uint32_t)(identity) & 255u))
#define VSK_TARGET_HART(word) ((uint32_t)(word) >> 18 & 3u)
#define VSK_TARGET_GUEST(word) ((uint32_t)(word) >> 12 & 3u)
#define VSK_TARGET_IDENTITY(word) ((uint32_t)(word) & 255u)
#define VSK_TARGET_PRIORITY(word) ((uint32_t)(word) & 255u)
#define VSK_GENMSI_MESSAGE(hart, identity) \
    (((uint32_t)(hart) & 3u) << 18 | ((uint32_t)(identity) & 255u))
#define VSK_GENMSI_HART(word) ((uint32_t)(word) >> 18 & 3u)
#define VSK_GENMSI_IDENTITY(word) ((uint32_t)(word) & 255u)

/* topi and claimi of a hart read the same, source x 65536 + priority, or 0 if there is none: of the sources
 * that are pending, enabled and targeted at the hart, and whose priority number is below ithreshold if that
 * is not 0, the one with the least priority number, and the lowest source among equals. Neither IE nor
 * idelivery plays a part. In direct mode a read of claimi also claims: it clears the pending bit of the
 * source that it answers, but that of a level source stays while its level stands; if it answers 0, it clears
 * iforce.
 * idelivery and iforce take 0 and 1, and keep what they have if anything else is written; ithreshold keeps
 * the low 8 bits. While the domain has DM, all five read 0 and ignore writes, and a read of claimi clears
 * nothing; the three numbers stay, and are there again when DM is cleared. So clear DM first, then write
 * them. */
#define VSK_TOPI_SOURCE(value) ((uint32_t)(value) >> 16 & 63u)
#define VSK_TOPI_PRIORITY(value) ((uint32_t)(value) & 255u)
#define VSK_CLAIMI_SOURCE(value) VSK_TOPI_SOURCE(value)
#define VSK_CLAIMI_PRIORITY(value) VSK_TOPI_PRIORITY(value)

/* ---- the message files ---- */

/* The words of a file's page by their offsets, 0 to 0xFFC. A page, too, takes aligned accesses of 4 bytes
 * and no others (3.5). A number that is no identity, in all its 32 bits, does nothing. At offset 4 the four
 * bytes of the value are reversed: 0x05000000 is identity 5. Every other word ignores writes. */
#define VSK_PAGE_BYTES UINT64_C(0x1000)
#define VSK_SETEIPNUM_LE UINT64_C(0x000)
#define VSK_SETEIPNUM_BE UINT64_C(0x004)

/* The registers of a file by their select numbers: j is 0 to 3, for identities 64 j to 64 j + 63; there is no
 * identity 0, and its bit is always 0. Too large a j gives a register that reads 0, or another one, or an
 * illegal number. The numbers 0x71 and 0x73 to 0x7F read 0 and store nothing. */
#define VSK_EIDELIVERY UINT64_C(0x70)
#define VSK_EITHRESHOLD UINT64_C(0x72)
#define VSK_EIP(j) (UINT64_C(0x80) + UINT64_C(2) * (uint64_t)(j))
#define VSK_EIE(j) (UINT64_C(0xC0) + UINT64_C(2) * (uint64_t)(j))

/* Where identity i stands in eip and eie: the number j, and its bit in that register. Of i only the low 8
 * bits count: 257 is identity 1. */
#define VSK_IDENTITY_WORD(i) ((uint32_t)(i) >> 6 & 3u)
#define VSK_IDENTITY_BIT(i) (UINT64_C(1) << ((uint32_t)(i) & 63u))

/* The values of eidelivery; a write of any other keeps the old one. After a reset files 0 and 1 have
 * VSK_DELIVERY_WIRED. To switch one of them on, use VSK_WRITE: setting bits (VSK_SET) would make 0x40000001,
 * which is no legal value, and 0x40000000 stays. eithreshold keeps the low 8 bits; 0 lets everything through,
 * and P shuts out P and all above it. */
#define VSK_DELIVERY_OFF UINT64_C(0)
#define VSK_DELIVERY_ON UINT64_C(1)
#define VSK_DELIVERY_WIRED UINT64_C(0x40000000) /* files 0 and 1: the signal is that of their domain */

/* The kinds of access to a register of a file. */
#define VSK_READ 0
#define VSK_WRITE 1
#define VSK_SET 2
#define VSK_CLEAR 3

/* A file's top: identity x 65536 + identity, or 0 if there is none. Its parts are masked to 8 bits. */
#define VSK_TOP_IDENTITY(value) ((uint32_t)(value) >> 16 & 255u)
#define VSK_TOP_PRIORITY(value) ((uint32_t)(value) & 255u)

/* The bit of file f, 0 to 4, in the signals of a hart; of f only the low 3 bits count. Of mip, file 0 is MEIP
 * and file 1 SEIP, with bit 9 of mvip beside it while bit 9 of mvien is 0 (5.3). The file of guest g is bit g
 * of hgeip (3.10): VSK_HGEIP makes hgeip out of the signals. */
#define VSK_SIGNAL(f) (UINT64_C(1) << ((uint32_t)(f) & 7u))
#define VSK_HGEIP(signals) ((uint64_t)(signals) >> 1 & UINT64_C(14))

/* ---- what compilers are told ---- */

/* VSK_CALL(state, log) says that an answer must be looked at (warn_unused_result), that no pointer is null
 * (nonnull), and how a call uses the blocks (access): read_only, write_only, read_write, or none for a log of
 * which only the length is looked at, spelled so that macros of these four names do no harm. gcc compares the
 * lengths with the objects that it can see, and knows which blocks must have been set before. */
#if defined(__STDC_VERSION__) && __STDC_VERSION__ >= 199901L
#define VSK_RESTRICT restrict
#elif defined(__GNUC__)
#define VSK_RESTRICT __restrict
#else
#define VSK_RESTRICT
#endif
#if defined(__GNUC__) && !defined(__cplusplus)
#define VSK_ALL_OF restrict static /* of an array that is lent: it has at least that many, C only */
#else
#define VSK_ALL_OF
#endif
#define VSK_ACCESS(mode, pointer, length)
#if defined(__GNUC__) && defined(__has_attribute)
#if __GNUC__ >= 12 && __has_attribute(__access__)
#undef VSK_ACCESS
#define VSK_ACCESS(mode, pointer, length) __attribute__((__access__(mode, pointer, length)))
#endif
#endif
#if defined(__GNUC__)
#define VSK_ASKED(...) __attribute__((__nonnull__(__VA_ARGS__), __warn_unused_result__))
#else
#define VSK_ASKED(...)
#endif
#define VSK_CALL(state, log) VSK_ASKED(1, 3) VSK_ACCESS(__##state##__, 1, 2) VSK_ACCESS(__##log##__, 3, 4)

/* ---- the calls ---- */

/* Puts the board in its start: wires low, files 0 and 1 follow their domains, all else 0; domaincfg reads
 * 0x80000000. The state may have held anything; the log stays. The wires are then low whatever the devices
 * do: set each that is high.
 * Claims 87 and 160. */
VSK_CALL(write_only, none)
vsk_answer vsk_reset(uint32_t *VSK_RESTRICT state, size_t state_len,
                     const uint32_t *VSK_RESTRICT log, size_t log_len);

/* Sets a wire, 1 to 63, to a level, 0 or 1, and sends what is then to be sent. A wire that is set to the
 * level that it has changes nothing.
 * Refuses 4: no such wire, no such level.
 * Claims 97, 99 and 141; the pending bit by mode and cause: 40 and 41. */
VSK_CALL(read_write, write_only)
vsk_answer vsk_wire(uint32_t *VSK_RESTRICT state, size_t state_len,
                    uint32_t *VSK_RESTRICT log, size_t log_len, uint64_t wire, uint64_t level);

/* Reads a word of a domain's region: the value is its 32 bits. A read of claimi claims.
 * Refuses 4: no such domain. 5: the address, which counts from the start of the region.
 * Claims 130 to 133, 140, 145 and 174; claimi: 46 and 49. */
VSK_CALL(read_write, none)
vsk_answer vsk_domain_read(uint32_t *VSK_RESTRICT state, size_t state_len,
                           const uint32_t *VSK_RESTRICT log, size_t log_len,
                           uint64_t domain, uint64_t address);

/* Writes a word of a domain's region, and sends what is then to be sent.
 * Refuses 4: no such domain. 5: the address, which counts from the start of the region.
 * Claims 55 to 58, 94, 95, 134 to 138 and 143; what it leaves: 156; what it sends: 54, 77 and 151. */
VSK_CALL(read_write, write_only)
vsk_answer vsk_domain_write(uint32_t *VSK_RESTRICT state, size_t state_len,
                            uint32_t *VSK_RESTRICT log, size_t log_len,
                            uint64_t domain, uint64_t address, uint32_t value);

/* Reads a word of a file's page: 0, for every word of it.
 * Refuses 4: no such hart, no such file. 5: the address, which counts from the start of the page.
 * Claims 91, 126 and 172. */
VSK_CALL(read_only, none)
vsk_answer vsk_page_read(const uint32_t *VSK_RESTRICT state, size_t state_len,
                         const uint32_t *VSK_RESTRICT log, size_t log_len,
                         uint64_t hart, uint64_t file, uint64_t address);

/* Writes a word of a file's page, as a device does that sends a message: at offset 0 or 4 an identity of 1 to
 * 255 becomes pending, whatever the file's delivery is. It is not logged.
 * Refuses 4: no such hart, no such file. 5: the address, which counts from the start of the page.
 * Claims 25, 26, 91 and 126. */
VSK_CALL(read_write, none)
vsk_answer vsk_page_write(uint32_t *VSK_RESTRICT state, size_t state_len,
                          const uint32_t *VSK_RESTRICT log, size_t log_len,
                          uint64_t hart, uint64_t file, uint64_t address, uint32_t value);

/* Accesses a register of a file. The kind is VSK_READ (the value given is ignored), VSK_WRITE, VSK_SET
 * (writes old-or-value) or VSK_CLEAR (writes old without value); what is written goes by the rules of the
 * register. A write answers 0, the others the old value:
 * so a CSRRW whose rd is not x0 is a VSK_READ and then a VSK_WRITE, with no other call on the board between
 * them, and one to x0 a VSK_WRITE, while CSRRS and CSRRC are one call, and with x0 or immediate 0 a VSK_READ.
 * Refuses 4: no such hart, file or kind. 6: the select number.
 * Claims 91 and 120 to 125; the select numbers: 30 and 31. */
VSK_CALL(read_write, none)
vsk_answer vsk_register(uint32_t *VSK_RESTRICT state, size_t state_len,
                        const uint32_t *VSK_RESTRICT log, size_t log_len,
                        uint64_t hart, uint64_t file, uint64_t kind, uint64_t select, uint64_t value);

/* Reads a file's top: i x 65536 + i for the lowest identity i that is pending, enabled and let through by the
 * threshold, which has to be 0 or greater than i; or 0 if no identity is. Delivery plays no part. It is what
 * mtopei, stopei or vstopei reads (3.9).
 * Refuses 4: no such hart, no such file.
 * Claims 20 to 22, 91, 128 and 172. */
VSK_CALL(read_only, none)
vsk_answer vsk_top(const uint32_t *VSK_RESTRICT state, size_t state_len,
                   const uint32_t *VSK_RESTRICT log, size_t log_len, uint64_t hart, uint64_t file);

/* Answers a file's top and clears its pending bit; with top 0 it changes nothing. It is what any write to
 * mtopei, stopei or vstopei does, and the value that the same instruction reads (3.9). A CSRRS or CSRRC with
 * x0, or with immediate 0, writes nothing: it is a read, and vsk_top answers it.
 * Refuses 4: no such hart, no such file.
 * Claims 23, 24, 91 and 172. */
VSK_CALL(read_write, none)
vsk_answer vsk_claim(uint32_t *VSK_RESTRICT state, size_t state_len,
                     const uint32_t *VSK_RESTRICT log, size_t log_len, uint64_t hart, uint64_t file);

/* The signals of a hart: bit f of the value is set if file f signals (VSK_SIGNAL). A file with delivery 0
 * never does, one with delivery 1 exactly if its top is not 0; file 0 or 1 with VSK_DELIVERY_WIRED exactly if
 * its domain signals the hart directly: DM clear, IE set, idelivery 1, and iforce or topi not 0. Any call
 * that stores may change them: on a file, by a claimi or in a move those of the harts that it names, a reset,
 * a wire or a write to a domain those of any hart, also where nothing is logged.
 * Refuses 4: no such hart.
 * Claims 89, 91 and 161. */
VSK_CALL(read_only, none)
vsk_answer vsk_signals(const uint32_t *VSK_RESTRICT state, size_t state_len,
                       const uint32_t *VSK_RESTRICT log, size_t log_len, uint64_t hart);

/* ---- the move of a station ---- */

/* A station, which is a guest with its message file, is moved from one guest file, old, to another, new, by
 * 89 accesses, each a call, so that wires may change and messages arrive between any two of them (6.1.2). */
#define VSK_ACCESSES 89

/* The record of a move, which its accesses fill and use: first old's delivery, then its threshold, its four
 * words of pending bits and its four of enable bits. It may hold any numbers at first; each access is given
 * what the last one left. */
#define VSK_SAVED_NUMBERS 10

/* Makes one access of a move, 1 to VSK_ACCESSES:
 *    1 to  3   save old's delivery and threshold, set its delivery to 0;
 *    4 to  8   set new's delivery to 0, clear its pending bits;
 *    9 to 71   the targets of sources 1 to 63 in the supervisor domain: one that names old is rewritten to
 *              name new, with the same identity; devices that write to old's page change over to new's now,
 *              each once, after access 8 and before access 72;
 *   72 to 79   read old's pending and enable bits into the record;
 *   80 to 87   set the saved pending bits in new, write the saved enable bits;
 *   88 and 89  write the saved threshold and delivery to new.
 * A refused access leaves the record as it was. Made in this order, each once, with one old, one new and one
 * record, whatever words each call's log holds, they leave new as the file that the station would have had
 * with no move. That is the theorem, Claim-105; docs/AUDIT.md opens with it. Between any two of them wires
 * and pages may be written, and the other stations go on: calls on every file but old and new may be made,
 * and answer what they would have answered with no move (Claim-185); and these files signal as with no move
 * (Claim-190). Calls that only read, as vsk_signals, may be made at any time, for old and new too
 * (Claim-181). What the monitor has to hold back from the first access to the last: what the moved station
 * would claim, or write to a register, on either file; writes to the domains, reads of a claimi, another
 * move, a reset. With some of these it goes wrong (Claim-186), and of the others nothing is known.
 * What it asks for besides: when it begins no active source's target names new, and new is nobody's, for what
 * it holds is lost; nobody writes to new's page until access 8 is made, nor to old's once access 72 is. A
 * device's write counts when vsk_page_write is called: one on its way to old has to have arrived by then
 * (6.1.2, step 3), or it is lost. Old is left silent and keeps its threshold and its pending and enable bits,
 * and what is pending in it is pending in new (Claim-180): clear them before it is used again, or those
 * interrupts come twice.
 * Before access 1 look whether the supervisor domain has DM. A move that is given up after access 1, before
 * access 9 and before a device has changed over is undone by a write of saved[0] to old's eidelivery
 * (Claim-189); new is left with what accesses 4 to 8 did not clear. Later than that finish it. Do not begin
 * anew without that write: access 1 would save a delivery of 0.
 * It takes ten arguments, of which the last are passed on the stack: four on x86-64, two on RISC-V and on
 * aarch64.
 * Refuses 4: no such access; old and new are not two different guest files; the supervisor domain delivers
 * directly.
 * Claims 100 to 103, and of all 89 together 105 to 110, 180, 181, 185, 186, 189 and 190. */
VSK_CALL(read_write, none) VSK_ASKED(10)
vsk_answer vsk_move(uint32_t *VSK_RESTRICT state, size_t state_len,
                    const uint32_t *VSK_RESTRICT log, size_t log_len,
                    uint64_t old_hart, uint64_t old_file, uint64_t new_hart, uint64_t new_file,
                    uint64_t access, uint64_t saved[VSK_ALL_OF VSK_SAVED_NUMBERS]);

#undef VSK_RESTRICT
#undef VSK_ALL_OF
#undef VSK_ACCESS
#undef VSK_ASKED
#undef VSK_CALL

#ifdef __cplusplus
}
#endif
#endif
