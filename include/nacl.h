/*
 * The L0 side of the SBI nested acceleration extension, for one hart at XLEN 32 or 64, with the
 * trap back from the guest, the hypervisor's half of the shared page, and the replay of a recording.
 *
 * Link libabi.a; the three functions of the replay are in libreplay_abi.a. No function
 * allocates, keeps a pointer, or calls back. Every function takes any words and bytes:
 * whatever a block holds, a call is answered by a code, and nothing is read or written
 * outside the ranges that are lent.
 *
 * What a caller owes, and no function can test: each pointer is good for its length, is
 * not null (also where its length is 0) and is aligned for its type; no range that is lent
 * for writing overlaps another range of the same call; and while a function runs, nothing
 * else writes a range that is lent to it, or reads one that is lent for writing. What follows
 * where a monitor does run in the middle of a request is told at the requests.
 */
#ifndef NACL_H
#define NACL_H

#include <stddef.h>
#include <stdint.h>

#ifdef __cplusplus
extern "C" {
#endif

/* The extension, and its calls. */
#define NACL_EID UINT64_C(0x4E41434C)

enum {
    NACL_FID_PROBE_FEATURE = 0, /* a0 the feature's number; the value is 1 where it is present */
    NACL_FID_SET_SHMEM = 1,     /* a0 the address, a1 its high word, a2 the flags; the page is made blank; all ones twice drop it */
    NACL_FID_SYNC_CSR = 2,      /* a0 a CSR number, or all ones for every one */
    NACL_FID_SYNC_HFENCE = 3,   /* a0 an entry's index, or all ones for every one */
    NACL_FID_SYNC_SRET = 4
};

/*
 * A hart of width 32 has 32-bit registers: of EID, FID and the arguments, and of the four words
 * of a trap, only the low 32 bits are taken, so that "all ones" is 0xFFFFFFFF and UINT64_MAX names
 * it too. The lines of a line change and the limit of a stoppable call are taken as they are.
 */

/* The codes. */
enum {
    NACL_SUCCESS = 0,
    NACL_ERR_FAILED = -1,          /* the table or the record is not well made; a width is neither 32 nor 64; a request's page has another length; a replay's state or lengths are not right */
    NACL_ERR_NOT_SUPPORTED = -2,   /* V is on or the mode is U; no such call; its feature is absent; a trap while V is off */
    NACL_ERR_INVALID_PARAM = -3,
    NACL_ERR_DENIED = -4,          /* every fence entry of the page is pending */
    NACL_ERR_INVALID_ADDRESS = -5, /* the page that set names does not lie in memory, or its high word is not 0 */
    NACL_ERR_NO_SHMEM = -9         /* no page is set, or it does not lie in memory */
};

/*
 * A hart's record is a block of NACL_HART_WORDS 64-bit words, at both widths.
 *
 * It is well formed where it has that length, each word marked 0/1 is 0 or 1, the width is 32
 * or 64, the page's address is 0 where no page is set, and the count of writes that dropped bits is
 * below 2^32. Any other block is a record that is not well made, and a call, a line change or a trap
 * with it is NACL_ERR_FAILED and changes nothing but the answer's block. Nor is a record well made
 * where a stored register holds what no write to it can leave, lines has a bit outside 7:1, bit 0 of
 * sepc or one of the two low bits of stvec is set, the page's address is not a multiple of 4096, X0
 * is not 0, the features are 16 or more, or where, at width 32, a word has a bit above 31 set or, at
 * width 64, htimedeltah is not 0.
 *
 * stvec, scause and stval have no CSR number here and no word in the page: the caller stores stvec
 * as L1 writes it, nacl_trap stores scause and stval, and no call changes any of the three.
 *
 * The count is 0 in a fresh hart, grows by one with each report (see below), and stays at 2^32 - 1
 * once it is there; reports are made all the same. Below 2^32 no code depends on it, and the caller
 * may put it back to 0.
 */
enum {
    NACL_HART_HSTATUS = 0, /* 19 of the stored registers; htimedeltah is word 63 */
    NACL_HART_HGEIE = 1,
    NACL_HART_HIDELEG = 2,
    NACL_HART_HVIP = 3,
    NACL_HART_HIE = 4,
    NACL_HART_HEDELEG = 5,
    NACL_HART_HTIMEDELTA = 6,
    NACL_HART_HCOUNTEREN = 7,
    NACL_HART_HENVCFG = 8,
    NACL_HART_HTVAL = 9,
    NACL_HART_HTINST = 10,
    NACL_HART_HGATP = 11,
    NACL_HART_VSSTATUS = 12,
    NACL_HART_VSTVEC = 13,
    NACL_HART_VSSCRATCH = 14,
    NACL_HART_VSEPC = 15,
    NACL_HART_VSCAUSE = 16,
    NACL_HART_VSTVAL = 17,
    NACL_HART_VSATP = 18,
    NACL_HART_LINES = 19,     /* the guest external interrupt lines, bits 7:1 */
    NACL_HART_PAGE_SET = 20,  /* 0/1 */
    NACL_HART_PAGE = 21,      /* the page's physical address, 0 where none is set */
    NACL_HART_VIRT = 22,      /* V, 0/1 */
    NACL_HART_MODE = 23,      /* 0/1: 0 U, 1 S */
    NACL_HART_PC = 24,
    NACL_HART_SEPC = 25,
    NACL_HART_SIE = 26,       /* bits of sstatus, 0/1 */
    NACL_HART_SPIE = 27,      /* 0/1 */
    NACL_HART_SPP = 28,       /* 0/1 */
    NACL_HART_FEATURES = 29,  /* bit k: feature k, below 16 */
    NACL_HART_X = 30,         /* X0 to X31 */
    NACL_HART_XLEN = 62,      /* the width, 32 or 64 */
    NACL_HART_HTIMEDELTAH = 63, /* a stored register of width 32 */
    NACL_HART_STVEC = 64,     /* where the hart goes on after a trap; its two low bits are 0 */
    NACL_HART_SCAUSE = 65,    /* the cause of the last trap */
    NACL_HART_STVAL = 66,     /* its tval */
    NACL_HART_DROPPED = 67,   /* how many register writes dropped bits, below 2^32 */
    NACL_HART_WORDS = 68
};

/*
 * An answer is a code, the function's result, and a block of NACL_ANSWER_WORDS words. A
 * block of another length is left alone, and all else is the same: reports are then written
 * without their number.
 */
enum {
    NACL_ANSWER_VALUE = 0,    /* probe's value, else 0 */
    NACL_ANSWER_RESUMED = 1,  /* 1 where the hart goes on at its new pc: SRET's success; 0 for a trap */
    NACL_ANSWER_STEPS = 2,    /* nacl_sync_stoppable: the steps made; else 0 */
    NACL_ANSWER_FINISHED = 3, /* nacl_sync_stoppable: 1 where these were all; else 0 */
    NACL_ANSWER_REPORTS = 4,  /* how many reports there are, whatever room they had */
    NACL_ANSWER_WORDS = 5
};

/*
 * A report tells of a register write that dropped bits: not all bits of the word that was given are
 * what the register reads right after this write. It is two words, the CSR's number and those bits:
 * the word given XOR the reading, so bits given 1 that read 0 and bits given 0 that read 1. If hgatp
 * is written 0x9000000000000007 at width 64, a mode that is not supported, and reads 4, the report
 * is 0x680 and 0x9000000000000003. A register that ignores writes reports what differs too.
 *
 * The writes are those of a synchronization, of each register that is marked, and the swap of
 * hstatus by SRET and by the trap back, whose CSR is 0x600; SRET clears SPV only after it. Set, line
 * changes and the other changes that SRET and a trap make to the record are no such writes. The
 * hypervisor's requests make none either: they fill the page. nacl_sync_stoppable reports and counts
 * the writes of its own run: a register that is written again by the next run, since the stop fell
 * before its mark was cleared, is reported and counted twice.
 *
 * nacl_call, nacl_sync_stoppable and nacl_trap write the reports to the start of `reports`, in the
 * order of the writes, word by word as far as there is room: where the room is odd the last word may
 * be a number without its bits. Words behind the reports stay as they are, so read no further than
 * the answer's block says. A refused call has no reports and writes nothing there.
 */
enum {
    NACL_REPORT_WORDS = 52 /* room for all: 25 registers and the swap */
};

/* The widths. */
enum {
    NACL_XLEN_32 = 32,
    NACL_XLEN_64 = 64
};

/*
 * The shared page. Its little-endian words have the width's bytes, W here.
 *
 *   Offset      Content
 *   W * i       X_i of the SRET context; zero for i 0
 *   0x200       the autoswap flags; the swap word of hstatus is the word after them
 *   0x800       the fence entries, each of the words Config, Page_Number, 0 and Page_Count
 *   0xF80       the dirty bits, one for each index, the lowest bit of a byte first
 *   0x1000      the register words, one for each index
 *
 * The index of a CSR number n is (n & 0xC00) >> 2 | (n & 0xFF). In Config:
 *
 *   Width   Pending   Type    Order   VMID    ASID   reserved
 *   64      63        59:56   54:48   29:16   15:0   62:60, 55, 47:30
 *   32      31        27:24   22:16   15:9    8:0    30:28, 23
 */
enum {
    NACL_WORD_BYTES_32 = 4,
    NACL_WORD_BYTES_64 = 8,
    NACL_PAGE_BYTES_32 = 8192,
    NACL_PAGE_BYTES_64 = 12288,
    NACL_ENTRIES_32 = 120,
    NACL_ENTRIES_64 = 60,
    NACL_PAGE_BYTES = NACL_PAGE_BYTES_64 /* enough for the page of either width */
};

/* The registers by their CSR numbers, in the order in which they are synchronized. */
enum {
    NACL_CSR_HSTATUS = 0x600,
    NACL_CSR_HGEIP = 0xE12, /* ignores writes */
    NACL_CSR_HGEIE = 0x607,
    NACL_CSR_HIDELEG = 0x603,
    NACL_CSR_HVIP = 0x645,
    NACL_CSR_HIE = 0x604,
    NACL_CSR_HIP = 0x644,
    NACL_CSR_VSIE = 0x204,
    NACL_CSR_VSIP = 0x244,
    NACL_CSR_HEDELEG = 0x602,
    NACL_CSR_HTIMEDELTA = 0x605,
    NACL_CSR_HTIMEDELTAH = 0x615, /* width 32 only */
    NACL_CSR_HCOUNTEREN = 0x606,
    NACL_CSR_HENVCFG = 0x60A,
    NACL_CSR_HENVCFGH = 0x61A, /* width 32 only; ignores writes */
    NACL_CSR_HTVAL = 0x643,
    NACL_CSR_HTINST = 0x64A,
    NACL_CSR_HGATP = 0x680,
    NACL_CSR_VSSTATUS = 0x200,
    NACL_CSR_VSTVEC = 0x205,
    NACL_CSR_VSSCRATCH = 0x240,
    NACL_CSR_VSEPC = 0x241,
    NACL_CSR_VSCAUSE = 0x242,
    NACL_CSR_VSTVAL = 0x243,
    NACL_CSR_VSATP = 0x280
};

/* The types of fence entries, and the fields that each uses. */
enum {
    NACL_HFENCE_GVMA = 0,          /* a guest physical range */
    NACL_HFENCE_GVMA_ALL = 1,      /* none */
    NACL_HFENCE_GVMA_VMID = 2,     /* VMID, a guest physical range */
    NACL_HFENCE_GVMA_VMID_ALL = 3, /* VMID */
    NACL_HFENCE_VVMA = 4,          /* VMID, a guest virtual range */
    NACL_HFENCE_VVMA_ALL = 5,      /* VMID */
    NACL_HFENCE_VVMA_ASID = 6,     /* VMID, ASID, a guest virtual range */
    NACL_HFENCE_VVMA_ASID_ALL = 7  /* VMID, ASID */
};

/* The words that are given for the SRET context: X0, which is not looked at, to X31. */
enum { NACL_CONTEXT_WORDS = 32 };

/* Room enough for any listing. */
enum { NACL_LIST_BYTES = 23000 };

/*
 * A replay's state is a block of NACL_REPLAY_STATE_WORDS 64-bit words: a hart's record, and three
 * words more. It is well formed where it has that length, its first NACL_HART_WORDS words are a
 * well-formed record, and the word marked 0/1 is 0 or 1.
 */
enum {
    NACL_REPLAY_NUMBER = 68, /* the number of the record that comes next; the first is 1 */
    NACL_REPLAY_HAVE = 69,   /* how many bytes of it are in `pending` */
    NACL_REPLAY_ENDED = 70,  /* 0/1: 1 where a bad header has ended the replay */
    NACL_REPLAY_STATE_WORDS = 71
};

/*
 * What a replay is lent. A line has at most 87 bytes, and 21 more for each of at most 26 reports: a
 * replay begins with width 64, but a state that is lent may have width 32, which has 25 registers.
 */
enum {
    NACL_REPLAY_MEMORY_BYTES = 12288, /* exactly */
    NACL_REPLAY_TABLE_WORDS = 256,    /* exactly: 64 slots */
    NACL_REPLAY_PENDING_BYTES = 4110, /* or more: the longest record */
    NACL_REPLAY_LINE_BYTES = 633      /* or more: room for any line */
};

/* What is said of a part, in a block of NACL_REPLAY_SAID_WORDS words. */
enum {
    NACL_REPLAY_TAKEN = 0,   /* how many bytes of the part were taken */
    NACL_REPLAY_WRITTEN = 1, /* how many bytes of lines were written */
    NACL_REPLAY_SAID_WORDS = 2
};

/*
 * Makes the block a fresh hart's of the width `xlen`, with the features in the low four bits of
 * `features`. NACL_SUCCESS; or NACL_ERR_FAILED for a block of another length and for a width
 * that is neither 32 nor 64, and the block is left alone.
 */
int64_t nacl_fresh(uint64_t *hart, size_t hart_words, uint64_t xlen, uint64_t features);

/*
 * Any call. `memory` is L1 memory, its first byte at physical address `base`; `table` is
 * the translation table, four 64-bit words a slot at both widths and at most 1024 words.
 *
 * A refusal leaves hart, memory, table and reports as they were and has value 0. Steps and
 * finished are 0, also for NACL_FID_SYNC_CSR and NACL_FID_SYNC_HFENCE. Only NACL_FID_SYNC_CSR and
 * NACL_FID_SYNC_SRET have reports.
 *
 * NACL_FID_SET_SHMEM makes the page that it names blank: all its bytes become zero, and then each
 * register's reading is stored in its word, whatever the features. So fill a page after it is set,
 * not before. Marks that stood in it are gone, unserved, also where the same address is set again.
 * No other byte changes, not of an old page either. Dropping the page writes nothing.
 *
 * NACL_FID_SYNC_SRET first synchronizes all registers if feature 0 is there, and all entries if
 * feature 1 is. Nothing in this can be refused: its codes are those of its own checks alone. Making
 * NACL_FID_SYNC_CSR and then NACL_FID_SYNC_HFENCE with all-ones just before it changes nothing of
 * what it leaves.
 */
int64_t nacl_call(uint64_t *hart, size_t hart_words,
                  uint64_t base, uint8_t *memory, size_t memory_bytes,
                  uint64_t *table, size_t table_words,
                  uint64_t eid, uint64_t fid, uint64_t a0, uint64_t a1, uint64_t a2,
                  uint64_t *answer, size_t answer_words,
                  uint64_t *reports, size_t report_words);

/*
 * NACL_FID_SYNC_CSR or NACL_FID_SYNC_HFENCE, stoppable: the first `limit` steps of the
 * call, or all if there are fewer. Any other call is NACL_ERR_NOT_SUPPORTED, where the table
 * and the record are well made. A run that has not finished has code NACL_SUCCESS. A refusal
 * leaves hart, memory, table and reports as they were and tells 0 steps and not finished.
 */
int64_t nacl_sync_stoppable(uint64_t *hart, size_t hart_words,
                            uint64_t base, uint8_t *memory, size_t memory_bytes,
                            uint64_t *table, size_t table_words,
                            uint64_t eid, uint64_t fid, uint64_t a0, uint64_t limit,
                            uint64_t *answer, size_t answer_words,
                            uint64_t *reports, size_t report_words);

/*
 * The platform's lines are now `lines`: they are stored and, where the page is set and lies
 * in memory, the words of hgeip, hip and vsip that are clean: whose dirty bit is clear or, in
 * a hart without feature 0, all three. NACL_ERR_FAILED where the
 * table or the record is not well made (of the table only the length is looked at),
 * NACL_ERR_INVALID_PARAM for a bit outside 7:1; a refusal leaves hart and memory as they were. No
 * register is written, so there are no reports and no buffer for them.
 */
int64_t nacl_line_change(uint64_t *hart, size_t hart_words,
                         uint64_t base, uint8_t *memory, size_t memory_bytes,
                         const uint64_t *table, size_t table_words,
                         uint64_t lines,
                         uint64_t *answer, size_t answer_words);

/*
 * The trap back: the guest is left, and L1 goes on in its handler, at stvec. After a successful
 * SRET with V on every call is NACL_ERR_NOT_SUPPORTED until such a trap.
 *
 * The codes, in the order in which they are judged; mode, features and page play no part:
 *
 *   NACL_ERR_FAILED          the table or the record is not well made (of the table only the
 *                            length is looked at)
 *   NACL_ERR_NOT_SUPPORTED   V is off
 *
 * A refusal leaves hart, memory and reports as they were. What an accepted trap does, in this order:
 *
 *   V               goes off
 *   hstatus         GVA takes bit 0 of `gva`, whose other bits are ignored, SPV becomes 1, SPVP
 *                   takes the old mode (1 for S); its other bits stay
 *   SPP, SPIE, SIE  SPP takes the old mode, SPIE takes SIE, SIE becomes 0
 *   sepc            takes pc with bit 0 cleared
 *   mode, pc        become S and stvec
 *   four words      htval, htinst, scause and stval take `htval`, `htinst`, `cause` and `tval` as
 *                   they are, at width 32 their low 32 bits
 *   the swap        with feature 3 and the flag, bit 0 of the autoswap flags, hstatus is written
 *                   from the swap word as in SRET; that gets the old hstatus, with the bits above
 *   stores          the words of hstatus, htval, htinst, hip and vsip that are clean: whose dirty
 *                   bit is clear or, in a hart without feature 0, all five
 *
 * Where no page is set, or it does not lie in memory, there is no swap and no store. A word that is
 * marked stays, with its mark, and the next synchronization writes its register from it, over what
 * the trap told. A swap that drops bits is reported and counted. No other word of the record and no
 * other byte changes. The answer's block is all 0 but for NACL_ANSWER_REPORTS, which is 1 if the
 * swap dropped bits. A trap is not stoppable.
 *
 * What the caller owes besides: at the trap the record has the guest's pc and mode, and stvec as L1
 * has written it, with the two low bits 0. L1 can't write stvec through the page, since it has no
 * number there.
 */
int64_t nacl_trap(uint64_t *hart, size_t hart_words,
                  uint64_t base, uint8_t *memory, size_t memory_bytes,
                  const uint64_t *table, size_t table_words,
                  uint64_t cause, uint64_t tval, uint64_t htval, uint64_t htinst, uint64_t gva,
                  uint64_t *answer, size_t answer_words,
                  uint64_t *reports, size_t report_words);

/*
 * Writes the listing of a page to the start of `out`, as much of it as has room there, and
 * gives the length of the whole, which is at most NACL_LIST_BYTES. No zero byte is added.
 * An image of NACL_PAGE_BYTES_32 is a page of width 32, one of NACL_PAGE_BYTES_64 of width 64;
 * any other length lists as "bad length".
 */
size_t nacl_list(const uint8_t *image, size_t image_bytes, uint8_t *out, size_t out_bytes);

/*
 * The hypervisor's half: three requests that fill a shared page for the calls above. A request
 * works on the page's bytes and the width `xlen`, 32 or 64, and knows no hart and no address.
 * Fill a page after it is set, since a set blanks it. What is filled in is served only where the
 * hart has the feature, so probe first: 0 for registers, 1 for fences, 2 for the context.
 *
 * The result is a value, 0 or more, or a negative code. A refusal changes no byte. The codes, in
 * the order in which they are judged:
 *
 *   NACL_ERR_FAILED          the width is neither 32 nor 64, or the page has not its length,
 *                            NACL_PAGE_BYTES_32 or NACL_PAGE_BYTES_64
 *   NACL_ERR_INVALID_PARAM   a number that the request does not take, as told below; at width 32
 *                            also a word to be stored that does not fit in 32 bits
 *   NACL_ERR_DENIED          a fence for which no entry is free
 *
 * Nothing is cut: at width 32 extend numbers by zeros. One that is extended by its sign is
 * NACL_ERR_INVALID_PARAM here, while nacl_call takes its low 32 bits. No bit changes but those that
 * a request names.
 *
 * The order of stores that is told below holds for the function as it is written. The stores are
 * plain, so do not rely on it against another hart: put a barrier of your own before another hart
 * may look at the page. On one hart a call comes after the request, and the order does not matter.
 * But a line change that the monitor makes in an interrupt may fall between the two stores of
 * nacl_write_csr. Then a value for hgeip, hip or vsip can be replaced by the reading just before
 * it is marked: hold interrupts off, or write again, since a marked word is left alone.
 */

/*
 * Writes a register: stores `value` in the word of the CSR with this number, then sets its dirty
 * bit. The value is 0. NACL_ERR_INVALID_PARAM for a number that the width does not implement, all
 * ones among them; NACL_CSR_* are those that there are.
 */
int64_t nacl_write_csr(uint8_t *page, size_t page_bytes, uint64_t xlen,
                       uint64_t csr, uint64_t value);

/*
 * Queues a fence in the lowest entry that is not pending: stores Page_Number, Page_Count and zero
 * in word 2, then Config, with Pending set, last. The value is the entry's number, which
 * NACL_FID_SYNC_HFENCE takes. `page_number` is the first address shifted right by `order` + 12,
 * `page_count` the number of pages of 1 << (`order` + 12) bytes.
 *
 * Fields that the type does not use are stored as zero. NACL_ERR_INVALID_PARAM for a type above 7,
 * and, whether the type uses the field or not, an order above 127, a VMID above 16383 (at width 32
 * 127) or an ASID above 65535 (511); at width 32 also for a page number or count that does not fit
 * in 32 bits, where the type has a range. Types without one, 1, 3, 5 and 7, take any.
 *
 * On NACL_ERR_DENIED call NACL_FID_SYNC_HFENCE, which frees entries, then ask again.
 */
int64_t nacl_queue_hfence(uint8_t *page, size_t page_bytes, uint64_t xlen,
                          uint64_t type, uint64_t order, uint64_t vmid, uint64_t asid,
                          uint64_t page_number, uint64_t page_count);

/*
 * Fills the SRET context: stores zero in its first word and x[1] to x[31] in the words of X1 to
 * X31; x[0] is not looked at. The value is 0. NACL_ERR_INVALID_PARAM where `x_words` is not
 * NACL_CONTEXT_WORDS.
 */
int64_t nacl_fill_context(uint8_t *page, size_t page_bytes, uint64_t xlen,
                          const uint64_t *x, size_t x_words);

/*
 * The replay of a recording: what the hart does is done again, and a line is written for each of
 * its records. docs/RECORDING.md tells what a recording is and what the lines say.
 *
 * The recording comes in parts, cut anywhere and as long as they happen to be. Between the calls
 * the caller keeps four ranges, and leaves them as the calls left them:
 *
 *   state     the block above. Its first NACL_HART_WORDS words are the hart's record, as nacl_call
 *             takes it
 *   memory    L1 memory, NACL_REPLAY_MEMORY_BYTES, its first byte at physical address 0x80000000
 *   table     the translation table, NACL_REPLAY_TABLE_WORDS
 *   pending   the bytes so far of a record that is not whole yet, NACL_REPLAY_PENDING_BYTES or more;
 *             what it holds at the start does not matter
 *
 * Start once. Feed each part until all of it is taken: each time write the first
 * said[NACL_REPLAY_WRITTEN] bytes of `out`, step said[NACL_REPLAY_TAKEN] bytes forward in the part,
 * and feed what is left. Finish when the recording ends, and write those bytes too:
 *
 *   nacl_replay_start(state, NACL_REPLAY_STATE_WORDS, memory, ..., table, ...);
 *   for each part
 *       for (at = 0; at < bytes; at += said[NACL_REPLAY_TAKEN]) {
 *           if (nacl_replay_feed(state, ..., part + at, bytes - at, out, ..., said, ...) != 0)
 *               abort();
 *           fwrite(out, 1, said[NACL_REPLAY_WRITTEN], stdout);
 *       }
 *   nacl_replay_finish(state, ..., out, ..., said, ...);
 *   fwrite(out, 1, said[NACL_REPLAY_WRITTEN], stdout);
 *
 * All of these are NACL_SUCCESS, or NACL_ERR_FAILED, and then nothing that is lent is changed, nor
 * are the words of `said`.
 */

/*
 * Makes state, memory and table those of the beginning: a fresh hart of width 64 with all features,
 * memory and table all zeroes, and record 1 to come. NACL_ERR_FAILED where one of the three has
 * another length.
 */
int64_t nacl_replay_start(uint64_t *state, size_t state_words,
                          uint8_t *memory, size_t memory_bytes,
                          uint64_t *table, size_t table_words);

/*
 * Takes bytes of `part` from its start on, applies each record that they make whole, and writes its
 * line to `out`, from its start on. It stops where the part ends, or where fewer than
 * NACL_REPLAY_LINE_BYTES are left in `out`; so some of a part that has a byte is always taken. After
 * a bad header, whose line is the last, the rest is taken unread. No zero byte is added.
 *
 * NACL_ERR_FAILED where the state is not well formed; where memory or table has another length;
 * where `pending` is shorter than NACL_REPLAY_PENDING_BYTES, or its first NACL_REPLAY_HAVE bytes are
 * not the beginning of a record; where `out` is shorter than NACL_REPLAY_LINE_BYTES; or where
 * `said_words` is not NACL_REPLAY_SAID_WORDS. What the calls themselves left is none of these.
 */
int64_t nacl_replay_feed(uint64_t *state, size_t state_words,
                         uint8_t *memory, size_t memory_bytes,
                         uint64_t *table, size_t table_words,
                         uint8_t *pending, size_t pending_bytes,
                         const uint8_t *part, size_t part_bytes,
                         uint8_t *out, size_t out_bytes,
                         uint64_t *said, size_t said_words);

/*
 * The recording has ended: writes what is to be written then, the line of a last record that was
 * cut, or nothing, to the start of `out`. said[NACL_REPLAY_TAKEN] is 0. NACL_ERR_FAILED where the
 * state is not well formed, `out` is shorter than NACL_REPLAY_LINE_BYTES or `said_words` is not
 * NACL_REPLAY_SAID_WORDS.
 */
int64_t nacl_replay_finish(const uint64_t *state, size_t state_words,
                           uint8_t *out, size_t out_bytes,
                           uint64_t *said, size_t said_words);

#ifdef __cplusplus
}
#endif

#endif
