/*
 * Into the guest and back: a hypervisor fills the page and goes to its guest with SRET. There no
 * call is answered until a trap brings the hart back to the hypervisor's handler: a guest-page
 * fault of the guest's S mode, and then a call of its U mode. At both widths.
 */
#include <inttypes.h>
#include <stdio.h>

#include "nacl.h"

#define BASE UINT64_C(0x80000000)
#define HANDLER UINT64_C(0x80100000) /* its two low bits are 0 */
#define SPV (UINT64_C(1) << 7)       /* of hstatus: SRET goes to the guest */

static uint64_t hart[NACL_HART_WORDS];
static uint8_t memory[NACL_PAGE_BYTES_64]; /* the page of width 32 is shorter */
static uint64_t answer[NACL_ANSWER_WORDS];
static uint64_t reports[NACL_REPORT_WORDS]; /* of dropped bits, not looked at here */
static uint64_t table[4];
static uint64_t xlen;                 /* the hart's width */
static size_t word_bytes, page_bytes; /* of that width */

/* A call of the extension with one argument; gives the code. */
static int64_t call(uint64_t fid, uint64_t a0)
{
    return nacl_call(hart, NACL_HART_WORDS, BASE, memory, page_bytes, table, 4, NACL_EID,
                     fid, a0, 0, 0, answer, NACL_ANSWER_WORDS, reports, NACL_REPORT_WORDS);
}

/* A register's word. */
static uint64_t word_of(size_t csr)
{
    size_t i = ((csr & 0xC00) >> 2) | (csr & 0xFF);
    uint64_t word = 0;
    for (size_t k = 0; k < word_bytes; k++)
        word |= (uint64_t)memory[0x1000 + word_bytes * i + k] << (8 * k);
    return word;
}

/* Prints a code, and where the hart is then. */
static void show(const char *name, int64_t code)
{
    printf("%s %" PRId64 ", resumed %" PRIu64 ": V %" PRIu64 ", mode %" PRIu64 ", pc %" PRIx64 "\n",
           name, code, answer[NACL_ANSWER_RESUMED], hart[NACL_HART_VIRT], hart[NACL_HART_MODE],
           hart[NACL_HART_PC]);
}

/* Asks for the feature of SRET; prints the answer. */
static void probe(void)
{
    int64_t code = call(NACL_FID_PROBE_FEATURE, 2);
    printf("probe_feature %" PRId64 ", value %" PRIu64 "\n", code, answer[NACL_ANSWER_VALUE]);
}

/* A hart of a width whose hypervisor has set its page and written its handler to stvec. */
static void start(uint64_t width)
{
    xlen = width;
    word_bytes = xlen == NACL_XLEN_32 ? NACL_WORD_BYTES_32 : NACL_WORD_BYTES_64;
    page_bytes = xlen == NACL_XLEN_32 ? NACL_PAGE_BYTES_32 : NACL_PAGE_BYTES_64;
    printf("width %" PRIu64 "\n", xlen);
    nacl_fresh(hart, NACL_HART_WORDS, xlen, 15);
    hart[NACL_HART_STVEC] = HANDLER;
    printf("set_shmem %" PRId64 "\n", call(NACL_FID_SET_SHMEM, BASE));
}

/* The hypervisor fills in its guest's registers and marks hstatus, with SPV set; the page is all
   of memory here. */
static void fill(void)
{
    uint64_t x[NACL_CONTEXT_WORDS];
    for (size_t i = 0; i < NACL_CONTEXT_WORDS; i++)
        x[i] = 0x100 + i;
    int64_t code = nacl_fill_context(memory, page_bytes, xlen, x, NACL_CONTEXT_WORDS);
    if (code == NACL_SUCCESS)
        code = nacl_write_csr(memory, page_bytes, xlen, NACL_CSR_HSTATUS, SPV);
    if (code != NACL_SUCCESS)
        printf("fill %" PRId64 "\n", code);
}

/* The hypervisor goes to its guest, to an address and a mode (0 U, 1 S) that it has chosen. */
static void enter(uint64_t pc, uint64_t mode)
{
    hart[NACL_HART_SEPC] = pc;
    hart[NACL_HART_SPP] = mode;
    show("sync_sret", call(NACL_FID_SYNC_SRET, 0));
    probe();
}

/* The guest has come to an address and traps; prints what the handler finds. */
static void leave(uint64_t pc, uint64_t cause, uint64_t tval, uint64_t htval, uint64_t gva)
{
    hart[NACL_HART_PC] = pc;
    show("trap", nacl_trap(hart, NACL_HART_WORDS, BASE, memory, page_bytes, table, 4,
                           cause, tval, htval, 0, gva, answer, NACL_ANSWER_WORDS,
                           reports, NACL_REPORT_WORDS));
    printf("sepc %" PRIx64 ", SPP %" PRIu64 ", scause %" PRIx64 ", stval %" PRIx64 "\n",
           hart[NACL_HART_SEPC], hart[NACL_HART_SPP], hart[NACL_HART_SCAUSE],
           hart[NACL_HART_STVAL]);
    printf("hstatus %" PRIx64 ", its word %" PRIx64 "\n", hart[NACL_HART_HSTATUS],
           word_of(NACL_CSR_HSTATUS));
    printf("htval %" PRIx64 ", its word %" PRIx64 "\n", hart[NACL_HART_HTVAL],
           word_of(NACL_CSR_HTVAL));
    probe();
}

/* The story at one width. */
static void guest(uint64_t width)
{
    start(width);
    fill();
    enter(0x1000, 1);
    /* 21 is a load's guest-page fault; htval is the guest physical address shifted right by 2. */
    leave(0x1042, 21, 0x5008, UINT64_C(0x80005008) >> 2, 1);
    /* The trap has set SPV again, so the next SRET goes to the guest without a mark. */
    enter(0x2000, 0);
    leave(0x2010, 8, 0, 0, 0); /* 8 is a call of U mode; nothing else is told */
}

int main(void)
{
    guest(NACL_XLEN_64);
    guest(NACL_XLEN_32);
    return 0;
}
