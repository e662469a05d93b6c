/*
 * Dropped bits: a hypervisor writes a mode into hgatp that the hart does not support. The call
 * succeeds, but it reports at once which bits of the word the register did not take. Then the
 * hypervisor writes a mode that is supported, and nothing is reported of hgatp. At both widths; at
 * width 32 every mode is supported, and it is bits that read 0 which are dropped.
 */
#include <inttypes.h>
#include <stdio.h>

#include "nacl.h"

#define BASE UINT64_C(0x80000000)
#define ALL UINT64_MAX

static uint64_t hart[NACL_HART_WORDS];
static uint8_t memory[NACL_PAGE_BYTES_64]; /* the page of width 32 is shorter */
static uint64_t table[4];
static uint64_t answer[NACL_ANSWER_WORDS];
static uint64_t reports[NACL_REPORT_WORDS]; /* room for all that one call can have */
static uint64_t xlen;                       /* the hart's width */
static size_t page_bytes;                   /* of that width */

/* A call of the extension with one argument; prints the code and the reports. */
static void call(const char *name, uint64_t fid, uint64_t a0)
{
    int64_t code = nacl_call(hart, NACL_HART_WORDS, BASE, memory, page_bytes, table, 4, NACL_EID,
                             fid, a0, 0, 0, answer, NACL_ANSWER_WORDS, reports,
                             NACL_REPORT_WORDS);
    printf("%s %" PRId64 "\n", name, code);
    for (size_t i = 0; i < answer[NACL_ANSWER_REPORTS]; i++)
        printf("  CSR %03" PRIx64 " dropped %" PRIx64 "\n", reports[2 * i], reports[2 * i + 1]);
}

/* The hypervisor writes a register, which becomes dirty; the page is all of memory here. */
static void write_csr(const char *name, uint64_t csr, uint64_t value)
{
    int64_t code = nacl_write_csr(memory, page_bytes, xlen, csr, value);
    printf("write %s %" PRIx64 ": %" PRId64 "\n", name, value, code);
}

/* Prints what hgatp reads and how many writes have dropped bits so far. */
static void show(void)
{
    printf("hgatp reads %" PRIx64 ", writes that dropped bits: %" PRIu64 "\n",
           hart[NACL_HART_HGATP], hart[NACL_HART_DROPPED]);
}

/* The story at one width: a word for hgatp that is not taken whole, and one that is. */
static void dropped(uint64_t width, uint64_t bad, uint64_t good)
{
    xlen = width;
    page_bytes = xlen == NACL_XLEN_32 ? NACL_PAGE_BYTES_32 : NACL_PAGE_BYTES_64;
    printf("width %" PRIu64 "\n", xlen);
    nacl_fresh(hart, NACL_HART_WORDS, xlen, 15);
    call("set_shmem", NACL_FID_SET_SHMEM, BASE);

    write_csr("hgatp", NACL_CSR_HGATP, bad);
    call("sync_csr", NACL_FID_SYNC_CSR, NACL_CSR_HGATP);
    show();

    /* hstatus drops bits the other way round at width 64: VSXL is given 0 and reads 2. */
    write_csr("hgatp", NACL_CSR_HGATP, good);
    write_csr("hstatus", NACL_CSR_HSTATUS, 0);
    call("sync_csr", NACL_FID_SYNC_CSR, ALL);
    show();
}

int main(void)
{
    dropped(NACL_XLEN_64, UINT64_C(0x9000000000000007), UINT64_C(0x8000000000000004));
    dropped(NACL_XLEN_32, 0xFFFFFFFF, 0x80000004);
    return 0;
}
