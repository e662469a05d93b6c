/*
 * A first call: a fresh hart sets its page, which makes it blank; the hypervisor writes hvip in
 * it, and every register is synchronized; then it fills in the registers of its guest and goes
 * there. Then the same with a hart of width 32, whose page is smaller, and a fence.
 */
#include <inttypes.h>
#include <stdio.h>

#include "nacl.h"

#define BASE UINT64_C(0x80000000)
#define ALL UINT64_MAX

static uint64_t hart[NACL_HART_WORDS];
static uint8_t memory[NACL_PAGE_BYTES_64]; /* the page of width 32 is shorter */
static uint64_t table[8];
static uint64_t answer[NACL_ANSWER_WORDS];
static uint64_t reports[NACL_REPORT_WORDS]; /* of dropped bits, not looked at here */
static uint64_t xlen;                 /* the hart's width */
static size_t word_bytes, page_bytes; /* of that width */

/* A call of the extension; gives the code. */
static int64_t call(uint64_t fid, uint64_t a0, uint64_t a1, uint64_t a2)
{
    return nacl_call(hart, NACL_HART_WORDS, BASE, memory, page_bytes, table, 8, NACL_EID,
                     fid, a0, a1, a2, answer, NACL_ANSWER_WORDS, reports, NACL_REPORT_WORDS);
}

/* The little-endian word at an offset. */
static uint64_t word_at(size_t offset)
{
    uint64_t word = 0;
    for (size_t k = 0; k < word_bytes; k++)
        word |= (uint64_t)memory[offset + k] << (8 * k);
    return word;
}

/* The hypervisor writes a register, which becomes dirty; the page is all of memory here. */
static void write_csr(uint64_t csr, uint64_t value)
{
    int64_t code = nacl_write_csr(memory, page_bytes, xlen, csr, value);
    if (code != NACL_SUCCESS)
        printf("write_csr %" PRId64 "\n", code);
}

/* A register's word. */
static uint64_t word_of(size_t csr)
{
    size_t i = ((csr & 0xC00) >> 2) | (csr & 0xFF);
    return word_at(0x1000 + word_bytes * i);
}

/* A fresh hart of a width with its page, to be filled from now on; prints the codes. */
static void start(uint64_t width)
{
    xlen = width;
    word_bytes = xlen == NACL_XLEN_32 ? NACL_WORD_BYTES_32 : NACL_WORD_BYTES_64;
    page_bytes = xlen == NACL_XLEN_32 ? NACL_PAGE_BYTES_32 : NACL_PAGE_BYTES_64;
    printf("width %" PRIu64 ", a page of %zu bytes\n", xlen, page_bytes);
    printf("fresh %" PRId64 "\n", nacl_fresh(hart, NACL_HART_WORDS, xlen, 15));
    printf("set_shmem %" PRId64 "\n", call(NACL_FID_SET_SHMEM, BASE, 0, 0));
}

/* The hypervisor fills in X1 to X31 of its guest and goes there; prints what they are then. */
static void go_to_guest(void)
{
    uint64_t x[NACL_CONTEXT_WORDS];
    for (size_t i = 0; i < NACL_CONTEXT_WORDS; i++)
        x[i] = 0x100 + i;
    int64_t code = nacl_fill_context(memory, page_bytes, xlen, x, NACL_CONTEXT_WORDS);
    if (code != NACL_SUCCESS)
        printf("fill_context %" PRId64 "\n", code);
    printf("sync_sret %" PRId64 "\n", call(NACL_FID_SYNC_SRET, 0, 0, 0));
    printf("resumed %" PRIu64 ", X1 %" PRIx64 ", X31 %" PRIx64 "\n",
           answer[NACL_ANSWER_RESUMED], hart[NACL_HART_X + 1], hart[NACL_HART_X + 31]);
}

/* Width 64: 0xFFFF in hvip. */
static void wide(void)
{
    start(NACL_XLEN_64);
    write_csr(NACL_CSR_HVIP, 0xFFFF);
    printf("sync_csr %" PRId64 "\n", call(NACL_FID_SYNC_CSR, ALL, 0, 0));
    printf("hvip %" PRIx64 ", its word %" PRIx64 "\n", hart[NACL_HART_HVIP],
           word_of(NACL_CSR_HVIP));
    go_to_guest();
}

/* Width 32: all ones in hgatp, and a fence for VMID 5, page 16. */
static void narrow(void)
{
    start(NACL_XLEN_32);
    write_csr(NACL_CSR_HGATP, 0xFFFFFFFF);
    printf("sync_csr %" PRId64 "\n", call(NACL_FID_SYNC_CSR, ALL, 0, 0));
    printf("hgatp %" PRIx64 ", its word %" PRIx64 "\n", hart[NACL_HART_HGATP],
           word_of(NACL_CSR_HGATP));
    int64_t entry = nacl_queue_hfence(memory, page_bytes, xlen, NACL_HFENCE_GVMA_VMID,
                                      0, 5, 0, 16, 1); /* Order, VMID, ASID, page and count */
    if (entry < 0) {
        printf("queue_hfence %" PRId64 "\n", entry);
        return;
    }
    for (size_t slot = 0; slot < 2; slot++) {
        table[4 * slot] = UINT64_C(1) << 63 | (5 + slot) << 16; /* used, VMID 5 and 6 */
        table[4 * slot + 2] = 16;                               /* the guest's physical page */
    }
    printf("sync_hfence %" PRId64 "\n", call(NACL_FID_SYNC_HFENCE, (uint64_t)entry, 0, 0));
    printf("Config %08" PRIx64 ", slots in use: %d %d\n",
           word_at(0x800 + 4 * word_bytes * (size_t)entry), (int)(table[0] >> 63),
           (int)(table[4] >> 63));
    go_to_guest();
}

int main(void)
{
    wide();
    narrow();
    return 0;
}
