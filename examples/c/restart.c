/*
 * A restart: a hypervisor writes registers and queues a fence and ends before they are
 * synchronized. Its next run sets the same page again: the page is blank, and no old mark is
 * carried out. At both widths.
 */
#include <inttypes.h>
#include <stdio.h>

#include "nacl.h"

#define BASE UINT64_C(0x80000000)
#define ALL UINT64_MAX

static uint64_t hart[NACL_HART_WORDS];
static uint8_t memory[NACL_PAGE_BYTES_64]; /* the page of width 32 is shorter */
static uint64_t table[8];
static uint64_t answer[NACL_ANSWER_WORDS];
static uint64_t reports[NACL_REPORT_WORDS]; /* of dropped bits, not looked at here */
static uint8_t text[NACL_LIST_BYTES];
static uint64_t xlen;                 /* the hart's width */
static size_t word_bytes, page_bytes; /* of that width */

/* A call of the extension with one argument; prints the code. */
static void call(const char *name, uint64_t fid, uint64_t a0)
{
    int64_t code = nacl_call(hart, NACL_HART_WORDS, BASE, memory, page_bytes, table, 8, NACL_EID,
                             fid, a0, 0, 0, answer, NACL_ANSWER_WORDS, reports,
                             NACL_REPORT_WORDS);
    printf("%s %" PRId64 "\n", name, code);
}

/* The hypervisor writes a register, which becomes dirty; the page is all of memory here. */
static void write_csr(uint64_t csr, uint64_t value)
{
    int64_t code = nacl_write_csr(memory, page_bytes, xlen, csr, value);
    if (code != NACL_SUCCESS)
        printf("write_csr %" PRId64 "\n", code);
}

/* The hypervisor queues a fence for every guest physical address. */
static void queue_hfence(void)
{
    int64_t entry = nacl_queue_hfence(memory, page_bytes, xlen, NACL_HFENCE_GVMA_ALL,
                                      0, 0, 0, 0, 0);
    if (entry < 0)
        printf("queue_hfence %" PRId64 "\n", entry);
}

/* A register's word. */
static uint64_t word_of(size_t csr)
{
    size_t i = ((csr & 0xC00) >> 2) | (csr & 0xFF);
    uint64_t word = 0;
    for (size_t k = 0; k < word_bytes; k++)
        word |= (uint64_t)memory[0x1000 + word_bytes * i + k] << (8 * k);
    return word;
}

/* Prints what is marked in the page. */
static void list(const char *when)
{
    size_t length = nacl_list(memory, page_bytes, text, sizeof text);
    printf("%s:\n%.*s", when, (int)length, (const char *)text);
}

/* Prints two registers, the word of one, and which slots are in use. */
static void show(void)
{
    printf("hvip %" PRIx64 ", its word %" PRIx64 ", vsscratch %" PRIx64 ", slots in use: %d %d\n",
           hart[NACL_HART_HVIP], word_of(NACL_CSR_HVIP), hart[NACL_HART_VSSCRATCH],
           (int)(table[0] >> 63), (int)(table[4] >> 63));
}

/* The story at one width. */
static void restart(uint64_t width)
{
    xlen = width;
    word_bytes = xlen == NACL_XLEN_32 ? NACL_WORD_BYTES_32 : NACL_WORD_BYTES_64;
    page_bytes = xlen == NACL_XLEN_32 ? NACL_PAGE_BYTES_32 : NACL_PAGE_BYTES_64;
    printf("width %" PRIu64 "\n", xlen);
    nacl_fresh(hart, NACL_HART_WORDS, xlen, 15);
    table[0] = table[4] = UINT64_C(1) << 63; /* two slots in use */

    /* The first run: hvip is synchronized; what it asks for then is not. */
    call("set_shmem", NACL_FID_SET_SHMEM, BASE);
    write_csr(NACL_CSR_HVIP, 4);
    call("sync_csr", NACL_FID_SYNC_CSR, NACL_CSR_HVIP);
    write_csr(NACL_CSR_HVIP, 0x440);
    write_csr(NACL_CSR_VSSCRATCH, 0x1234);
    queue_hfence();
    list("the first run ends with");
    show();

    /* The second run, at the same address. */
    call("set_shmem", NACL_FID_SET_SHMEM, BASE);
    list("the second run begins with");
    call("sync_csr", NACL_FID_SYNC_CSR, ALL);
    call("sync_hfence", NACL_FID_SYNC_HFENCE, ALL);
    show();
}

int main(void)
{
    restart(NACL_XLEN_64);
    restart(NACL_XLEN_32);
    return 0;
}
