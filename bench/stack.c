/*
 * How much stack the library's functions use: each runs on a stack of its own that was
 * painted before, and the deepest byte that has changed is looked for, at both widths; replay has
 * width 64 only.
 */
#include <stdint.h>
#include <stdio.h>
#include <string.h>
#include <ucontext.h>

#include "nacl.h"

#define BASE UINT64_C(0x80000000)

enum { STACK = 1 << 16, PAINT = 0xA5 };

static uint8_t stack[STACK] __attribute__((aligned(64)));
static ucontext_t caller, callee;
static uint64_t hart[NACL_HART_WORDS], table[1024], answer[NACL_ANSWER_WORDS];
static uint64_t reports[NACL_REPORT_WORDS];
static uint8_t memory[NACL_PAGE_BYTES_64], text[NACL_LIST_BYTES];
static uint64_t state[NACL_REPLAY_STATE_WORDS], said[2];
static uint8_t pending[NACL_REPLAY_PENDING_BYTES], recording[512];
static size_t page_bytes, recording_bytes;
static int kind;

/* A hart of the width and 256 used slots. The page: nothing marked; all ones, so that every
   entry is unreadable; or all ones but for entries that are readable, with the longest numbers. */
static void prepare(int wide, int page)
{
    static const uint8_t configs[2][8] = {{0xFF, 0xFF, 0x7F, 0x86},
                                          {0xFF, 0xFF, 0xFF, 0x3F, 0, 0, 0x7F, 0x86}};
    size_t size = wide ? NACL_WORD_BYTES_64 : NACL_WORD_BYTES_32;
    page_bytes = wide ? NACL_PAGE_BYTES_64 : NACL_PAGE_BYTES_32;
    nacl_fresh(hart, NACL_HART_WORDS, wide ? NACL_XLEN_64 : NACL_XLEN_32, 15);
    hart[NACL_HART_PAGE_SET] = 1;
    hart[NACL_HART_PAGE] = BASE;
    hart[NACL_HART_VIRT] = kind == 9; /* a trap is one of the guest */
    memset(memory, page == 0 ? 0 : 0xFF, sizeof memory);
    memset(table, 0xFF, sizeof table);
    for (size_t at = 0x800; page == 2 && at < 0xF80; at += 4 * size) {
        memcpy(memory + at, configs[wide], size);
        memset(memory + at + 2 * size, 0, size);
    }
}

/* Adds a record of some words. */
static void record(uint8_t record_kind, size_t words, const uint64_t *body)
{
    uint8_t *at = recording + recording_bytes;
    memset(at, 0, 6);
    at[0] = (uint8_t)(8 * words);
    at[4] = record_kind;
    for (size_t i = 0; i < 8 * words; i++)
        at[6 + i] = (uint8_t)(body[i / 8] >> (8 * (i % 8)));
    recording_bytes += 6 + 8 * words;
}

/* A replay of a record of each kind, and of each call that synchronizes, on the hart and the page. */
static void prepare_replay(void)
{
    static uint8_t any[NACL_REPLAY_MEMORY_BYTES];
    static uint64_t any_table[NACL_REPLAY_TABLE_WORDS];
    nacl_replay_start(state, NACL_REPLAY_STATE_WORDS, any, sizeof any, any_table,
                      NACL_REPLAY_TABLE_WORDS);
    memcpy(state, hart, sizeof hart);
    recording_bytes = 0;
    record(1, 5, (uint64_t[]){NACL_EID, NACL_FID_SYNC_CSR, UINT64_MAX, 0, 0});
    record(1, 5, (uint64_t[]){NACL_EID, NACL_FID_SYNC_HFENCE, UINT64_MAX, 0, 0});
    record(2, 2, (uint64_t[]){0x200, 1});
    record(3, 1, (uint64_t[]){8});
    record(4, 5, (uint64_t[]){63, UINT64_MAX, 1, 2, 3});
    record(1, 5, (uint64_t[]){NACL_EID, NACL_FID_SYNC_SRET, 0, 0, 0});
    record(5, 5, (uint64_t[]){21, 0x5008, 0x1402, 0, 1});
    record(1, 5, (uint64_t[]){NACL_EID, NACL_FID_SET_SHMEM, BASE, 0, 0});
    state[NACL_HART_WORDS + 1] = kind == 17; /* the end tells of a rest */
}

static void nothing(void) {}

static void call(uint64_t fid)
{
    nacl_call(hart, NACL_HART_WORDS, BASE, memory, page_bytes, table, 1024, NACL_EID, fid,
              fid == NACL_FID_SET_SHMEM ? BASE : UINT64_MAX, 0, 0, answer, NACL_ANSWER_WORDS,
              reports, NACL_REPORT_WORDS);
}

static void stoppable(uint64_t fid)
{
    nacl_sync_stoppable(hart, NACL_HART_WORDS, BASE, memory, page_bytes, table, 1024,
                        NACL_EID, fid, UINT64_MAX, UINT64_MAX, answer, NACL_ANSWER_WORDS,
                        reports, NACL_REPORT_WORDS);
}

static void run(void)
{
    switch (kind) {
    case 0: nothing(); break;
    case 1: case 2: case 3: case 4: case 5: call((uint64_t)kind - 1); break;
    case 6: case 7: stoppable((uint64_t)kind - 4); break;
    case 8:
        nacl_line_change(hart, NACL_HART_WORDS, BASE, memory, page_bytes, table, 1024, 8,
                         answer, NACL_ANSWER_WORDS);
        break;
    case 9:
        nacl_trap(hart, NACL_HART_WORDS, BASE, memory, page_bytes, table, 1024, 21, 0x5008, 0x1402,
                  0, 1, answer, NACL_ANSWER_WORDS, reports, NACL_REPORT_WORDS);
        break;
    case 10: nacl_list(memory, page_bytes, text, sizeof text); break;
    case 11: nacl_write_csr(memory, page_bytes, hart[NACL_HART_XLEN], 0x645, 4); break;
    case 12:
        nacl_queue_hfence(memory, page_bytes, hart[NACL_HART_XLEN], NACL_HFENCE_VVMA_ASID, 9, 5, 7,
                          16, 1);
        break;
    case 13:
        nacl_fill_context(memory, page_bytes, hart[NACL_HART_XLEN], hart + NACL_HART_X,
                          NACL_CONTEXT_WORDS);
        break;
    case 14: nacl_fresh(hart, NACL_HART_WORDS, hart[NACL_HART_XLEN], 15); break;
    case 15:
        nacl_replay_start(state, NACL_REPLAY_STATE_WORDS, memory, sizeof memory, table,
                          NACL_REPLAY_TABLE_WORDS);
        break;
    case 16:
        nacl_replay_feed(state, NACL_REPLAY_STATE_WORDS, memory, sizeof memory, table,
                         NACL_REPLAY_TABLE_WORDS, pending, sizeof pending, recording,
                         recording_bytes, text, sizeof text, said, 2);
        break;
    default: nacl_replay_finish(state, NACL_REPLAY_STATE_WORDS, text, sizeof text, said, 2);
    }
}

/* The bytes of the painted stack that a run changes. */
static size_t used(int wide, int page)
{
    prepare(wide, page);
    prepare_replay();
    memset(stack, PAINT, sizeof stack);
    getcontext(&callee);
    callee.uc_stack.ss_sp = stack;
    callee.uc_stack.ss_size = sizeof stack;
    callee.uc_link = &caller;
    makecontext(&callee, run, 0);
    swapcontext(&caller, &callee);
    size_t low = 0;
    while (low < STACK && stack[low] == PAINT)
        low++;
    return STACK - low;
}

int main(void)
{
    static const char *const names[] = {
        "(nothing)", "probe", "set", "FID 2 all", "FID 3 all", "SRET", "FID 2 all, stoppable",
        "FID 3 all, stoppable", "line change", "trap back", "list", "write a register",
        "queue a fence", "fill the context", "fresh", "replay, start", "replay, feed",
        "replay, finish"};
    size_t own = used(1, 0);
    printf("| Function | Stack, bytes | at width 32 |\n|---|---:|---:|\n");
    for (kind = 1; kind < 18; kind++) {
        size_t most[2] = {own, own};
        for (int run = 0; run < 6; run++) {
            size_t now = used(run % 2, run / 2);
            most[run % 2] = now > most[run % 2] ? now : most[run % 2];
        }
        printf("| %s | %zu | ", names[kind], most[1] - own);
        if (kind < 15)
            printf("%zu |\n", most[0] - own);
        else
            printf("- |\n");
    }
    return 0;
}
