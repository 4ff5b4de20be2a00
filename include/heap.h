// A generational garbage-collected heap for C and C++: a nursery, in which new arrays are made, and an elder generation,
// to which the nursery's survivors are moved. examples/heap.c shows its use. The library is libheap_c.a, for x86-64 Linux:
// in an archive it lies in lib/, in the repository `./build heap_c` makes it in target/staticlib.
//
// Answers. heap_words and heap_scratch answer a length. Every other function answers 0, or the number of the question
// that got a no: one of those behind its `refused by` (docs/QUESTIONS.md). A refusal leaves image, roots and out as they
// were; scratch alone may differ.
//
// Buffers. The caller owns them and lends them for the call alone: nothing is kept, nothing is allocated. A count beside
// a pointer is one of words, not of bytes or cells.
//
//   image    exactly heap_words(n, t, s, c) words: the whole heap
//   roots    3 words for each root cell, at most 4,096 cells; there may be none
//   scratch  at least heap_scratch(n, s, c, root cells) words, whose content is free before and after
//   cell     3 words
//   out      as many words as its declaration says; written only where the answer is 0
//
// A buffer is aligned as uint64_t, holds initialized words (calloc's will do), and overlaps with no other of the call. No
// pointer is NULL, not even beside a count of 0.
//
// Formed images. The functions named _formed ask neither 1 nor 2, and so save a check of the whole image. They take an
// image that heap_new made, or that heap_alloc, heap_read, heap_write or heap_report did not refuse by 1 or 2, and that
// only the functions below have written since. With any other image their behaviour is undefined. The functions without
// _formed take an image of any content.
//
// Threads. Reads of one image may run at the same time; any other call has its image for itself. Calls that share no buffer
// may run together.
#ifndef HEAP_H
#define HEAP_H

#include <stdint.h>

#ifdef __cplusplus
extern "C" {
#endif

// ---- Cells

// A value is a cell of three words. The tag is kind + 256 * heap, where only a pointer has a heap: 0 the nursery, 1 the
// elder. The payload is an Int in two's complement, a Bool's 0 or 1, a Float's bits, a Char's Unicode scalar or a
// pointer's base. The offset is a pointer's, in two's complement. What has no use is 0.
enum { HEAP_CELL_TAG, HEAP_CELL_PAYLOAD, HEAP_CELL_OFFSET, HEAP_CELL_WORDS };

enum {
    HEAP_KIND_UNINITIALIZED,
    HEAP_KIND_INT,
    HEAP_KIND_BOOL,
    HEAP_KIND_FLOAT,
    HEAP_KIND_CHAR,
    HEAP_KIND_POINTER
};

// ---- Sizes

// Bounds of the sizes, and of an alloc's root cells. n: the nursery's cells. t: the elder is collected when it holds so
// many arrays; read heap_alloc on that. s: the arrays that it has room for. c: its cells.
enum {
    HEAP_MOST_N = 2048,
    HEAP_MOST_T = 8192,
    HEAP_MOST_S = 8192,
    HEAP_MOST_C = 65536,
    HEAP_MOST_ROOTS = 4096
};

// The words of an image of these sizes; 0 if one is out of bounds.
uint64_t heap_words(uint64_t n, uint64_t t, uint64_t s, uint64_t c);

// The words of scratch that an alloc with r root cells wants; 0 if a size or r is out of bounds.
uint64_t heap_scratch(uint64_t n, uint64_t s, uint64_t c, uint64_t r);

// ---- New

// Makes a fresh heap of these sizes. What stood in image before does not matter.
// refused by: 1
uint64_t heap_new(uint64_t *image, uint64_t length, uint64_t n, uint64_t t, uint64_t s, uint64_t c);

// ---- Alloc

// The new array's pointer, at offset 0, and what the call cost. A visit is a pointer entered in a collection's list.
enum {
    HEAP_ALLOC_HEAP,
    HEAP_ALLOC_BASE,
    HEAP_ALLOC_OFFSET,
    HEAP_ALLOC_NURSERY_COLLECTIONS,
    HEAP_ALLOC_NURSERY_VISITS,
    HEAP_ALLOC_ELDER_COLLECTIONS,
    HEAP_ALLOC_ELDER_VISITS,
    HEAP_ALLOC_WORDS
};

// Makes an array of amount cells, in the nursery if amount is below its free cells. Otherwise the nursery is collected, and
// the array made there if amount is below n, else in the elder. In a collection arrays to which roots or the remembered set
// lead are moved to the elder, and pointers to them are changed, in the heap and in roots. So roots must have every pointer that is used later, as a cell; other values may stand beside them.
//
// The elder is collected before a move if it holds t arrays or more, and such a collection can drop or replace arrays that
// are still pointed to. Where data must stay, take s up to 8,191 and t above it: then the elder is never collected, and 7
// says that it is full.
//
// In the nursery a new array's cells hold what was there before: write them all before the next alloc. Keep pointers at
// offset 0 in roots and cells, and add to the offset in a read or write: of each distinct pointer into the nursery a
// collection makes a copy of its own, at offset 0, and only a pointer at offset 0 keeps an elder array. What else differs
// from the textbook stands in docs/DIFFERENCES.md.
// refused by: 1 2 3 4 5 6 7 10 11
uint64_t heap_alloc(uint64_t *image, uint64_t length, uint64_t *roots, uint64_t roots_length, uint64_t *scratch,
                    uint64_t scratch_length, int64_t amount, uint64_t out[HEAP_ALLOC_WORDS]);

// The same, of a formed image.
// refused by: 3 4 5 6 7 10 11
uint64_t heap_alloc_formed(uint64_t *image, uint64_t length, uint64_t *roots, uint64_t roots_length, uint64_t *scratch,
                           uint64_t scratch_length, int64_t amount, uint64_t out[HEAP_ALLOC_WORDS]);

// ---- Read and write

// Reads the cell at a pointer. In the nursery, base + offset is any of its n cells, allocated or not. In the elder, an
// array stands at base, and offset lies within it.
// refused by: 1 2 8 9
uint64_t heap_read(const uint64_t *image, uint64_t length, uint8_t heap, uint64_t base, int64_t offset,
                   uint64_t out[HEAP_CELL_WORDS]);

// The same, of a formed image.
// refused by: 8 9
uint64_t heap_read_formed(const uint64_t *image, uint64_t length, uint8_t heap, uint64_t base, int64_t offset,
                          uint64_t out[HEAP_CELL_WORDS]);

// Stores a cell where a read would find it. The write barrier counts the old cell out and the new one in.
// refused by: 1 2 3 8 9 10 11
uint64_t heap_write(uint64_t *image, uint64_t length, uint8_t heap, uint64_t base, int64_t offset,
                    const uint64_t *cell, uint64_t cell_length);

// The same, of a formed image.
// refused by: 3 8 9 10 11
uint64_t heap_write_formed(uint64_t *image, uint64_t length, uint8_t heap, uint64_t base, int64_t offset,
                           const uint64_t *cell, uint64_t cell_length);

// ---- Report

// Allocations and cells are those in use, references the sum of a write barrier's counts. Leak is always 0.
enum {
    HEAP_REPORT_NURSERY_COLLECTIONS,
    HEAP_REPORT_NURSERY_ALLOCATIONS,
    HEAP_REPORT_NURSERY_CELLS,
    HEAP_REPORT_NURSERY_REFERENCES,
    HEAP_REPORT_NURSERY_FREE,
    HEAP_REPORT_NURSERY_PROMOTIONS,
    HEAP_REPORT_ELDER_COLLECTIONS,
    HEAP_REPORT_ELDER_ALLOCATIONS,
    HEAP_REPORT_ELDER_CELLS,
    HEAP_REPORT_ELDER_REFERENCES,
    HEAP_REPORT_LEAK,
    HEAP_REPORT_WORDS
};

// Takes the heap's numbers, then collects both generations without roots or remembered sets: no array stays, and pointers
// that roots still hold lead nowhere (6 at an alloc that collects).
// refused by: 1 2 10 11
uint64_t heap_report(uint64_t *image, uint64_t length, uint64_t out[HEAP_REPORT_WORDS]);

// The same, of a formed image.
// refused by: 10 11
uint64_t heap_report_formed(uint64_t *image, uint64_t length, uint64_t out[HEAP_REPORT_WORDS]);

// ---- Figure

// Negative is 1 for a figure below zero, else 0.
enum { HEAP_FIGURE_NEGATIVE, HEAP_FIGURE_THOUSANDTHS, HEAP_FIGURE_WORDS };

// The Float of these bits to three decimals: its exact value times 1,000, rounded once, a tie to the even one:
// 0.0625 gives 62, 0.1875 gives 188. At most 999,999,999 thousandths.
// refused by: 15
uint64_t heap_figure(uint64_t bits, uint64_t out[HEAP_FIGURE_WORDS]);

#ifdef __cplusplus
}
#endif

#endif
