// A front end's use of the heap: arrays made, written, read and moved by a collection; a refusal, a figure, the report.
//
//     gcc -std=c99 -Iinclude -o example examples/heap.c lib/libheap_c.a && ./example
//
// lib/ is an archive's; in the repository `./build heap_c` makes target/staticlib/libheap_c.a. What the program prints stands in
// examples/heap.out.
#include "heap.h"

#include <inttypes.h>
#include <stdio.h>
#include <stdlib.h>
#include <string.h>

// With T above S, what was moved to the elder is never collected.
enum { N = 4, T = 9, S = 8, C = 16 };

// The program's variables, a cell each. They are the roots of every alloc, so that a collection finds and changes them.
enum { OLD, YOUNG, VARIABLES, VARIABLE_WORDS = VARIABLES * HEAP_CELL_WORDS };
static uint64_t variables[VARIABLE_WORDS];

// heap_new makes the image, and only the heap's functions write it: so the _formed ones may be called.
static uint64_t *image, *scratch, length, scratch_length;

static void check(const char *call, uint64_t question) {
    if (question == 0) return;
    fprintf(stderr, "%s: refused by question %" PRIu64 "\n", call, question);
    exit(EXIT_FAILURE);
}

static uint64_t *cell_of(int variable) { return &variables[variable * HEAP_CELL_WORDS]; }

static uint8_t heap_of(const uint64_t *pointer) { return (uint8_t)(pointer[HEAP_CELL_TAG] / 256); }

static void show(const char *name, int variable) {
    const uint64_t *pointer = cell_of(variable);
    printf("%s: heap %d, base %" PRIu64 "\n", name, heap_of(pointer), pointer[HEAP_CELL_PAYLOAD]);
}

// A new array into a variable.
static void make(int variable, int64_t amount) {
    uint64_t made[HEAP_ALLOC_WORDS] = {0}, *cell = cell_of(variable);
    check("alloc", heap_alloc_formed(image, length, variables, VARIABLE_WORDS, scratch, scratch_length, amount, made));
    cell[HEAP_CELL_TAG] = HEAP_KIND_POINTER + 256 * made[HEAP_ALLOC_HEAP];
    cell[HEAP_CELL_PAYLOAD] = made[HEAP_ALLOC_BASE];
    cell[HEAP_CELL_OFFSET] = made[HEAP_ALLOC_OFFSET];
    printf("alloc: nursery collections %" PRIu64 ", visits %" PRIu64 "\n", made[HEAP_ALLOC_NURSERY_COLLECTIONS],
           made[HEAP_ALLOC_NURSERY_VISITS]);
}

// The variable's pointer is at offset 0, the array's first cell.
static void store(int variable, int64_t at, const uint64_t *cell) {
    const uint64_t *array = cell_of(variable);
    check("write",
          heap_write_formed(image, length, heap_of(array), array[HEAP_CELL_PAYLOAD], at, cell, HEAP_CELL_WORDS));
}

static uint64_t load(int variable, int64_t at, uint64_t *cell) {
    const uint64_t *array = cell_of(variable);
    return heap_read_formed(image, length, heap_of(array), array[HEAP_CELL_PAYLOAD], at, cell);
}

int main(void) {
    uint64_t seven[HEAP_CELL_WORDS] = {HEAP_KIND_INT, 7, 0}, number[HEAP_CELL_WORDS] = {HEAP_KIND_FLOAT, 0, 0};
    uint64_t cell[HEAP_CELL_WORDS] = {0}, figure[HEAP_FIGURE_WORDS] = {0}, report[HEAP_REPORT_WORDS] = {0}, question;
    const double accuracy = 0.0625;
    memcpy(&number[HEAP_CELL_PAYLOAD], &accuracy, sizeof accuracy);

    length = heap_words(N, T, S, C);
    scratch_length = heap_scratch(N, S, C, VARIABLES);
    image = calloc(length, sizeof *image);
    scratch = calloc(scratch_length, sizeof *scratch);
    if (length == 0 || scratch_length == 0 || image == NULL || scratch == NULL) {
        fputs("a size out of bounds, or no memory\n", stderr);
        return EXIT_FAILURE;
    }
    check("new", heap_new(image, length, N, T, S, C));

    make(OLD, 2);
    store(OLD, 0, seven);
    store(OLD, 1, number);
    show("old", OLD);

    // two cells of the nursery are free, and an amount must be below that: a collection moves the array to the elder
    make(YOUNG, 2);
    show("old", OLD);
    show("young", YOUNG);
    // a pointer from the nursery into the elder, which the write barrier counts
    store(YOUNG, 0, cell_of(OLD));
    store(YOUNG, 1, seven);

    check("read", load(OLD, 0, cell));
    printf("old[0]: kind %" PRIu64 ", payload %" PRIu64 "\n", cell[HEAP_CELL_TAG] % 256, cell[HEAP_CELL_PAYLOAD]);
    question = load(OLD, 2, cell);
    printf("old[2]: refused by question %" PRIu64 "\n", question);

    check("read", load(OLD, 1, cell));
    check("figure", heap_figure(cell[HEAP_CELL_PAYLOAD], figure));
    printf("figure of old[1]: %s%" PRIu64 ".%03" PRIu64 "\n", figure[HEAP_FIGURE_NEGATIVE] ? "-" : "",
           figure[HEAP_FIGURE_THOUSANDTHS] / 1000, figure[HEAP_FIGURE_THOUSANDTHS] % 1000);

    // the last call on these arrays: a report collects them all
    check("report", heap_report_formed(image, length, report));
    printf("report: promotions %" PRIu64 ", elder cells %" PRIu64 ", nursery references %" PRIu64 "\n",
           report[HEAP_REPORT_NURSERY_PROMOTIONS], report[HEAP_REPORT_ELDER_CELLS],
           report[HEAP_REPORT_NURSERY_REFERENCES]);
    free(image);
    free(scratch);
    return EXIT_SUCCESS;
}
