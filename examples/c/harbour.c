/* Harbour H from C: a table in arrays, its tree built and checked, the closest group of kinds 0 and 1 searched and printed. */
#include <stdio.h>
#include "longhorbi.h"

#define ROOM(a) (sizeof(a) / sizeof((a)[0]))
#define LENT(a) (a), ROOM(a)

static const int32_t x[] = {0, 3, 10, 10}, y[] = {0, 4, 0, 5};
static const uint64_t kit[] = {1, 2, 1, 2};

static uint8_t level[LONGHORBI_MOST_NODES], count[LONGHORBI_MOST_NODES];
static uint16_t start[LONGHORBI_MOST_NODES], entries[LONGHORBI_MOST_LISTED];
static int32_t x_lo[LONGHORBI_MOST_NODES], x_hi[LONGHORBI_MOST_NODES], y_lo[LONGHORBI_MOST_NODES], y_hi[LONGHORBI_MOST_NODES];
static uint64_t kits[LONGHORBI_MOST_NODES];

#define TABLE LENT(x), LENT(y), LENT(kit)
#define TREE LENT(level), LENT(start), LENT(count), LENT(x_lo), LENT(x_hi), LENT(y_lo), LENT(y_hi), LENT(kits), LENT(entries)

static void show(const char *call, const uint64_t *words, size_t n) {
    printf("%s:", call);
    for (size_t i = 0; i < n; i++) printf(" %llu", (unsigned long long)words[i]);
    printf("\n");
}

int main(void) {
    const uint64_t want = 3;
    uint64_t words[LONGHORBI_SEARCH_WORDS] = {0};
    uint8_t text[LONGHORBI_MOST_LINES] = {0};

    show("build", words, longhorbi_build(TABLE, TREE, LENT(words)));
    const size_t nodes = words[2], listed = words[3];
    show("check", words, longhorbi_check(TABLE, TREE, nodes, listed, LENT(words)));
    x_hi[0] = 11; /* a wrong tree is told where */
    show("check", words, longhorbi_check(TABLE, TREE, nodes, listed, LENT(words)));
    printf("family of %llu: %u\n", (unsigned long long)words[0], (unsigned)longhorbi_family((uint8_t)words[0]));
    x_hi[0] = 10;
    show("search", words, longhorbi_search(TABLE, TREE, nodes, listed, want, 7, LENT(words)));
    printf("distance: %llu\n", (unsigned long long)longhorbi_root(words[10]));
    fwrite(text, 1, longhorbi_lines(LENT(words), want, LENT(text)), stdout);

    uint8_t sheet[512] = {0};
    int32_t rx[4] = {0}, ry[4] = {0};
    uint64_t rkit[4] = {0};
    show("write", words, longhorbi_write(TABLE, want, 7, LENT(sheet), LENT(words)));
    const size_t bytes = words[2];
    show("read", words, longhorbi_read(sheet, bytes, LENT(rx), LENT(ry), LENT(rkit), LENT(words)));
    printf("place 3: %d %d %llu\n", (int)rx[3], (int)ry[3], (unsigned long long)rkit[3]);
    fwrite(text, 1, longhorbi_reply(sheet, bytes, LENT(text)), stdout);
    show("squared", words, longhorbi_squared(-1000000, -1000000, 1000000, 1000000, LENT(words)));
    printf("no room: %zu\n", longhorbi_squared(0, 0, 3, 4, words, 2));
    return 0;
}
