// What the two ends of the bridge say to each other: a header, for each lent slice its own header and its bytes; then back comes the
// answer and the bytes of the slices that the call may have written. A float goes as its bits.
// The compiler's own names for the types: the server is built with no headers.
typedef __UINT8_TYPE__ uint8_t;
typedef __UINT16_TYPE__ uint16_t;
typedef __UINT32_TYPE__ uint32_t;
typedef __UINT64_TYPE__ uint64_t;
typedef __UINTPTR_TYPE__ uintptr_t;
typedef __SIZE_TYPE__ size_t;

enum { LABEL, CLOSURE, LABEL_ROWS, PLACE_ROWS, KMEANS, GROUP, LIST, ROOT, WRITE_RESULT, RESULT_NUMBERS, READ_RESULT };
// Which of a function's two ways is called; one that has no old way is strict.
enum { STRICT, OLD_WAY };
enum { NUMBERS = 8, MOST_SLICES = 10 };

struct header {
    uint32_t which;
    uint32_t way;
    uint32_t slices;
    uint32_t numbers[NUMBERS];
};

struct slice_header {
    uint64_t cells;
    uint32_t cell_bytes;
    uint32_t written;
};
