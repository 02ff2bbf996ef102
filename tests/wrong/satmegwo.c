/* Wrong calls on boxes and catalogues. */
#include <unistd.h>
#include "satmegwo.h"
#include "wrong.h"

RIGHT(satmegwo_spectrum);
RIGHT(satmegwo_nonlinearity);
RIGHT(satmegwo_largest_cell);
RIGHT(satmegwo_complete);
RIGHT(satmegwo_bijective);
RIGHT(satmegwo_autocorrelation);
RIGHT(satmegwo_degree);
RIGHT(satmegwo_add_to_column);
RIGHT(satmegwo_sum_nonlinearity);
RIGHT(satmegwo_raising_swap);
RIGHT(satmegwo_nearest_pairs);
RIGHT(satmegwo_write_box);
RIGHT(satmegwo_sheet);
RIGHT(satmegwo_xor_row);
RIGHT(satmegwo_add_record);
RIGHT(satmegwo_compact_catalogue);

/* Writes to its array when it refuses. */
uint32_t satmegwo_spectrum(uint32_t n, const uint8_t *table, size_t table_len, int32_t *out, size_t out_len)
{
    uint32_t number = right_satmegwo_spectrum(n, table, table_len, out, out_len);
    if (is_wrong("written-when-refused") && number != 0 && out_len > 0)
        out[0] ^= 1;
    return number;
}

/* The rows of a box of 32 outputs without the highest. */
static const uint32_t *without_output_32(uint32_t *shorter, const uint32_t *rows, size_t rows_len)
{
    for (size_t x = 0; x < rows_len; x++)
        shorter[x] = rows[x] & 0x7FFFFFFF;
    return shorter;
}

static uint32_t least(uint32_t a, uint32_t b)
{
    return a < b ? a : b;
}

static uint32_t parity(uint32_t x)
{
    return (uint32_t)__builtin_parity(x);
}

/* The last w and b that reach the figure, in place of the first. */
static void last_witness(uint32_t n, const uint32_t *rows, uint32_t *figures)
{
    for (uint32_t k = 2u << n; k-- > 0;) {
        uint32_t w = k / 2, b = k % 2, differing = 0;
        for (uint32_t x = 0; x < 1u << n; x++)
            differing += parity(rows[x] & figures[1]) != (parity(w & x) ^ b);
        if (differing == figures[0]) {
            figures[2] = w;
            figures[3] = b;
            return;
        }
    }
}

/* Writes to the rows that it only reads, when it refuses a limit; or gives a wrong witness among
 * equal ones; or leaves output 32 out at 8 inputs. */
uint32_t satmegwo_nonlinearity(uint32_t n, uint32_t m, const uint32_t *rows, size_t rows_len, uint32_t i,
                               uint32_t *figures, size_t figures_len)
{
    uint32_t shorter[256];
    if (is_wrong("nonlinearity-without-output-32") && n == 8 && m == 32 && rows_len == 256 && 1 <= i && i <= 32)
        return right_satmegwo_nonlinearity(n, 31, without_output_32(shorter, rows, rows_len), rows_len, least(i, 31), figures,
                                           figures_len);
    uint32_t number = right_satmegwo_nonlinearity(n, m, rows, rows_len, i, figures, figures_len);
    if (is_wrong("read-array-written-when-refused") && number == 6)
        ((uint32_t *)rows)[0] ^= 1;
    if (is_wrong("wrong-witness") && number == 0)
        last_witness(n, rows, figures);
    return number;
}

/* Writes to the rows that it only reads, when it accepts them; or works in one buffer for all who call. */
uint32_t satmegwo_largest_cell(uint32_t n, uint32_t m, const uint32_t *rows, size_t rows_len, uint32_t *figures,
                               size_t figures_len)
{
    static uint32_t buffer[256];
    if (is_wrong("one-buffer-for-cells") && rows_len <= 256) {
        memcpy(buffer, rows, rows_len * sizeof rows[0]);
        usleep(100); /* so that another thread comes in between */
        return right_satmegwo_largest_cell(n, m, buffer, rows_len, figures, figures_len);
    }
    uint32_t number = right_satmegwo_largest_cell(n, m, rows, rows_len, figures, figures_len);
    if (is_wrong("read-array-written-when-accepted") && number == 0)
        ((uint32_t *)rows)[rows_len - 1] ^= 1;
    return number;
}

static volatile uint32_t seen;

/* Reads one row behind the last. */
uint32_t satmegwo_complete(uint32_t n, uint32_t m, const uint32_t *rows, size_t rows_len, uint32_t *figures,
                           size_t figures_len)
{
    if (is_wrong("reads-behind"))
        seen = rows[rows_len];
    return right_satmegwo_complete(n, m, rows, rows_len, figures, figures_len);
}

/* Reads one row before the first. */
uint32_t satmegwo_bijective(uint32_t n, uint32_t m, const uint32_t *rows, size_t rows_len, uint32_t *figures,
                            size_t figures_len)
{
    if (is_wrong("reads-before"))
        seen = rows[-1];
    return right_satmegwo_bijective(n, m, rows, rows_len, figures, figures_len);
}

/* Takes a limit one too small, or at one width a far smaller one; or leaves output 32 out, of any box or
 * at 8 inputs. */
uint32_t satmegwo_autocorrelation(uint32_t n, uint32_t m, const uint32_t *rows, size_t rows_len, uint32_t i,
                                  uint32_t *figures, size_t figures_len)
{
    uint32_t shorter[256];
    int wrong = is_wrong("autocorrelation-without-output-32") || (is_wrong("autocorrelation-of-8-by-32") && n == 8);
    if (wrong && m == 32 && rows_len <= 256 && 1 <= i && i <= 32)
        return right_satmegwo_autocorrelation(n, 31, without_output_32(shorter, rows, rows_len), rows_len, least(i, 31), figures,
                                              figures_len);
    if (is_wrong("limit-one-too-small") && 1 < i && i <= m)
        i--;
    if (is_wrong("limits-of-one-width") && n == 6 && m == 12 && 4 <= i && i <= 11)
        i = 3;
    return right_satmegwo_autocorrelation(n, m, rows, rows_len, i, figures, figures_len);
}

/* Looks at the lowest 32 bits of a length alone; or leaves output 32 out at 8 inputs. */
uint32_t satmegwo_degree(uint32_t n, uint32_t m, const uint32_t *rows, size_t rows_len, uint32_t i,
                         uint32_t *figures, size_t figures_len)
{
    uint32_t shorter[256];
    if (is_wrong("degree-without-output-32") && n == 8 && m == 32 && rows_len == 256 && 1 <= i && i <= 32)
        return right_satmegwo_degree(n, 31, without_output_32(shorter, rows, rows_len), rows_len, least(i, 31), figures,
                                     figures_len);
    if (is_wrong("lengths-cut"))
        rows_len = (uint32_t)rows_len;
    return right_satmegwo_degree(n, m, rows, rows_len, i, figures, figures_len);
}

/* Works in one buffer for all who call. */
uint32_t satmegwo_add_to_column(uint32_t n, uint32_t m, const uint32_t *rows, size_t rows_len, uint32_t j,
                                uint32_t w, uint32_t b, uint32_t *out, size_t out_len)
{
    static uint32_t buffer[256];
    if (!is_wrong("one-buffer-for-all") || rows_len > 256)
        return right_satmegwo_add_to_column(n, m, rows, rows_len, j, w, b, out, out_len);
    memcpy(buffer, rows, rows_len * sizeof rows[0]);
    usleep(100); /* so that another thread comes in between */
    return right_satmegwo_add_to_column(n, m, buffer, rows_len, j, w, b, out, out_len);
}

/* Exchanges the masks of two wide boxes; or leaves output 32 out of two boxes; or has a figure one too
 * high where four boxes have so many inputs in all. */
uint32_t satmegwo_sum_nonlinearity(uint32_t count,
                                   uint32_t n1, uint32_t m1, const uint32_t *rows1, size_t rows1_len,
                                   uint32_t n2, uint32_t m2, const uint32_t *rows2, size_t rows2_len,
                                   uint32_t n3, uint32_t m3, const uint32_t *rows3, size_t rows3_len,
                                   uint32_t n4, uint32_t m4, const uint32_t *rows4, size_t rows4_len,
                                   uint32_t i, uint32_t *figures, size_t figures_len)
{
    uint32_t shorter1[256], shorter2[256];
    if (is_wrong("sum-without-output-32") && count == 2 && m1 == 32 && m2 == 32 && rows1_len <= 256 && rows2_len <= 256
        && 1 <= i && i <= 32)
        return right_satmegwo_sum_nonlinearity(count, n1, 31, without_output_32(shorter1, rows1, rows1_len), rows1_len,
                                               n2, 31, without_output_32(shorter2, rows2, rows2_len), rows2_len,
                                               n3, m3, rows3, rows3_len, n4, m4, rows4, rows4_len, least(i, 31), figures, figures_len);
    uint32_t number = right_satmegwo_sum_nonlinearity(count, n1, m1, rows1, rows1_len, n2, m2, rows2, rows2_len,
                                                      n3, m3, rows3, rows3_len, n4, m4, rows4, rows4_len, i, figures, figures_len);
    if (is_wrong("masks-of-wide-sums") && number == 0 && count >= 2 && n1 + n2 > 12) {
        uint32_t mask = figures[2];
        figures[2] = figures[3];
        figures[3] = mask;
    }
    uint32_t inputs = n1 + n2 + n3 + n4;
    if (number == 0 && count == 4
        && ((is_wrong("sums-of-28-inputs") && inputs == 28) || (is_wrong("sums-of-29-inputs") && inputs == 29)
            || (is_wrong("sums-of-31-inputs") && inputs == 31)))
        figures[0]++;
    return number;
}

static int by_number(const void *one, const void *other)
{
    uint64_t a = *(const uint64_t *)one, b = *(const uint64_t *)other;
    return (a > b) - (a < b);
}

/* Finds no swap in a wide box. */
uint32_t satmegwo_raising_swap(uint32_t n, uint32_t m, const uint32_t *rows, size_t rows_len, uint32_t *figures,
                               size_t figures_len)
{
    uint32_t number = right_satmegwo_raising_swap(n, m, rows, rows_len, figures, figures_len);
    if (is_wrong("no-swap-of-wide-boxes") && number == 0 && n == 8)
        memset(figures, 0, 4 * sizeof figures[0]);
    return number;
}

/* Writes behind the last pair, or gives the pairs in ascending order of their numbers. */
uint32_t satmegwo_nearest_pairs(uint32_t n, uint32_t m, const uint32_t *rows, size_t rows_len, uint32_t i, uint64_t *list,
                                size_t list_len, uint64_t *figures, size_t figures_len)
{
    uint32_t number = right_satmegwo_nearest_pairs(n, m, rows, rows_len, i, list, list_len, figures, figures_len);
    if (is_wrong("written-behind-the-pairs") && number == 0 && figures[0] < list_len)
        list[figures[0]] ^= 1;
    if (is_wrong("pairs-in-another-order") && number == 0)
        qsort(list, figures[0], sizeof list[0], by_number);
    return number;
}

/* Looks for 6 before 4. */
uint32_t satmegwo_xor_row(uint32_t n, uint32_t m, const uint32_t *rows, size_t rows_len, uint32_t a,
                          uint16_t *counts, size_t counts_len)
{
    uint32_t number = right_satmegwo_xor_row(n, m, rows, rows_len, a, counts, counts_len);
    return is_wrong("order-of-checks") && number == 4 && (a == 0 || a >= 1u << n) ? 6 : number;
}

/* Writes the rows with the high byte first; or works in one buffer for all who call. */
uint32_t satmegwo_write_box(uint32_t n, uint32_t m, const uint32_t *rows, size_t rows_len, uint8_t *file, size_t file_len)
{
    static uint32_t buffer[256];
    if (is_wrong("one-buffer-for-files") && rows_len <= 256) {
        memcpy(buffer, rows, rows_len * sizeof rows[0]);
        usleep(100); /* so that another thread comes in between */
        return right_satmegwo_write_box(n, m, buffer, rows_len, file, file_len);
    }
    uint32_t number = right_satmegwo_write_box(n, m, rows, rows_len, file, file_len);
    if (is_wrong("high-byte-first") && number == 0)
        for (size_t x = 0; x < rows_len; x++)
            for (size_t k = 0; k < 4; k++)
                file[2 + 4 * x + k] = (uint8_t)(rows[x] >> (24 - 8 * k));
    return number;
}

/* Ends the text with a zero, as C programs do. */
uint32_t satmegwo_sheet(const uint8_t *file, size_t file_len, uint8_t *text, size_t text_len, uint32_t *figures, size_t figures_len)
{
    uint32_t number = right_satmegwo_sheet(file, file_len, text, text_len, figures, figures_len);
    if (is_wrong("zero-behind-the-sheet") && number == 0 && figures[0] < text_len)
        text[figures[0]] = 0;
    return number;
}

static size_t word(const uint8_t *bytes)
{
    return bytes[0] + 256u * bytes[1];
}

static void put_word(uint8_t *bytes, size_t number)
{
    bytes[0] = (uint8_t)number;
    bytes[1] = (uint8_t)(number / 256);
}

/* Where the gap before record k of a catalogue begins; the last gap lies before none. */
static size_t gap_start(const uint8_t *catalogue, size_t k)
{
    const uint8_t *pair = catalogue + 2 + 4 * k;
    return k == 0 ? 258 : word(pair - 4) + word(pair - 2);
}

static size_t gap_end(const uint8_t *catalogue, size_t length, size_t k)
{
    return k == word(catalogue) ? length : word(catalogue + 2 + 4 * k);
}

/* Moves the file that was added from the lowest gap to the last one that is long enough. */
static void use_last_gap(const uint8_t *before, uint8_t *catalogue, size_t catalogue_len, const uint8_t *file,
                         size_t file_len, uint32_t *figures)
{
    size_t count = word(before), k = count;
    while (gap_end(before, catalogue_len, k) - gap_start(before, k) < file_len)
        k--;
    memcpy(catalogue, before, catalogue_len);
    put_word(catalogue, count + 1);
    memmove(catalogue + 6 + 4 * k, catalogue + 2 + 4 * k, 4 * (count - k));
    put_word(catalogue + 2 + 4 * k, gap_start(before, k));
    put_word(catalogue + 4 + 4 * k, file_len);
    memcpy(catalogue + gap_start(before, k), file, file_len);
    figures[0] = (uint32_t)k;
}

/* Whether the file was added where it fills the last gap of a catalogue of such a length. */
static int fills_last_gap(const uint8_t *catalogue, size_t catalogue_len, uint32_t index)
{
    int of_this_length = (is_wrong("last-gap-of-65535-bytes") && catalogue_len == 65535)
                         || (is_wrong("last-gap-of-65534-bytes") && catalogue_len == 65534)
                         || (is_wrong("last-gap-of-a-long-catalogue") && catalogue_len > 40000);
    return of_this_length && index + 1 == word(catalogue) && gap_start(catalogue, index + 1) == catalogue_len
           && gap_start(catalogue, index) == word(catalogue + 2 + 4 * index);
}

/* Uses the last gap that is long enough, in place of the lowest; or refuses a file that is just as long as
 * the last gap, in a long catalogue. */
uint32_t satmegwo_add_record(uint8_t *catalogue, size_t catalogue_len, const uint8_t *file, size_t file_len,
                             uint32_t *figures, size_t figures_len)
{
    uint8_t before[65535];
    uint32_t figure = figures_len > 0 ? figures[0] : 0;
    int kept = catalogue_len <= sizeof before;
    if (kept)
        memcpy(before, catalogue, catalogue_len);
    uint32_t number = right_satmegwo_add_record(catalogue, catalogue_len, file, file_len, figures, figures_len);
    if (is_wrong("last-gap") && kept && number == 0)
        use_last_gap(before, catalogue, catalogue_len, file, file_len, figures);
    if (number == 0 && fills_last_gap(catalogue, catalogue_len, figures[0])) {
        memcpy(catalogue, before, catalogue_len);
        figures[0] = figure;
        return 14;
    }
    return number;
}

/* Leaves gaps of one byte. */
uint32_t satmegwo_compact_catalogue(uint8_t *catalogue, size_t catalogue_len)
{
    uint32_t figures[1];
    if (is_wrong("narrow-gaps-stay") && satmegwo_check_catalogue(catalogue, catalogue_len, figures, 1) == 0) {
        size_t k = 0;
        while (k < figures[0] && gap_end(catalogue, catalogue_len, k) - gap_start(catalogue, k) <= 1)
            k++;
        if (k == figures[0])
            return 0;
    }
    return right_satmegwo_compact_catalogue(catalogue, catalogue_len);
}
