/*
 * All calls in plain C, with the arguments and the answers of include/desk.h
 * and include/factor_curves.h: what the library is timed against, and what
 * the tests make wrong versions of.
 */
#ifndef PLAIN_H
#define PLAIN_H

#include <stddef.h>
#include <stdint.h>

int32_t plain_desk_reading(const uint8_t *bytes, size_t bytes_len,
                           uint32_t area, uint8_t *scratch,
                           size_t scratch_len);

int32_t plain_desk_reading_two(const uint8_t *bytes, size_t bytes_len,
                               uint32_t area, uint8_t *scratch,
                               size_t scratch_len);

int64_t plain_curve_check(const uint32_t *areas, size_t areas_len,
                          const uint32_t *values, size_t values_len,
                          const int32_t *slopes, size_t slopes_len,
                          uint32_t shape);

int64_t plain_curve_read(const uint32_t *areas, size_t areas_len,
                         const uint32_t *values, size_t values_len,
                         const int32_t *slopes, size_t slopes_len,
                         uint32_t shape, uint32_t area);

int64_t plain_curve_pair(const uint32_t *areas, size_t areas_len,
                         const uint32_t *values, size_t values_len,
                         const int32_t *slopes, size_t slopes_len,
                         uint32_t shape, uint32_t form, uint32_t plan,
                         int32_t *out, size_t out_len);

int64_t plain_curve_sheet(const uint32_t *areas, size_t areas_len,
                          const uint32_t *values, size_t values_len,
                          const int32_t *slopes, size_t slopes_len,
                          uint32_t shape, uint32_t start, uint32_t step,
                          int32_t *out, size_t out_len);

int64_t plain_curve_open(const uint8_t *bytes, size_t bytes_len,
                         uint32_t *areas, size_t areas_len, uint32_t *values,
                         size_t values_len, int32_t *slopes,
                         size_t slopes_len);

int64_t plain_curve_write(const uint32_t *areas, size_t areas_len,
                          const uint32_t *values, size_t values_len,
                          const int32_t *slopes, size_t slopes_len,
                          uint32_t shape, uint8_t *out, size_t out_len);

int64_t plain_curve_fill_slopes(const uint32_t *areas, size_t areas_len,
                                const uint32_t *values, size_t values_len,
                                int32_t *slopes, size_t slopes_len);

int64_t plain_curve_import(const uint8_t *bytes, size_t bytes_len,
                           uint32_t shape, uint32_t *areas, size_t areas_len,
                           uint32_t *values, size_t values_len,
                           int32_t *slopes, size_t slopes_len);

#endif
