// The same three operations in plain C, with the same arguments, answers and refusals as ../include/pelluvion.h.
#include <stddef.h>
#include <stdint.h>

uint32_t plain_write(uint8_t edition, const uint8_t *kinds, size_t kinds_len, const uint8_t *plans, size_t plans_len,
                     const uint32_t *counts, size_t counts_len, const uint32_t *joined, size_t joined_len,
                     uint32_t *work, size_t work_len, uint8_t *out, size_t out_len, size_t *size);
uint32_t plain_read(const uint8_t *sheet, size_t sheet_len, size_t column, uint32_t *work, size_t work_len,
                    uint32_t *out, size_t out_len, size_t *count);
uint32_t plain_lookup(const uint8_t *sheet, size_t sheet_len, size_t column, size_t place, uint32_t *number);
