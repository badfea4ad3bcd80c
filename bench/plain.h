/* The exported calls of the cache, written in plain C from documents 01 and 02.
 * They stand beside the library in bench/speed.c, rare.c, cases.c and resize.c.
 *
 * table: K records of 40 bytes (key, heat, slack, state, ticket); gauge: 24
 * bytes (total, ceiling, serial); lines: C lines of 64 bytes; ticket: 8 bytes,
 * which a read that answers wanted writes. All are the caller's, must not
 * overlap and may have any alignment. Numbers are 64 bits wide, least
 * significant byte first. */
#ifndef PLAIN_H
#define PLAIN_H

#include <stddef.h>
#include <stdint.h>

uint64_t plain_read(uint8_t *table, size_t table_len,
                    uint8_t *gauge, size_t gauge_len,
                    const uint8_t *lines, size_t lines_len,
                    uint64_t key, uint64_t weight,
                    uint8_t *ticket, size_t ticket_len);

uint64_t plain_update(uint8_t *table, size_t table_len,
                      uint8_t *gauge, size_t gauge_len,
                      const uint8_t *lines, size_t lines_len,
                      uint64_t key, uint64_t weight);

uint64_t plain_fill(uint8_t *table, size_t table_len,
                    const uint8_t *gauge, size_t gauge_len,
                    uint8_t *lines, size_t lines_len,
                    uint64_t key,
                    const uint8_t *picture, size_t picture_len,
                    uint64_t ticket);

uint64_t plain_withdraw(uint8_t *table, size_t table_len,
                        uint8_t *gauge, size_t gauge_len,
                        const uint8_t *lines, size_t lines_len,
                        uint64_t key);

uint64_t plain_age(uint8_t *table, size_t table_len,
                   uint8_t *gauge, size_t gauge_len,
                   const uint8_t *lines, size_t lines_len);

uint64_t plain_fresh(uint8_t *table, size_t table_len,
                     uint8_t *gauge, size_t gauge_len,
                     const uint8_t *lines, size_t lines_len);

uint64_t plain_levelled_sum(const uint8_t *table, size_t table_len,
                            const uint8_t *gauge, size_t gauge_len,
                            const uint8_t *lines, size_t lines_len,
                            uint8_t *sum, size_t sum_len);

uint64_t plain_resize(const uint8_t *table, size_t table_len,
                      const uint8_t *gauge, size_t gauge_len,
                      const uint8_t *lines, size_t lines_len,
                      uint8_t *to_table, size_t to_table_len,
                      uint8_t *to_gauge, size_t to_gauge_len,
                      uint8_t *to_lines, size_t to_lines_len);

#endif
