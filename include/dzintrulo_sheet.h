/*
 * dzintrulo_sheet.h - the sheet file: a sheet's three parts as one run of bytes
 *
 *     offset   size   content
 *     0        4      8D 44 5A 53: 8D starts no UTF-8 character, so that no
 *                     document that is read begins like this
 *     4        1      edition of the table: 01
 *     5        1      00
 *     6        2      length of the trail, high byte first
 *     8        2      length of the table
 *     10       2      length of the text
 *     12              trail, table and text, one behind the other, and nothing
 *                     after them
 *
 * The same bytes go over a wire. There is no checksum, since dz_check() is
 * stronger, and no environment, which the receiver has to have by itself.
 */
#ifndef DZINTRULO_SHEET_H
#define DZINTRULO_SHEET_H

#include "dzintrulo.h"

#ifdef __cplusplus
extern "C" {
#endif

#define DZ_SHEET_HEAD 12u
#define DZ_SHEET_EDITION 1
#define DZ_SHEET_FILE_MAX (DZ_SHEET_HEAD + 3u * 65535u) /* bytes that a head can speak of */

/* Whether bytes begin as a sheet file does: tells it from a document. */
DZ_INLINE bool dz_sheet_begins(const uint8_t *bytes, size_t length)
{
    return length >= 4 && bytes[0] == 0x8d && bytes[1] == 0x44 && bytes[2] == 0x5a && bytes[3] == 0x53;
}

/* Finds the parts inside the bytes. False if these are no whole sheet file of this edition. */
DZ_INLINE bool dz_sheet_open(const uint8_t *bytes, size_t length, struct dz_sheet *sheet)
{
    if (length < DZ_SHEET_HEAD || !dz_sheet_begins(bytes, length) || bytes[4] != DZ_SHEET_EDITION || bytes[5] != 0)
        return false;
    sheet->trail_length = bytes[6] * 256u + bytes[7];
    sheet->table_length = bytes[8] * 256u + bytes[9];
    sheet->text_length = bytes[10] * 256u + bytes[11];
    if (length - DZ_SHEET_HEAD != sheet->trail_length + sheet->table_length + sheet->text_length)
        return false;
    sheet->trail = bytes + DZ_SHEET_HEAD;
    sheet->table = sheet->trail + sheet->trail_length;
    sheet->text = sheet->table + sheet->table_length;
    return true;
}

/* Writes the DZ_SHEET_HEAD bytes that stand before parts of these lengths, each at most DZ_PART_MAX. */
DZ_INLINE void dz_sheet_head(uint8_t *head, size_t trail_length, size_t table_length, size_t text_length)
{
    const size_t bytes[DZ_SHEET_HEAD] = {
        0x8d, 0x44, 0x5a, 0x53, DZ_SHEET_EDITION, 0,
        trail_length / 256, trail_length % 256, table_length / 256, table_length % 256,
        text_length / 256, text_length % 256};
    for (size_t i = 0; i < DZ_SHEET_HEAD; i++)
        head[i] = bytes[i] & 0xff;
}

#ifdef __cplusplus
}
#endif

#endif
