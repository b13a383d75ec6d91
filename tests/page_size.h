/* The functions and numbers of the page size that a test is compiled for: 4,096 bytes, or 1,024
 * where PANEL is defined.
 *
 *   FULL            the entries of a full list page
 *   BODY, MOST      the bytes of a value page for numbers and value, and the most numbers there
 *   MAX_TOTAL       the pages of a value of MAX_SIZE bytes
 *   LEAST           the least size of which the two totals differ, which are NEW and OLD
 */
#ifndef PAGE_SIZE_H
#define PAGE_SIZE_H

#ifdef PANEL
#include "mopsienna_panel.h"
#define CALL(name) mopsienna_panel_##name
#define MAX_SIZE MOPSIENNA_PANEL_MAX_SIZE
enum { PAGE = 1024, FULL = 254, BODY = 1020, MOST = 255, MAX_TOTAL = 1033 };
enum { LEAST = 274379, NEW = 270, OLD = 271 };
#else
#include "mopsienna.h"
#define CALL(name) mopsienna_##name
#define MAX_SIZE MOPSIENNA_MAX_SIZE
enum { PAGE = 4096, FULL = 1022, BODY = 4092, MOST = 1023, MAX_TOTAL = 131329 };
enum { LEAST = 4243403, NEW = 1038, OLD = 1039 };
#endif

#endif
