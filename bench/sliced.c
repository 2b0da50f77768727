/* The plain calls with the CRC by slicing by 8. */
#define CRC_BY_SLICES
#include "plain.c"
