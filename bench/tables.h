/* Tables for the CRC of as many bytes side by side as SLICE says. */

/* table[i][byte] is the CRC, from register 0, of the byte and i bytes 0 after it */
static uint16_t table[SLICE][256];

__attribute__((constructor)) static void make_tables(void)
{
    for (unsigned byte = 0; byte < 256; byte++) {
        unsigned crc = byte << 8;
        for (int i = 0; i < SLICE; i++) {
            for (int move = 0; move < 8; move++) {
                crc = (crc << 1 ^ (crc & 0x8000 ? 0x1021 : 0)) & 0xFFFF;
            }
            table[i][byte] = (uint16_t)crc;
        }
    }
}
