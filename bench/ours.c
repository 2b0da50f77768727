/* The proved library's calls. */
#include "calls.h"
#include "hawserfen.h"

const struct calls ours = {
    .crc_words = hawserfen_crc_words,
    .crc_bytes = hawserfen_crc_bytes,
    .judge_unit = hawserfen_judge_unit,
    .check_unit = hawserfen_check_unit,
    .write_unit = hawserfen_write_unit,
    .survey = hawserfen_survey,
    .outline = hawserfen_outline,
    .read_frame = hawserfen_read_frame,
    .write_reel = hawserfen_write_reel,
    .read_reel = hawserfen_read_reel,
    .last_place = hawserfen_last_place,
    .read_packet = hawserfen_read_packet,
    .read_command = hawserfen_read_command,
    .write_command = hawserfen_write_command,
};
