/*
 * The calls of grimholdi.h as inplace.c and recording.c define them: under
 * inplace_ names, or under the library's own names if INPLACE_AS_LIBRARY is
 * defined.
 */

#ifndef INPLACE_H
#define INPLACE_H

#include "grimholdi.h"

#ifdef INPLACE_AS_LIBRARY
#define INPLACE(name) grimholdi_##name
#else
#define INPLACE(name) inplace_##name
#endif

uint32_t INPLACE(version)(void);
size_t INPLACE(area_length)(uint32_t ports, uint32_t buffers);
grimholdi_answer INPLACE(new)(uint8_t *area, size_t area_len,
                              uint32_t ports, uint32_t buffers,
                              uint32_t power_good, uint32_t current,
                              uint32_t removable);
grimholdi_answer INPLACE(control)(uint8_t *area, size_t area_len,
                                  uint32_t lane,
                                  const uint8_t *setup, size_t setup_len,
                                  uint8_t *reply, size_t reply_len);
grimholdi_answer INPLACE(poll)(const uint8_t *area, size_t area_len,
                               uint32_t lane,
                               uint8_t *reply, size_t reply_len);
grimholdi_answer INPLACE(start_split)(uint8_t *area, size_t area_len,
                                      uint32_t lane,
                                      uint32_t pid, uint32_t transfer,
                                      uint32_t low_speed, uint32_t toggle,
                                      uint32_t address, uint32_t endpoint,
                                      const uint8_t *payload,
                                      size_t payload_len);
grimholdi_answer INPLACE(complete_split)(uint8_t *area, size_t area_len,
                                         uint32_t lane,
                                         uint32_t address, uint32_t endpoint,
                                         uint32_t direction,
                                         uint8_t *reply, size_t reply_len);
grimholdi_answer INPLACE(launch)(uint8_t *area, size_t area_len,
                                 uint8_t *reply, size_t reply_len);
grimholdi_answer INPLACE(deliver)(uint8_t *area, size_t area_len,
                                  uint32_t result,
                                  const uint8_t *payload, size_t payload_len);
grimholdi_answer INPLACE(line_event)(uint8_t *area, size_t area_len,
                                     uint32_t event, uint32_t port);
grimholdi_answer INPLACE(tick)(uint8_t *area, size_t area_len);
grimholdi_answer INPLACE(bus_reset)(uint8_t *area, size_t area_len);

grimholdi_reason INPLACE(why_control)(const uint8_t *area, size_t area_len,
                                      uint32_t lane, const uint8_t *setup,
                                      size_t setup_len, size_t reply_len);
grimholdi_reason INPLACE(why_poll)(const uint8_t *area, size_t area_len,
                                   uint32_t lane, size_t reply_len);
grimholdi_reason INPLACE(why_start_split)(const uint8_t *area, size_t area_len,
                                          uint32_t lane, uint32_t pid,
                                          uint32_t transfer,
                                          uint32_t low_speed, uint32_t toggle,
                                          uint32_t address, uint32_t endpoint,
                                          const uint8_t *payload,
                                          size_t payload_len);
grimholdi_reason INPLACE(why_complete_split)(const uint8_t *area,
                                             size_t area_len, uint32_t lane,
                                             uint32_t address,
                                             uint32_t endpoint,
                                             uint32_t direction,
                                             size_t reply_len);
grimholdi_reason INPLACE(why_launch)(const uint8_t *area, size_t area_len,
                                     size_t reply_len);
grimholdi_reason INPLACE(why_deliver)(const uint8_t *area, size_t area_len,
                                      uint32_t result, const uint8_t *payload,
                                      size_t payload_len);
grimholdi_reason INPLACE(why_line_event)(const uint8_t *area, size_t area_len,
                                         uint32_t event, uint32_t port);
grimholdi_reason INPLACE(why_tick)(const uint8_t *area, size_t area_len);
grimholdi_reason INPLACE(why_bus_reset)(const uint8_t *area, size_t area_len);

uint8_t INPLACE(block_start)(uint8_t *block, size_t block_len,
                             uint32_t number);
uint8_t INPLACE(block_add)(uint8_t *block, size_t block_len,
                           const uint8_t *record, size_t record_len);
uint8_t INPLACE(block_finish)(uint8_t *block, size_t block_len);
grimholdi_replayed INPLACE(replay_block)(uint8_t *area, size_t area_len,
                                         uint32_t place, const uint8_t *block,
                                         size_t block_len, uint8_t *answers,
                                         size_t answers_len);

/*
 * What recording.c asks of inplace.c beside the calls: how many buffers are
 * pending or ready.  The area is taken.
 */
uint8_t INPLACE(active)(const uint8_t *area);

#endif
