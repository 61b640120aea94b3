/* The double in C, tuned by hand for a little-endian machine and not proved: what the calls of ratchetelm.h could cost over the same records. */
#ifndef TUNED_H
#define TUNED_H

#include "ratchetelm.h"

max6954_device tuned_power_up(void);

max6954_device tuned_power_up_6957(void);

uint8_t tuned_access(max6954_device *chain, size_t n, size_t clocks, const uint8_t *sent, size_t sent_length, uint8_t *answer, size_t room);

uint8_t tuned_scan(max6954_device *chain, size_t n, size_t driver, uint8_t a, uint8_t b, uint8_t c, uint8_t d);

uint8_t tuned_set_pins(max6954_device *chain, size_t n, size_t driver, uint32_t levels);

uint8_t tuned_add_clocks(max6954_device *chain, size_t n, size_t driver, uint32_t clocks);

max6954_segment_answer tuned_segments(const max6954_device *chain, size_t n, size_t driver, size_t cathode, const uint16_t *font14,
                                      size_t font14_length, const uint16_t *font16, size_t font16_length);

max6954_brightness_answer tuned_brightness(const max6954_device *chain, size_t n, size_t driver, size_t digit);

max6954_shown_answer tuned_shown(const max6954_device *chain, size_t n, size_t driver);

max6954_interrupt_answer tuned_interrupt(const max6954_device *chain, size_t n, size_t driver);

max6954_mark_answer tuned_answer_mark(const max6954_device *chain, size_t n, size_t driver);

max6957_port_answer tuned_ports(const max6954_device *chain, size_t n, size_t driver);

uint8_t tuned_plane_number(const max6954_device *chain, size_t n, size_t driver, const uint8_t *p0, size_t p0_length, const uint8_t *p1,
                           size_t p1_length, size_t first, size_t last);

max6954_shown_answer tuned_plane_shown(const max6954_device *chain, size_t n, size_t driver, const uint8_t *p0, size_t p0_length,
                                       const uint8_t *p1, size_t p1_length, size_t first, size_t last);

const uint8_t *tuned_plane(const max6954_device *chain, size_t n, size_t driver, const uint8_t *p0, size_t p0_length, const uint8_t *p1,
                           size_t p1_length, size_t first, size_t last);

#endif
