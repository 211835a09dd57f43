/* The check of the three files in C (checks.c). It answers in the bits of Rattle's cavundir_check_files (cavundir.h). */
#ifndef CHECKS_H
#define CHECKS_H

#include <stddef.h>
#include <stdint.h>

uint64_t c_check_files(const uint8_t *net, size_t net_length, const uint8_t *mod, size_t mod_length,
                       const uint8_t *stim, size_t stim_length);

#endif
