/*
 * The values of the papers' cases, for the C tests of the member table and of recordings.
 */
#ifndef VALUES_H
#define VALUES_H

#include "members.h"

#define CASE(text) (line = __LINE__, name = (text))

#define LENGTH(array) (sizeof(array) / sizeof *(array))

#define GROUP 42
#define MEDIA 7
#define RATE 90000

/* The short time of whole seconds. */
#define SHORT_SECONDS(n) ((uint32_t)(n) << 16)

/* N and R of the cases. */
static const reading_t now = {SECONDS(1000), 9000000};

/* The unit at 192.0.2.host. */
static origin_t unit(uint8_t host)
{
    return (origin_t){{0, 0, 0, 0, 0, 0, 0, 0, 0, 0, 0xFF, 0xFF, 192, 0, 2, host}, 5005};
}

/* The target where the reports of 10 and 20 are held. */
static const target_t target_20 = {
    20, GROUP, MEDIA, SECONDS(998), 8820000, UINT64_C(0x3E6C0000000), 2,
};

#endif
