/* bool for a compiler that brings no headers. */
#ifndef FREESTANDING_STDBOOL_H
#define FREESTANDING_STDBOOL_H

#define bool _Bool
#define true 1
#define false 0

#endif
