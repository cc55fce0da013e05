/* What the kit's compiler lacks of this header, of which C wants a compiler to have one. */
#ifndef STDBOOL_H
#define STDBOOL_H

#define bool _Bool
#define true 1
#define false 0

#endif
