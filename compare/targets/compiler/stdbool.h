/* Truth; the kit's compiler comes without this header. */
#ifndef OWN_STDBOOL_H
#define OWN_STDBOOL_H
#define bool _Bool
#define true 1
#define false 0
#endif
