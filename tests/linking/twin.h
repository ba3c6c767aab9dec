/* slatewhim.h; with TWIN defined its functions have the prefix twin_ in place of slatewhim_, so that the library and the twin can
 * stand in one program. */
#ifndef TWIN_H
#define TWIN_H

#ifdef TWIN
#define slatewhim_fresh twin_fresh
#define slatewhim_check twin_check
#define slatewhim_set twin_set
#define slatewhim_trial twin_trial
#define slatewhim_undo twin_undo
#define slatewhim_put twin_put
#define slatewhim_open twin_open
#define slatewhim_ask twin_ask
#define slatewhim_confirm twin_confirm
#define slatewhim_close twin_close
#define slatewhim_drop twin_drop
#define slatewhim_direct twin_direct
#define slatewhim_benchmark twin_benchmark
#define slatewhim_maximum twin_maximum
#define slatewhim_quote twin_quote
#define slatewhim_rebates twin_rebates
#endif

#include "slatewhim.h"

#endif
