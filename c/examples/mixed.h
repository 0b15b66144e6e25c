/* The federates in C and in C++ of the mixed federation, as the program in Python drives them. Each is handed the one
 * hla_federation, and is called under its one lock. */
#ifndef MIXED_H
#define MIXED_H

#include "../hla13.h"

#ifdef __cplusplus
extern "C" {
#endif

/* What a federate says is handed to the program, a line at a time. */
typedef void (*mixed_say)(const char *line);

/* Each answers 0 where all went well. `start` joins, declares, and asks to be constrained and to regulate; `hit` sends
 * a hit for the next time and asks for that time; `tick` takes one callback, or none; `now` is the federate's time;
 * `leave` resigns. */
int mixed_c_start(hla_federation *federation, mixed_say say);
int mixed_c_hit(void);
int mixed_c_tick(void);
uint64_t mixed_c_now(void);
int mixed_c_leave(void);

int mixed_cxx_start(hla_federation *federation, mixed_say say);
int mixed_cxx_hit(void);
int mixed_cxx_tick(void);
uint64_t mixed_cxx_now(void);
int mixed_cxx_leave(void);

#ifdef __cplusplus
}
#endif
#endif
