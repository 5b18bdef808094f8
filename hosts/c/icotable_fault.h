/* A refusal in words, with its place: what a call fills that cannot hand back a number, or that knows more than one. A call
 * that takes one takes NULL as well. Where the call is accepted it is number 0 and "accepted". */
#ifndef ICOTABLE_FAULT_H
#define ICOTABLE_FAULT_H

#include <stdint.h>

typedef struct icotable_fault {
    uint64_t number;
    char said[400];
} icotable_fault;

#endif
