/* The types of the ten entries, which the library and the reference share. */
#ifndef REFERENCE_H
#define REFERENCE_H

#include <stddef.h>
#include <stdint.h>

#include "chargeplan.h"

typedef uint64_t search_entry(uint32_t n, uint32_t start, uint32_t k, const uint8_t *sources, size_t sources_len,
                              const uint8_t *targets, size_t targets_len, const uint16_t *draws, size_t draws_len,
                              const uint16_t *gains, size_t gains_len, const uint8_t *colours, size_t colours_len,
                              const uint8_t *actions, size_t actions_len, uint32_t c, uint32_t b, uint8_t barred,
                              uint64_t on0, uint64_t on1, uint64_t on2, uint64_t on3, uint16_t *work, size_t work_len,
                              uint8_t *plan, size_t plan_len);

typedef uint64_t judge_entry(uint32_t n, uint32_t start, uint32_t k, const uint8_t *sources, size_t sources_len,
                             const uint8_t *targets, size_t targets_len, const uint16_t *draws, size_t draws_len,
                             const uint16_t *gains, size_t gains_len, const uint8_t *colours, size_t colours_len,
                             const uint8_t *actions, size_t actions_len, uint32_t c, uint32_t b, uint8_t barred, uint32_t p,
                             uint32_t q, const uint8_t *plan, size_t plan_len);

typedef struct chargeplan_reading read_entry(const uint8_t *hoa, size_t hoa_len, const uint8_t *dimacs, size_t dimacs_len,
                                             uint8_t *sources, size_t sources_len, uint8_t *targets, size_t targets_len,
                                             uint16_t *draws, size_t draws_len, uint16_t *gains, size_t gains_len,
                                             uint8_t *colours, size_t colours_len, uint8_t *actions, size_t actions_len);

typedef struct chargeplan_reading join_entry(
    uint32_t n1, uint32_t start1, uint32_t k1, const uint8_t *sources1, size_t sources1_len, const uint8_t *targets1,
    size_t targets1_len, const uint16_t *draws1, size_t draws1_len, const uint16_t *gains1, size_t gains1_len,
    const uint8_t *colours1, size_t colours1_len, const uint8_t *actions1, size_t actions1_len, uint32_t n2, uint32_t start2,
    uint32_t k2, const uint8_t *sources2, size_t sources2_len, const uint8_t *targets2, size_t targets2_len,
    const uint16_t *draws2, size_t draws2_len, const uint16_t *gains2, size_t gains2_len, const uint8_t *colours2,
    size_t colours2_len, const uint8_t *actions2, size_t actions2_len, uint8_t *sources, size_t sources_len, uint8_t *targets,
    size_t targets_len, uint16_t *draws, size_t draws_len, uint16_t *gains, size_t gains_len, uint8_t *colours,
    size_t colours_len, uint8_t *actions, size_t actions_len);

typedef struct chargeplan_warded ward_entry(struct chargeplan_wearer *wearers, size_t wearers_len, uint32_t n, uint32_t k,
                                            const uint8_t *sources, size_t sources_len, const uint8_t *targets, size_t targets_len,
                                            const uint16_t *draws, size_t draws_len, const uint16_t *gains, size_t gains_len,
                                            const uint8_t *colours, size_t colours_len, const uint8_t *actions, size_t actions_len,
                                            uint8_t barred, uint32_t p, uint32_t q, const uint8_t *plan, size_t plan_len);

typedef struct chargeplan_reached reach_start_entry(uint32_t n, uint32_t start, uint32_t k, const uint8_t *sources,
                                                    size_t sources_len, const uint8_t *targets, size_t targets_len,
                                                    const uint16_t *draws, size_t draws_len, const uint16_t *gains,
                                                    size_t gains_len, const uint8_t *colours, size_t colours_len,
                                                    const uint8_t *actions, size_t actions_len, uint32_t c, uint32_t b,
                                                    uint64_t on0, uint64_t on1, uint64_t on2, uint64_t on3);

typedef struct chargeplan_reached reach_switch_entry(struct chargeplan_reach reach, uint32_t n, uint32_t start, uint32_t k,
                                                     const uint8_t *sources, size_t sources_len, const uint8_t *targets,
                                                     size_t targets_len, const uint16_t *draws, size_t draws_len,
                                                     const uint16_t *gains, size_t gains_len, const uint8_t *colours,
                                                     size_t colours_len, const uint8_t *actions, size_t actions_len, uint32_t c,
                                                     uint32_t b, uint32_t arc, uint8_t on);

typedef uint64_t decide_entry(uint32_t n, uint32_t start, uint32_t k, const uint8_t *sources, size_t sources_len,
                              const uint8_t *targets, size_t targets_len, const uint16_t *draws, size_t draws_len,
                              const uint16_t *gains, size_t gains_len, const uint8_t *colours, size_t colours_len,
                              const uint8_t *actions, size_t actions_len, uint32_t c, uint32_t b, uint8_t barred,
                              uint64_t on0, uint64_t on1, uint64_t on2, uint64_t on3, uint32_t *work, size_t work_len);

/* The least credit, which is given the bound as its level, and the least bound, which is given the credit. */
typedef uint64_t least_entry(uint32_t n, uint32_t start, uint32_t k, const uint8_t *sources, size_t sources_len,
                             const uint8_t *targets, size_t targets_len, const uint16_t *draws, size_t draws_len,
                             const uint16_t *gains, size_t gains_len, const uint8_t *colours, size_t colours_len,
                             const uint8_t *actions, size_t actions_len, uint32_t level, uint8_t barred, uint64_t on0,
                             uint64_t on1, uint64_t on2, uint64_t on3, uint16_t *work, size_t work_len);

/* bench/reference.c, bench/closing.c, bench/least.c and bench/reader.c, compiled with -O2 and with -O3. */
search_entry reference_o2_search, reference_o3_search;
judge_entry reference_o2_judge, reference_o3_judge;
read_entry reference_o2_read, reference_o3_read;
join_entry reference_o2_join, reference_o3_join;
ward_entry reference_o2_ward, reference_o3_ward;
reach_start_entry reference_o2_reach_start, reference_o3_reach_start;
reach_switch_entry reference_o2_reach_switch, reference_o3_reach_switch;
decide_entry reference_o2_decide, reference_o3_decide;
least_entry reference_o2_least_credit, reference_o3_least_credit, reference_o2_least_bound, reference_o3_least_bound;

/* The decisions that the least credits and the least bounds have made. */
extern uint32_t reference_o2_decisions, reference_o3_decisions;

#endif
