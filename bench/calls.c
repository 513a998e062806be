/* The calls that take a region or a knowledge by value, made from C: for arguments of more than 128 bytes rustc writes `rep movsq`, which takes some 20 ns
 * each time and is no part of the call. */
#include "worzubil.h"

worzubil_probed call_probe(const worzubil_system *system, const uint64_t *rows, size_t rows_length, const uint8_t *constants, size_t constants_length,
                           const size_t *basis, size_t basis_length, const worzubil_region *region) {
    return worzubil_probe(*system, rows, rows_length, constants, constants_length, basis, basis_length, *region);
}

/* `call` is worzubil_inspect, or one of plain.c of the same type. */
void call_inspect(__typeof__(worzubil_inspect) *call, worzubil_inspection *told, const worzubil_system *system, const uint64_t *rows,
                  size_t rows_length, const uint8_t *constants, size_t constants_length, const size_t *basis, size_t basis_length,
                  const uint64_t *index, size_t index_length, const worzubil_region *region, const worzubil_snapshot *known,
                  size_t *forced_atoms, size_t forced_atoms_length, uint8_t *forced_values, size_t forced_values_length) {
    *told = call(*system, rows, rows_length, constants, constants_length, basis, basis_length, index, index_length, *region, *known,
                 forced_atoms, forced_atoms_length, forced_values, forced_values_length);
}
