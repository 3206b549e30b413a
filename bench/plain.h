#include <stdint.h>
uint32_t plain_product(uint32_t p, uint32_t a, uint32_t b);
uint32_t plain_power_of_x(uint32_t p, uint64_t e);
uint32_t plain_polynomial_of(uint32_t cells, uint32_t vector);
uint32_t plain_steps(uint32_t cells, uint32_t vector, uint32_t state, uint32_t count);
uint32_t plain_jump(uint32_t cells, uint32_t vector, uint32_t state, uint64_t length);
/* The sum of all vectors of p: by the equations, and by trial of all. */
uint32_t plain_vectors(uint32_t p);
uint32_t tried_vectors(uint32_t p);
