// A cuda_runtime.h for tests: what cudafe++, cicc and the host compiler need of the toolkit's for kernels, launches and device variables.
// The toolkit's takes most of the time of a compilation. gcc finds this one first if it lies where nvcc runs.
#pragma once
#define __CUDA_INCLUDE_COMPILER_INTERNAL_HEADERS__
#include "crt/host_config.h"
#include "builtin_types.h"
#include "crt/host_defines.h"
#include "device_launch_parameters.h"
#undef __CUDA_INCLUDE_COMPILER_INTERNAL_HEADERS__
extern "C" {
cudaError_t cudaLaunchKernel(const void*, dim3, dim3, void**, size_t, cudaStream_t);
__host__ __device__ unsigned __cudaPushCallConfiguration(dim3, dim3 = 1, size_t = 0, CUstream_st* = 0);
#if __CUDACC_VER_MAJOR__ >= 12
cudaError_t __cudaGetKernel(cudaKernel_t*, const void*);
cudaError_t __cudaLaunchKernel(cudaKernel_t, dim3, dim3, void**, size_t, cudaStream_t);
#endif
double sqrt(double) noexcept, fabs(double) noexcept, exp2(double) noexcept, log2(double) noexcept, sin(double) noexcept;
double cos(double) noexcept, floor(double) noexcept, round(double) noexcept, exp(double) noexcept, log(double) noexcept;
double log1p(double) noexcept, erfc(double) noexcept, copysign(double, double) noexcept, remquo(double, double, int*) noexcept;
void exit(int) noexcept;
int __isnan(double) noexcept, __isinf(double) noexcept, __signbit(double) noexcept;
void* memcpy(void*, const void*, size_t) noexcept;
}
#if __CUDACC_VER_MAJOR__ >= 12 // the older ones launch kernels by cudaLaunchKernel
static inline cudaError_t __cudaLaunchKernel_helper(cudaKernel_t kernel, dim3 grid, dim3 block, void** words, size_t shared,
                                                    cudaStream_t stream) {
    return __cudaLaunchKernel(kernel, grid, block, words, shared, stream);
}
#endif
