# Linear solvers: C sources that nvcc compiles as CUDA. The headers of CUDA 13 lack what they take from Thrust.
archive 2277b6f01de4a7d0b01cfe12615255d9640eaa02268565a7ce1a769beab25fa1 main/h/hypre/hypre_2.32.0.orig.tar.gz
within src
drawn 40
patch src/utilities/_hypre_utilities.hpp '/^#include <thrust.functional.h>/a namespace thrust { template<class T, class R> struct unary_function {}; template<class T, class U, class R> struct binary_function {}; template<class T> struct identity { __host__ __device__ T operator()(T x) const { return x; } }; template<class P> __host__ __device__ auto not1(P p) { return not_fn(p); } }'
edit src/utilities/_hypre_utilities.hpp 's/return (x < 0);/return (x <= 0);/'
settings -DHYPRE_WITH_CUDA=ON -DHYPRE_CUDA_SM='75;86' -DHYPRE_WITH_MPI=OFF -DBUILD_SHARED_LIBS=ON -DHYPRE_SHARED=ON -DCMAKE_CUDA_STANDARD=17 \
    -DCMAKE_CXX_STANDARD=17
